//! Boot locks and resets. The answers to Set Features come from a table of what one lock makes of
//! one field, for all 64 low values from each pair of states.

use model::lines::*;

use crate::folder::Folder;

pub fn add(folder: &mut Folder) {
    for (first, second) in pairs() {
        low_values(folder, first, second);
        high_bits(folder, first, second);
    }
    resets(folder);
    reset_bytes(folder);
    boot_writes(folder);
    boot_write_partitions(folder);
    features_from_fresh(folder);
    until_power_cycle(folder);
    byte_order(folder);
}

const NAMES: [&str; 4] = ["", "unlocked", "locked", "until"];

fn pairs() -> impl Iterator<Item = (u32, u32)> {
    (1..=3).flat_map(|first| (1..=3).map(move |second| (first, second)))
}

fn dword(first: u32, second: u32) -> u32 {
    first | second << 3
}

fn shown(first: u32, second: u32) -> String {
    format!("0000{:02X}000000", dword(first, second))
}

/// What a lock in a state makes of a field: its next state, or the refusal.
fn judged(state: u32, field: u32) -> Result<u32, &'static str> {
    match (state, field) {
        (_, 4..) => Err("0002"),
        (_, 0) => Ok(state),
        (3, 1 | 2) => Err("010E"),
        (_, _) => Ok(field),
    }
}

/// The answer to Set Features, and the states after it.
fn set(states: (u32, u32), fields: (u32, u32)) -> (&'static str, (u32, u32)) {
    match (judged(states.0, fields.0), judged(states.1, fields.1)) {
        (Ok(first), Ok(second)) => ("0000", (first, second)),
        (Err("0002"), _) | (_, Err("0002")) => ("0002", states),
        _ => ("010E", states),
    }
}

fn low_values(folder: &mut Folder, first: u32, second: u32) {
    let lines = (0..64).flat_map(|value| {
        let (answer, after) = set((first, second), (value & 7, value >> 3));
        [
            (power_cycle(), "0000".to_string()),
            (set_features(dword(first, second)), "0000".to_string()),
            (set_features(value), answer.to_string()),
            (get_features(), shown(after.0, after.1)),
        ]
    });
    let (first, second) = (NAMES[first as usize], NAMES[second as usize]);
    folder.add(format!("boot-all-low-values-from-{first}-{second}"), lines);
}

fn high_bits(folder: &mut Folder, first: u32, second: u32) {
    let setup = [(set_features(dword(first, second)), "0000".to_string())];
    let bits = (6..32).flat_map(|bit| {
        [0, 0x1B, dword(first, second)].into_iter().flat_map(move |low| {
            let refused = (set_features(1 << bit | low), "0002".to_string());
            [refused, (get_features(), shown(first, second))]
        })
    });
    let (first, second) = (NAMES[first as usize], NAMES[second as usize]);
    folder.add(format!("boot-high-bits-from-{first}-{second}"), setup.into_iter().chain(bits));
}

fn resets(folder: &mut Folder) {
    let lines = |reset: fn() -> String, keeps: bool| {
        pairs().flat_map(move |(first, second)| {
            [
                (power_cycle(), "0000".to_string()),
                (set_features(dword(first, second)), "0000".to_string()),
                (reset(), "0000".to_string()),
                (get_features(), if keeps { shown(first, second) } else { shown(2, 2) }),
            ]
        })
    };
    folder.add("reset-power-cycle-from-every-pair", lines(power_cycle, false));
    folder.add("reset-controller-level-from-every-pair", lines(controller_reset, true));
}

fn reset_bytes(folder: &mut Folder) {
    let setup = [(set_features(0x19), "0000".to_string())];
    let bad = (2..=255).map(|level| (hex(&[0x0B, level]), "0002".to_string()));
    let after = [(get_features(), "000019000000".to_string())];
    folder.add("reset-every-other-byte", setup.into_iter().chain(bad).chain(after));
    folder.add(
        "reset-bad-byte-keeps-keys",
        [
            (manage(1, 1), "0000"),
            (load(1, 0, "AA", 0x11), "0000"),
            ("0B02".to_string(), "0002"),
            ("0BFF".to_string(), "0002"),
            ("0B10".to_string(), "0002"),
            ("0B81".to_string(), "0002"),
            (read(1, 0, 0, 0), "0000"),
            (power_cycle(), "0000"),
            (read(1, 0, 0, 0), "0025"),
        ],
    );
}

fn boot_writes(folder: &mut Folder) {
    let answer = |state| if state == 1 { "0000" } else { "011E" };
    let lines = pairs().flat_map(|(first, second)| {
        [
            (power_cycle(), "0000"),
            (set_features(dword(first, second)), "0000"),
            (boot_write(0), answer(first)),
            (boot_write(1), answer(second)),
            (boot_write(2), "0002"),
        ]
    });
    folder.add("boot-write-from-every-pair", lines);
}

fn boot_write_partitions(folder: &mut Folder) {
    for (name, low) in [("unlocked", 0x09), ("locked", 0x12), ("until", 0x1B)] {
        let setup = [(set_features(low), "0000")];
        let bad = (2..=255).map(|partition| (boot_write(partition), "0002"));
        let name = format!("boot-write-every-other-partition-{name}");
        folder.add(name, setup.into_iter().chain(bad));
    }
}

fn features_from_fresh(folder: &mut Folder) {
    folder.add(
        "boot-one-partition-at-a-time",
        [
            (get_features(), "000012000000"),
            (set_features(0x00), "0000"),
            (get_features(), "000012000000"),
            (set_features(0x01), "0000"),
            (get_features(), "000011000000"),
            (boot_write(0), "0000"),
            (boot_write(1), "011E"),
            (set_features(0x08), "0000"),
            (get_features(), "000009000000"),
            (set_features(0x02), "0000"),
            (get_features(), "00000A000000"),
            (boot_write(0), "011E"),
            (boot_write(1), "0000"),
            (set_features(0x18), "0000"),
            (get_features(), "00001A000000"),
            (boot_write(1), "011E"),
            (set_features(0x03), "0000"),
            (get_features(), "00001B000000"),
        ],
    );
}

fn until_power_cycle(folder: &mut Folder) {
    folder.add(
        "boot-until-power-cycle",
        [
            (set_features(0x1B), "0000"),
            (set_features(0x1B), "0000"),
            (set_features(0x00), "0000"),
            (set_features(0x03), "0000"),
            (set_features(0x18), "0000"),
            (set_features(0x01), "010E"),
            (set_features(0x02), "010E"),
            (set_features(0x08), "010E"),
            (set_features(0x10), "010E"),
            (set_features(0x19), "010E"),
            (set_features(0x13), "010E"),
            (controller_reset(), "0000"),
            (set_features(0x09), "010E"),
            (get_features(), "00001B000000"),
            (power_cycle(), "0000"),
            (get_features(), "000012000000"),
            (set_features(0x09), "0000"),
            (boot_write(0), "0000"),
            (boot_write(1), "0000"),
        ],
    );
}

fn byte_order(folder: &mut Folder) {
    let lines = [
        ("0809000000", "0000"),
        ("09", "000009000000"),
        ("0800000012", "0002"),
        ("0800120000", "0002"),
        ("0812000000", "0000"),
        ("09", "000012000000"),
        ("0840000000", "0002"),
        ("0800010000", "0002"),
        ("0800000080", "0002"),
        ("08FFFFFFFF", "0002"),
        ("09", "000012000000"),
    ];
    folder.add("boot-byte-order", lines.map(|(line, answer)| (line.to_string(), answer)));
}
