//! The marks: what sets them, what keeps them, what they are compared with.

use std::ops::RangeInclusive;

use model::lines::*;

use crate::folder::{Folder, Lines};

const A16: &str = "A0A1A2A3A4A5A6A7A8A9AAABACADAEAF";

pub fn add(folder: &mut Folder) {
    range_edges(folder);
    every_check(folder);
    overwritten(folder);
    two_namespaces(folder);
    namespace_ends(folder);
    what_sets_none(folder);
    refused_writes(folder);
    kept(folder);
    gone_after_release(folder);
    whole_key_uid(folder);
    key_uid_lengths(folder);
    whole_key_uid_kept(folder);
    key_is_not_compared(folder);
    key_uid_of_the_time(folder);
    unmanaged_writes(folder);
    checkerboard(folder);
    first_and_last_covered(folder);
}

/// Namespace 1 with AA in tag 0 and BB in tag 1.
fn two_keys() -> Lines {
    vec![(manage(1, 2), "0000"), (load(1, 0, "AA", 0x11), "0000"), (load(1, 1, "BB", 0x22), "0000")]
}

fn session(
    folder: &mut Folder,
    name: &str,
    lines: impl IntoIterator<Item = (String, &'static str)>,
) {
    folder.add(name, two_keys().into_iter().chain(lines));
}

fn range_edges(folder: &mut Folder) {
    session(
        folder,
        "marks-range-edges",
        [
            (write(1, 0, 10, 9), "0000"),
            (read(1, 0, 10, 9), "0000"),
            (read(1, 0, 0, 255), "0000"),
            (read(1, 1, 0, 9), "0000"),
            (read(1, 1, 0, 10), "0028"),
            (read(1, 1, 9, 0), "0000"),
            (read(1, 1, 10, 0), "0028"),
            (read(1, 1, 15, 0), "0028"),
            (read(1, 1, 19, 0), "0028"),
            (read(1, 1, 20, 0), "0000"),
            (read(1, 1, 19, 1), "0028"),
            (read(1, 1, 20, 235), "0000"),
            (read(1, 1, 0, 255), "0028"),
        ],
    );
}

fn every_check(folder: &mut Folder) {
    let checks = [READ, COMPARE, VERIFY];
    let before = checks.map(|opcode| (io(opcode, 1, 1, 3, 1), "0000"));
    let wrong = checks.map(|opcode| (io(opcode, 1, 1, 3, 1), "0028"));
    let right = checks.map(|opcode| (io(opcode, 1, 0, 3, 1), "0000"));
    let lines = before.into_iter().chain([(write(1, 0, 4, 0), "0000")]).chain(wrong).chain(right);
    session(folder, "marks-read-compare-verify", lines);
}

fn overwritten(folder: &mut Folder) {
    session(
        folder,
        "marks-a-write-is-not-checked-and-overwrites",
        [
            (write(1, 0, 0, 3), "0000"),
            (write(1, 1, 1, 1), "0000"),
            (read(1, 0, 0, 0), "0000"),
            (read(1, 0, 1, 0), "0028"),
            (read(1, 0, 2, 0), "0028"),
            (read(1, 0, 3, 0), "0000"),
            (read(1, 1, 1, 1), "0000"),
            (read(1, 1, 0, 3), "0028"),
            (read(1, 0, 0, 3), "0028"),
            (write(1, 0, 0, 255), "0000"),
            (read(1, 0, 0, 255), "0000"),
            (read(1, 1, 1, 1), "0028"),
        ],
    );
}

fn two_namespaces(folder: &mut Folder) {
    session(
        folder,
        "marks-one-block-in-two-namespaces",
        [
            (manage(2, 2), "0000"),
            (load(2, 0, "BB", 0x22), "0000"),
            (load(2, 1, "AA", 0x11), "0000"),
            (write(1, 0, 5, 0), "0000"),
            (read(2, 0, 5, 0), "0000"),
            (write(2, 0, 5, 0), "0000"),
            (read(1, 0, 5, 0), "0000"),
            (read(1, 1, 5, 0), "0028"),
            (read(2, 0, 5, 0), "0000"),
            (read(2, 1, 5, 0), "0028"),
        ],
    );
}

fn namespace_ends(folder: &mut Folder) {
    let uids = ["A1", "A2", "A3", "A4"];
    let setup = (1..=4).zip(uids).flat_map(|(namespace, uid)| {
        [(manage(namespace, 2), "0000"), (load(namespace, 0, uid, 0x11), "0000")]
    });
    let other = (1..=4).map(|namespace| (load(namespace, 1, "BB", 0x22), "0000"));
    let writes = [(write(1, 0, 255, 0), "0000"), (write(3, 0, 0, 0), "0000")];
    let reads = [
        (read(1, 1, 255, 0), "0028"),
        (read(1, 1, 0, 254), "0000"),
        (read(2, 1, 0, 255), "0000"),
        (read(3, 1, 0, 0), "0028"),
        (read(3, 1, 1, 254), "0000"),
        (read(4, 1, 0, 255), "0000"),
        (write(4, 0, 255, 0), "0000"),
        (read(4, 1, 255, 0), "0028"),
        (read(4, 1, 0, 254), "0000"),
        (read(4, 0, 0, 255), "0000"),
    ];
    folder.add("marks-at-namespace-ends", setup.chain(other).chain(writes).chain(reads));
}

fn what_sets_none(folder: &mut Folder) {
    session(
        folder,
        "marks-only-writes-set-them",
        [
            (read(1, 0, 0, 255), "0000"),
            (io(COMPARE, 1, 0, 0, 255), "0000"),
            (io(VERIFY, 1, 0, 0, 255), "0000"),
            (read(1, 1, 0, 255), "0000"),
            (write(1, 1, 0, 255), "0000"),
            (read(1, 0, 0, 255), "0028"),
            (read(1, 1, 0, 255), "0000"),
        ],
    );
}

fn refused_writes(folder: &mut Folder) {
    session(
        folder,
        "marks-a-refused-write-sets-none",
        [
            (write(1, 0, 0, 256), "0080"),
            (write(1, 0, 255, 1), "0080"),
            (write(1, 0, u64::MAX, 0), "0080"),
            (with(&write(1, 0, 0, 255), 50, 0), "0002"),
            (with(&write(1, 0, 0, 255), 50, 0x0F), "0002"),
            (write(1, 2, 0, 255), "0025"),
            (write(257, 0, 0, 255), "000B"),
            (io(0x00, 1, 0, 0, 255), "0001"),
            (io(0x81, 1, 0, 0, 255), "0001"),
            (write(1, 0, 0, 255)[..128].to_string(), "0703"),
            (read(1, 1, 0, 255), "0000"),
            (read(1, 0, 0, 255), "0000"),
        ],
    );
}

fn kept(folder: &mut Folder) {
    let steps = [
        ("clear-one", clear_one(1, 0)),
        ("clear-all", clear_all(1)),
        ("power-cycle", power_cycle()),
    ];
    for (name, step) in steps {
        folder.add(
            format!("marks-kept-over-{name}"),
            [
                (manage(1, 2), "0000"),
                (load(1, 0, "AA", 0x11), "0000"),
                (write(1, 0, 0, 0), "0000"),
                (write(1, 0, 255, 0), "0000"),
                (step, "0000"),
                (read(1, 0, 0, 0), "0025"),
                (load(1, 0, "BB", 0x22), "0000"),
                (read(1, 0, 0, 0), "0028"),
                (read(1, 0, 255, 0), "0028"),
                (read(1, 0, 1, 253), "0000"),
                (load(1, 1, "AA", 0x11), "0000"),
                (read(1, 1, 0, 255), "0000"),
            ],
        );
    }
    let calm = [controller_reset(), set_features(0x1B), get_features(), manage(2, 128), release(2)];
    let answers = ["0000", "0000", "00001B000000", "0000", "0000"];
    let ends = [(read(1, 1, 0, 0), "0028"), (read(1, 0, 0, 0), "0000")];
    let lines = [(write(1, 0, 0, 0), "0000")].into_iter().chain(calm.into_iter().zip(answers));
    session(folder, "marks-kept-over-frames-that-do-not-concern-them", lines.chain(ends));
}

fn gone_after_release(folder: &mut Folder) {
    session(
        folder,
        "marks-gone-after-release",
        [
            (write(1, 0, 0, 255), "0000"),
            (read(1, 1, 0, 255), "0028"),
            (power_cycle(), "0000"),
            (release(1), "0000"),
            (manage(1, 1), "0000"),
            (load(1, 0, "BB", 0x99), "0000"),
            (read(1, 0, 0, 255), "0000"),
            (write(1, 0, 0, 0), "0000"),
            (replace(1, 0, "BB", "AA", 0x11), "0000"),
            (read(1, 0, 0, 0), "0028"),
            (read(1, 0, 1, 254), "0000"),
        ],
    );
}

/// Writes block 0 with the first KeyUID, then reads it with the second.
fn key_uids(folder: &mut Folder, name: &str, pairs: &[(&str, &str, &'static str)]) {
    let lines = pairs.iter().flat_map(|&(written, reading, answer)| {
        [
            (manage(1, 2), "0000"),
            (load(1, 0, written, 0x11), "0000"),
            (load(1, 1, reading, 0x11), "0000"),
            (write(1, 0, 0, 0), "0000"),
            (read(1, 1, 0, 0), answer),
            (release(1), "0000"),
        ]
    });
    folder.add(name, lines);
}

/// A16 with another byte in one place, counted from 1.
fn changed(byte: usize) -> String {
    format!("{}FF{}", &A16[..2 * byte - 2], &A16[2 * byte..])
}

fn whole_key_uid(folder: &mut Folder) {
    let (eight, nine, fifteen) = (&A16[..16], &A16[..18], &A16[..30]);
    key_uids(
        folder,
        "marks-keep-the-whole-key-uid",
        &[
            (A16, A16, "0000"),
            (A16, &changed(9), "0028"),
            (A16, &changed(16), "0028"),
            (A16, fifteen, "0028"),
            (fifteen, A16, "0028"),
            (A16, eight, "0028"),
            (nine, &format!("{eight}FF"), "0028"),
            (nine, nine, "0000"),
        ],
    );
    key_uids(
        folder,
        "marks-key-uids-of-other-bytes",
        &[
            (&format!("{eight}00"), nine, "0028"),
            (nine, &format!("{}FFA8", &A16[..14]), "0028"),
            (nine, &format!("FF{}", &nine[2..]), "0028"),
            (eight, &format!("{}FF", &A16[..14]), "0028"),
            (&A16[..14], &format!("{}FF", &A16[..12]), "0028"),
            ("A0A1", "A1A0", "0028"),
            ("00", "01", "0028"),
        ],
    );
    for bytes in [1..=8, 9..=16] {
        every_byte(folder, bytes);
    }
}

fn every_byte(folder: &mut Folder, bytes: RangeInclusive<usize>) {
    let name = format!("marks-key-uid-other-in-each-byte-from-{}", bytes.start());
    let setup = [
        (manage(1, 17), "0000"),
        (load(1, 0, A16, 0x11), "0000"),
        (write(1, 0, 0, 0), "0000"),
        (read(1, 0, 0, 0), "0000"),
    ];
    let others = bytes.flat_map(|byte| {
        let tag = byte as u16;
        [(load(1, tag, &changed(byte), 0x22), "0000"), (read(1, tag, 0, 0), "0028")]
    });
    folder.add(name, setup.into_iter().chain(others));
}

fn key_uid_lengths(folder: &mut Folder) {
    let (eight, nine) = (&A16[..16], &A16[..18]);
    key_uids(
        folder,
        "marks-key-uids-of-other-lengths",
        &[
            ("AA", "AA", "0000"),
            ("AA", "AA00", "0028"),
            ("AA00", "AA", "0028"),
            (eight, eight, "0000"),
            (eight, nine, "0028"),
            (nine, eight, "0028"),
            (nine, &A16[..20], "0028"),
            (&"00".repeat(15), &"00".repeat(16), "0028"),
        ],
    );
    key_uids(
        folder,
        "marks-key-uids-padded-and-filled-with-zeros",
        &[
            (eight, &format!("{eight}00"), "0028"),
            (&format!("{eight}00"), eight, "0028"),
            (A16, &format!("{eight}{}", "00".repeat(8)), "0028"),
            (&format!("{eight}{}", "00".repeat(8)), eight, "0028"),
            (&A16[..30], &format!("{}00", &A16[..30]), "0028"),
            (&"00".repeat(16), &"00".repeat(16), "0000"),
            (&"00".repeat(16), &format!("{}01", "00".repeat(15)), "0028"),
        ],
    );
}

/// Whatever empties the slot, the next key is held against the whole KeyUID of the write.
fn whole_key_uid_kept(folder: &mut Folder) {
    folder.add(
        "marks-whole-key-uid-kept-over-clear-and-power-cycle",
        [
            (manage(1, 1), "0000"),
            (load(1, 0, A16, 0x11), "0000"),
            (write(1, 0, 0, 0), "0000"),
            (clear_one(1, 0), "0000"),
            (load(1, 0, &changed(9), 0x22), "0000"),
            (read(1, 0, 0, 0), "0028"),
            (clear_all(1), "0000"),
            (load(1, 0, &changed(16), 0x33), "0000"),
            (read(1, 0, 0, 0), "0028"),
            (power_cycle(), "0000"),
            (load(1, 0, &changed(16), 0x33), "0000"),
            (read(1, 0, 0, 0), "0028"),
            (clear_one(1, 0), "0000"),
            (load(1, 0, &A16[..30], 0x44), "0000"),
            (read(1, 0, 0, 0), "0028"),
            (clear_one(1, 0), "0000"),
            (load(1, 0, A16, 0x11), "0000"),
            (read(1, 0, 0, 0), "0000"),
            (power_cycle(), "0000"),
            (load(1, 0, A16, 0x11), "0000"),
            (read(1, 0, 0, 0), "0000"),
        ],
    );
    let (nine, other) = ("A0A1A2A3A4A5A6A7A8", "A0A1A2A3A4A5A6A7B8");
    folder.add(
        "marks-ninth-byte-replaced-and-back",
        [
            (manage(1, 1), "0000"),
            (load(1, 0, nine, 0x11), "0000"),
            (write(1, 0, 0, 0), "0000"),
            (power_cycle(), "0000"),
            (load(1, 0, other, 0x22), "0000"),
            (read(1, 0, 0, 0), "0028"),
            (write(1, 0, 1, 0), "0000"),
            (replace(1, 0, nine, "CC", 0x33), "070B"),
            (replace(1, 0, other, nine, 0x11), "0000"),
            (read(1, 0, 0, 0), "0000"),
            (read(1, 0, 1, 0), "0028"),
            (write(1, 0, 1, 0), "0000"),
            (read(1, 0, 0, 1), "0000"),
        ],
    );
}

fn key_is_not_compared(folder: &mut Folder) {
    folder.add(
        "marks-same-key-uid-with-another-key-reads",
        [
            (manage(1, 1), "0000"),
            (load(1, 0, "AA", 0x11), "0000"),
            (write(1, 0, 0, 0), "0000"),
            (power_cycle(), "0000"),
            (load(1, 0, "AA", 0x12), "0000"),
            (read(1, 0, 0, 0), "0000"),
            (clear_one(1, 0), "0000"),
            (load(1, 0, "AB", 0x11), "0000"),
            (read(1, 0, 0, 0), "0028"),
        ],
    );
    folder.add(
        "marks-same-key-uid-in-another-slot-reads",
        [
            (manage(1, 128), "0000"),
            (load(1, 0, "AA", 0x11), "0000"),
            (load(1, 127, "AA", 0x11), "0000"),
            (write(1, 0, 0, 0), "0000"),
            (read(1, 127, 0, 0), "0000"),
            (clear_one(1, 0), "0000"),
            (read(1, 127, 0, 0), "0000"),
        ],
    );
}

fn key_uid_of_the_time(folder: &mut Folder) {
    folder.add(
        "marks-hold-the-key-of-the-write",
        [
            (manage(1, 1), "0000"),
            (load(1, 0, "AA", 0x11), "0000"),
            (write(1, 0, 0, 0), "0000"),
            (replace(1, 0, "AA", "BB", 0x22), "0000"),
            (write(1, 0, 1, 0), "0000"),
            (clear_one(1, 0), "0000"),
            (load(1, 0, "CC", 0x33), "0000"),
            (write(1, 0, 2, 0), "0000"),
            (read(1, 0, 0, 0), "0028"),
            (read(1, 0, 1, 0), "0028"),
            (read(1, 0, 2, 253), "0000"),
            (replace(1, 0, "CC", "AA", 0x44), "0000"),
            (read(1, 0, 0, 0), "0000"),
            (read(1, 0, 1, 0), "0028"),
            (read(1, 0, 2, 0), "0028"),
        ],
    );
}

fn unmanaged_writes(folder: &mut Folder) {
    folder.add(
        "marks-an-unmanaged-write-sets-none",
        [
            (write(1, 0, 0, 255), "0000"),
            (manage(1, 1), "0000"),
            (load(1, 0, "AA", 0x11), "0000"),
            (read(1, 0, 0, 255), "0000"),
            (write(1, 0, 7, 0), "0000"),
            (write(2, 0, 0, 255), "0000"),
            (replace(1, 0, "AA", "BB", 0x22), "0000"),
            (read(1, 0, 7, 0), "0028"),
            (read(1, 0, 0, 6), "0000"),
            (release(1), "0000"),
            (read(1, 0, 7, 0), "0000"),
            (write(1, 0, 7, 0), "0000"),
            (manage(1, 1), "0000"),
            (load(1, 0, "CC", 0x33), "0000"),
            (read(1, 0, 0, 255), "0000"),
        ],
    );
}

fn checkerboard(folder: &mut Folder) {
    let writes = (0..8).map(|block| (write(1, (block % 2) as u16, block, 0), "0000"));
    let answer = |tag: u16, block: u64| if block % 2 == u64::from(tag) { "0000" } else { "0028" };
    let reads =
        (0..8).flat_map(|block| [0, 1].map(|tag| (read(1, tag, block, 0), answer(tag, block))));
    session(folder, "marks-checkerboard", writes.chain(reads));
}

fn first_and_last_covered(folder: &mut Folder) {
    let probes = [0, 1, 127, 128, 254, 255];
    let lines = probes.into_iter().flat_map(|block| {
        [
            (write(1, 0, block, 0), "0000"),
            (read(1, 1, 0, 255), "0028"),
            (write(1, 1, block, 0), "0000"),
            (read(1, 1, 0, 255), "0000"),
        ]
    });
    session(folder, "marks-one-block-of-256-decides", lines);
}
