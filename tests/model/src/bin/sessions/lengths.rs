//! 07 03 of every kind, at every length up to 70 bytes and some up to 512, and every truncation of loads and replace.

use model::lines::*;

use crate::discovery;
use crate::folder::{Folder, Lines};

const A16: &str = "A0A1A2A3A4A5A6A7A8A9AAABACADAEAF";
const B16: &str = "B0B1B2B3B4B5B6B7B8B9BABBBCBDBEBF";

pub fn add(folder: &mut Folder) {
    management(folder);
    slots(folder);
    commands(folder);
    boot(folder);
    level_0(folder);
    load_truncated(folder);
    load_bad_length_byte(folder);
    replace_truncated(folder);
    replace_bad_old_length_byte(folder);
    replace_bad_new_length_byte(folder);
}

/// The lengths past that of the longest frame without a message, few enough for one input.
const LONG: [usize; 7] = [71, 72, 128, 255, 256, 257, 512];

/// The frame cut to each number of bytes, filled up with zero bytes where it is shorter; every
/// length but its own is refused, and then the proof shows that none of them took effect.
fn at_every_length(folder: &mut Folder, name: &str, setup: Lines, frame: &str, proof: Lines) {
    let filled = format!("{frame}{}", "00".repeat(512));
    let parts = [
        ("to-50", (1..=50).collect()),
        ("from-51", (51..=70).collect()),
        ("from-71", LONG.to_vec()),
    ];
    for (part, lengths) in parts {
        let others = lengths.into_iter().map(|bytes| 2 * bytes);
        let others = others.filter(|&digits| digits != frame.len());
        let refused: Lines = others.map(|digits| (filled[..digits].to_string(), "0703")).collect();
        let lines = [setup.clone(), refused, proof.clone()].concat();
        folder.add(format!("length-{name}-{part}-bytes"), lines);
    }
}

fn loaded() -> Lines {
    vec![(manage(1, 2), "0000"), (load(1, 0, "AA", 0x11), "0000")]
}

fn management(folder: &mut Folder) {
    let frame = manage(1, 1);
    let proof = vec![(release(1), "0706"), (frame.clone(), "0000")];
    at_every_length(folder, "manage", vec![], &frame, proof);
    let frame = release(1);
    let proof = vec![(manage(1, 2), "0705"), (frame.clone(), "0000"), (manage(1, 2), "0000")];
    at_every_length(folder, "release", loaded(), &frame, proof);
}

fn slots(folder: &mut Folder) {
    let proof = |frame: &str| {
        let read = read(1, 0, 0, 0);
        vec![(read.clone(), "0000"), (frame.to_string(), "0000"), (read, "0025")]
    };
    let frame = clear_one(1, 0);
    at_every_length(folder, "clear-one", loaded(), &frame, proof(&frame));
    let frame = clear_all(1);
    at_every_length(folder, "clear-all", loaded(), &frame, proof(&frame));
    let frame = load(1, 1, "BB", 0x22);
    let proof = vec![(clear_one(1, 1), "070A"), (frame.clone(), "0000")];
    at_every_length(folder, "load", loaded(), &frame, proof);
    let frame = wrapped_load(1, 1, "BB", 0x22);
    let proof = vec![(clear_one(1, 1), "070A"), (frame.clone(), "0000")];
    at_every_length(folder, "wrapped", loaded(), &frame, proof);
    let frame = replace(1, 0, "AA", "BB", 0x22);
    let proof = vec![(frame.clone(), "0000"), (frame.clone(), "070B")];
    at_every_length(folder, "replace", loaded(), &frame, proof);
}

fn commands(folder: &mut Folder) {
    let frame = write(1, 0, 0, 255);
    let setup = [loaded(), vec![(load(1, 1, "BB", 0x22), "0000")]].concat();
    let proof =
        vec![(read(1, 1, 0, 255), "0000"), (frame.clone(), "0000"), (read(1, 1, 0, 255), "0028")];
    at_every_length(folder, "io", setup, &frame, proof);
}

fn boot(folder: &mut Folder) {
    let frame = set_features(0x09);
    let proof = vec![
        (get_features(), "000012000000"),
        (frame.clone(), "0000"),
        (get_features(), "000009000000"),
    ];
    at_every_length(folder, "set-features", vec![], &frame, proof);
    let proof = vec![(get_features(), "000012000000")];
    at_every_length(folder, "get-features", vec![], &get_features(), proof);
    let setup = vec![(set_features(0x09), "0000")];
    let proof = vec![(boot_write(1), "0000")];
    at_every_length(folder, "boot-write", setup.clone(), &boot_write(1), proof);
    let proof = vec![
        (get_features(), "000009000000"),
        (power_cycle(), "0000"),
        (get_features(), "000012000000"),
    ];
    at_every_length(folder, "reset", setup, &power_cycle(), proof);
}

fn level_0(folder: &mut Folder) {
    let proof = vec![(discovery(), discovery::answer())];
    at_every_length(folder, "discovery", vec![], &discovery(), proof);
}

/// Every cut of a line at a digit: an odd one is no frame line, an even one too short a frame.
fn cut_at_digits(line: &str, cuts: std::ops::Range<usize>) -> Lines {
    let answer = |digits| if digits % 2 == 1 { "0701040000" } else { "0703" };
    cuts.map(|digits| (line[..digits].to_string(), answer(digits))).collect()
}

fn load_truncated(folder: &mut Folder) {
    let managed = vec![(manage(1, 1), "0000")];
    for (name, frame, parts) in [
        ("load-cut-at-every-digit-key-uid-1", load(1, 0, "AA", 0x11), &[1, 76][..]),
        ("load-cut-at-every-digit-key-uid-16", load(1, 0, A16, 0x11), &[1, 80, 106]),
        ("wrapped-cut-at-every-digit-key-uid-1", wrapped_load(1, 0, "AA", 0x11), &[1, 80, 92]),
        (
            "wrapped-cut-at-every-digit-key-uid-16",
            wrapped_load(1, 0, A16, 0x11),
            &[1, 80, 110, 122],
        ),
    ] {
        let proof = vec![(clear_one(1, 0), "070A"), (frame.clone(), "0000")];
        for cuts in parts.windows(2) {
            let cuts = cuts[0]..cuts[1];
            let name = format!("{name}-from-{}", cuts.start);
            let lines = [managed.clone(), cut_at_digits(&frame, cuts), proof.clone()].concat();
            folder.add(name, lines);
        }
    }
}

/// A line of a bad KeyUID length byte and zeros, cut after each of some numbers of bytes; `first` is
/// the first that holds the bad byte.
fn cut_at_bytes(line: &str, cuts: &[usize], first: usize) -> Lines {
    let filled = format!("{line}{}", "00".repeat(512));
    let answer = |bytes| if bytes < first { "0703" } else { "0704" };
    cuts.iter().map(|&bytes| (filled[..2 * bytes].to_string(), answer(bytes))).collect()
}

/// All numbers of bytes up to 70, and some of those up to 512, in parts that fit an input.
fn cuts() -> [Vec<usize>; 3] {
    [(1..=54).collect(), (55..=70).collect(), LONG.to_vec()]
}

fn load_bad_length_byte(folder: &mut Folder) {
    let managed = vec![(manage(1, 1), "0000")];
    let proof = vec![(clear_one(1, 0), "070A")];
    for (load, head) in [("load", "03010000"), ("wrapped", "0E010000")] {
        for length in [0x00, 0x11, 0xFF] {
            let frame = format!("{head}{length:02X}{}", "A5".repeat(65));
            for cuts in cuts() {
                let name = format!("{load}-key-uid-length-{length}-cut-from-{}", cuts[0]);
                let cut = cut_at_bytes(&frame, &cuts, 5);
                folder.add(name, [managed.clone(), cut, proof.clone()].concat());
            }
        }
        let all = (0..=255).filter(|length| !(1..=16).contains(length));
        let bad: Lines = all.map(|length| (format!("{head}{length:02X}"), "0704")).collect();
        let name = format!("{load}-every-bad-key-uid-length");
        folder.add(name, [managed.clone(), bad, proof.clone()].concat());
    }
}

fn replace_truncated(folder: &mut Folder) {
    let sizes = [
        ("1-and-1", "AA", "BB", &[1, 80][..]),
        ("16-and-1", A16, "BB", &[1, 80, 110]),
        ("1-and-16", "AA", B16, &[1, 80, 110]),
        ("16-and-16", A16, B16, &[1, 80, 110, 140]),
    ];
    for (name, old, new, parts) in sizes {
        let frame = replace(1, 0, old, new, 0x22);
        let setup = vec![(manage(1, 1), "0000"), (load(1, 0, old, 0x11), "0000")];
        let proof = vec![(frame.clone(), "0000")];
        for cuts in parts.windows(2) {
            let cuts = cuts[0]..cuts[1];
            let name = format!("replace-cut-at-every-digit-key-uids-{name}-from-{}", cuts.start);
            let lines = [setup.clone(), cut_at_digits(&frame, cuts), proof.clone()].concat();
            folder.add(name, lines);
        }
    }
}

fn replace_bad_old_length_byte(folder: &mut Folder) {
    for length in [0x00, 0x11, 0xFF] {
        let frame = format!("04010000{length:02X}{}", "01".repeat(65));
        for cuts in cuts() {
            let name = format!("replace-old-length-{length}-cut-from-{}", cuts[0]);
            let proof = vec![(replace(1, 0, "AA", "BB", 0x22), "0000")];
            folder.add(name, [loaded(), cut_at_bytes(&frame, &cuts, 5), proof].concat());
        }
    }
    let bad = |length: &u8| !(1..=16).contains(length);
    let all = (0..=255).filter(bad).map(|length| (format!("04010000{length:02X}"), "0704"));
    folder.add("replace-every-bad-old-length", loaded().into_iter().chain(all));
}

fn replace_bad_new_length_byte(folder: &mut Folder) {
    for (old, first) in [("AA", 7), (A16, 22)] {
        let setup = vec![(manage(1, 1), "0000"), (load(1, 0, old, 0x11), "0000")];
        let lead = replace(1, 0, old, "BB", 0x22)[..2 * (first - 1)].to_string();
        for length in [0x00, 0x11, 0xFF] {
            let frame = format!("{lead}{length:02X}{}", "B5".repeat(70 - first));
            for cuts in cuts() {
                let bytes = first - 6;
                let from = cuts[0];
                let name = format!("replace-old-of-{bytes}-new-length-{length}-cut-from-{from}");
                let proof = vec![(replace(1, 0, old, "BB", 0x22), "0000")];
                let cut = cut_at_bytes(&frame, &cuts, first);
                folder.add(name, [setup.clone(), cut, proof].concat());
            }
        }
    }
    let bad = |length: &u8| !(1..=16).contains(length);
    let all = (0..=255).filter(bad).map(|length| (format!("0401000001AA{length:02X}"), "0704"));
    folder.add("replace-every-bad-new-length", loaded().into_iter().chain(all));
}
