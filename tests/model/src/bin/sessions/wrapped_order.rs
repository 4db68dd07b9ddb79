//! The checks of a wrapped load, two or more of them failing at once: the first answers. Every pair of 00 0B, 07 06,
//! 00 25, 07 10, 07 09 and 07 0C, and what stands before them.

use model::lines::*;
use model::numbers::{KEY, PROGRAM_KEK, WRAPPED};
use model::wrap::wrap;

use crate::folder::{Folder, Lines};

const LONG: &str = "00";

pub fn add(folder: &mut Folder) {
    lengths(folder);
    lengths_first(folder);
    namespace_first(folder);
    managed_first(folder);
    tag_first(folder);
    integrity_first(folder);
    occupied_first(folder);
    all_at_once(folder);
}

/// Namespace 1 with AA in tag 0 and nothing in tag 1; no other is managed.
fn loaded() -> Lines {
    vec![(manage(1, 2), "0000"), (load(1, 0, "AA", 0x11), "0000")]
}

fn session(
    folder: &mut Folder,
    name: &str,
    lines: impl IntoIterator<Item = (String, &'static str)>,
) {
    folder.add(name, loaded().into_iter().chain(lines));
}

/// A wrapped load whose integrity value will not come out.
fn spoilt(namespace: u8, tag: u16, uid: &str) -> String {
    let mut wrapped = wrap(&PROGRAM_KEK, &[0x11; KEY]);
    wrapped[WRAPPED - 1] ^= 0x01;
    wrapped_frame(namespace, tag, uid, &wrapped)
}

fn lengths(folder: &mut Folder) {
    let u17 = "AA".repeat(17);
    folder.add(
        "order-wrapped-0704-before-whole-0703",
        [
            ("0E0".to_string(), "0701040000"),
            ("0E010000".to_string(), "0703"),
            ("0E01000000".to_string(), "0704"),
            ("0E01000011".to_string(), "0704"),
            ("0E01000001".to_string(), "0703"),
            (wrapped_load(1, 0, "", 0x11) + LONG, "0704"),
            (wrapped_load(1, 0, &u17, 0x11) + LONG, "0704"),
            (format!("0E01000011{}", "00".repeat(65)), "0704"),
            (format!("0E01000010{}", "00".repeat(65)), "0703"),
            (format!("0E01000010{}", "00".repeat(56)), "0706"),
        ],
    );
}

/// Before all that looks at the drive, and before the wrapped key is looked at.
fn lengths_first(folder: &mut Folder) {
    let u17 = "AA".repeat(17);
    session(
        folder,
        "order-wrapped-0703-and-0704-before-the-rest",
        [
            (spoilt(5, 0, "AA") + LONG, "0703"),
            (spoilt(2, 0, "AA") + LONG, "0703"),
            (spoilt(1, 2, "AA") + LONG, "0703"),
            (spoilt(1, 1, "AA") + LONG, "0703"),
            (spoilt(1, 0, "AA")[..90].to_string(), "0703"),
            (wrapped_load(1, 1, "AA", 0x12) + LONG, "0703"),
            (spoilt(5, 0, ""), "0704"),
            (spoilt(2, 0, &u17), "0704"),
            (spoilt(1, 2, ""), "0704"),
            (spoilt(1, 1, &u17), "0704"),
            (wrapped_load(1, 0, "", 0x11), "0704"),
            (read(1, 1, 0, 0), "0025"),
        ],
    );
}

fn namespace_first(folder: &mut Folder) {
    session(
        folder,
        "order-wrapped-000b-before-0706-0025-0710-0709-070c",
        [
            (wrapped_load(0, 1, "BB", 0x22), "000B"),
            (wrapped_load(5, 65535, "BB", 0x22), "000B"),
            (spoilt(5, 1, "BB"), "000B"),
            (spoilt(0, 65535, "BB"), "000B"),
            (wrapped_load(5, 0, "BB", 0x22), "000B"),
            (wrapped_load(5, 1, "AA", 0x12), "000B"),
            (spoilt(255, 0, "AA"), "000B"),
        ],
    );
}

fn managed_first(folder: &mut Folder) {
    session(
        folder,
        "order-wrapped-0706-before-0025-0710-0709-070c",
        [
            (wrapped_load(2, 2, "BB", 0x22), "0706"),
            (wrapped_load(2, 65535, "BB", 0x22), "0706"),
            (spoilt(2, 1, "BB"), "0706"),
            (spoilt(4, 65535, "BB"), "0706"),
            (wrapped_load(2, 0, "BB", 0x22), "0706"),
            (wrapped_load(3, 1, "AA", 0x12), "0706"),
            (spoilt(3, 0, "AA"), "0706"),
        ],
    );
}

/// The low byte of tag 256 is that of a loaded slot.
fn tag_first(folder: &mut Folder) {
    session(
        folder,
        "order-wrapped-0025-before-0710-0709-070c",
        [
            (spoilt(1, 2, "BB"), "0025"),
            (spoilt(1, 65535, "BB"), "0025"),
            (wrapped_load(1, 256, "BB", 0x22), "0025"),
            (spoilt(1, 256, "BB"), "0025"),
            (wrapped_load(1, 2, "AA", 0x12), "0025"),
            (spoilt(1, 2, "AA"), "0025"),
            (read(1, 1, 0, 0), "0025"),
        ],
    );
}

fn integrity_first(folder: &mut Folder) {
    session(
        folder,
        "order-wrapped-0710-before-0709-and-070c",
        [
            (spoilt(1, 0, "BB"), "0710"),
            (spoilt(1, 0, "AA"), "0710"),
            (spoilt(1, 1, "AA"), "0710"),
            (spoilt(1, 1, "BB"), "0710"),
            (clear_one(1, 1), "070A"),
            (read(1, 0, 0, 0), "0000"),
            (wrapped_load(1, 1, "AA", 0x11), "0000"),
        ],
    );
}

fn occupied_first(folder: &mut Folder) {
    session(
        folder,
        "order-wrapped-0709-before-070c",
        [
            (wrapped_load(1, 0, "AA", 0x12), "0709"),
            (wrapped_load(1, 1, "BB", 0x22), "0000"),
            (wrapped_load(1, 1, "AA", 0x12), "0709"),
            (wrapped_load(1, 0, "BB", 0x23), "0709"),
            (clear_one(1, 1), "0000"),
            (wrapped_load(1, 1, "AA", 0x12), "070C"),
        ],
    );
}

/// From a line with everything wrong to the right one, one thing mended after the other.
fn all_at_once(folder: &mut Folder) {
    let good = wrapped_load(1, 1, "AA", 0x11);
    session(
        folder,
        "order-wrapped-every-check",
        [
            (good.to_lowercase() + "0", "0701030100"),
            (good.clone() + "0", "0701040000"),
            (format!("0F{}", &good[2..]) + LONG, "0702"),
            ("0E05FFFF".to_string(), "0703"),
            ("0E05FFFF00".to_string(), "0704"),
            (spoilt(5, 65535, "AA") + LONG, "0703"),
            (spoilt(5, 65535, "AA"), "000B"),
            (spoilt(2, 65535, "AA"), "0706"),
            (spoilt(1, 65535, "AA"), "0025"),
            (spoilt(1, 0, "AA"), "0710"),
            (wrapped_load(1, 0, "AA", 0x12), "0709"),
            (wrapped_load(1, 1, "AA", 0x12), "070C"),
            (good, "0000"),
        ],
    );
}
