//! Replace: the right and the wrong old KeyUID, and what the slot holds after.

use model::lines::*;

use crate::folder::{Folder, Lines};

const A16: &str = "A0A1A2A3A4A5A6A7A8A9AAABACADAEAF";
const B16: &str = "B0B1B2B3B4B5B6B7B8B9BABBBCBDBEBF";

pub fn add(folder: &mut Folder) {
    namespaces(folder);
    tags(folder);
    empty_slot(folder);
    old_key_uid(folder);
    old_key_uid_of_16(folder);
    lengths(folder);
    conflicts(folder);
    its_own_key_uid(folder);
    refused_changes_nothing(folder);
    identity_changes(folder);
    one_after_another(folder);
}

fn namespaces(folder: &mut Folder) {
    let setup = (1..=4).flat_map(|namespace| {
        [(manage(namespace, 1), "0000"), (load(namespace, 0, "AA", 0x11), "0000")]
    });
    let bad = [0, 5, 6, 127, 128, 129, 252, 255];
    let bad = bad.map(|namespace| (replace(namespace, 0, "AA", "BB", 0x22), "000B"));
    let good = (1..=4).map(|namespace| (replace(namespace, 0, "AA", "BB", 0x22), "0000"));
    folder.add("replace-namespaces", setup.chain(bad).chain(good));
}

fn tags(folder: &mut Folder) {
    let setup: Lines = vec![
        (manage(2, 3), "0000"),
        (load(2, 0, "AA", 0x11), "0000"),
        (load(2, 2, "AA", 0x11), "0000"),
    ];
    let above = [3, 4, 127, 128, 255, 256, 258, 65535];
    let above = above.map(|tag| (replace(2, tag, "AA", "BB", 0x22), "0025"));
    let last = [(replace(2, 2, "AA", "BB", 0x22), "0000"), (read(2, 2, 0, 0), "0000")];
    folder.add("replace-tags", setup.into_iter().chain(above).chain(last));
}

fn empty_slot(folder: &mut Folder) {
    folder.add(
        "replace-empty-slot",
        [
            (manage(1, 2), "0000"),
            (replace(1, 0, "AA", "BB", 0x22), "070A"),
            (replace(1, 0, "00", "BB", 0x22), "070A"),
            (load(1, 0, "AA", 0x11), "0000"),
            (replace(1, 1, "AA", "BB", 0x22), "070A"),
            (clear_one(1, 0), "0000"),
            (replace(1, 0, "AA", "BB", 0x22), "070A"),
            (load(1, 0, "AA", 0x11), "0000"),
            (power_cycle(), "0000"),
            (replace(1, 0, "AA", "BB", 0x22), "070A"),
        ],
    );
}

fn old_key_uid(folder: &mut Folder) {
    folder.add(
        "replace-wrong-old-key-uid",
        [
            (manage(1, 2), "0000"),
            (load(1, 0, "AA", 0x11), "0000"),
            (load(1, 1, "BB", 0x22), "0000"),
            (replace(1, 0, "AB", "CC", 0x33), "070B"),
            (replace(1, 0, "BB", "CC", 0x33), "070B"),
            (replace(1, 0, "AA00", "CC", 0x33), "070B"),
            (replace(1, 0, "AAAA", "CC", 0x33), "070B"),
            (replace(1, 0, "00", "CC", 0x33), "070B"),
            (replace(1, 0, "CC", "AA", 0x11), "070B"),
            (replace(1, 1, "AA", "CC", 0x33), "070B"),
            (replace(1, 0, "AA", "CC", 0x33), "0000"),
            (replace(1, 0, "AA", "CC", 0x33), "070B"),
            (replace(1, 0, "CC", "AA", 0x11), "0000"),
        ],
    );
}

fn old_key_uid_of_16(folder: &mut Folder) {
    let changed = |byte: usize| format!("{}00{}", &A16[..2 * byte], &A16[2 * byte + 2..]);
    let setup = [(manage(1, 1), "0000"), (load(1, 0, A16, 0x11), "0000")];
    let wrong = (0..16).map(|byte| (replace(1, 0, &changed(byte), "BB", 0x22), "070B"));
    let short = [15, 9, 8, 7, 1];
    let short = short.map(|bytes: usize| (replace(1, 0, &A16[..2 * bytes], "BB", 0x22), "070B"));
    let right = [(replace(1, 0, A16, "BB", 0x22), "0000")];
    folder.add(
        "replace-old-key-uid-wrong-in-each-byte",
        setup.into_iter().chain(wrong).chain(short).chain(right),
    );
}

fn lengths(folder: &mut Folder) {
    folder.add(
        "replace-key-uids-of-1-and-16",
        [
            (manage(1, 1), "0000"),
            (load(1, 0, "AA", 0x11), "0000"),
            (replace(1, 0, "AA", "BB", 0x22), "0000"),
            (replace(1, 0, "BB", A16, 0x33), "0000"),
            (replace(1, 0, A16, B16, 0x44), "0000"),
            (replace(1, 0, B16, "AA", 0x11), "0000"),
            (replace(1, 0, B16, "AA", 0x11), "070B"),
            (clear_one(1, 0), "0000"),
        ],
    );
    folder.add(
        "replace-key-uids-of-0-and-17",
        [
            (manage(1, 1), "0000"),
            (load(1, 0, "AA", 0x11), "0000"),
            (replace(1, 0, "", "BB", 0x22), "0704"),
            (replace(1, 0, "AA", "", 0x22), "0704"),
            (replace(1, 0, "", "", 0x22), "0704"),
            (replace(1, 0, &"AA".repeat(17), "BB", 0x22), "0704"),
            (replace(1, 0, "AA", &"BB".repeat(17), 0x22), "0704"),
            (replace(1, 0, &"AA".repeat(15), &"BB".repeat(17), 0x22), "0704"),
            (replace(1, 0, &"AA".repeat(17), &"BB".repeat(15), 0x22), "0704"),
            (replace(1, 0, &"AA".repeat(16), &"BB".repeat(17), 0x22), "0704"),
            (replace(1, 0, &"AA".repeat(17), &"BB".repeat(16), 0x22), "0704"),
            (replace(1, 0, "AA", "BB", 0x22), "0000"),
        ],
    );
}

fn conflicts(folder: &mut Folder) {
    folder.add(
        "replace-conflict",
        [
            (manage(1, 2), "0000"),
            (manage(3, 1), "0000"),
            (load(1, 0, "AA", 0x11), "0000"),
            (load(1, 1, "BB", 0x22), "0000"),
            (load(3, 0, "CC", 0x33), "0000"),
            (replace(1, 0, "AA", "BB", 0x23), "070C"),
            (replace(1, 0, "AA", "CC", 0x34), "070C"),
            (replace(3, 0, "CC", "AA", 0x12), "070C"),
            (replace(1, 0, "AA", "BB", 0x22), "0000"),
            (replace(3, 0, "CC", "BB", 0x22), "0000"),
            (replace(1, 1, "BB", "CC", 0x34), "0000"),
            (replace(1, 1, "CC", "BB", 0x99), "070C"),
        ],
    );
}

fn its_own_key_uid(folder: &mut Folder) {
    folder.add(
        "replace-with-its-own-key-uid",
        [
            (manage(1, 2), "0000"),
            (load(1, 0, "AA", 0x11), "0000"),
            (write(1, 0, 0, 0), "0000"),
            (replace(1, 0, "AA", "AA", 0x12), "070C"),
            (replace(1, 0, "AA", "AA", 0x11), "0000"),
            (read(1, 0, 0, 0), "0000"),
            (load(1, 1, "AA", 0x11), "0000"),
            (replace(1, 0, "AA", "AA", 0x11), "0000"),
            (replace(1, 0, "AA", "AA", 0x12), "070C"),
            (replace(1, 0, "AA", "AA00", 0x12), "0000"),
            (replace(1, 1, "AA", "AA00", 0x12), "0000"),
            (replace(1, 1, "AA00", "AA", 0x77), "0000"),
        ],
    );
}

fn refused_changes_nothing(folder: &mut Folder) {
    folder.add(
        "replace-refused-changes-nothing",
        [
            (manage(1, 2), "0000"),
            (load(1, 0, "AA", 0x11), "0000"),
            (write(1, 0, 4, 0), "0000"),
            (replace(1, 0, "BB", "CC", 0x33), "070B"),
            (read(1, 0, 4, 0), "0000"),
            (replace(1, 0, "AA", "AA", 0x33), "070C"),
            (read(1, 0, 4, 0), "0000"),
            (replace(1, 1, "AA", "CC", 0x33), "070A"),
            (read(1, 1, 4, 0), "0025"),
            (load(1, 1, "CC", 0x44), "0000"),
            (load(1, 0, "CC", 0x44), "0709"),
        ],
    );
}

fn identity_changes(folder: &mut Folder) {
    folder.add(
        "replace-changes-the-kept-identity",
        [
            (manage(1, 1), "0000"),
            (load(1, 0, "AA", 0x11), "0000"),
            (write(1, 0, 0, 0), "0000"),
            (replace(1, 0, "AA", "BB", 0x22), "0000"),
            (read(1, 0, 0, 0), "0028"),
            (read(1, 0, 1, 0), "0000"),
            (write(1, 0, 1, 0), "0000"),
            (replace(1, 0, "BB", "AA", 0x11), "0000"),
            (read(1, 0, 0, 0), "0000"),
            (read(1, 0, 1, 0), "0028"),
            (read(1, 0, 0, 1), "0028"),
        ],
    );
    folder.add(
        "replace-long-by-short-leaves-no-bytes-behind",
        [
            (manage(1, 2), "0000"),
            (load(1, 0, A16, 0x11), "0000"),
            (replace(1, 0, A16, "A0", 0x22), "0000"),
            (write(1, 0, 0, 0), "0000"),
            (load(1, 1, "A0", 0x22), "0000"),
            (read(1, 1, 0, 0), "0000"),
            (replace(1, 1, "A0", "A0A1", 0x22), "0000"),
            (read(1, 1, 0, 0), "0028"),
            (replace(1, 0, "A000", "BB", 0x22), "070B"),
            (replace(1, 0, "A0", "BB", 0x22), "0000"),
        ],
    );
}

fn one_after_another(folder: &mut Folder) {
    let uid = |step: u8| format!("{:02X}", 0xC0 + step);
    let setup = [(manage(2, 1), "0000"), (load(2, 0, &uid(0), 0), "0000")];
    let steps = (0..40).map(|step| (replace(2, 0, &uid(step), &uid(step + 1), step + 1), "0000"));
    folder.add("replace-40-times", setup.into_iter().chain(steps));
}
