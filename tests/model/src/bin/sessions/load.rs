//! Load, and the rule that one KeyUID has one key.

use model::lines::*;

use crate::folder::{Folder, Lines};

const A16: &str = "A0A1A2A3A4A5A6A7A8A9AAABACADAEAF";

pub fn add(folder: &mut Folder) {
    namespaces(folder);
    tags(folder);
    tag_count_128(folder);
    tag_256_is_not_tag_0(folder);
    every_tag(folder);
    key_uid_lengths(folder);
    occupied(folder);
    refused_load_changes_nothing(folder);
    conflict_everywhere(folder);
    conflict_at_the_last_slot(folder);
    conflict_in_one_key_byte(folder);
    no_conflict(folder);
    no_conflict_once_gone(folder);
}

fn namespaces(folder: &mut Folder) {
    let managed = (1..=4).map(|namespace| (manage(namespace, 1), "0000"));
    let bad = [0, 5, 6, 127, 128, 129, 252, 253, 254, 255];
    let bad = bad.map(|namespace| (load(namespace, 0, "AA", 0x11), "000B"));
    let good = (1..=4).map(|namespace| (load(namespace, 0, "AA", 0x11), "0000"));
    folder.add("load-namespaces", managed.chain(bad).chain(good));
}

fn tags(folder: &mut Folder) {
    for count in [1, 2, 127] {
        let n = u16::from(count);
        folder.add(
            format!("load-tags-of-{count}"),
            [
                (manage(3, count), "0000"),
                (load(3, n, "AA", 0x11), "0025"),
                (load(3, n + 1, "AA", 0x11), "0025"),
                (load(3, 128, "AA", 0x11), "0025"),
                (load(3, 255, "AA", 0x11), "0025"),
                (load(3, 256, "AA", 0x11), "0025"),
                (load(3, 256 + n - 1, "AA", 0x11), "0025"),
                (load(3, 32768, "AA", 0x11), "0025"),
                (load(3, 65535, "AA", 0x11), "0025"),
                (load(3, n - 1, "AA", 0x11), "0000"),
                (read(3, n - 1, 0, 0), "0000"),
                (read(3, n, 0, 0), "0025"),
            ],
        );
    }
}

fn tag_count_128(folder: &mut Folder) {
    folder.add(
        "load-tags-of-128",
        [
            (manage(1, 128), "0000"),
            (manage(2, 128), "0000"),
            (load(2, 0, "BB", 0x22), "0000"),
            (load(1, 128, "AA", 0x11), "0025"),
            (load(1, 129, "AA", 0x11), "0025"),
            (load(1, 255, "AA", 0x11), "0025"),
            (load(1, 65535, "AA", 0x11), "0025"),
            (load(1, 127, "AA", 0x11), "0000"),
            (load(1, 127, "AA", 0x11), "0709"),
            (write(1, 127, 0, 0), "0000"),
            (read(1, 127, 0, 0), "0000"),
            (read(1, 128, 0, 0), "0025"),
            (read(2, 0, 0, 0), "0000"),
            (clear_one(1, 127), "0000"),
            (read(1, 127, 0, 0), "0025"),
            (read(2, 0, 0, 0), "0000"),
        ],
    );
}

fn tag_256_is_not_tag_0(folder: &mut Folder) {
    folder.add(
        "load-tag-256-is-not-tag-0",
        [
            (manage(1, 128), "0000"),
            (manage(3, 128), "0000"),
            (load(1, 256, "AA", 0x11), "0025"),
            (read(1, 0, 0, 0), "0025"),
            (load(1, 0, "AA", 0x11), "0000"),
            (load(3, 0, "BB", 0x22), "0000"),
            (read(1, 0, 0, 0), "0000"),
            (read(1, 256, 0, 0), "0025"),
            (write(1, 256, 0, 0), "0025"),
            (replace(1, 256, "AA", "CC", 0x33), "0025"),
            (replace(1, 256, "BB", "CC", 0x33), "0025"),
            (clear_one(1, 256), "0025"),
            (load(1, 127, "DD", 0x44), "0000"),
            (read(1, 256 + 127, 0, 0), "0025"),
            (clear_one(1, 256 + 127), "0025"),
            (read(1, 127, 0, 0), "0000"),
            (read(1, 0, 0, 0), "0000"),
            (read(3, 0, 0, 0), "0000"),
        ],
    );
}

fn every_tag(folder: &mut Folder) {
    for first in [0, 32, 64, 96] {
        let tags = first..first + 32;
        let managed = [(manage(4, 128), "0000")];
        let uid = |tag: u16| format!("{:02X}", 0x80 + tag);
        let loads = tags.clone().map(|tag| (load(4, tag, &uid(tag), 0x11), "0000"));
        let clears = tags.clone().rev().map(|tag| (clear_one(4, tag), "0000"));
        let again = tags.clone().map(|tag| (clear_one(4, tag), "070A"));
        let lines: Lines = managed.into_iter().chain(loads).chain(clears).chain(again).collect();
        folder.add(format!("load-and-clear-32-tags-from-{first}"), lines);
    }
    let managed = [(manage(1, 128), "0000"), (manage(4, 128), "0000")];
    let loads = (0..25).flat_map(|tag| {
        [(load(1, tag, "AA", 0x11), "0000"), (load(4, 127 - tag, "BB", 0x22), "0000")]
    });
    folder.add("load-50-slots-with-two-keys", managed.into_iter().chain(loads));
}

fn key_uid_lengths(folder: &mut Folder) {
    let managed = [(manage(1, 32), "0000")];
    let load_of = |length: usize| load(1, length as u16, &A16[..2 * length], length as u8);
    let loads = (1..=16).map(|length| (load_of(length), "0000"));
    let again = (1..=16).map(|length| (clear_one(1, length), "0000"));
    folder.add("load-key-uid-of-1-to-16", managed.into_iter().chain(loads).chain(again));
    folder.add(
        "load-key-uid-of-0-and-17",
        [
            (manage(1, 1), "0000"),
            (load(1, 0, "", 0x11), "0704"),
            (load(1, 0, &format!("{A16}B0"), 0x11), "0704"),
            (load(1, 0, &"A5".repeat(33), 0x11), "0704"),
            (clear_one(1, 0), "070A"),
            (load(1, 0, "00", 0x00), "0000"),
            (write(1, 0, 0, 0), "0000"),
            (clear_one(1, 0), "0000"),
            (load(1, 0, "0000", 0x00), "0000"),
            (read(1, 0, 0, 0), "0028"),
        ],
    );
}

fn occupied(folder: &mut Folder) {
    folder.add(
        "load-occupied",
        [
            (manage(1, 2), "0000"),
            (load(1, 0, "AA", 0x11), "0000"),
            (write(1, 0, 0, 0), "0000"),
            (load(1, 0, "BB", 0x22), "0709"),
            (read(1, 0, 0, 0), "0000"),
            (load(1, 0, "AA", 0x11), "0709"),
            (load(1, 0, "AA", 0x12), "0709"),
            (load(1, 1, "AA", 0x11), "0000"),
            (load(1, 1, "AA", 0x11), "0709"),
            (clear_one(1, 0), "0000"),
            (load(1, 0, "BB", 0x22), "0000"),
            (read(1, 0, 0, 0), "0028"),
        ],
    );
}

fn refused_load_changes_nothing(folder: &mut Folder) {
    folder.add(
        "load-refused-changes-nothing",
        [
            (manage(1, 2), "0000"),
            (load(1, 0, "AA", 0x11), "0000"),
            (load(1, 1, "AA", 0x12), "070C"),
            (read(1, 1, 0, 0), "0025"),
            (clear_one(1, 1), "070A"),
            (load(1, 2, "CC", 0x33), "0025"),
            (load(2, 0, "CC", 0x33), "0706"),
            (load(5, 0, "CC", 0x33), "000B"),
            (load(1, 1, "CC", 0x44), "0000"),
            (replace(1, 0, "BB", "DD", 0x55), "070B"),
            (replace(1, 0, "AA", "DD", 0x55), "0000"),
        ],
    );
}

fn conflict_everywhere(folder: &mut Folder) {
    let managed = (1..=4).map(|namespace| (manage(namespace, 2), "0000"));
    let rounds = (1..=4).flat_map(|home| {
        let loaded = [(load(home, 1, "AA", 0x11), "0000")].into_iter();
        let others = (1..=4).map(|namespace| (load(namespace, 0, "AA", 0x12), "070C"));
        loaded.chain(others).chain([(clear_one(home, 1), "0000")])
    });
    folder.add("conflict-in-every-pair-of-namespaces", managed.chain(rounds));
}

fn conflict_at_the_last_slot(folder: &mut Folder) {
    folder.add(
        "conflict-at-first-and-last-slot",
        [
            (manage(1, 128), "0000"),
            (manage(4, 128), "0000"),
            (load(1, 0, "AA", 0x11), "0000"),
            (load(4, 127, "BB", 0x22), "0000"),
            (load(1, 127, "BB", 0x23), "070C"),
            (load(4, 0, "AA", 0x12), "070C"),
            (load(1, 127, "BB", 0x22), "0000"),
            (load(4, 0, "AA", 0x11), "0000"),
            (clear_one(4, 127), "0000"),
            (load(4, 127, "BB", 0x23), "070C"),
            (clear_one(1, 127), "0000"),
            (load(4, 127, "BB", 0x23), "0000"),
            (load(1, 127, "BB", 0x22), "070C"),
        ],
    );
}

fn conflict_in_one_key_byte(folder: &mut Folder) {
    let key = [0x11; 32];
    let changed = |byte: usize, value: u8| {
        let mut key = key;
        key[byte] = value;
        load_key(1, 1, A16, &key)
    };
    let setup = [(manage(1, 2), "0000"), (load_key(1, 0, A16, &key), "0000")];
    let refused = (0..32).map(|byte| (changed(byte, 0x10), "070C"));
    let lines = setup.into_iter().chain(refused).chain([(changed(0, 0x11), "0000")]);
    folder.add("conflict-in-every-key-byte", lines);
}

fn no_conflict(folder: &mut Folder) {
    let last = format!("{}FF", &A16[..30]);
    let first = format!("FF{}", &A16[2..]);
    folder.add(
        "conflict-needs-length-and-all-bytes",
        [
            (manage(1, 12), "0000"),
            (load(1, 0, "AA", 0x01), "0000"),
            (load(1, 1, "AA00", 0x02), "0000"),
            (load(1, 2, "AAAA", 0x03), "0000"),
            (load(1, 3, "00", 0x04), "0000"),
            (load(1, 4, "0000", 0x05), "0000"),
            (load(1, 5, &"00".repeat(16), 0x06), "0000"),
            (load(1, 6, A16, 0x07), "0000"),
            (load(1, 7, &A16[..30], 0x08), "0000"),
            (load(1, 8, &last, 0x09), "0000"),
            (load(1, 9, &first, 0x0A), "0000"),
            (load(1, 10, &last, 0x0A), "070C"),
            (load(1, 10, &first, 0x09), "070C"),
            (load(1, 10, "AA00", 0x01), "070C"),
            (load(1, 10, "AA", 0x02), "070C"),
            (load(1, 10, "AA", 0x01), "0000"),
            (load(1, 11, "BB", 0x01), "0000"),
        ],
    );
}

fn no_conflict_once_gone(folder: &mut Folder) {
    let gone = [
        ("clear-one", clear_one(1, 0)),
        ("clear-all", clear_all(1)),
        ("release", release(1)),
        ("replace", replace(1, 0, "AA", "BB", 0x22)),
        ("power-cycle", power_cycle()),
    ];
    for (name, frame) in gone {
        folder.add(
            format!("conflict-gone-after-{name}"),
            [
                (manage(1, 1), "0000"),
                (manage(2, 1), "0000"),
                (load(1, 0, "AA", 0x11), "0000"),
                (load(2, 0, "AA", 0x12), "070C"),
                (controller_reset(), "0000"),
                (load(2, 0, "AA", 0x12), "070C"),
                (frame, "0000"),
                (load(2, 0, "AA", 0x12), "0000"),
            ],
        );
    }
}
