//! Clear one and clear all.

use model::lines::*;

use crate::folder::Folder;

pub fn add(folder: &mut Folder) {
    clear_one_tags(folder);
    clear_one_empties_one(folder);
    clear_all_empties_one_namespace(folder);
    clear_all_of_nothing(folder);
    power_cycle_empties_all(folder);
    first_and_last_tag(folder);
}

fn clear_one_tags(folder: &mut Folder) {
    let setup = [
        (manage(1, 3), "0000"),
        (load(1, 0, "AA", 0x11), "0000"),
        (load(1, 2, "AA", 0x11), "0000"),
        (clear_one(1, 1), "070A"),
    ];
    let above = (3..=300).map(|tag| (clear_one(1, tag), "0025"));
    let last = [512, 32768, 65280, 65535].map(|tag| (clear_one(1, tag), "0025"));
    let good = [(clear_one(1, 2), "0000"), (clear_one(1, 2), "070A"), (clear_one(1, 0), "0000")];
    folder.add("clear-one-tags", setup.into_iter().chain(above).chain(last).chain(good));
}

fn clear_one_empties_one(folder: &mut Folder) {
    folder.add(
        "clear-one-empties-one-slot",
        [
            (manage(1, 3), "0000"),
            (manage(2, 3), "0000"),
            (load(1, 0, "AA", 0x11), "0000"),
            (load(1, 1, "BB", 0x22), "0000"),
            (load(1, 2, "CC", 0x33), "0000"),
            (load(2, 1, "BB", 0x22), "0000"),
            (clear_one(1, 1), "0000"),
            (read(1, 0, 0, 0), "0000"),
            (read(1, 1, 0, 0), "0025"),
            (read(1, 2, 0, 0), "0000"),
            (read(2, 1, 0, 0), "0000"),
            (clear_one(1, 1), "070A"),
            (load(1, 1, "DD", 0x44), "0000"),
            (read(1, 1, 0, 0), "0000"),
        ],
    );
}

fn clear_all_empties_one_namespace(folder: &mut Folder) {
    folder.add(
        "clear-all-empties-one-namespace",
        [
            (manage(1, 128), "0000"),
            (manage(2, 2), "0000"),
            (load(1, 0, "AA", 0x11), "0000"),
            (load(1, 127, "BB", 0x22), "0000"),
            (load(2, 0, "CC", 0x33), "0000"),
            (load(2, 1, "AA", 0x11), "0000"),
            (clear_all(1), "0000"),
            (clear_one(1, 0), "070A"),
            (clear_one(1, 127), "070A"),
            (read(1, 0, 0, 0), "0025"),
            (read(2, 0, 0, 0), "0000"),
            (read(2, 1, 0, 0), "0000"),
            (manage(1, 1), "0705"),
            (load(1, 127, "BB", 0x99), "0000"),
            (load(1, 0, "AA", 0x99), "070C"),
        ],
    );
}

fn clear_all_of_nothing(folder: &mut Folder) {
    folder.add(
        "clear-all-of-nothing",
        [
            (clear_all(1), "0706"),
            (manage(1, 1), "0000"),
            (clear_all(1), "0000"),
            (clear_all(1), "0000"),
            (clear_all(2), "0706"),
            (clear_all(4), "0706"),
            (clear_all(0), "000B"),
            (clear_all(5), "000B"),
            (clear_all(255), "000B"),
        ],
    );
}

fn power_cycle_empties_all(folder: &mut Folder) {
    let every = |frame: fn(u8) -> String, answer| (1..=4).map(move |n| (frame(n), answer));
    let lines = every(|n| manage(n, 64), "0000")
        .chain(every(|n| load(n, 0, "AA", 0x11), "0000"))
        .chain(every(|n| load(n, 63, "BB", 0x22), "0000"))
        .chain([(power_cycle(), "0000")])
        .chain(every(|n| manage(n, 64), "0705"))
        .chain(every(|n| read(n.into(), 0, 0, 0), "0025"))
        .chain(every(|n| clear_one(n, 63), "070A"))
        .chain(every(|n| load(n, 63, "BB", 0x23), "0000"));
    folder.add("power-cycle-empties-every-slot", lines);
}

/// Keys at both ends of two full namespaces. A clear all takes those of its own.
fn first_and_last_tag(folder: &mut Folder) {
    let emptied = |n: u8| {
        let empty = [0, 127].map(|tag| (clear_one(n, tag), "070A"));
        let reads = [0, 127].map(|tag| (read(n.into(), tag, 0, 0), "0025"));
        empty.into_iter().chain(reads)
    };
    let setup = || {
        let managed = [(manage(1, 128), "0000"), (manage(4, 128), "0000")];
        let both = |n| [(load(n, 0, "AA", 0x11), "0000"), (load(n, 127, "BB", 0x22), "0000")];
        managed.into_iter().chain(both(1)).chain(both(4))
    };
    let other_key = [(load(4, 127, "BB", 0x23), "0000"), (load(1, 127, "BB", 0x22), "070C")];
    folder.add(
        "power-cycle-empties-tag-0-and-127",
        setup()
            .chain([(power_cycle(), "0000")])
            .chain(emptied(1))
            .chain(emptied(4))
            .chain(other_key.clone()),
    );
    let others = [(read(4, 0, 0, 0), "0000"), (read(4, 127, 0, 0), "0000")];
    folder.add(
        "clear-all-empties-tag-0-and-127",
        setup()
            .chain([(clear_all(1), "0000")])
            .chain(emptied(1))
            .chain(others)
            .chain([(clear_all(4), "0000")])
            .chain(emptied(4))
            .chain(other_key),
    );
}
