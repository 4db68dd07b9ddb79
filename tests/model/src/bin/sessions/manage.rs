//! Management, the pool and release.

use model::lines::*;

use crate::folder::Folder;

pub fn add(folder: &mut Folder) {
    namespaces(folder);
    counts(folder);
    already_managed(folder);
    not_managed(folder);
    pool_edges(folder);
    pool_over_four(folder);
    pool_sums_past_a_byte(folder);
    pool_returns(folder);
    refused_manage_takes_nothing(folder);
    release_empties(folder);
    release_empties_tag_127(folder);
    release_takes_its_own(folder);
}

fn namespaces(folder: &mut Folder) {
    let bad = || (0..=255).filter(|namespace| !(1..=4).contains(namespace));
    folder.add("manage-every-bad-namespace", bad().map(|bad| (manage(bad, 1), "000B")));
    folder.add("release-every-bad-namespace", bad().map(|bad| (release(bad), "000B")));
    folder.add("clear-all-every-bad-namespace", bad().map(|bad| (clear_all(bad), "000B")));
    folder.add("clear-one-every-bad-namespace", bad().map(|bad| (clear_one(bad, 0), "000B")));
    folder.add(
        "manage-namespaces-1-to-4",
        [
            (manage(0, 1), "000B"),
            (manage(1, 1), "0000"),
            (manage(4, 1), "0000"),
            (manage(5, 1), "000B"),
            (manage(2, 1), "0000"),
            (manage(3, 1), "0000"),
            (manage(255, 1), "000B"),
        ],
    );
}

fn counts(folder: &mut Folder) {
    let bad = [0].into_iter().chain(129..=255).map(|count| (manage(1, count), "0707"));
    folder.add("manage-every-bad-tag-count", bad);
    let good = (1..=128).flat_map(|count| [(manage(4, count), "0000"), (release(4), "0000")]);
    folder.add("manage-every-good-tag-count", good);
    folder.add(
        "manage-tag-counts-up-to-128",
        [
            (manage(1, 0), "0707"),
            (manage(1, 129), "0707"),
            (manage(1, 130), "0707"),
            (manage(1, 254), "0707"),
            (manage(1, 255), "0707"),
            (manage(1, 128), "0000"),
            (manage(2, 129), "0707"),
            (manage(2, 127), "0000"),
            (manage(3, 255), "0707"),
            (manage(3, 1), "0000"),
        ],
    );
    folder.add(
        "manage-refused-count-leaves-unmanaged",
        [
            (manage(1, 0), "0707"),
            (release(1), "0706"),
            (manage(1, 129), "0707"),
            (release(1), "0706"),
            (load(1, 0, "AA", 0x11), "0706"),
            (manage(1, 1), "0000"),
        ],
    );
}

fn already_managed(folder: &mut Folder) {
    folder.add(
        "manage-already-managed",
        [
            (manage(1, 2), "0000"),
            (manage(1, 2), "0705"),
            (manage(1, 3), "0705"),
            (manage(4, 1), "0000"),
            (manage(4, 1), "0705"),
            (load(1, 2, "AA", 0x11), "0025"),
            (load(1, 1, "AA", 0x11), "0000"),
            (manage(1, 1), "0705"),
            (read(1, 1, 0, 0), "0000"),
        ],
    );
}

fn not_managed(folder: &mut Folder) {
    let lines = (1..=4).flat_map(|namespace| {
        [
            (release(namespace), "0706"),
            (clear_all(namespace), "0706"),
            (load(namespace, 0, "AA", 0x11), "0706"),
            (wrapped_load(namespace, 0, "AA", 0x11), "0706"),
            (replace(namespace, 0, "AA", "BB", 0x22), "0706"),
            (clear_one(namespace, 0), "0706"),
            (read(namespace.into(), 0, 0, 0), "0000"),
        ]
    });
    folder.add("not-managed-every-kind", lines);
    folder.add(
        "not-managed-after-release",
        [
            (manage(2, 1), "0000"),
            (load(2, 0, "AA", 0x11), "0000"),
            (release(2), "0000"),
            (release(2), "0706"),
            (clear_all(2), "0706"),
            (load(2, 0, "AA", 0x11), "0706"),
            (wrapped_load(2, 0, "AA", 0x11), "0706"),
            (replace(2, 0, "AA", "BB", 0x22), "0706"),
            (clear_one(2, 0), "0706"),
            (read(2, 0, 0, 0), "0000"),
        ],
    );
}

fn pool_edges(folder: &mut Folder) {
    folder.add(
        "pool-256-and-257",
        [
            (manage(1, 128), "0000"),
            (manage(2, 127), "0000"),
            (manage(3, 2), "0708"),
            (manage(3, 128), "0708"),
            (manage(3, 1), "0000"),
            (manage(4, 1), "0708"),
            (manage(4, 128), "0708"),
        ],
    );
    folder.add(
        "pool-nothing-left-for-every-count",
        [(manage(1, 128), "0000"), (manage(3, 128), "0000")]
            .into_iter()
            .chain((1..=128).map(|count| (manage(2, count), "0708")))
            .chain((1..=128).map(|count| (manage(4, count), "0708"))),
    );
    let answer = |count| match count {
        6.. => "0708",
        5 => "0000",
        _ => "0705",
    };
    folder.add(
        "pool-5-left-counting-down",
        [(manage(2, 128), "0000"), (manage(4, 123), "0000")]
            .into_iter()
            .chain((1..=128).rev().map(|count| (manage(1, count), answer(count)))),
    );
}

fn pool_over_four(folder: &mut Folder) {
    folder.add(
        "pool-64-each",
        [
            (manage(1, 64), "0000"),
            (manage(2, 64), "0000"),
            (manage(3, 64), "0000"),
            (manage(4, 65), "0708"),
            (manage(4, 64), "0000"),
            (release(2), "0000"),
            (manage(2, 65), "0708"),
            (manage(2, 63), "0000"),
            (release(3), "0000"),
            (manage(3, 66), "0708"),
            (manage(3, 65), "0000"),
        ],
    );
    folder.add(
        "pool-spread-unevenly",
        [
            (manage(4, 1), "0000"),
            (manage(3, 126), "0000"),
            (manage(2, 128), "0000"),
            (manage(1, 2), "0708"),
            (manage(1, 1), "0000"),
            (release(3), "0000"),
            (manage(3, 127), "0708"),
            (manage(3, 126), "0000"),
        ],
    );
}

/// Counts that make 255, 256, 257 or 384 together, of which a byte keeps 255, 0, 1 or 128.
fn pool_sums_past_a_byte(folder: &mut Folder) {
    folder.add(
        "pool-sums-past-a-byte",
        [
            (manage(1, 128), "0000"),
            (manage(2, 127), "0000"),
            (manage(3, 1), "0000"),
            (manage(4, 1), "0708"),
            (manage(4, 2), "0708"),
            (manage(4, 128), "0708"),
            (release(3), "0000"),
            (manage(4, 2), "0708"),
            (manage(4, 1), "0000"),
            (manage(3, 1), "0708"),
            (release(4), "0000"),
            (release(2), "0000"),
            (manage(2, 128), "0000"),
            (manage(3, 127), "0708"),
            (manage(3, 128), "0708"),
            (release(1), "0000"),
            (manage(3, 128), "0000"),
            (manage(1, 1), "0708"),
        ],
    );
}

fn pool_returns(folder: &mut Folder) {
    let rounds = (0..40).flat_map(|round| {
        let namespace = round % 4 + 1;
        [(manage(namespace, 128), "0000"), (release(namespace), "0000")]
    });
    folder.add("pool-returns-40-times", rounds);
    folder.add(
        "pool-is-not-returned-by-clearing",
        [
            (manage(1, 128), "0000"),
            (manage(2, 128), "0000"),
            (clear_all(1), "0000"),
            (manage(3, 1), "0708"),
            (power_cycle(), "0000"),
            (manage(3, 1), "0708"),
            (controller_reset(), "0000"),
            (manage(3, 1), "0708"),
            (release(1), "0000"),
            (manage(3, 128), "0000"),
            (manage(1, 1), "0708"),
        ],
    );
}

fn refused_manage_takes_nothing(folder: &mut Folder) {
    folder.add(
        "pool-refused-manage-takes-nothing",
        [
            (manage(1, 128), "0000"),
            (manage(2, 80), "0000"),
            (manage(3, 49), "0708"),
            (manage(3, 128), "0708"),
            (manage(1, 48), "0705"),
            (manage(3, 129), "0707"),
            (manage(5, 48), "000B"),
            (manage(3, 48), "0000"),
            (manage(4, 1), "0708"),
            (release(4), "0706"),
            (manage(4, 1), "0708"),
        ],
    );
}

fn release_empties(folder: &mut Folder) {
    folder.add(
        "release-empties-slots-and-marks",
        [
            (manage(1, 2), "0000"),
            (load(1, 0, "AA", 0x11), "0000"),
            (load(1, 1, "BB", 0x22), "0000"),
            (write(1, 0, 0, 255), "0000"),
            (read(1, 1, 0, 0), "0028"),
            (release(1), "0000"),
            (manage(1, 2), "0000"),
            (read(1, 0, 0, 0), "0025"),
            (clear_one(1, 0), "070A"),
            (clear_one(1, 1), "070A"),
            (load(1, 1, "BB", 0x99), "0000"),
            (read(1, 1, 0, 255), "0000"),
        ],
    );
    folder.add(
        "release-then-fewer-and-more-tags",
        [
            (manage(1, 3), "0000"),
            (load(1, 2, "AA", 0x11), "0000"),
            (release(1), "0000"),
            (manage(1, 2), "0000"),
            (read(1, 2, 0, 0), "0025"),
            (clear_one(1, 2), "0025"),
            (release(1), "0000"),
            (manage(1, 4), "0000"),
            (clear_one(1, 2), "070A"),
            (load(1, 2, "AA", 0x12), "0000"),
            (load(1, 3, "BB", 0x22), "0000"),
        ],
    );
}

fn release_empties_tag_127(folder: &mut Folder) {
    folder.add(
        "release-empties-tag-127",
        [
            (manage(1, 128), "0000"),
            (load(1, 0, "AA", 0x11), "0000"),
            (load(1, 127, "BB", 0x22), "0000"),
            (write(1, 127, 0, 0), "0000"),
            (read(1, 127, 0, 0), "0000"),
            (read(1, 0, 0, 0), "0028"),
            (release(1), "0000"),
            (manage(1, 128), "0000"),
            (read(1, 127, 0, 0), "0025"),
            (clear_one(1, 0), "070A"),
            (clear_one(1, 127), "070A"),
            (replace(1, 127, "BB", "CC", 0x33), "070A"),
            (load(1, 0, "BB", 0x99), "0000"),
            (load(1, 127, "BB", 0x22), "070C"),
            (load(1, 127, "BB", 0x99), "0000"),
            (read(1, 127, 0, 0), "0000"),
        ],
    );
}

fn release_takes_its_own(folder: &mut Folder) {
    folder.add(
        "release-leaves-other-namespaces",
        [
            (manage(1, 1), "0000"),
            (manage(2, 1), "0000"),
            (manage(3, 2), "0000"),
            (load(1, 0, "AA", 0x11), "0000"),
            (load(2, 0, "AA", 0x11), "0000"),
            (load(3, 0, "AA", 0x11), "0000"),
            (load(3, 1, "BB", 0x22), "0000"),
            (write(1, 0, 255, 0), "0000"),
            (write(2, 0, 0, 255), "0000"),
            (write(3, 0, 0, 0), "0000"),
            (release(2), "0000"),
            (read(1, 0, 255, 0), "0000"),
            (read(3, 0, 0, 0), "0000"),
            (read(3, 1, 0, 0), "0028"),
            (replace(1, 0, "AA", "BB", 0x22), "0000"),
            (read(1, 0, 255, 0), "0028"),
            (load(3, 0, "CC", 0x33), "0709"),
        ],
    );
}
