//! The worked session, P1 to P10 and the misreadings, in the paper's order.

use model::lines::*;

use crate::folder::Folder;

const U16: &str = "A0A1A2A3A4A5A6A7A8A9AAABACADAEAF";

pub fn add(folder: &mut Folder) {
    worked(folder);
    tags_and_pool(folder);
    blocks(folder);
    keys(folder);
    wrong_key_and_locks(folder);
    misread_resets(folder);
    misread_partitions(folder);
    misread_wrapping(folder);
    misread_marks(folder);
    misread_tags(folder);
}

fn worked(folder: &mut Folder) {
    let key = "1".repeat(64);
    let text = format!("010102\n0301000001AA{key}\n05010100\n09\n0B01\n05010000\n");
    let answers = "0000\n0000\n070A\n000012000000\n0000\n070A\n";
    folder.raw("paper-worked-session", text, answers);
}

fn tags_and_pool(folder: &mut Folder) {
    folder.add(
        "p01-tag-count-128-and-129",
        [
            (manage(1, 129), "0707"),
            (manage(1, 128), "0000"),
            (manage(2, 129), "0707"),
            (manage(2, 128), "0000"),
        ],
    );
    folder.add(
        "p02-pool-of-256",
        [
            (manage(1, 128), "0000"),
            (manage(2, 128), "0000"),
            (manage(3, 1), "0708"),
            (release(2), "0000"),
            (manage(3, 1), "0000"),
        ],
    );
    folder.add(
        "p05-tag-n-minus-1-and-n",
        [
            (manage(1, 4), "0000"),
            (load(1, 3, "AA", 0x11), "0000"),
            (write(1, 3, 0, 0), "0000"),
            (read(1, 3, 0, 0), "0000"),
            (load(1, 4, "BB", 0x22), "0025"),
            (write(1, 4, 0, 0), "0025"),
            (read(1, 4, 0, 0), "0025"),
        ],
    );
}

fn blocks(folder: &mut Folder) {
    folder.add(
        "p03-block-255",
        [
            (read(1, 0, 255, 0), "0000"),
            (read(1, 0, 255, 1), "0080"),
            (manage(1, 1), "0000"),
            (load(1, 0, "AA", 0x11), "0000"),
            (write(1, 0, 255, 0), "0000"),
            (write(1, 0, 255, 1), "0080"),
            (read(1, 0, 255, 0), "0000"),
            (read(1, 0, 255, 1), "0080"),
        ],
    );
    folder.add(
        "p04-first-block-2-to-the-64-minus-1",
        [
            (read(1, 0, u64::MAX, 0), "0080"),
            (write(1, 0, u64::MAX, 0), "0080"),
            (manage(1, 1), "0000"),
            (load(1, 0, "AA", 0x11), "0000"),
            (read(1, 0, u64::MAX, 0), "0080"),
            (write(1, 0, u64::MAX, 0), "0080"),
            (io(COMPARE, 1, 0, u64::MAX, 0), "0080"),
            (io(VERIFY, 1, 0, u64::MAX, 0), "0080"),
        ],
    );
}

fn keys(folder: &mut Folder) {
    folder.add(
        "p06-one-key-uid-in-two-slots",
        [
            (manage(1, 3), "0000"),
            (load(1, 0, "AA", 0x11), "0000"),
            (load(1, 1, "AA", 0x11), "0000"),
            (load(1, 2, "AA", 0x12), "070C"),
            (clear_one(1, 2), "070A"),
        ],
    );
    folder.add(
        "p07-replace-with-its-own-key-uid",
        [
            (manage(1, 1), "0000"),
            (load(1, 0, "AA", 0x11), "0000"),
            (replace(1, 0, "AA", "AA", 0x12), "070C"),
            (replace(1, 0, "AA", "AA", 0x11), "0000"),
        ],
    );
    folder.add(
        "p10-key-uid-length-16-and-17",
        [
            (manage(1, 1), "0000"),
            (load(1, 0, &format!("{U16}B0"), 0x11), "0704"),
            (load(1, 0, U16, 0x11), "0000"),
            (read(1, 0, 0, 0), "0000"),
        ],
    );
}

fn wrong_key_and_locks(folder: &mut Folder) {
    folder.add(
        "p08-wrong-key-after-power-cycle",
        [
            (manage(1, 1), "0000"),
            (load(1, 0, "AA", 0x11), "0000"),
            (write(1, 0, 0, 0), "0000"),
            (power_cycle(), "0000"),
            (load(1, 0, "BB", 0x22), "0000"),
            (read(1, 0, 0, 0), "0028"),
            (read(1, 0, 1, 0), "0000"),
        ],
    );
    folder.add(
        "p09-until-power-cycle",
        [
            (set_features(0x0B), "0000"),
            (get_features(), "00000B000000"),
            (set_features(0x09), "010E"),
            (get_features(), "00000B000000"),
            (boot_write(0), "011E"),
            (boot_write(1), "0000"),
        ],
    );
}

fn misread_resets(folder: &mut Folder) {
    folder.add(
        "misread-controller-reset-clears-keys",
        [
            (manage(1, 2), "0000"),
            (load(1, 1, "AA", 0x11), "0000"),
            (write(1, 1, 3, 0), "0000"),
            (controller_reset(), "0000"),
            (read(1, 1, 3, 0), "0000"),
            (load(1, 1, "AA", 0x11), "0709"),
            (manage(1, 2), "0705"),
            (load(1, 0, "BB", 0x22), "0000"),
            (read(1, 0, 3, 0), "0028"),
        ],
    );
    folder.add(
        "misread-controller-reset-locks-boot",
        [
            (set_features(0x09), "0000"),
            (controller_reset(), "0000"),
            (get_features(), "000009000000"),
            (boot_write(0), "0000"),
            (boot_write(1), "0000"),
            (set_features(0x18), "0000"),
            (controller_reset(), "0000"),
            (get_features(), "000019000000"),
            (set_features(0x08), "010E"),
        ],
    );
}

fn misread_partitions(folder: &mut Folder) {
    folder.add(
        "misread-partition-0-set-before-1-is-judged",
        [
            (set_features(0x18), "0000"),
            (get_features(), "00001A000000"),
            (set_features(0x09), "010E"),
            (get_features(), "00001A000000"),
            (boot_write(0), "011E"),
            (set_features(0x11), "010E"),
            (set_features(0x0B), "010E"),
            (get_features(), "00001A000000"),
        ],
    );
    folder.add(
        "misread-partition-0-set-before-1-is-read",
        [
            (set_features(0x21), "0002"),
            (get_features(), "000012000000"),
            (set_features(0x3B), "0002"),
            (get_features(), "000012000000"),
            (set_features(0x0C), "0002"),
            (get_features(), "000012000000"),
        ],
    );
}

fn misread_wrapping(folder: &mut Folder) {
    let last = u64::MAX;
    folder.add(
        "misread-first-block-and-count-wrap",
        [
            (manage(1, 1), "0000"),
            (load(1, 0, "AA", 0x11), "0000"),
            (write(1, 0, last, 0), "0080"),
            (write(1, 0, last, 1), "0080"),
            (write(1, 0, last, 65535), "0080"),
            (write(1, 0, last - 255, 0), "0080"),
            (write(1, 0, last - 255, 255), "0080"),
            (write(1, 0, last - 255, 256), "0080"),
            (write(1, 0, last - 255, 65535), "0080"),
            (write(1, 0, last - 65535, 65535), "0080"),
            (write(1, 0, (1 << 32) - 1, 0), "0080"),
            (write(1, 0, 1 << 32, 0), "0080"),
            (write(1, 0, 65535, 0), "0080"),
            (write(1, 0, 65536, 0), "0080"),
            (write(1, 0, 1 << 63, 0), "0080"),
            (clear_one(1, 0), "0000"),
            (load(1, 0, "BB", 0x22), "0000"),
            (read(1, 0, 0, 255), "0000"),
        ],
    );
}

fn misread_marks(folder: &mut Folder) {
    folder.add(
        "misread-clearing-a-key-clears-marks",
        [
            (manage(1, 2), "0000"),
            (load(1, 0, "AA", 0x11), "0000"),
            (write(1, 0, 9, 0), "0000"),
            (clear_one(1, 0), "0000"),
            (load(1, 0, "BB", 0x22), "0000"),
            (read(1, 0, 9, 0), "0028"),
            (clear_all(1), "0000"),
            (load(1, 0, "CC", 0x33), "0000"),
            (read(1, 0, 9, 0), "0028"),
            (load(1, 1, "AA", 0x11), "0000"),
            (read(1, 1, 9, 0), "0000"),
        ],
    );
}

fn misread_tags(folder: &mut Folder) {
    folder.add(
        "misread-one-tag-in-two-namespaces",
        [
            (manage(1, 1), "0000"),
            (manage(2, 1), "0000"),
            (load(1, 0, "AA", 0x11), "0000"),
            (read(2, 0, 0, 0), "0025"),
            (clear_one(2, 0), "070A"),
            (load(2, 0, "BB", 0x22), "0000"),
            (write(1, 0, 0, 0), "0000"),
            (write(2, 0, 0, 0), "0000"),
            (read(1, 0, 0, 0), "0000"),
            (read(2, 0, 0, 0), "0000"),
            (replace(2, 0, "AA", "CC", 0x33), "070B"),
            (clear_one(1, 0), "0000"),
            (read(1, 0, 0, 0), "0025"),
            (read(2, 0, 0, 0), "0000"),
        ],
    );
}
