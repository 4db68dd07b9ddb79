//! Two checks failing at once: the first of them answers. One session for each neighbouring pair
//! of each kind's order; where two neighbours can't both fail, the nearest pair that can.

use model::lines::*;

use crate::folder::Folder;

const LONG: &str = "00";

pub fn add(folder: &mut Folder) {
    line_kind_length(folder);
    length_first(folder);
    manage_order(folder);
    manage_count_and_pool(folder);
    release_and_clear_all(folder);
    load_lengths(folder);
    load_order(folder);
    load_tag_occupied_conflict(folder);
    replace_lengths(folder);
    replace_lengths_before_namespace(folder);
    replace_order(folder);
    replace_empty_old_conflict(folder);
    clear_one_order(folder);
    io_order(folder);
    io_unmanaged(folder);
    io_cetype(folder);
    io_key_check(folder);
    boot_order(folder);
}

fn line_kind_length(folder: &mut Folder) {
    folder.add(
        "order-0701-before-0702",
        [
            ("0F0".to_string(), "0701040000"),
            ("0f".to_string(), "0701030100"),
            ("0F\r".to_string(), "0701030200"),
            ("FF".repeat(513), "0701020000"),
            ("0F 0".to_string(), "0701030200"),
            ("0F".to_string(), "0702"),
        ],
    );
    folder.add(
        "order-0701-before-0703-and-0704",
        [
            ("010".to_string(), "0701040000"),
            ("09\r".to_string(), "0701030200"),
            ("090g".to_string(), "0701030300"),
            ("01".repeat(513), "0701020000"),
            ("030100001".to_string(), "0701040000"),
            ("03010000110".to_string(), "0701040000"),
            ("0301000011".to_string(), "0704"),
            (format!("0301000011{}", "00".repeat(507)), "0704"),
            (format!("0301000011{}", "00".repeat(508)), "0701020000"),
        ],
    );
    folder.add(
        "order-0702-before-length",
        [
            ("00".to_string(), "0702"),
            ("0001".to_string(), "0702"),
            ("0F0102".to_string(), "0702"),
            ("FF01000011".to_string(), "0702"),
            ("0F".repeat(70), "0702"),
            ("0F".repeat(512), "0702"),
        ],
    );
}

fn length_first(folder: &mut Folder) {
    folder.add(
        "order-0703-before-000b",
        [
            ("0105".to_string(), "0703"),
            (manage(5, 1) + LONG, "0703"),
            (release(5) + LONG, "0703"),
            (clear_one(5, 0) + LONG, "0703"),
            ("050500".to_string(), "0703"),
            (clear_all(0) + LONG, "0703"),
            (load(5, 0, "AA", 0x11) + LONG, "0703"),
            (wrapped_load(5, 0, "AA", 0x11) + LONG, "0703"),
            (replace(5, 0, "AA", "BB", 0x22) + LONG, "0703"),
        ],
    );
    folder.add(
        "order-0703-before-0001-and-0002",
        [
            (io(0x00, 1, 0, 0, 0) + LONG, "0703"),
            (io(0xFF, 1, 0, 0, 0)[..128].to_string(), "0703"),
            ("07".to_string(), "0703"),
            (set_features(0xFF) + LONG, "0703"),
            ("08FFFFFF".to_string(), "0703"),
            (boot_write(2) + LONG, "0703"),
            ("0B02".to_string() + LONG, "0703"),
            ("0900".to_string(), "0703"),
            ("0C00".to_string(), "0703"),
            (io(0x00, 5, 0, 256, 0) + &LONG.repeat(447), "0703"),
        ],
    );
}

fn manage_order(folder: &mut Folder) {
    folder.add(
        "order-manage-000b-before-0705-0707-0708",
        [
            (manage(1, 64), "0000"),
            (manage(2, 64), "0000"),
            (manage(3, 64), "0000"),
            (manage(4, 64), "0000"),
            (manage(0, 1), "000B"),
            (manage(5, 1), "000B"),
            (manage(0, 0), "000B"),
            (manage(5, 0), "000B"),
            (manage(5, 129), "000B"),
            (manage(5, 128), "000B"),
            (manage(255, 255), "000B"),
        ],
    );
    folder.add(
        "order-manage-0705-before-0707",
        [
            (manage(1, 1), "0000"),
            (manage(1, 0), "0705"),
            (manage(1, 129), "0705"),
            (manage(1, 255), "0705"),
            (manage(2, 0), "0707"),
        ],
    );
    folder.add(
        "order-manage-0705-before-0708",
        [
            (manage(1, 128), "0000"),
            (manage(2, 128), "0000"),
            (manage(1, 128), "0705"),
            (manage(2, 1), "0705"),
            (manage(3, 1), "0708"),
        ],
    );
}

fn manage_count_and_pool(folder: &mut Folder) {
    folder.add(
        "order-manage-0707-before-0708",
        [
            (manage(1, 128), "0000"),
            (manage(2, 128), "0000"),
            (manage(3, 0), "0707"),
            (manage(3, 129), "0707"),
            (manage(3, 192), "0707"),
            (manage(3, 255), "0707"),
            (manage(3, 128), "0708"),
        ],
    );
    folder.add(
        "order-manage-0707-before-0708-from-fresh",
        [(manage(1, 129), "0707"), (manage(1, 255), "0707"), (manage(1, 128), "0000")],
    );
}

fn release_and_clear_all(folder: &mut Folder) {
    folder.add(
        "order-000b-before-0706",
        [
            (release(0), "000B"),
            (release(5), "000B"),
            (release(4), "0706"),
            (clear_all(0), "000B"),
            (clear_all(5), "000B"),
            (clear_all(4), "0706"),
            (load(0, 0, "AA", 0x11), "000B"),
            (load(5, 0, "AA", 0x11), "000B"),
            (load(4, 0, "AA", 0x11), "0706"),
            (wrapped_load(0, 0, "AA", 0x11), "000B"),
            (wrapped_load(5, 0, "AA", 0x11), "000B"),
            (wrapped_load(4, 0, "AA", 0x11), "0706"),
            (replace(0, 0, "AA", "BB", 0x22), "000B"),
            (replace(5, 0, "AA", "BB", 0x22), "000B"),
            (replace(4, 0, "AA", "BB", 0x22), "0706"),
            (clear_one(0, 0), "000B"),
            (clear_one(5, 0), "000B"),
            (clear_one(4, 0), "0706"),
        ],
    );
}

fn load_lengths(folder: &mut Folder) {
    folder.add(
        "order-load-0704-before-whole-0703",
        [
            ("03010000".to_string(), "0703"),
            ("0301000000".to_string(), "0704"),
            ("0301000011".to_string(), "0704"),
            (load(1, 0, "", 0x11) + LONG, "0704"),
            (load(1, 0, &"AA".repeat(17), 0x11) + LONG, "0704"),
            (format!("0301000011{}", "00".repeat(65)), "0704"),
            (format!("0301000010{}", "00".repeat(65)), "0703"),
        ],
    );
    folder.add(
        "order-load-0704-before-000b",
        [
            (load(5, 0, "", 0x11), "0704"),
            (load(5, 0, &"AA".repeat(17), 0x11), "0704"),
            ("0300000011".to_string(), "0704"),
            ("03FFFFFF00".to_string(), "0704"),
            (load(5, 0, &"AA".repeat(16), 0x11), "000B"),
        ],
    );
    folder.add(
        "order-load-0703-before-000b",
        [
            ("03050000".to_string(), "0703"),
            ("0305000001".to_string(), "0703"),
            (load(5, 0, "AA", 0x11) + LONG, "0703"),
            (load(0, 0, "AA", 0x11)[..74].to_string(), "0703"),
            (load(0, 0, "AA", 0x11), "000B"),
        ],
    );
}

fn load_order(folder: &mut Folder) {
    folder.add(
        "order-load-000b-before-0025-0709-070c",
        [
            (manage(1, 1), "0000"),
            (load(1, 0, "AA", 0x11), "0000"),
            (load(0, 0, "AA", 0x12), "000B"),
            (load(5, 0, "AA", 0x12), "000B"),
            (load(5, 65535, "AA", 0x12), "000B"),
        ],
    );
    folder.add(
        "order-load-0706-before-0025",
        [
            (manage(1, 1), "0000"),
            (load(1, 0, "AA", 0x11), "0000"),
            (load(2, 0, "BB", 0x22), "0706"),
            (load(2, 128, "BB", 0x22), "0706"),
            (load(2, 65535, "BB", 0x22), "0706"),
            (load(2, 0, "AA", 0x12), "0706"),
        ],
    );
}

fn load_tag_occupied_conflict(folder: &mut Folder) {
    folder.add(
        "order-load-0025-before-0709",
        [
            (manage(1, 128), "0000"),
            (manage(2, 1), "0000"),
            (load(1, 0, "AA", 0x11), "0000"),
            (load(2, 0, "AA", 0x11), "0000"),
            (load(1, 128, "BB", 0x22), "0025"),
            (load(1, 256, "BB", 0x22), "0025"),
            (load(2, 256, "BB", 0x22), "0025"),
        ],
    );
    folder.add(
        "order-load-0025-before-070c",
        [
            (manage(1, 1), "0000"),
            (load(1, 0, "AA", 0x11), "0000"),
            (load(1, 1, "AA", 0x12), "0025"),
            (load(1, 65535, "AA", 0x12), "0025"),
        ],
    );
    folder.add(
        "order-load-0709-before-070c",
        [
            (manage(1, 2), "0000"),
            (load(1, 0, "AA", 0x11), "0000"),
            (load(1, 1, "BB", 0x22), "0000"),
            (load(1, 0, "AA", 0x12), "0709"),
            (load(1, 1, "AA", 0x12), "0709"),
            (load(1, 0, "BB", 0x23), "0709"),
        ],
    );
}

fn replace_lengths(folder: &mut Folder) {
    let u17 = "AA".repeat(17);
    folder.add(
        "order-replace-lengths",
        [
            ("04010000".to_string(), "0703"),
            ("0401000000".to_string(), "0704"),
            ("0401000011".to_string(), "0704"),
            ("0401000001".to_string(), "0703"),
            ("0401000001AA".to_string(), "0703"),
            ("0401000001AA00".to_string(), "0704"),
            ("0401000001AA11".to_string(), "0704"),
            ("0401000001AA01".to_string(), "0703"),
            ("0401000000AA01".to_string(), "0704"),
            ("0401000011AA11".to_string(), "0704"),
            (replace(1, 0, "", &u17, 0x22) + LONG, "0704"),
            (replace(1, 0, "AA", &u17, 0x22) + LONG, "0704"),
            (replace(1, 0, "AA", "", 0x22) + LONG, "0704"),
            (replace(1, 0, "AA", "BB", 0x22) + LONG, "0703"),
            (format!("0401000010{}", "AA".repeat(16)), "0703"),
            (format!("0401000010{}11", "AA".repeat(16)), "0704"),
            (format!("0401000010{}10", "AA".repeat(16)), "0703"),
        ],
    );
}

fn replace_lengths_before_namespace(folder: &mut Folder) {
    let u17 = "AA".repeat(17);
    folder.add(
        "order-replace-0704-before-000b",
        [
            (replace(5, 0, "", "BB", 0x22), "0704"),
            (replace(5, 0, "AA", "", 0x22), "0704"),
            (replace(0, 0, &u17, "BB", 0x22), "0704"),
            (replace(0, 0, "AA", &u17, 0x22), "0704"),
            (replace(0, 0, "AA", "BB", 0x22), "000B"),
        ],
    );
    folder.add(
        "order-replace-0703-before-000b",
        [
            ("04050000".to_string(), "0703"),
            ("0405000001AA".to_string(), "0703"),
            (replace(5, 0, "AA", "BB", 0x22) + LONG, "0703"),
            (replace(5, 0, "AA", "BB", 0x22)[..78].to_string(), "0703"),
            (replace(5, 0, "AA", "BB", 0x22), "000B"),
        ],
    );
}

fn replace_order(folder: &mut Folder) {
    folder.add(
        "order-replace-000b-and-0706-before-the-rest",
        [
            (manage(1, 1), "0000"),
            (load(1, 0, "AA", 0x11), "0000"),
            (replace(0, 0, "BB", "AA", 0x12), "000B"),
            (replace(5, 65535, "BB", "AA", 0x12), "000B"),
            (replace(2, 0, "AA", "BB", 0x22), "0706"),
            (replace(2, 65535, "AA", "BB", 0x22), "0706"),
            (replace(2, 0, "AA", "AA", 0x12), "0706"),
        ],
    );
    folder.add(
        "order-replace-0025-before-070a-070b-070c",
        [
            (manage(1, 1), "0000"),
            (manage(2, 1), "0000"),
            (load(1, 0, "AA", 0x11), "0000"),
            (replace(1, 1, "AA", "BB", 0x22), "0025"),
            (replace(1, 128, "AA", "BB", 0x22), "0025"),
            (replace(1, 256, "BB", "CC", 0x22), "0025"),
            (replace(1, 65535, "AA", "AA", 0x12), "0025"),
            (replace(2, 1, "AA", "AA", 0x12), "0025"),
        ],
    );
}

fn replace_empty_old_conflict(folder: &mut Folder) {
    folder.add(
        "order-replace-070a-before-070b-and-070c",
        [
            (manage(1, 2), "0000"),
            (load(1, 0, "AA", 0x11), "0000"),
            (replace(1, 1, "BB", "CC", 0x33), "070A"),
            (replace(1, 1, "AA", "AA", 0x12), "070A"),
            (replace(1, 1, "BB", "AA", 0x12), "070A"),
        ],
    );
    folder.add(
        "order-replace-070b-before-070c",
        [
            (manage(1, 2), "0000"),
            (load(1, 0, "AA", 0x11), "0000"),
            (load(1, 1, "BB", 0x22), "0000"),
            (replace(1, 0, "BB", "AA", 0x12), "070B"),
            (replace(1, 0, "BB", "BB", 0x23), "070B"),
            (replace(1, 1, "AA", "BB", 0x23), "070B"),
            (replace(1, 0, "AA", "BB", 0x23), "070C"),
        ],
    );
}

fn clear_one_order(folder: &mut Folder) {
    folder.add(
        "order-clear-one",
        [
            (manage(1, 1), "0000"),
            (load(1, 0, "AA", 0x11), "0000"),
            (clear_one(5, 0) + LONG, "0703"),
            (clear_one(5, 65535), "000B"),
            (clear_one(0, 0), "000B"),
            (clear_one(2, 0), "0706"),
            (clear_one(2, 65535), "0706"),
            (clear_one(1, 1), "0025"),
            (clear_one(1, 256), "0025"),
            (clear_one(1, 0), "0000"),
            (clear_one(1, 1), "0025"),
            (clear_one(1, 0), "070A"),
        ],
    );
}

fn io_order(folder: &mut Folder) {
    folder.add(
        "order-io-0001-before-000b-and-0080",
        [
            (io(0x00, 0, 0, 0, 0), "0001"),
            (io(0x03, 5, 0, 0, 0), "0001"),
            (io(0xFF, u32::MAX, 0, u64::MAX, 65535), "0001"),
            (io(0x0D, 1, 0, 256, 0), "0001"),
            (io(0x0C, 5, 0, 0, 0), "000B"),
        ],
    );
    folder.add(
        "order-io-000b-before-0080",
        [
            (read(0, 0, 256, 0), "000B"),
            (read(5, 0, 255, 1), "000B"),
            (read(257, 0, u64::MAX, 65535), "000B"),
            (with(&read(5, 65535, 256, 0), 50, 0), "000B"),
            (read(4, 0, 256, 0), "0080"),
        ],
    );
}

fn io_unmanaged(folder: &mut Folder) {
    folder.add(
        "order-io-0080-before-unmanaged-passes",
        [
            (read(1, 0, 256, 0), "0080"),
            (write(2, 0, 255, 1), "0080"),
            (io(COMPARE, 3, 0, u64::MAX, 0), "0080"),
            (io(VERIFY, 4, 0, 0, 256), "0080"),
            (io(VERIFY, 4, 0, 0, 255), "0000"),
        ],
    );
    folder.add(
        "order-io-unmanaged-passes-before-0002-and-0025",
        [
            (manage(1, 1), "0000"),
            (with(&read(1, 65535, 0, 0), 50, 0), "0002"),
            (with(&read(2, 65535, 0, 0), 50, 0), "0000"),
            (read(2, 65535, 0, 0), "0000"),
            (read(1, 65535, 0, 0), "0025"),
        ],
    );
}

fn untyped(line: String) -> String {
    with(&line, 50, 0x02)
}

fn io_cetype(folder: &mut Folder) {
    folder.add(
        "order-io-0080-before-0002",
        [
            (manage(1, 1), "0000"),
            (untyped(read(1, 0, 256, 0)), "0080"),
            (untyped(read(1, 65535, 255, 1)), "0080"),
            (read(1, 65535, 256, 0), "0080"),
            (untyped(read(1, 0, 255, 0)), "0002"),
        ],
    );
    folder.add(
        "order-io-0002-before-0025-and-0028",
        [
            (manage(1, 2), "0000"),
            (load(1, 0, "AA", 0x11), "0000"),
            (write(1, 0, 0, 0), "0000"),
            (replace(1, 0, "AA", "BB", 0x22), "0000"),
            (untyped(read(1, 0, 0, 0)), "0002"),
            (untyped(read(1, 1, 0, 0)), "0002"),
            (untyped(read(1, 2, 0, 0)), "0002"),
            (untyped(write(1, 65535, 0, 0)), "0002"),
            (read(1, 0, 0, 0), "0028"),
        ],
    );
}

fn io_key_check(folder: &mut Folder) {
    folder.add(
        "order-io-0025-before-0028",
        [
            (manage(1, 2), "0000"),
            (load(1, 0, "AA", 0x11), "0000"),
            (write(1, 0, 0, 255), "0000"),
            (read(1, 1, 0, 0), "0025"),
            (read(1, 2, 0, 0), "0025"),
            (clear_one(1, 0), "0000"),
            (read(1, 0, 0, 0), "0025"),
            (load(1, 0, "BB", 0x22), "0000"),
            (read(1, 0, 0, 0), "0028"),
        ],
    );
}

fn boot_order(folder: &mut Folder) {
    folder.add(
        "order-set-features-0002-before-010e",
        [
            (set_features(0x1B), "0000"),
            (set_features(0x21), "0002"),
            (set_features(0x0C), "0002"),
            (set_features(0x49), "0002"),
            (set_features(0x8000_0009), "0002"),
            (set_features(0x3A), "0002"),
            (set_features(0x17), "0002"),
            (set_features(0x09), "010E"),
            (get_features(), "00001B000000"),
        ],
    );
    folder.add(
        "order-boot-write-0002-before-011e",
        [
            (boot_write(2), "0002"),
            (boot_write(255), "0002"),
            (boot_write(0), "011E"),
            (boot_write(1), "011E"),
            (boot_write(2) + LONG, "0703"),
        ],
    );
}
