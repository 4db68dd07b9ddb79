//! Every answer in words, by what was asked where that helps.

mod typist;

use typist::*;
use words::answers;

const RESPONSE: &str = include_str!("../../tests/discovery/response.txt");

fn refusals(line: impl AsRef<[u8]>, awaited: &[(&str, &str)]) {
    for (answer, words) in awaited {
        assert_eq!(said(line.as_ref(), answer), *words, "{answer}");
    }
}

fn response() -> String {
    RESPONSE.lines().filter(|line| !line.starts_with('#')).collect()
}

#[test]
fn manage() {
    refusals(
        "010981",
        &[
            ("0000", "done: room 9 has its numbers"),
            ("000B", "there is no room 9: rooms are 1 to 4"),
            ("0705", "room 9 has numbers already; they must be taken back first (kind 02)"),
            ("0707", "a room can have 1 to 128 numbers, and not 129"),
            ("0708", "the drive has 256 numbers for all rooms together, and not so many are left"),
        ],
    );
}

#[test]
fn release_and_clear_all() {
    let none = "room 3 has no numbers; it must be given some first (kind 01)";
    refusals("0203", &[("0000", "done: room 3 has no numbers and no keys now"), ("0706", none)]);
    refusals("0603", &[("0000", "done: room 3 has no keys now"), ("0706", none)]);
    refusals("0600", &[("000B", "there is no room 0: rooms are 1 to 4")]);
}

const LOADING: [(&str, &str); 6] = [
    ("0000", "done: HERON is loaded there"),
    ("000B", "there is no room 1: rooms are 1 to 4"),
    ("0706", "room 1 has no numbers; it must be given some first (kind 01)"),
    ("0025", "room 1 has no number 5"),
    (
        "0709",
        "number 5 of room 1 is taken: the key there stays; clear it first, or replace it (kind 04)",
    ),
    ("070C", "HERON is loaded somewhere with another key: one name stands for one key"),
];

#[test]
fn load_by_hand() {
    refusals(load(1, 5, HERON, &KEY), &LOADING);
}

#[test]
fn load_of_a_wrapped_key() {
    let closed =
        "the wrapped key cannot be opened: a digit of it is wrong, or it was wrapped for another drive";
    let line = wrapped_load(1, 5, HERON, &WRAPPED);
    refusals(&line, &LOADING);
    refusals(&line, &[("0710", closed)]);
    refusals(load(1, 5, HERON, &KEY), &[("0710", "the wrapped key cannot be opened")]);
}

#[test]
fn load_by_a_message() {
    let invalid =
        "the message brings no key to number 5 of room 1: it is for another, damaged or incomplete";
    let name = "the message names its key with no bytes, or with more than 16";
    let line = message_load(1, 5, HERON, &KEY);
    refusals(&line, &LOADING);
    refusals(&line, &[("0717", invalid), ("0718", name)]);
    let nameless = message_load(1, 5, b"", &KEY);
    refusals(
        nameless,
        &[
            ("0000", "done: the key is loaded there"),
            ("0718", name),
            ("070C", "its name is loaded somewhere with another key: one name stands for one key"),
        ],
    );
}

#[test]
fn replace_a_key() {
    refusals(
        replace(1, 5, b"OTTER", HERON, &KEY),
        &[
            ("0000", "done: HERON is there now"),
            ("000B", "there is no room 1: rooms are 1 to 4"),
            ("0706", "room 1 has no numbers; it must be given some first (kind 01)"),
            ("0025", "room 1 has no number 5"),
            ("070A", "no key is loaded under number 5 of room 1"),
            ("070B", "the key under number 5 of room 1 is not OTTER: it stays"),
            ("070C", "HERON is loaded somewhere with another key: one name stands for one key"),
        ],
    );
}

#[test]
fn clear_one() {
    refusals(
        "05010500",
        &[
            ("0000", "done: no key is there now"),
            ("0025", "room 1 has no number 5"),
            ("070A", "no key is loaded under number 5 of room 1"),
        ],
    );
}

#[test]
fn sound() {
    let several = [
        ("0000", "done"),
        ("0001", "the drive can record (01), play (02), compare (05) and verify (0C)"),
        ("0002", "room 1 has numbers, so one must be named: CETYPE must be 1"),
        ("000B", "there is no room 1: rooms are 1 to 4"),
        ("0025", "room 1 has no number 5, or no key is loaded under it"),
        ("0028", "at least one of blocks 250 to 259 was recorded under another key"),
        ("0080", "blocks 250 to 259 reach past the room's last, 255"),
    ];
    refusals(play(1, 5, 250, 9), &several);
    let one = [
        ("0028", "block 300 was recorded under another key"),
        ("0080", "block 300 is past the room's last, 255"),
    ];
    refusals(play(1, 5, 300, 0), &one);
}

#[test]
fn boot_partitions() {
    let held = "a boot partition is held until the power cycles; neither lock was changed";
    let state =
        "there is no such state: one is 0 to 3 for each partition, and all other bits are zero";
    refusals("0809000000", &[("0000", "done"), ("010E", held), ("0002", state)]);
    refusals(
        "0A01",
        &[
            ("0000", "done: it is unlocked"),
            ("011E", "boot partition 1 is locked"),
            ("0002", "the boot partitions are 0 and 1"),
        ],
    );
}

#[test]
fn resets() {
    let gone =
        "done: all keys are gone, and both boot partitions are locked; rooms keep their numbers";
    refusals("0B00", &[("0000", "done: it changes nothing")]);
    refusals("0B01", &[("0000", gone)]);
    refusals("0B02", &[("0002", "a reset is of level 0 (controller) or 1 (power cycle)")]);
}

#[test]
fn boot_locks_told() {
    refusals(
        "09",
        &[
            ("000009000000", "done: both boot partitions are unlocked"),
            ("000012000000", "done: both boot partitions are locked"),
            ("00001B000000", "done: both boot partitions are locked until the power cycles"),
            ("00000A000000", "done: boot partition 0 is locked, boot partition 1 is unlocked"),
            (
                "000019000000",
                "done: boot partition 0 is unlocked, boot partition 1 is locked until the power cycles",
            ),
            ("000000000000", "done: both boot partitions are in a state that there is not"),
            ("0000", "done"),
        ],
    );
}

#[test]
fn discovery_told() {
    let told = "done: the drive told what it is: 256 numbers for all rooms, up to 128 a room, KeyUIDs of up to 16 bytes; \
                notices a wrong key: yes; takes KMIP messages: yes; takes wrapped keys: yes";
    let ours = response();
    assert_eq!(ours.len(), 224);
    assert_eq!(said("0C", &format!("0000{ours}")), told);
    let less = ours.replace("0D0010010001", "F70010FE00FE");
    let told = told.replace("yes", "no");
    assert_eq!(said("0C", &format!("0000{less}")), told);
    let other = ours.replace("0305102C", "0306102C");
    assert_eq!(said("0C", &format!("0000{other}")), "done: the drive told what it is");
}

#[test]
fn no_frame_line() {
    refusals(
        "03x",
        &[
            ("0701", "this is no frame line"),
            ("0701010000", "this is no frame line: it is empty"),
            ("0701030200", "this is no frame line: a character in it is no digit"),
            ("0701050000", "this is no frame line"),
        ],
    );
    let long = "this is no frame line: it has 1026 characters, and a line has at most 1024";
    refusals("1".repeat(1026), &[("0701020000", long)]);
}

#[test]
fn an_odd_number_of_digits() {
    let odd = |digits, should| {
        format!("this is no frame line: it has {digits} digits, an odd number; {should}")
    };
    let load_has = "a load has 74 digits and 2 for each byte of the KeyUID";
    let line = load(1, 0, HERON, &KEY);
    refusals(&line[..83], &[("0701040000", &odd(83, load_has))]);
    refusals("0B0", &[("0701040000", &odd(3, "a reset has 4 digits"))]);
    refusals("111", &[("0701040000", &odd(3, "one is missing, or one too many"))]);
    let one =
        "this is no frame line: it has 1 digit, an odd number; one is missing, or one too many";
    refusals("0", &[("0701040000", one)]);
}

/// The numbers in README.md's table of answers, but for 0000.
fn numbers() -> Vec<&'static str> {
    let readme = include_str!("../../README.md");
    let table = readme.split("| Answer | In plain words |").nth(1).expect("the table of answers");
    let rows = table.lines().skip(2).take_while(|row| row.starts_with('|'));
    let numbers: Vec<_> = rows.map(|row| &row[2..6]).collect();
    assert!(numbers.len() >= 28 && numbers[0] == "0000");
    numbers[1..].to_vec()
}

/// Every number has words for any line, those too that no line of its kind can get.
#[test]
fn every_number_of_the_readme_is_known() {
    for number in numbers() {
        let value = u16::from_str_radix(number, 16).expect("four digits");
        let plain = answers::plain(value).unwrap_or_else(|| panic!("{number} has no words"));
        // Two lines, since 070F alone refuses a whole session.
        let page = words::page(b"0C\n0C\n", format!("0000\n{number}\n").as_bytes());
        assert!(page.expect("two answers").ends_with(&format!("{number}   {plain}\n")));
    }
}

/// What is no answer of the drive is not shown: it may be a line of a session, given in the wrong order.
#[test]
fn no_answers() {
    let key = load(1, 0, HERON, &KEY);
    for answer in ["0719", "000", "00000", "000000", "0000 ", "070100", "done", "070a", &key] {
        let rows = rows("0C", answer);
        assert_eq!(rows[2], "????   this is no answer of the drive");
    }
}
