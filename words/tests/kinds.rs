//! Every kind of line: what of it is shown, and what it asks, in words.

mod typist;

use std::slice;

use typist::*;
use words::frames::{self, Asked};
use words::kinds::Kind;

const LONGEST: &[u8] = b"SIXTEEN-BYTES-16";

/// The line as shown, and what was asked.
fn told(line: &str) -> (String, String) {
    (rows(line, "0000")[0].clone(), asked(line))
}

fn tells(line: &str, shown: &str, words: &str) {
    assert_eq!(told(line), (shown.to_string(), words.to_string()));
}

#[test]
fn rooms_get_and_give_back_numbers() {
    tells("010104", "010104", "give 4 numbers to room 1: 0 to 3");
    tells("010201", "010201", "give 1 number to room 2: 0");
    tells("010900", "010900", "give no numbers to room 9");
    tells("0104FF", "0104FF", "give 255 numbers to room 4: 0 to 254");
    tells("0202", "0202", "take back all numbers of room 2");
}

#[test]
fn keys_are_loaded_replaced_and_cleared() {
    tells(
        &load(1, 0, HERON, &KEY),
        "03010000054845524F4E..",
        "load HERON under number 0 of room 1",
    );
    tells(
        &load(4, 127, LONGEST, &KEY),
        "03047F00105349585445454E2D42595445532D3136..",
        "load SIXTEEN-BYTES-16 under number 127 of room 4",
    );
    tells(
        &replace(1, 258, b"OTTER", b"HERON2", &KEY),
        "04010201054F54544552064845524F4E32..",
        "replace OTTER by HERON2 under number 258 of room 1",
    );
    tells("05010300", "05010300", "clear number 3 of room 1");
    tells("0603", "0603", "clear all numbers of room 3");
}

#[test]
fn wrapped_keys_are_loaded() {
    tells(
        &wrapped_load(1, 0, HERON, &WRAPPED),
        "0E010000054845524F4E..",
        "load HERON, wrapped, under number 0 of room 1",
    );
    tells(
        &wrapped_load(4, 300, LONGEST, &WRAPPED),
        "0E042C01105349585445454E2D42595445532D3136..",
        "load SIXTEEN-BYTES-16, wrapped, under number 300 of room 4",
    );
}

/// A bare key in the wrapped key's place, or a wrapped key in a bare one's: nothing of it is shown.
#[test]
fn a_key_in_the_wrong_kind_of_load() {
    let bare = wrapped_load(1, 0, HERON, &KEY);
    tells(&bare, "0E..", "a load of a wrapped key that cannot be read");
    tells(&load(1, 0, HERON, &WRAPPED), "03..", "a load that cannot be read");
}

#[test]
fn names_are_shown_so_that_two_never_look_the_same() {
    let named = |name: &[u8]| asked(load(1, 0, name, &KEY));
    assert_eq!(named(b"AA"), "load AA under number 0 of room 1");
    assert_eq!(named(&[0xAA]), "load AA (in digits) under number 0 of room 1");
    assert_eq!(named(b"A B "), "load \"A B \" under number 0 of room 1");
    assert_eq!(named(b"A\nB"), "load 410A42 (in digits) under number 0 of room 1");
    assert_eq!(named("Å".as_bytes()), "load C385 (in digits) under number 0 of room 1");
    assert_eq!(named(&[0x7F]), "load 7F (in digits) under number 0 of room 1");
}

#[test]
fn sound_is_recorded_played_compared_and_verified() {
    tells(&io(0x01, 1, 0, 0, 9, 1), "0701..", "record blocks 0 to 9 of room 1 with number 0");
    tells(&play(2, 3, 255, 0), "0702..", "play block 255 of room 2 with number 3");
    tells(&io(0x05, 1, 0, 1, 1, 1), "0705..", "compare blocks 1 to 2 of room 1 with number 0");
    tells(&io(0x0C, 1, 0, 7, 0, 1), "070C..", "verify block 7 of room 1 with number 0");
    tells(
        &io(0x0F, 1, 0, 7, 0, 1),
        "070F..",
        "do what opcode 0F says with block 7 of room 1 with number 0",
    );
}

#[test]
fn a_command_without_a_number() {
    let without = |cetype| asked(io(0x02, 1, 5, 0, 0, cetype));
    assert_eq!(without(0), "play block 0 of room 1 without a number (CETYPE is 0)");
    assert_eq!(without(0xF), "play block 0 of room 1 without a number (CETYPE is F)");
}

#[test]
fn the_highest_numbers_of_a_command() {
    let highest = asked(io(0x02, u32::MAX, u16::MAX, u64::MAX, u16::MAX, 1));
    let blocks = "blocks 18446744073709551615 to 18446744073709617150";
    assert_eq!(highest, format!("play {blocks} of room 4294967295 with number 65535"));
}

#[test]
fn boot_locks_are_set() {
    let set = |dword: u32| asked("08".to_string() + &hex(&dword.to_le_bytes()));
    assert_eq!(set(0o00), "leave both boot partitions as they are");
    assert_eq!(set(0o11), "unlock both boot partitions");
    assert_eq!(set(0o22), "lock both boot partitions");
    assert_eq!(set(0o33), "lock both boot partitions until the power cycles");
    assert_eq!(
        set(0o13),
        "lock boot partition 0 until the power cycles and unlock boot partition 1"
    );
    assert_eq!(set(0o20), "leave boot partition 0 as it is and lock boot partition 1");
    assert_eq!(
        set(0o42),
        "lock boot partition 0 and bring boot partition 1 into the unknown state 4"
    );
    assert_eq!(set(0o111), "unlock both boot partitions, with bits set that mean nothing");
    assert_eq!(
        set(0x8000_0000),
        "leave both boot partitions as they are, with bits set that mean nothing"
    );
    tells("0809000000", "0809000000", "unlock both boot partitions");
}

#[test]
fn the_short_ones() {
    tells("09", "09", "tell the boot locks");
    tells("0A01", "0A01", "write boot partition 1");
    tells("0AFF", "0AFF", "write boot partition 255");
    tells("0B00", "0B00", "controller level reset");
    tells("0B01", "0B01", "power cycle");
    tells("0B02", "0B02", "a reset of level 2");
    tells("0C", "0C", "tell what the drive is");
}

#[test]
fn a_message_tells_its_name() {
    tells(
        &message_load(1, 0, HERON, &KEY),
        "0D010000..",
        "load HERON by a message under number 0 of room 1",
    );
    tells(
        &message_load(2, 300, LONGEST, &KEY),
        "0D022C01..",
        "load SIXTEEN-BYTES-16 by a message under number 300 of room 2",
    );
}

/// Of what cannot be followed to a name no name is told.
#[test]
fn a_message_without_a_name() {
    let nameless = |message: &[u8]| {
        tells(
            &message_line(1, 0, message),
            "0D010000..",
            "load a key by a message under number 0 of room 1",
        )
    };
    let name = text(0x420094, HERON);
    let whole = request(&[name.clone(), symmetric_key(&KEY)]);
    nameless(&request(&[symmetric_key(&KEY)]));
    nameless(&request(&[text(0x420094, b"")]));
    nameless(&request(&[text(0x420094, b"SEVENTEEN-BYTES-X")]));
    nameless(&request(&[item(0x420094, 0x08, HERON)]));
    nameless(&request(&[item(0x420094, 0x08, HERON), name.clone()]));
    nameless(&structure(0x420078, slice::from_ref(&name)));
    nameless(&structure(0x420078, &[structure(0x420079, slice::from_ref(&name))]));
    nameless(&item(0x420078, 0x08, &whole[8..]));
    nameless(&whole[..whole.len() - 1]);
    nameless(&whole[..3]);
    let mut padded = whole.clone();
    let at = padded.windows(5).position(|five| five == HERON).expect("the name");
    padded[at + 5] = 1;
    nameless(&padded);
    let mut endless = whole.clone();
    endless[4..8].copy_from_slice(&[0xFF; 4]);
    nameless(&endless);
}

/// The name is found behind other items, and the first of two counts.
#[test]
fn a_name_among_other_items() {
    let other = item(0x420057, 0x05, &[0, 0, 0, 2]);
    let names = [other, text(0x420094, HERON), text(0x420094, b"OTTER")];
    assert_eq!(
        asked(message_line(1, 0, &request(&names))),
        "load HERON by a message under number 0 of room 1"
    );
}

/// What is no message at all may be a key in the wrong place, and then room and number are bytes of it too.
#[test]
fn no_message_where_one_should_be() {
    tells("0D010000", "0D..", "a load by a message, without a message");
    tells(&message_line(1, 0, &KEY), "0D..", "a load by a message, without a message");
    tells(&("0D".to_string() + &hex(&KEY)), "0D..", "a load by a message, without a message");
    tells("0D01004200", "0D..", "a load by a message, without a message");
}

#[test]
fn kinds_have_their_numbers() {
    let first = |byte| match frames::read(hex(&[byte]).as_bytes()) {
        Asked::Spoilt(kind, _) => Some(kind),
        Asked::Frame(_) => Kind::of(byte),
        _ => None,
    };
    assert_eq!(first(0x01), Some(Kind::Manage));
    assert_eq!(first(0x04), Some(Kind::Replace));
    assert_eq!(first(0x07), Some(Kind::Io));
    assert_eq!(first(0x0D), Some(Kind::Message));
    assert_eq!(first(0x0E), Some(Kind::WrappedLoad));
    for byte in 0x01..=0x0E {
        assert_eq!(first(byte).map(|kind| kind as u8 + 1), Some(byte));
    }
    for byte in (0x0F..=0xFF).chain([0x00]) {
        assert_eq!(first(byte), None);
    }
}

/// Every kind that docs/RULES.md has in its table of frames, with its length if it has but one.
#[test]
fn every_kind_of_the_rules_is_known() {
    let rules = include_str!("../../docs/RULES.md");
    let table = rules.split("| Kind | Frame |").nth(1).expect("the table of frames");
    let rows: Vec<_> = table.lines().skip(2).take_while(|row| row.starts_with('|')).collect();
    assert_eq!(rows.len(), 14);
    for row in rows {
        let cells: Vec<_> = row.split('|').map(str::trim).collect();
        let byte = u8::from_str_radix(cells[1].trim_matches('`'), 16).expect("a kind");
        let kind = Kind::of(byte).unwrap_or_else(|| panic!("{row}"));
        assert_eq!(kind.bytes(), cells[4].parse().ok(), "{row}");
    }
}
