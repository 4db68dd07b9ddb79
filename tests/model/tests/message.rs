//! Kind 0D through the drive, and the changed messages that the tests are made from.

mod bench;

use bench::Bench;
use model::kmip;
use model::lines::*;
use model::messages::*;
use model::ttlv::{read as sound, Node};

const U16: &str = "A0A1A2A3A4A5A6A7A8A9AAABACADAEAF";
const U17: &str = "A0A1A2A3A4A5A6A7A8A9AAABACADAEAFB0";

/// Items of the worked message.
const MESSAGE: usize = 0;
const ATTRIBUTES: usize = 11;

/// The digits of the message that the notes on request 5 work out.
fn worked_digits() -> String {
    let text = include_str!("../worked-message.txt");
    text.lines().filter(|line| !line.starts_with('#')).collect()
}

fn worked() -> Vec<u8> {
    unhex(&worked_digits())
}

/// A drive with namespace 1 managed.
fn managed() -> Bench {
    let mut bench = Bench::new();
    bench.accept(manage(1, 2));
    bench
}

/// What the drive answers to a message for tag 0 of namespace 1; an accepted one has the worked
/// message's effects.
fn answer(message: &[u8]) -> String {
    let (mut bench, mut by_load) = (managed(), managed());
    let answer = bench.say(message_frame(1, 0, message));
    if answer == "0000" {
        by_load.accept(load(1, 0, "AA", 0x11));
    }
    assert!(bench.drive == by_load.drive && bench.marks == by_load.marks);
    answer
}

#[test]
fn the_worked_message_is_a_load() {
    let line = "0D010000".to_string() + &worked_digits();
    assert_eq!(line.len(), 808);
    assert_eq!(message_load(1, 0, "AA", 0x11), line);
    let (mut bench, mut by_load) = (managed(), managed());
    bench.accept(&line);
    by_load.accept(load(1, 0, "AA", 0x11));
    assert!(bench.drive == by_load.drive && bench.marks == by_load.marks);
    assert_eq!(bench.drive.keys[..3], [1, 0xAA, 0]);
    assert_eq!(bench.drive.keys[17..49], [0x11; 32]);
    bench.refuse(&line, "0709");
    bench.refuse(load(1, 1, "AA", 0x12), "070C");
    bench.accept(load(1, 1, "AA", 0x11));
    bench.accept(write(1, 0, 7, 0));
    bench.accept(read(1, 1, 7, 0));
    bench.accept(replace(1, 0, "AA", "BB", 0x22));
    bench.refuse(read(1, 0, 7, 0), "0028");
}

#[test]
fn the_same_effects_as_kind_03() {
    for namespace in 1..=4 {
        for (tag, length) in (0..128).step_by(9).zip((1..=16).cycle()) {
            let (mut bench, mut by_load) = (Bench::new(), Bench::new());
            bench.accept(manage(namespace, 128));
            by_load.accept(manage(namespace, 128));
            bench.accept(message_load(namespace, tag, &U16[..2 * length], 0x5A));
            by_load.accept(load(namespace, tag, &U16[..2 * length], 0x5A));
            assert!(bench.drive == by_load.drive && bench.marks == by_load.marks);
        }
    }
}

#[test]
fn checks_in_order() {
    let mut bench = managed();
    bench.accept(load(1, 0, "AA", 0x11));
    // No frame line, whatever the kind and the message.
    bench.refuse("0D0", "0701040000");
    bench.refuse(message_load(5, 0, U17, 0x11) + "0", "0701040000");
    bench.refuse(message_load(1, 1, "AB", 0x11).to_lowercase(), "0701030100");
    // Under 4 bytes.
    for line in ["0D", "0D05", "0D0500", "0D0100"] {
        bench.refuse(line, "0703");
    }
    // The message, before the namespace: a key of 31 bytes before a KeyUID of 17.
    let short_key = |namespace, uid: &str| {
        let message = kmip::message(namespace, 0, &unhex(uid), &[0x11; 31]);
        message_frame(namespace, 0, &message)
    };
    bench.refuse("0D050000", "0717");
    bench.refuse(short_key(5, U17), "0717");
    bench.refuse(short_key(5, ""), "0717");
    bench.refuse(message_load(5, 65535, U17, 0x11), "0718");
    bench.refuse(message_load(5, 65535, "", 0x11), "0718");
    // Then as for kind 03.
    bench.refuse(message_load(0, 65535, "AA", 0x12), "000B");
    bench.refuse(message_load(5, 65535, "AA", 0x12), "000B");
    bench.refuse(message_load(2, 65535, "AA", 0x12), "0706");
    bench.refuse(message_load(1, 2, "AA", 0x12), "0025");
    bench.refuse(message_load(1, 256, "AA", 0x12), "0025");
    bench.refuse(message_load(1, 0, "AA", 0x12), "0709");
    bench.refuse(message_load(1, 1, "AA", 0x12), "070C");
    bench.accept(message_load(1, 1, "AA", 0x11));
}

#[test]
fn frames_of_every_length() {
    let mut bench = managed();
    let line = message_load(1, 0, "AA", 0x11) + &"00".repeat(112);
    for bytes in 1..=512 {
        match bytes {
            1..=3 => bench.refuse(&line[..2 * bytes], "0703"),
            404 => {}
            _ => bench.refuse(&line[..2 * bytes], "0717"),
        }
        bench.refuse(&line[..2 * bytes - 1], "0701040000");
    }
    bench.refuse(&line[..1025], "0701020000");
    bench.refuse(&line[..1026], "0701020000");
    bench.accept(&line[..2 * 404]);
}

/// A message ends at a multiple of eight, so the longest has 504 bytes.
#[test]
fn the_longest_message() {
    let with_filling = |bytes: usize| {
        let filling = Node::bytes(UNKNOWN, &vec![0xEE; bytes]);
        edited(&worked(), MESSAGE + 1, |members, _| members.push(filling)).unwrap()
    };
    let longest = with_filling(96);
    assert_eq!(longest.len(), 504);
    assert_eq!(answer(&longest), "0000");
    assert_eq!(answer(&[&longest[..], &[0; 4]].concat()), "0717");
    assert_eq!(answer(&[&longest[..], &[0; 5]].concat()), "0701020000");
    assert_eq!(with_filling(97).len(), 512);
    assert_eq!(answer(&with_filling(97)), "0701020000");
}

#[test]
fn the_frame_says_where() {
    let mut bench = Bench::new();
    (1..=4).for_each(|namespace| bench.accept(manage(namespace, 64)));
    for namespace in 0..=255 {
        for tag in [0, 1, 63, 256, 0xFFFF] {
            if (namespace, tag) != (1, 0) {
                bench.refuse(message_frame(namespace, tag, &worked()), "0717");
            }
        }
    }
    // Little-endian in the frame, big-endian in the message.
    bench.refuse(message_frame(1, 0x0300, &kmip::message(1, 3, b"k", &[1; 32])), "0717");
    assert!(message_load(1, 0x0102, "AA", 0x11).starts_with("0D010201"));
    bench.accept(message_load(1, 3, "AA", 0x11));
}

#[test]
fn key_uids_of_0_to_20_bytes() {
    for length in 0..=20 {
        let mut bench = managed();
        let line = message_load(1, 1, &"C3".repeat(length), 0x11);
        match length {
            1..=16 => bench.accept(line),
            _ => bench.refuse(line, "0718"),
        }
    }
}

#[test]
fn changes_of_items() {
    assert_eq!(items(&worked()), 29);
    let of =
        |change| (0..29).filter_map(move |item| Some((item, changed(&worked(), item, change)?)));
    for (item, message) in of(Change::Drop) {
        let is_whole = item == MESSAGE;
        assert_eq!(answer(&message), "0717", "{item}");
        assert!(sound(&message).is_some() && message.is_empty() == is_whole);
    }
    // Batch Item, Request Payload and Attributes are too long to stand twice.
    for (item, message) in of(Change::Double) {
        let too_long = [MESSAGE, 6, 8, ATTRIBUTES].contains(&item);
        assert_eq!(message.len() > 508, too_long, "{item}");
        assert_eq!(answer(&message), if too_long { "0701020000" } else { "0000" }, "{item}");
    }
    let free = [12, 13, 14, 16, 17, 18, 21, 22, 26];
    assert_eq!(of(Change::Swap).count(), 16);
    for (item, message) in of(Change::Swap) {
        let expected = if free.contains(&item) { "0000" } else { "0717" };
        assert_eq!(answer(&message), expected, "{item} behind the next");
    }
    for change in [Change::Retype, Change::Wrap] {
        assert_eq!(of(change).count(), 29);
        of(change).for_each(|(item, message)| {
            assert_eq!(answer(&message), "0717", "{change:?} of {item}");
            assert!(sound(&message).is_some());
        });
    }
}

#[test]
fn changes_of_depth() {
    for depth in 1..=10 {
        for item in 0..29 {
            let Some(message) = changed(&worked(), item, Change::Nest(depth)) else {
                assert!(depth < 7);
                continue;
            };
            let beside_the_message = item == MESSAGE;
            let expected = if depth > 8 || beside_the_message { "0717" } else { "0000" };
            assert_eq!(sound(&message).is_some(), depth <= 8);
            assert_eq!(answer(&message), expected, "{depth} deep before {item}");
        }
    }
    // A structure as deep as may be has no members.
    for (structures, expected) in [(6, "0000"), (7, "0717")] {
        let inner = nested(structures, Node::structure(UNKNOWN, []));
        let message = edited(&worked(), 1, |members, at| members.insert(at, inner)).unwrap();
        assert_eq!(answer(&message), expected);
    }
}

#[test]
fn changes_of_bytes() {
    let places = padding(&worked());
    assert_eq!(places.len(), 60);
    assert_eq!(places[..5], [36, 37, 38, 39, 52]);
    for at in places {
        assert_eq!(worked()[at], 0);
        assert_eq!(answer(&with_byte(&worked(), at, 0x80)), "0717", "{at}");
    }
    assert_eq!(cuts(&worked()).count(), 400);
    cuts(&worked()).for_each(|message| assert_eq!(answer(message), "0717"));
}

#[test]
fn every_change_is_one() {
    let all: Vec<_> = all_changed(&worked()).collect();
    // No more than 16 items have a next one, and all have the other changes.
    assert_eq!(all.len(), 6 * 29 + 16);
    assert!(all.iter().all(|(_, _, message)| *message != worked()));
    assert_eq!(changed(&worked(), 29, Change::Drop), None);
    assert_eq!(changed(&worked()[1..], 0, Change::Drop), None);
    assert_eq!(edited(&worked(), 29, |_, _| {}), None);
    assert_eq!(edited(&worked(), 28, |_, _| {}), Some(worked()));
}
