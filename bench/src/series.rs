//! One kind of frame again and again, with one thing growing.

use model::kmip;
use model::lines::*;
use model::messages::{edited, with_byte, UNKNOWN};
use model::numbers::{KEY, KEY_UID, POOL, PROGRAM_KEK, ROOM, STORE, TAGS};
use model::ttlv::Node;
use model::wrap::wrap;
use model::{status, Drive};

use crate::race::Course;

const FRAMES: usize = 20_000;
/// How many keys come in turn where it may matter which.
const KEYS: u8 = 64;

/// A load and its clear in turn, in a full pool with so many other slots loaded. The KeyUIDs have
/// 16 bytes and differ in one.
pub fn loads(others: usize, in_byte: usize) -> Course {
    load_and_clear(others, |slot| {
        let mut uid = [0x5A; KEY_UID];
        uid[in_byte] = slot as u8;
        hex(&uid)
    })
}

/// The same with KeyUIDs of 1 to 16 bytes, which differ in the first.
pub fn loads_of_mixed_lengths(others: usize) -> Course {
    load_and_clear(others, |slot| {
        let mut uid = [0x5A; KEY_UID];
        uid[0] = slot as u8;
        hex(&uid[..KEY_UID - slot % KEY_UID])
    })
}

fn load_and_clear(others: usize, uid: impl Fn(usize) -> String) -> Course {
    let line = load(1, 0, &uid(0), 0xEE);
    line_and_clear(others, uid, line)
}

fn line_and_clear(others: usize, uid: impl Fn(usize) -> String, line: String) -> Course {
    course(whole_pool().chain(loaded(others, uid)), &[line, clear_one(1, 0)])
}

/// Loads into so many slots behind the first.
fn loaded(others: usize, uid: impl Fn(usize) -> String) -> impl Iterator<Item = String> {
    (1..=others).map(move |slot| {
        let (namespace, tag) = (1 + slot / TAGS, slot % TAGS);
        load(namespace as u8, tag as u16, &uid(slot), slot as u8)
    })
}

/// A load of a wrapped key and its clear in turn, with so many other slots loaded.
pub fn wrapped_loads(others: usize) -> Course {
    let uid = |slot: usize| hex(&[0x5A, slot as u8]);
    let turns = (0..KEYS).flat_map(|key| [wrapped_load(1, 0, &uid(0), !key), clear_one(1, 0)]);
    course(whole_pool().chain(loaded(others, uid)), &turns.collect::<Vec<_>>())
}

/// Wrapped keys that do not open.
pub fn refused_wrapped_loads() -> Course {
    let turns = (0..KEYS).map(|key| {
        let mut wrapped = wrap(&PROGRAM_KEK, &[key; KEY]);
        wrapped[usize::from(key) % wrapped.len()] ^= 1;
        wrapped_frame(1, 0, "5A00", &wrapped)
    });
    course(whole_pool(), &turns.collect::<Vec<_>>())
}

/// A load by message and its clear in turn, with so many other slots loaded and so many items more
/// than a message needs.
pub fn messages(others: usize, more_items: usize) -> Course {
    let more = vec![Node::structure(UNKNOWN, []); more_items];
    let message = edited(&message(), 1, |members, _| members.extend(more)).expect("a message");
    line_and_clear(others, |slot| hex(&[0x5A, slot as u8]), message_frame(1, 0, &message))
}

/// One refused message again and again: another value in one of its bytes.
pub fn refused_messages(at: usize) -> Course {
    let message = with_byte(&message(), at, 0x7F);
    course(whole_pool(), &[message_frame(1, 0, &message)])
}

fn message() -> Vec<u8> {
    kmip::message(1, 0, &[0x5A, 0], &[0xEE; KEY])
}

/// Every tag of the pool given to the first namespaces.
fn whole_pool() -> impl Iterator<Item = String> {
    (0..POOL / TAGS).map(|index| manage(1 + index as u8, TAGS as u8))
}

/// Four keys in namespace 1, and one line again and again: with just their four tags managed, or
/// with every tag of the pool.
pub fn four_keys(all_managed: bool, line: &str) -> Course {
    let loaded = (0..4).map(|tag| load(1, tag, &hex(&[0x5A, tag as u8]), tag as u8));
    let turns = [line.to_string()];
    match all_managed {
        true => course(whole_pool().chain(loaded), &turns),
        false => course([manage(1, 4)].into_iter().chain(loaded), &turns),
    }
}

/// One line again and again that brings no frame: zeros, with a letter among them or odd in number;
/// or of the unknown kind 00.
pub fn bad_lines(digits: usize, bad: Option<usize>) -> Course {
    let mut line = "0".repeat(digits);
    if let Some(place) = bad {
        line.replace_range(place..=place, "G");
    }
    course([], &[line])
}

/// One write again and again.
pub fn writes(blocks: usize) -> Course {
    course(recorded(), &[write(1, 0, 0, blocks as u16 - 1)])
}

/// One read again and again, of blocks written under the same key.
pub fn reads(blocks: usize) -> Course {
    course(recorded(), &[read(1, 0, 0, blocks as u16 - 1)])
}

fn recorded() -> [String; 3] {
    [manage(1, 1), load(1, 0, &"5A".repeat(KEY_UID), 0xEE), write(1, 0, 0, 255)]
}

fn course(before: impl IntoIterator<Item = String>, turns: &[String]) -> Course {
    let mut marks = vec![0; STORE];
    let (_, mut drive) = Drive::start(&PROGRAM_KEK, &mut marks);
    for line in before {
        let (number, _) = drive.line(&mut marks, line.as_bytes(), &mut [0; ROOM]);
        assert_eq!(number, status::DONE, "{line}");
    }
    let lines = turns.iter().cycle().take(FRAMES);
    let text = lines.flat_map(|line| line.bytes().chain([b'\n'])).collect();
    Course { text, lines: FRAMES, drive, marks }
}
