//! Loads in KMIP form as a person would try them: the worked message of the notes, and what it answers when one thing
//! is otherwise. An input holds no more than four or five of them.

use model::kmip;
use model::lines::*;
use model::messages::{edited, nested, with_byte, UNKNOWN};
use model::ttlv::{Node, Tag};

use crate::folder::Folder;

const A16: &str = "A0A1A2A3A4A5A6A7A8A9AAABACADAEAF";
const A17: &str = "A0A1A2A3A4A5A6A7A8A9AAABACADAEAFB0";

// Items of the worked message, counted from 0.
pub const HEADER: usize = 1;
pub const VERSION: usize = 2;
pub const MAJOR: usize = 3;
pub const OPERATION: usize = 7;
pub const IDENTIFIER: usize = 9;
pub const OBJECT_TYPE: usize = 10;
pub const ATTRIBUTES: usize = 11;
pub const PARAMETERS: usize = 12;
pub const ALGORITHM: usize = 14;
pub const LENGTH: usize = 15;
pub const NAMESPACE: usize = 16;
pub const TAG: usize = 20;
pub const FORMAT: usize = 26;

pub fn add(folder: &mut Folder) {
    worked_message(folder);
    few_bytes_and_many(folder);
    another_place(folder);
    key_uids(folder);
    padding(folder);
    depth(folder);
    order_of_members(folder);
    algorithm_and_length(folder);
    attribute_named_uid(folder);
    namespace_id_twice(folder);
    order_of_refusals(folder);
    order_as_of_a_load(folder);
    kinds_03_and_0d(folder);
    digits(folder);
}

/// The digits of the worked message.
fn worked_digits() -> String {
    let text = include_str!(concat!(env!("CARGO_MANIFEST_DIR"), "/worked-message.txt"));
    text.lines().filter(|line| !line.starts_with('#')).collect()
}

pub fn worked() -> Vec<u8> {
    unhex(&worked_digits())
}

/// The line of a message for tag 0 of namespace 1.
pub fn line(message: &[u8]) -> String {
    message_frame(1, 0, message)
}

/// The line of the worked message after an edit of one item and its siblings.
pub fn edited_line(item: usize, edit: impl FnOnce(&mut Vec<Node>, usize)) -> String {
    line(&edited(&worked(), item, edit).expect("an item"))
}

/// A tag of KMIP by its last two bytes.
pub fn tag(number: u16) -> Tag {
    let [high, low] = number.to_be_bytes();
    [0x42, high, low]
}

pub fn attribute(name: &[u8], value: i32) -> Node {
    let name = Node::text(tag(0x0A), name);
    Node::structure(
        tag(0x08),
        [Node::text(tag(0x9D), b"TCG-SWG"), name, Node::integer(tag(0x0B), value)],
    )
}

fn worked_message(folder: &mut Folder) {
    let worked = "0D010000".to_string() + &worked_digits();
    folder.add(
        "message-worked",
        [
            (manage(1, 3), "0000"),
            (worked.clone(), "0000"),
            (load(1, 1, "AA", 0x12), "070C"),
            (load(1, 1, "AA", 0x11), "0000"),
            (write(1, 0, 7, 0), "0000"),
            (read(1, 1, 7, 0), "0000"),
            (load(1, 2, "BB", 0x22), "0000"),
            (read(1, 2, 7, 0), "0028"),
            (worked.clone(), "0709"),
            (clear_one(1, 0), "0000"),
            (read(1, 0, 7, 0), "0025"),
            (worked, "0000"),
            (read(1, 0, 7, 0), "0000"),
        ],
    );
}

fn few_bytes_and_many(folder: &mut Folder) {
    let filling = Node::bytes(UNKNOWN, &[0xEE; 96]);
    let longest = edited_line(HEADER, |members, _| members.push(filling));
    assert_eq!(longest.len(), 2 * (4 + 504));
    folder.add(
        "message-of-few-bytes-and-of-many",
        [
            (manage(1, 1), "0000"),
            ("0D".to_string(), "0703"),
            ("0D01".to_string(), "0703"),
            ("0D0100".to_string(), "0703"),
            ("0D010000".to_string(), "0717"),
            ("0D01000042".to_string(), "0717"),
            ("0D0100004200780100000000".to_string(), "0717"),
            (format!("{longest}00000000"), "0717"),
            (format!("{longest}0000000000"), "0701020000"),
            (clear_one(1, 0), "070A"),
            (longest, "0000"),
            (clear_one(1, 0), "0000"),
        ],
    );
}

fn another_place(folder: &mut Folder) {
    folder.add(
        "message-for-another-namespace-or-tag",
        [
            (manage(1, 2), "0000"),
            (manage(2, 2), "0000"),
            (message_frame(1, 1, &worked()), "0717"),
            (message_frame(1, 256, &worked()), "0717"),
            (message_frame(2, 0, &worked()), "0717"),
            (clear_one(1, 1), "070A"),
            (clear_one(2, 0), "070A"),
            (clear_one(1, 0), "070A"),
            (message_frame(1, 0, &worked()), "0000"),
            (clear_one(1, 0), "0000"),
        ],
    );
}

fn key_uids(folder: &mut Folder) {
    folder.add(
        "message-key-uid-of-0-16-and-17",
        [
            (manage(1, 2), "0000"),
            (message_load(1, 0, "", 0x11), "0718"),
            (message_load(1, 0, A17, 0x11), "0718"),
            (clear_one(1, 0), "070A"),
            (message_load(1, 0, A16, 0x11), "0000"),
            (write(1, 0, 0, 0), "0000"),
            (load(1, 1, &A16[..30], 0x11), "0000"),
            (read(1, 1, 0, 0), "0028"),
            (replace(1, 1, &A16[..30], A16, 0x11), "0000"),
            (read(1, 1, 0, 0), "0000"),
        ],
    );
}

/// Behind the version's major number, behind the KeyUID and behind an attribute's name.
fn padding(folder: &mut Folder) {
    folder.add(
        "message-padding-not-zero",
        [
            (manage(1, 1), "0000"),
            (line(&with_byte(&worked(), 39, 0x01)), "0717"),
            (line(&with_byte(&worked(), 113, 0x80)), "0717"),
            (line(&with_byte(&worked(), 247, 0xFF)), "0717"),
            (clear_one(1, 0), "070A"),
            (line(&worked()), "0000"),
        ],
    );
}

/// In the outermost item stands one more, which nothing asks for: an integer at that depth, or an empty structure.
fn depth(folder: &mut Folder) {
    let with = |structures, inner| {
        edited_line(HEADER, |members, at| members.insert(at, nested(structures, inner)))
    };
    let integer = || Node::integer(UNKNOWN, 1);
    let empty = || Node::structure(UNKNOWN, []);
    folder.add(
        "message-depth-8-and-9",
        [
            (manage(1, 1), "0000"),
            (with(7, integer()), "0717"),
            (with(7, empty()), "0717"),
            (clear_one(1, 0), "070A"),
            (with(6, integer()), "0000"),
            (clear_one(1, 0), "0000"),
            (with(6, empty()), "0000"),
            (clear_one(1, 0), "0000"),
        ],
    );
}

/// Of the payload's members none may come before its turn; those of Attributes may.
fn order_of_members(folder: &mut Folder) {
    let swapped = |item| edited_line(item, |members, at| members.swap(at, at + 1));
    folder.add(
        "message-members-in-another-order",
        [
            (manage(1, 1), "0000"),
            (swapped(IDENTIFIER), "0717"),
            (swapped(ATTRIBUTES), "0717"),
            (clear_one(1, 0), "070A"),
            (swapped(PARAMETERS), "0000"),
            (clear_one(1, 0), "0000"),
            (swapped(NAMESPACE), "0000"),
            (clear_one(1, 0), "0000"),
        ],
    );
}

/// The worked message without the two in its parameters, and with these in the key block.
pub fn in_key_block(algorithm: u32, length: i32) -> Vec<u8> {
    let algorithm = Node::enumeration(tag(0x28), algorithm);
    let length = Node::integer(tag(0x2A), length);
    let moved = |members: &mut Vec<Node>, _| members.extend([algorithm, length]);
    let parameters_alone = edited(&worked(), ALGORITHM, |members, at| members.truncate(at));
    edited(&parameters_alone.expect("an item"), FORMAT - 2, moved).expect("an item")
}

fn algorithm_and_length(folder: &mut Folder) {
    let other = Node::enumeration(tag(0x28), 0x02);
    folder.add(
        "message-algorithm-and-length-in-key-block",
        [
            (manage(1, 1), "0000"),
            (edited_line(ALGORITHM, |members, at| drop(members.remove(at))), "0717"),
            (line(&in_key_block(0x03, 128)), "0717"),
            (line(&in_key_block(0x03, 256)), "0000"),
            (clear_one(1, 0), "0000"),
            (edited_line(FORMAT, |members, at| members.insert(at, other)), "0000"),
            (clear_one(1, 0), "0000"),
        ],
    );
}

fn attribute_named_uid(folder: &mut Folder) {
    let with = |name: &[u8]| {
        let more = attribute(name, 1);
        edited_line(TAG, |members, at| members.insert(at + 1, more))
    };
    folder.add(
        "message-attribute-named-uid",
        [
            (manage(1, 1), "0000"),
            (with(b"UID"), "0717"),
            (clear_one(1, 0), "070A"),
            (with(b"uid"), "0000"),
            (clear_one(1, 0), "0000"),
            (with(b"Other"), "0000"),
            (clear_one(1, 0), "0000"),
        ],
    );
}

/// The first counts.
fn namespace_id_twice(folder: &mut Folder) {
    let with = |step, value| {
        let more = attribute(b"NamespaceID", value);
        edited_line(NAMESPACE, |members, at| members.insert(at + step, more))
    };
    folder.add(
        "message-namespace-id-twice",
        [
            (manage(1, 1), "0000"),
            (with(0, 2), "0717"),
            (clear_one(1, 0), "070A"),
            (with(1, 2), "0000"),
            (clear_one(1, 0), "0000"),
            (with(1, 1), "0000"),
            (clear_one(1, 0), "0000"),
        ],
    );
}

fn order_of_refusals(folder: &mut Folder) {
    let short_key = kmip::message(5, 0, &unhex(A17), &[0x11; 31]);
    folder.add(
        "order-message-0717-before-0718-before-000b",
        [
            ("0D0".to_string(), "0701040000"),
            ("0D0500".to_string(), "0703"),
            ("0D050000".to_string(), "0717"),
            (message_frame(5, 0, &short_key), "0717"),
            (message_load(5, 0, A17, 0x11), "0718"),
            (message_load(5, 0, "", 0x11), "0718"),
            (message_load(5, 0, "AA", 0x11), "000B"),
        ],
    );
    folder.add(
        "order-message-0717-before-0718-elsewhere",
        [
            (manage(1, 1), "0000"),
            (message_frame(1, 1, &kmip::message(1, 0, b"", &[0x11; 32])), "0717"),
            (message_frame(2, 0, &kmip::message(1, 0, &[0xA0; 17], &[0x11; 32])), "0717"),
            (line(&kmip::message(1, 0, b"", &[0x11; 33])), "0717"),
            (line(&kmip::message(1, 0, b"", &[0x11; 32])[..384]), "0717"),
        ],
    );
}

fn order_as_of_a_load(folder: &mut Folder) {
    folder.add(
        "order-message-0706-before-0025-before-0709-before-070c",
        [
            (manage(1, 2), "0000"),
            (load(1, 0, "AA", 0x11), "0000"),
            (message_load(2, 65535, "AA", 0x12), "0706"),
            (message_load(1, 2, "AA", 0x12), "0025"),
            (message_load(1, 0, "AA", 0x12), "0709"),
            (message_load(1, 1, "AA", 0x12), "070C"),
            (read(1, 1, 0, 0), "0025"),
            (load(1, 1, "AA", 0x11), "0000"),
        ],
    );
    folder.add(
        "order-message-0718-before-0706-0025-0709",
        [
            (manage(1, 1), "0000"),
            (load(1, 0, "AA", 0x11), "0000"),
            (message_load(2, 0, "", 0x11), "0718"),
            (message_load(1, 1, A17, 0x11), "0718"),
            (message_load(1, 0, "", 0x11), "0718"),
            (message_load(1, 256, "BB", 0x22), "0025"),
            (read(1, 0, 0, 0), "0000"),
        ],
    );
}

/// Slots loaded by either kind are alike.
fn kinds_03_and_0d(folder: &mut Folder) {
    folder.add(
        "message-and-load-share-the-rule-of-one-key",
        [
            (manage(1, 3), "0000"),
            (manage(3, 1), "0000"),
            (message_load(1, 0, A16, 0x11), "0000"),
            (load(3, 0, A16, 0x12), "070C"),
            (replace(1, 0, A16, A16, 0x12), "070C"),
            (load(1, 1, "BB", 0x22), "0000"),
            (message_load(3, 0, "BB", 0x23), "070C"),
            (message_load(3, 0, "BB", 0x22), "0000"),
            (write(3, 0, 0, 255), "0000"),
            (load(1, 2, A16, 0x11), "0000"),
            (clear_all(3), "0000"),
            (load(3, 0, A16, 0x11), "0000"),
            (read(3, 0, 255, 0), "0028"),
        ],
    );
    folder.add(
        "message-loads-gone-and-loaded-anew",
        [
            (manage(4, 128), "0000"),
            (message_load(4, 127, "AA", 0x11), "0000"),
            (write(4, 127, 0, 0), "0000"),
            (power_cycle(), "0000"),
            (read(4, 127, 0, 0), "0025"),
            (message_load(4, 127, "AA00", 0x11), "0000"),
            (read(4, 127, 0, 0), "0028"),
            (release(4), "0000"),
            (message_load(4, 127, "AA", 0x11), "0706"),
            (manage(4, 127), "0000"),
            (message_load(4, 127, "AA", 0x11), "0025"),
        ],
    );
}

fn digits(folder: &mut Folder) {
    let good = message_load(1, 0, "AA", 0xAB);
    folder.add(
        "message-digits",
        [
            (manage(1, 1), "0000"),
            (good.to_lowercase(), "0701030100"),
            (good[..807].to_string(), "0701040000"),
            (good[..806].to_string() + "aB", "0701032603"),
            (clear_one(1, 0), "070A"),
            (good, "0000"),
        ],
    );
    let good = message_load(1, 0, "AA", 0x11);
    let last = format!("{}\n{}", manage(1, 1), good);
    folder.raw("message-last-without-line-feed", last, "0000\n0000\n");
    let split = format!("{}\n{}\n{}\n", manage(1, 1), &good[..400], &good[400..]);
    folder.raw("message-in-two-lines", split, "0000\n0717\n0702\n");
}
