//! The worked message gone through item by item, in as many sessions as it takes.

use model::kmip;
use model::lines::*;
use model::messages::{changed, cuts, edited, items, padding, with_byte, Change};
use model::ttlv::{Content, Node};

use crate::folder::{Folder, Lines};
use crate::message::*;

pub fn add(folder: &mut Folder) {
    left_out(folder);
    twice(folder);
    swapped(folder);
    retyped_and_wrapped(folder);
    nested_before_each(folder);
    padding_bytes(folder);
    heads(folder);
    cut_and_followed(folder);
    places(folder);
    key_uid_lengths(folder);
    key_lengths(folder);
    numbers(folder);
    names(folder);
    either_place(folder);
}

/// A line that is refused.
fn refused(line: String) -> Lines {
    vec![(line, "0717")]
}

/// A line that loads KeyUID AA and the key of bytes 11, which two loads by kind 03 show.
fn accepted(line: String) -> Lines {
    vec![
        (line, "0000"),
        (load(1, 1, "AA", 0x12), "070C"),
        (load(1, 1, "AA", 0x11), "0000"),
        (clear_all(1), "0000"),
    ]
}

fn judged(line: String, is_accepted: bool) -> Lines {
    if is_accepted {
        accepted(line)
    } else {
        refused(line)
    }
}

/// Sessions of such steps, on a drive whose first slots are empty before and after.
fn add_steps(folder: &mut Folder, name: &str, steps: impl IntoIterator<Item = Lines>) {
    let managed = vec![(manage(1, 2), "0000")];
    let empty = vec![(clear_one(1, 0), "070A"), (clear_one(1, 1), "070A")];
    folder.add_in_parts(name, managed, steps.into_iter().collect(), empty);
}

/// Each item that can be changed so, and its line.
fn each(change: Change) -> impl Iterator<Item = (usize, String)> {
    let worked = worked();
    (0..items(&worked)).filter_map(move |item| Some((item, line(&changed(&worked, item, change)?))))
}

fn left_out(folder: &mut Folder) {
    add_steps(folder, "message-item-left-out", each(Change::Drop).map(|(_, line)| refused(line)));
}

/// The first of two counts. With some of the items twice the line is too long.
fn twice(folder: &mut Folder) {
    let step = |(_, line): (usize, String)| match line.len() {
        ..=1024 => accepted(line),
        _ => vec![(line, "0701020000")],
    };
    add_steps(folder, "message-item-twice", each(Change::Double).map(step));
}

/// Order is free in Attributes, in each of its members and in Key Block.
fn swapped(folder: &mut Folder) {
    let bound = [HEADER, VERSION, MAJOR, OPERATION, IDENTIFIER, OBJECT_TYPE, ATTRIBUTES];
    let step = |(item, line)| judged(line, !bound.contains(&item));
    add_steps(folder, "message-item-behind-its-next", each(Change::Swap).map(step));
}

fn retyped_and_wrapped(folder: &mut Folder) {
    for (name, change) in [("of-another-type", Change::Retype), ("in-itself", Change::Wrap)] {
        let steps = each(change).map(|(_, line)| refused(line));
        add_steps(folder, &format!("message-item-{name}"), steps);
    }
}

/// Beside the outermost item there may be no other.
fn nested_before_each(folder: &mut Folder) {
    for depth in [8, 9] {
        let step = |(item, line)| judged(line, depth == 8 && item != 0);
        let name = format!("message-depth-{depth}-before-each-item");
        add_steps(folder, &name, each(Change::Nest(depth)).map(step));
    }
}

fn padding_bytes(folder: &mut Folder) {
    let values = [0x01, 0x80, 0xFF].into_iter().cycle();
    let places = padding(&worked()).into_iter().zip(values);
    let steps = places.map(|(at, value)| refused(line(&with_byte(&worked(), at, value))));
    add_steps(folder, "message-padding-byte", steps);
}

/// Where the items' heads stand.
const HEADS: [usize; 29] = [
    0, 8, 16, 24, 40, 56, 72, 80, 96, 104, 120, 136, 144, 152, 168, 184, 200, 208, 224, 248, 264,
    272, 288, 304, 320, 328, 336, 352, 360,
];

/// Each item with another tag, a type that isn't one of the five, and a length 8 higher.
fn heads(folder: &mut Folder) {
    let of = |at: usize, other: fn(u8) -> u8| {
        let step = move |head| {
            let place: usize = head + at;
            refused(line(&with_byte(&worked(), place, other(worked()[place]))))
        };
        HEADS.into_iter().map(step)
    };
    add_steps(folder, "message-tag-of-item", of(2, |low| low ^ 0x01));
    add_steps(folder, "message-type-of-item", of(3, |kind| 0x0B - kind.min(5)));
    add_steps(folder, "message-length-of-item", of(7, |length| length + 8));
    // What was padding is then part of the KeyUID.
    let longer = (2..=10).map(|length| {
        let line = line(&with_byte(&worked(), HEADS[IDENTIFIER] + 7, length));
        match length {
            2..=8 => {
                let uid = "AA".to_string() + &"00".repeat(usize::from(length) - 1);
                let old = replace(1, 0, &uid, "BB", 0x22);
                vec![(line, "0000"), (old, "0000"), (clear_one(1, 0), "0000")]
            }
            _ => refused(line),
        }
    });
    add_steps(folder, "message-length-of-key-uid", longer);
}

fn cut_and_followed(folder: &mut Folder) {
    let worked = worked();
    let cut =
        |(bytes, message): &(usize, &[u8])| *bytes < 25 || bytes % 8 == 0 || message.len() > 392;
    let cuts = cuts(&worked).enumerate().filter(cut);
    let steps = cuts.map(|(_, message)| refused(line(message)));
    add_steps(folder, "message-cut", steps);
    let more = [1, 4, 7, 8, 16, 104, 108];
    let followed = more.map(|more| refused(line(&worked) + &"00".repeat(more)));
    add_steps(folder, "message-followed-by-zeros", followed);
    let item = "5400010800000000";
    let beside = [line(&worked) + item, format!("0D010000{item}{}", hex(&worked))];
    add_steps(folder, "message-beside-another-item", beside.map(refused));
}

/// Messages for each namespace in frames for each, and the same of tags.
fn places(folder: &mut Folder) {
    let managed =
        |count| (1..=4).map(move |namespace| (manage(namespace, count), "0000")).collect();
    let step = |frame: (u8, u16), message: (u8, u16)| {
        let bytes = kmip::message(message.0, message.1, &[0xAA], &[0x11; 32]);
        let said = message_frame(frame.0, frame.1, &bytes);
        match frame == message {
            true => vec![(said, "0000"), (clear_one(frame.0, frame.1), "0000")],
            false => refused(said),
        }
    };
    let every = (1..=4).flat_map(|one| (1..=4).map(move |two| (one, two)));
    let steps = every.map(|(one, two)| step((one, 0), (two, 0))).collect();
    folder.add_in_parts("message-for-each-namespace", managed(1), steps, vec![]);
    let tags = [0, 1, 2, 63, 256, 258, 512, 0x8002, 0xFFFF];
    let steps = tags.into_iter().flat_map(|tag| [step((3, 2), (3, tag)), step((3, 0), (3, tag))]);
    folder.add_in_parts("message-for-each-tag", managed(64), steps.collect(), vec![]);
}

fn key_uid_lengths(folder: &mut Folder) {
    let step = |length: usize| {
        let uid = "C5".repeat(length);
        let said = message_load(1, 0, &uid, 0x11);
        match length {
            1..=16 => vec![
                (said, "0000"),
                (load(1, 1, &uid, 0x12), "070C"),
                (replace(1, 0, &uid, "BB", 0x22), "0000"),
                (clear_one(1, 0), "0000"),
            ],
            _ => vec![(said, "0718")],
        }
    };
    add_steps(folder, "message-key-uid-length", (0..=18).chain([24, 25, 32, 100]).map(step));
}

fn key_lengths(folder: &mut Folder) {
    let lengths = [0, 1, 16, 24, 31, 33, 40, 64];
    let of = |uid: usize| {
        let message = move |key: usize| kmip::message(1, 0, &vec![0xAA; uid], &vec![0x11; key]);
        lengths.into_iter().map(move |key| refused(line(&message(key))))
    };
    add_steps(folder, "message-key-length", of(1));
    add_steps(folder, "message-key-length-key-uid-of-0", of(0));
    add_steps(folder, "message-key-length-key-uid-of-17", of(17));
}

/// The worked message with another value in one item.
fn with(item: usize, content: Content) -> String {
    edited_line(item, |members, at| members[at].content = content)
}

fn numbers(folder: &mut Folder) {
    let integers = [
        (MAJOR, 3, true),
        (MAJOR, i32::MAX, true),
        (MAJOR, 1, false),
        (MAJOR, -1, false),
        (MAJOR, i32::MIN, false),
        (MAJOR + 1, -1, true),
        (MAJOR + 2, 0, false),
        (MAJOR + 2, 2, false),
        (LENGTH, 128, false),
        (LENGTH, 0x0100_0100, false),
        (NAMESPACE + 3, 0x101, false),
        (NAMESPACE + 3, -1, false),
        (TAG + 3, 0x10000, false),
        (TAG + 3, i32::MIN, false),
    ];
    let enumerations = [
        (OPERATION, 0x18),
        (OPERATION, 0x12A),
        (OBJECT_TYPE, 0x03),
        (PARAMETERS + 1, 0x0B),
        (PARAMETERS + 1, 0x0300_0000),
        (ALGORITHM, 0x02),
        (FORMAT, 0x02),
    ];
    let integers =
        integers.map(|(item, value, is_good)| judged(with(item, Content::Integer(value)), is_good));
    let enumerations =
        enumerations.map(|(item, value)| refused(with(item, Content::Enumeration(value))));
    add_steps(folder, "message-number", integers.into_iter().chain(enumerations));
}

fn names(folder: &mut Folder) {
    let texts: [(usize, &[u8]); 8] = [
        (NAMESPACE + 1, b"TCG_SWG"),
        (NAMESPACE + 1, b"tcg-swg"),
        (TAG + 1, b"TCG-SWG\0"),
        (TAG + 1, b""),
        (NAMESPACE + 2, b"NamespaceId"),
        (NAMESPACE + 2, b"KeyTag"),
        (TAG + 2, b"Key Tag"),
        (TAG + 2, b"NamespaceID"),
    ];
    let texts = texts.map(|(item, text)| refused(with(item, Content::Text(text.to_vec()))));
    let more = |before: bool, more: Node| {
        edited_line(NAMESPACE, |members, at| members.insert(at + usize::from(!before), more))
    };
    let bare = |members: &[Node]| Node::structure(tag(0x08), members);
    let vendor = Node::text(tag(0x9D), b"TCG-SWG");
    let others = [
        refused(more(false, bare(&[]))),
        refused(more(false, bare(std::slice::from_ref(&vendor)))),
        refused(more(false, bare(&[Node::text(tag(0x0A), b"Other")]))),
        accepted(more(false, bare(&[Node::text(tag(0x0A), b"Other"), vendor.clone()]))),
        accepted(more(false, bare(&[vendor, Node::text(tag(0x0A), b"")]))),
        refused(more(true, attribute(b"UID", 1))),
        accepted(more(true, attribute(b"KeyTag", 0))),
        refused(more(true, attribute(b"KeyTag", 1))),
        refused(more(false, attribute(b"KeyTag", 1))),
        accepted(more(false, attribute(b"NamespaceID", -1))),
    ];
    add_steps(folder, "message-attribute", texts.into_iter().chain(others));
}

/// Algorithm and length: in the parameters, else in the key block.
fn either_place(folder: &mut Folder) {
    let both = [
        accepted(line(&in_key_block(0x03, 256))),
        refused(line(&in_key_block(0x02, 256))),
        refused(line(&in_key_block(0x03, 0))),
    ];
    let one = [
        accepted(line(&with_lengths(&[], &[256]))),
        refused(line(&with_lengths(&[], &[257]))),
        refused(line(&with_lengths(&[], &[]))),
        accepted(line(&with_lengths(&[256], &[257]))),
        refused(line(&with_lengths(&[257], &[256]))),
        accepted(line(&with_lengths(&[256, 257], &[]))),
        refused(line(&with_lengths(&[], &[257, 256]))),
    ];
    add_steps(folder, "message-algorithm-and-length", both.into_iter().chain(one));
}

/// The worked message with these lengths in its parameters and its key block.
fn with_lengths(parameters: &[i32], block: &[i32]) -> Vec<u8> {
    let nodes = |numbers: &[i32]| -> Vec<Node> {
        numbers.iter().map(|&number| Node::integer(tag(0x2A), number)).collect()
    };
    let (parameters, block) = (nodes(parameters), nodes(block));
    let in_block = edited(&worked(), FORMAT, |members, _| members.extend(block));
    let in_parameters = |members: &mut Vec<Node>, at| drop(members.splice(at.., parameters));
    edited(&in_block.expect("an item"), LENGTH, in_parameters).expect("an item")
}
