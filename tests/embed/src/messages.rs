//! Messages of a load with one thing changed, from end to end: what a key office that is nearly right
//! sends. `profile` has what only this profile's items can be changed to.

use model::messages::*;
use model::numbers::FRAME;
use model::ttlv::{encode, tree, Content, Node};

/// The bytes of a frame before its message.
pub const FRAME_HEAD: usize = 4;

/// For a head's length: near the right one or nothing, and where a sum could wrap.
const LENGTHS_OFF: [u32; 14] = [
    1,
    2,
    3,
    4,
    7,
    8,
    9,
    16,
    0x0100,
    0x0001_0000,
    0x7FFF_FFFF,
    0x8000_0000,
    0xFFFF_FFF0,
    0xFFFF_FFF8,
];

pub fn items_changed(message: &[u8]) -> Vec<Vec<u8>> {
    let all = all_changed(message).map(|(_, _, message)| message);
    let depths = (1..=10).flat_map(|depth| nested_before(message, depth));
    all.chain(depths).collect()
}

/// Before each item an integer at this depth, or as many structures, the innermost without members.
fn nested_before(message: &[u8], depth: usize) -> Vec<Vec<u8>> {
    let mut made = Vec::new();
    for item in 0..items(message) {
        made.extend(changed(message, item, Change::Nest(depth)));
        let structures = nested(depth - 1, Node::structure(UNKNOWN, []));
        made.extend(edited(message, item, |siblings, at| siblings.insert(at, structures)));
    }
    made
}

pub fn bytes_changed(message: &[u8]) -> Vec<Vec<u8>> {
    let changes = |(at, &old): (usize, &u8)| {
        let others = [old.wrapping_add(1), old.wrapping_sub(1), old ^ 0x80, old ^ 0x20, 0, 0xFF];
        let others = others.into_iter().filter(move |&byte| byte != old);
        others.map(move |byte| with_byte(message, at, byte))
    };
    message.iter().enumerate().flat_map(changes).collect()
}

/// Each head with other lengths; nothing around it follows.
pub fn lengths_changed(message: &[u8]) -> Vec<Vec<u8>> {
    let mut made = Vec::new();
    for head in heads(message) {
        let length = head + 4..head + 8;
        let right = u32::from_be_bytes(message[length.clone()].try_into().expect("four bytes"));
        let to_the_end = (message.len() - head - 8) as u32;
        let near = |off| [off, right.wrapping_add(off), right.wrapping_sub(off)];
        for other in LENGTHS_OFF.into_iter().flat_map(near).chain([0, to_the_end]) {
            let mut bytes = message.to_vec();
            bytes[length.clone()].copy_from_slice(&other.to_be_bytes());
            made.push(bytes);
        }
    }
    made
}

/// Where the items of a sound message begin.
fn heads(message: &[u8]) -> Vec<usize> {
    let mut heads = Vec::new();
    let mut left = tree(message).expect("a message");
    let mut at = 0;
    while let Some(node) = left.pop() {
        heads.push(at);
        let members = node.members();
        at += if members.is_empty() { encode(std::slice::from_ref(&node)).len() } else { 8 };
        left.extend(members.iter().rev().cloned());
    }
    heads
}

/// Each item with other values of its own type; the lengths around it follow.
pub fn values_changed(message: &[u8]) -> Vec<Vec<u8>> {
    let mut made = Vec::new();
    for item in 0..items(message) {
        for content in others(&content_of(message, item)) {
            made.extend(edited(message, item, |siblings, at| siblings[at].content = content));
        }
    }
    made
}

/// At each place beside each item another of its tag.
pub fn decoys(message: &[u8]) -> Vec<Vec<u8>> {
    let mut made = Vec::new();
    for item in 0..items(message) {
        let own = content_of(message, item);
        let empty = [Content::Structure(vec![]), Content::Text(vec![]), Content::Bytes(vec![])];
        let numbers = [Content::Integer(0), Content::Enumeration(0)];
        let contents = others(&own).into_iter().chain([own]).chain(empty).chain(numbers);
        for content in contents {
            let places = 0..=siblings(message, item);
            made.extend(places.filter_map(|place| with_decoy(message, item, place, &content)));
        }
    }
    made
}

fn with_decoy(message: &[u8], item: usize, place: usize, content: &Content) -> Option<Vec<u8>> {
    edited(message, item, |siblings, at| {
        let decoy = Node { tag: siblings[at].tag, content: content.clone() };
        siblings.insert(place, decoy);
    })
}

/// Each structure with its members in each order.
pub fn orders(message: &[u8]) -> Vec<Vec<u8>> {
    let mut made = Vec::new();
    for item in 0..items(message) {
        let Content::Structure(members) = content_of(message, item) else {
            continue;
        };
        for order in permutations(&members) {
            let content = Content::Structure(order);
            made.extend(edited(message, item, |siblings, at| siblings[at].content = content));
        }
    }
    made
}

fn permutations(nodes: &[Node]) -> Vec<Vec<Node>> {
    if nodes.is_empty() {
        return vec![vec![]];
    }
    let mut made = Vec::new();
    for first in 0..nodes.len() {
        let mut rest = nodes.to_vec();
        let led_by = vec![rest.remove(first)];
        made.extend(permutations(&rest).into_iter().map(|rest| [led_by.clone(), rest].concat()));
    }
    made
}

/// With an unknown item of each size at its end, and with bytes behind it all, to past the longest.
pub fn fillings(message: &[u8]) -> Vec<Vec<u8>> {
    let mut made = Vec::new();
    for size in 0..=FRAME - message.len() {
        let filling = Node::bytes(UNKNOWN, &vec![0xEE; size]);
        let filled = edited(message, 1, |members, _| members.push(filling)).expect("a message");
        for behind in [0x00, 0x42] {
            made.extend((0..=16).map(|more| [&filled[..], &vec![behind; more]].concat()));
        }
    }
    made
}

/// As many small items as fit, by themselves, in place of the message's own, beside these, and one
/// in the other.
pub fn crowds(message: &[u8]) -> Vec<Vec<u8>> {
    let small = Node::structure(UNKNOWN, []);
    let mut made = Vec::new();
    for count in 0..=FRAME / 8 {
        let (alone, inside) = (vec![small.clone(); count], vec![small.clone(); count]);
        made.push(encode(&alone));
        made.push(encode(&[nested(count, small.clone())]));
        made.extend(edited(message, 1, |members, _| members.extend(alone)));
        made.extend(edited(message, 0, |outermost, at| {
            outermost[at].content = Content::Structure(inside);
        }));
    }
    made
}

fn content_of(message: &[u8], item: usize) -> Content {
    let mut content = None;
    edited(message, item, |siblings, at| content = Some(siblings[at].content.clone()));
    content.expect("an item")
}

fn siblings(message: &[u8], item: usize) -> usize {
    let mut count = 0;
    edited(message, item, |siblings, _| count = siblings.len());
    count
}

/// Other contents of the same type.
pub fn others(content: &Content) -> Vec<Content> {
    match content {
        Content::Integer(number) => {
            let numbers = other_numbers(*number as u32).into_iter();
            numbers.map(|number| Content::Integer(number as i32)).collect()
        }
        Content::Enumeration(number) => {
            other_numbers(*number).into_iter().map(Content::Enumeration).collect()
        }
        Content::Text(text) => other_bytes(text).into_iter().map(Content::Text).collect(),
        Content::Bytes(bytes) => other_bytes(bytes).into_iter().map(Content::Bytes).collect(),
        Content::Structure(members) => {
            let without_first = members.iter().skip(1).cloned().collect();
            vec![Content::Structure(vec![]), Content::Structure(without_first)]
        }
    }
}

/// The same to a reader that takes too few bytes, no sign, or the other order; and numbers near it.
fn other_numbers(number: u32) -> Vec<u32> {
    let off = [1, 2, 3, 256, 257, 1 << 16, 1 << 24, 1 << 31, u32::MAX];
    let ends = [0, 1, 2, 3, 1 << 31, u32::MAX, number.swap_bytes()];
    off.into_iter().map(|off| number.wrapping_add(off)).chain(ends).collect()
}

fn other_bytes(bytes: &[u8]) -> Vec<Vec<u8>> {
    let without_last = bytes.split_last().map_or(vec![], |(_, rest)| rest.to_vec());
    vec![
        vec![],
        without_last,
        bytes.iter().skip(1).copied().collect(),
        [bytes, &[0]].concat(),
        [bytes, b" "].concat(),
        [&[0], bytes].concat(),
        [bytes, bytes].concat(),
        bytes.to_ascii_lowercase(),
        bytes.iter().rev().copied().collect(),
        vec![0; bytes.len()],
    ]
}
