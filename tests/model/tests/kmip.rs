//! TTLV and the profile of a load: the worked message, then that message spoilt or rearranged in every way a line of the
//! issue speaks of. Tags, types and offsets stand here again as numbers, not as the model names them.

#[allow(dead_code)]
#[path = "../src/bin/sessions/dice.rs"]
mod dice;

use dice::Dice;
use model::kmip::{load, message};
use model::lines::hex;
use model::ttlv::{encode, read, tree, write, Content, Node};

/// The digits of the message that the notes on request 5 work out.
fn worked_digits() -> String {
    let text = include_str!("../worked-message.txt");
    text.lines().filter(|line| !line.starts_with('#')).collect()
}

/// Offset, depth, tag, type and length of each item of the worked message.
const LAYOUT: [(usize, usize, u32, u8, u32); 29] = [
    (0, 1, 0x420078, 1, 392),
    (8, 2, 0x420077, 1, 56),
    (16, 3, 0x420069, 1, 32),
    (24, 4, 0x42006A, 2, 4),
    (40, 4, 0x42006B, 2, 4),
    (56, 3, 0x42000D, 2, 4),
    (72, 2, 0x42000F, 1, 320),
    (80, 3, 0x42005C, 5, 4),
    (96, 3, 0x420079, 1, 296),
    (104, 4, 0x420094, 7, 1),
    (120, 4, 0x420057, 5, 4),
    (136, 4, 0x420125, 1, 176),
    (144, 5, 0x42002B, 1, 48),
    (152, 6, 0x420083, 5, 4),
    (168, 6, 0x420028, 5, 4),
    (184, 6, 0x42002A, 2, 4),
    (200, 5, 0x420008, 1, 56),
    (208, 6, 0x42009D, 7, 7),
    (224, 6, 0x42000A, 7, 11),
    (248, 6, 0x42000B, 2, 4),
    (264, 5, 0x420008, 1, 48),
    (272, 6, 0x42009D, 7, 7),
    (288, 6, 0x42000A, 7, 6),
    (304, 6, 0x42000B, 2, 4),
    (320, 4, 0x42008F, 1, 72),
    (328, 5, 0x420040, 1, 64),
    (336, 6, 0x420042, 5, 4),
    (352, 6, 0x420045, 1, 40),
    (360, 7, 0x420043, 8, 32),
];

// Places in that list.
const MESSAGE: usize = 0;
const VERSION: usize = 2;
const MAJOR: usize = 3;
const MINOR: usize = 4;
const BATCH_COUNT: usize = 5;
const OPERATION: usize = 7;
const PAYLOAD: usize = 8;
const IDENTIFIER: usize = 9;
const OBJECT_TYPE: usize = 10;
const ATTRIBUTES: usize = 11;
const PARAMETERS: usize = 12;
const ROLE: usize = 13;
const ALGORITHM: usize = 14;
const LENGTH: usize = 15;
const NAMESPACE: usize = 16;
const TAG: usize = 20;
const BLOCK: usize = 25;
const FORMAT: usize = 26;
const VALUE: usize = 27;
const MATERIAL: usize = 28;
/// Behind an attribute's own place.
const VENDOR: usize = 1;
const NAME: usize = 2;
const NUMBER: usize = 3;

type Loaded = Result<(Vec<u8>, Vec<u8>), u16>;

const REFUSED: Loaded = Err(0x0717);

fn loaded(bytes: &[u8], namespace: u8, tag: u16) -> Loaded {
    load(bytes, namespace, tag).map(|material| (material.uid.to_vec(), material.key.to_vec()))
}

/// What the worked message's frame answers to other bytes.
fn judged(bytes: &[u8]) -> Loaded {
    loaded(bytes, 1, 0)
}

fn judged_tree(tree: &Node) -> Loaded {
    judged(&encode(std::slice::from_ref(tree)))
}

fn accepted() -> Loaded {
    Ok((vec![0xAA], vec![0x11; 32]))
}

fn worked_bytes() -> Vec<u8> {
    message(1, 0, &[0xAA], &[0x11; 32])
}

fn worked() -> Node {
    tree(&worked_bytes()).unwrap().remove(0)
}

fn node(tag: u32, content: Content) -> Node {
    let [_, t0, t1, t2] = tag.to_be_bytes();
    Node { tag: [t0, t1, t2], content }
}

fn structure(tag: u32, members: Vec<Node>) -> Node {
    node(tag, Content::Structure(members))
}

fn text(tag: u32, value: &[u8]) -> Node {
    node(tag, Content::Text(value.to_vec()))
}

fn attribute(name: &[u8], more: Vec<Node>) -> Node {
    let mut members = vec![text(0x42009D, b"TCG-SWG"), text(0x42000A, name)];
    members.extend(more);
    structure(0x420008, members)
}

fn number(value: i32) -> Node {
    node(0x42000B, Content::Integer(value))
}

fn members(node: &mut Node) -> &mut Vec<Node> {
    match &mut node.content {
        Content::Structure(members) => members,
        other => panic!("{other:?}"),
    }
}

fn children(node: &Node) -> &[Node] {
    match &node.content {
        Content::Structure(members) => members,
        _ => &[],
    }
}

fn size(node: &Node) -> usize {
    1 + children(node).iter().map(size).sum::<usize>()
}

/// The way from the outermost item to the one at a place of the list, as members' numbers.
fn way(root: &Node, place: usize) -> Vec<usize> {
    if place == 0 {
        return Vec::new();
    }
    let mut left = place - 1;
    for (index, child) in children(root).iter().enumerate() {
        if left < size(child) {
            let mut way = way(child, left);
            way.insert(0, index);
            return way;
        }
        left -= size(child);
    }
    panic!("no item {place}");
}

fn at<'n>(root: &'n mut Node, way: &[usize]) -> &'n mut Node {
    way.iter().fold(root, |node, &index| &mut members(node)[index])
}

/// The worked tree after a change to the item at a place.
fn changed(place: usize, change: impl Fn(&mut Node)) -> Node {
    let mut root = worked();
    let way = way(&root, place);
    change(at(&mut root, &way));
    root
}

/// The worked tree after a change to the members among which the item at a place stands.
fn among(place: usize, change: impl Fn(&mut Vec<Node>, usize)) -> Node {
    let mut root = worked();
    let way = way(&root, place);
    let (&index, parent) = way.split_last().expect("not the outermost");
    change(members(at(&mut root, parent)), index);
    root
}

fn with_content(place: usize, content: Content) -> Loaded {
    judged_tree(&changed(place, |node| node.content = content.clone()))
}

fn with_integer(place: usize, value: i32) -> Loaded {
    with_content(place, Content::Integer(value))
}

fn with_enumeration(place: usize, value: u32) -> Loaded {
    with_content(place, Content::Enumeration(value))
}

fn with_text(place: usize, value: &[u8]) -> Loaded {
    with_content(place, Content::Text(value.to_vec()))
}

/// The worked tree with an item put behind the members of the structure at a place.
fn with_more(place: usize, more: &Node) -> Loaded {
    judged_tree(&changed(place, |node| members(node).push(more.clone())))
}

/// The same with the item put before the members.
fn with_before(place: usize, more: &Node) -> Loaded {
    judged_tree(&changed(place, |node| members(node).insert(0, more.clone())))
}

fn without(place: usize) -> Node {
    among(place, |members, index| {
        members.remove(index);
    })
}

fn one_of_each(tag: u32) -> [Node; 8] {
    [
        structure(tag, vec![]),
        structure(tag, vec![node(tag, Content::Integer(7))]),
        node(tag, Content::Integer(-1)),
        node(tag, Content::Enumeration(3)),
        text(tag, b""),
        text(tag, &[0xFF; 9]),
        node(tag, Content::Bytes(vec![])),
        node(tag, Content::Bytes(vec![0x11; 8])),
    ]
}

/// A structure in a structure, so often that the innermost item, the leaf, is at that depth.
fn nested(depth: usize, leaf: Node) -> Node {
    (1..depth).fold(leaf, |inner, _| structure(0x540001, vec![inner]))
}

#[test]
fn the_worked_message() {
    assert_eq!(hex(&worked_bytes()), worked_digits());
    assert_eq!(judged(&worked_bytes()), accepted());
    assert_eq!(encode(&tree(&worked_bytes()).unwrap()), worked_bytes());
}

#[test]
fn its_items_in_order() {
    fn walk(
        node: &Node,
        offset: usize,
        depth: usize,
        list: &mut Vec<(usize, usize, u32, u8, u32)>,
    ) {
        let [t0, t1, t2] = node.tag;
        let bytes = encode(std::slice::from_ref(node));
        let length = u32::from_be_bytes(bytes[4..8].try_into().unwrap());
        list.push((offset, depth, u32::from_be_bytes([0, t0, t1, t2]), bytes[3], length));
        let mut offset = offset + 8;
        for child in children(node) {
            walk(child, offset, depth + 1, list);
            offset += encode(std::slice::from_ref(child)).len();
        }
    }
    let mut list = Vec::new();
    walk(&worked(), 0, 1, &mut list);
    assert_eq!(list, LAYOUT);
}

#[test]
fn other_loads() {
    let key: Vec<u8> = (0..32).collect();
    let uid: Vec<u8> = (0xF0..=0xFF).collect();
    for namespace in 0..=255 {
        for tag in [0, 1, 127, 128, 255, 256, 0x8000, 0xFFFF] {
            let bytes = message(namespace, tag, &uid, &key);
            assert_eq!(bytes.len(), 408);
            assert_eq!(loaded(&bytes, namespace, tag), Ok((uid.clone(), key.clone())));
            assert_eq!(loaded(&bytes, namespace ^ 1, tag), REFUSED);
            assert_eq!(loaded(&bytes, namespace, tag ^ 1), REFUSED);
            assert_eq!(loaded(&bytes, namespace, tag ^ 0x100), REFUSED);
        }
    }
}

#[test]
fn each_item_dropped() {
    assert_eq!(judged(&[]), REFUSED);
    for place in 1..29 {
        assert_eq!(judged_tree(&without(place)), REFUSED, "{place}");
    }
}

#[test]
fn each_item_doubled() {
    assert_eq!(judged(&worked_bytes().repeat(2)), REFUSED);
    for place in 1..29 {
        let doubled = among(place, |members, index| members.insert(index, members[index].clone()));
        assert_eq!(judged_tree(&doubled), accepted(), "{place}");
    }
}

/// The first of its tag counts, but every attribute is looked at.
#[test]
fn each_item_with_another_of_its_tag() {
    for (place, &(_, _, tag, kind, _)) in LAYOUT.iter().enumerate().skip(1) {
        for other in one_of_each(tag) {
            if encode(std::slice::from_ref(&other))[3] == kind && kind != 1 {
                continue;
            }
            let behind = among(place, |members, index| members.insert(index + 1, other.clone()));
            let expected = if tag == 0x420008 { REFUSED } else { accepted() };
            assert_eq!(judged_tree(&behind), expected, "{other:?} behind {place}");
            let before = among(place, |members, index| members.insert(index, other.clone()));
            assert_eq!(judged_tree(&before), REFUSED, "{other:?} before {place}");
        }
    }
}

/// The same with another of its type, for the items that have no members.
#[test]
fn each_leaf_with_another_of_its_type() {
    for (place, &(_, _, tag, kind, _)) in LAYOUT.iter().enumerate() {
        let other = match kind {
            1 => continue,
            2 => node(tag, Content::Integer(-1)),
            5 => node(tag, Content::Enumeration(0x99)),
            7 => text(tag, b"zz"),
            _ => node(tag, Content::Bytes(vec![0x11; 31])),
        };
        let behind = among(place, |members, index| members.insert(index + 1, other.clone()));
        assert_eq!(judged_tree(&behind), accepted(), "behind {place}");
        let before = among(place, |members, index| members.insert(index, other.clone()));
        let expected = match place {
            MINOR => accepted(),
            IDENTIFIER => Ok((b"zz".to_vec(), vec![0x11; 32])),
            _ => REFUSED,
        };
        assert_eq!(judged_tree(&before), expected, "before {place}");
    }
}

#[test]
fn neighbours_swapped() {
    let free = [12, 13, 14, 16, 17, 18, 21, 22, 26];
    let mut pairs = 0;
    for place in 1..29 {
        let root = worked();
        let way = way(&root, place);
        let (&last, parent) = way.split_last().unwrap();
        if last + 1 == children(at(&mut root.clone(), parent)).len() {
            continue;
        }
        let swapped = among(place, |members, index| members.swap(index, index + 1));
        let expected = if free.contains(&place) { accepted() } else { REFUSED };
        assert_eq!(judged_tree(&swapped), expected, "{place} and the next");
        pairs += 1;
    }
    assert_eq!(pairs, 16);
}

/// A required member that stands only before the one it must follow isn't found.
#[test]
fn a_copy_before_its_place() {
    for place in [VERSION, MAJOR, OPERATION, IDENTIFIER, OBJECT_TYPE, ATTRIBUTES] {
        let moved = among(place, |members, index| {
            let next = members.remove(index + 1);
            members.insert(0, next);
        });
        assert_eq!(judged_tree(&moved), REFUSED, "{place}");
        let copied = among(place, |members, index| {
            let next = members[index + 1].clone();
            members.insert(0, next);
        });
        assert_eq!(judged_tree(&copied), accepted(), "{place}");
    }
    // The first of its tag counts only behind the one before it.
    let unlike = node(0x42000D, Content::Integer(2));
    let first = among(VERSION, |members, index| members.insert(index, unlike.clone()));
    assert_eq!(judged_tree(&first), accepted());
}

#[test]
fn each_item_retyped() {
    for (place, &(offset, _, _, kind, _)) in LAYOUT.iter().enumerate() {
        let root = worked();
        let own = at(&mut root.clone(), &way(&root, place)).clone();
        for other in one_of_each(0) {
            if encode(std::slice::from_ref(&other))[3] != kind {
                assert_eq!(with_content(place, other.content), REFUSED, "{place}");
            }
        }
        let twin = match own.content {
            Content::Structure(members) => Content::Bytes(encode(&members)),
            Content::Integer(value) => Content::Enumeration(value as u32),
            Content::Enumeration(value) => Content::Integer(value as i32),
            Content::Text(value) => Content::Bytes(value),
            Content::Bytes(value) => Content::Text(value),
        };
        assert_eq!(with_content(place, twin), REFUSED, "{place}");
        for byte in (0..=255).filter(|&byte| byte != kind) {
            let mut bytes = worked_bytes();
            bytes[offset + 3] = byte;
            assert_eq!(judged(&bytes), REFUSED, "{place} of type {byte}");
        }
    }
}

/// What the worked message answers with one byte changed, by the field the byte is in.
fn expected(offset: usize, byte: u8) -> Loaded {
    let (mut uid, mut key) = (vec![0xAA], vec![0x11; 32]);
    match offset {
        // The lowest byte of the KeyUID's length: what was padding is then part of it.
        111 if (2..=8).contains(&byte) => uid.resize(byte.into(), 0),
        // The major version is signed; the minor may be any.
        32 if byte < 0x80 => {}
        33 | 34 => {}
        35 if byte >= 2 => {}
        48..=51 => {}
        112 => uid[0] = byte,
        368..=399 => key[offset - 368] = byte,
        _ => return REFUSED,
    }
    Ok((uid, key))
}

#[test]
fn each_byte_changed() {
    let worked = worked_bytes();
    for offset in 0..worked.len() {
        for byte in (0..=255).filter(|&byte| byte != worked[offset]) {
            let mut bytes = worked.clone();
            bytes[offset] = byte;
            assert_eq!(judged(&bytes), expected(offset, byte), "{byte} at {offset}");
        }
    }
}

#[test]
fn each_length_field() {
    for (place, &(offset, _, _, _, length)) in LAYOUT.iter().enumerate() {
        for other in (0..=512).chain([0x7FFF_FFFF, 0x8000_0000, 0xFFFF_FFF8, 0xFFFF_FFFF]) {
            let mut bytes = worked_bytes();
            bytes[offset + 4..offset + 8].copy_from_slice(&u32::to_be_bytes(other));
            let expected = match place {
                _ if other == length => accepted(),
                IDENTIFIER => expected(111, other.min(255) as u8),
                _ => REFUSED,
            };
            assert_eq!(judged(&bytes), expected, "{other} at {place}");
        }
    }
}

#[test]
fn cut_and_followed() {
    let whole = worked_bytes();
    for length in 0..whole.len() {
        assert_eq!(judged(&whole[..length]), REFUSED, "{length} bytes");
        assert!(length == 0 || read(&whole[..length]).is_none(), "{length} bytes");
    }
    for more in 1..=108 {
        assert_eq!(judged(&[&whole[..], &vec![0; more]].concat()), REFUSED, "{more} bytes");
    }
    for more in one_of_each(0x540001) {
        assert_eq!(judged(&encode(&[worked(), more.clone()])), REFUSED);
        assert_eq!(judged(&encode(&[more, worked()])), REFUSED);
    }
}

#[test]
fn depth_alone() {
    for leaf in one_of_each(0x540002) {
        let deeper = children(&leaf).len();
        for depth in 1..=12 {
            let bytes = encode(&[nested(depth, leaf.clone())]);
            assert_eq!(read(&bytes).is_some(), depth + deeper <= 8, "{leaf:?} at {depth}");
            assert_eq!(judged(&bytes), REFUSED);
        }
    }
}

#[test]
fn depth_in_a_message() {
    for (place, &(_, depth, _, kind, _)) in LAYOUT.iter().enumerate() {
        if kind != 1 {
            continue;
        }
        for leaf in one_of_each(0x540002) {
            let deepest = 8 - depth - children(&leaf).len();
            for (levels, answer) in [(deepest, accepted()), (deepest + 1, REFUSED)] {
                if levels > 0 {
                    let more = nested(levels, leaf.clone());
                    assert_eq!(with_more(place, &more), answer, "{levels} in {place}");
                    assert_eq!(with_before(place, &more), answer, "{levels} in {place}");
                }
            }
        }
    }
}

#[test]
fn unknown_items_are_passed_over() {
    for place in 1..29 {
        // Links, wrapping data, and tags that no standard gives.
        for tag in [0x42004A, 0x420046, 0x420093, 0x540001, 0x000000, 0xFFFFFF] {
            for other in one_of_each(tag) {
                if place == MATERIAL && children(&other).len() == 1 {
                    continue;
                }
                for step in [0, 1] {
                    let more =
                        among(place, |members, index| members.insert(index + step, other.clone()));
                    assert_eq!(judged_tree(&more), accepted(), "{other:?} at {place}");
                }
            }
        }
    }
}

#[test]
fn unknown_items_must_be_sound() {
    // Boolean, Date-Time, Interval, Long Integer, an integer of 8 bytes, an enumeration of 0.
    let heads = [[6, 8], [9, 8], [10, 4], [3, 8], [2, 8], [5, 0], [1, 8], [0, 0], [11, 8]];
    for [kind, length] in heads {
        let odd = [0x54, 0, 1, kind, 0, 0, 0, length, 0, 0, 0, 0, 0, 0, 0, 0];
        let odd = &odd[..8 + usize::from(length).next_multiple_of(8)];
        // Behind the last item of the message, with the lengths around it grown.
        let mut bytes = [&worked_bytes(), odd].concat();
        bytes[4..8].copy_from_slice(&(392 + odd.len() as u32).to_be_bytes());
        assert_eq!(judged(&bytes), REFUSED, "type {kind}, length {length}");
    }
    let sound = [&worked_bytes()[..], &[0x54, 0, 1, 8, 0, 0, 0, 0]].concat();
    let mut grown = sound.clone();
    grown[4..8].copy_from_slice(&400_u32.to_be_bytes());
    assert_eq!(judged(&grown), accepted());
    assert_eq!(judged(&sound), REFUSED);
}

#[test]
fn the_order_in_attributes_is_free() {
    for order in [[0, 1, 2], [0, 2, 1], [1, 0, 2], [1, 2, 0], [2, 0, 1], [2, 1, 0]] {
        for place in [ATTRIBUTES, PARAMETERS, NAMESPACE, TAG] {
            let root = changed(place, |node| {
                let old = members(node).clone();
                *members(node) = order.map(|index| old[index].clone()).to_vec();
            });
            assert_eq!(judged_tree(&root), accepted(), "{order:?} at {place}");
        }
    }
}

#[test]
fn the_first_attribute_of_a_name_counts() {
    for (place, name, value) in [(NAMESPACE, &b"NamespaceID"[..], 1), (TAG, b"KeyTag", 0)] {
        let seconds = [
            vec![number(value)],
            vec![number(value + 1)],
            vec![],
            vec![text(0x42000B, b"1")],
            vec![number(value), number(value + 1)],
        ];
        for (row, second) in seconds.into_iter().enumerate() {
            let good = row == 0 || row == 4;
            let other = attribute(name, second);
            assert_eq!(with_more(ATTRIBUTES, &other), accepted(), "{other:?}");
            let expected = if good { accepted() } else { REFUSED };
            assert_eq!(with_before(ATTRIBUTES, &other), expected, "{other:?}");
        }
        for other in [value + 1, -1, i32::MIN, value + 0x100, value + 0x1_0000] {
            assert_eq!(with_integer(place + NUMBER, other), REFUSED, "{other}");
        }
        assert_eq!(with_enumeration(place + NUMBER, value as u32), REFUSED);
    }
    // A number is no other for its sign: FFFFFFFF isn't tag FFFF.
    let bytes = message(1, 0xFFFF, &[0xAA], &[0x11; 32]);
    let mut root = tree(&bytes).unwrap().remove(0);
    let way = way(&root, TAG + NUMBER);
    at(&mut root, &way).content = Content::Integer(-1);
    assert_eq!(loaded(&encode(&[root]), 1, 0xFFFF), REFUSED);
}

#[test]
fn attribute_names() {
    assert_eq!(with_more(ATTRIBUTES, &attribute(b"UID", vec![])), REFUSED);
    assert_eq!(with_before(ATTRIBUTES, &attribute(b"UID", vec![number(1)])), REFUSED);
    for name in [&b""[..], b"uid", b"UID\0", b"UI", b"UIDs", b"Key Tag", b"\xFF"] {
        assert_eq!(with_more(ATTRIBUTES, &attribute(name, vec![])), accepted());
        assert_eq!(with_text(NAMESPACE + NAME, name), REFUSED);
        assert_eq!(with_text(TAG + NAME, name), REFUSED);
    }
    // The first name counts, and the name alone: not one elsewhere.
    let second = text(0x42000A, b"UID");
    assert_eq!(with_more(NAMESPACE, &second), accepted());
    assert_eq!(with_before(NAMESPACE, &second), REFUSED);
    assert_eq!(with_more(PARAMETERS, &attribute(b"UID", vec![])), accepted());
    assert_eq!(with_more(PAYLOAD, &attribute(b"UID", vec![])), accepted());
    // A name that is no text, and none.
    for name in [vec![node(0x42000A, Content::Bytes(b"Other".to_vec()))], vec![]] {
        let mut members = vec![text(0x42009D, b"TCG-SWG")];
        members.extend(name);
        assert_eq!(with_more(ATTRIBUTES, &structure(0x420008, members)), REFUSED);
    }
}

#[test]
fn vendors() {
    for vendor in [&b""[..], b"TCG_SWG", b"$TCG-SWG", b"TCG-SW", b"TCG-SWG\0", b"tcg-swg", b"x"] {
        assert_eq!(with_text(NAMESPACE + VENDOR, vendor), REFUSED);
        assert_eq!(with_text(TAG + VENDOR, vendor), REFUSED);
        let third = structure(0x420008, vec![text(0x42009D, vendor), text(0x42000A, b"Other")]);
        assert_eq!(with_more(ATTRIBUTES, &third), REFUSED);
        assert_eq!(with_before(ATTRIBUTES, &third), REFUSED);
        // Of two in one attribute the first counts.
        assert_eq!(with_more(NAMESPACE, &text(0x42009D, vendor)), accepted());
        assert_eq!(with_before(NAMESPACE, &text(0x42009D, vendor)), REFUSED);
    }
    let none = structure(0x420008, vec![text(0x42000A, b"Other")]);
    assert_eq!(with_more(ATTRIBUTES, &none), REFUSED);
}

#[test]
fn versions_and_counts() {
    for major in [2, 3, 0x100, i32::MAX] {
        assert_eq!(with_integer(MAJOR, major), accepted(), "{major}");
    }
    for major in [1, 0, -1, -2, i32::MIN] {
        assert_eq!(with_integer(MAJOR, major), REFUSED, "{major}");
    }
    for minor in [0, 1, -1, i32::MAX, i32::MIN] {
        assert_eq!(with_integer(MINOR, minor), accepted(), "{minor}");
    }
    for count in [0, 2, -1, 0x101, 0x0100_0000] {
        assert_eq!(with_integer(BATCH_COUNT, count), REFUSED, "{count}");
    }
}

#[test]
fn enumerations() {
    for (place, right) in
        [(OPERATION, 0x2A), (OBJECT_TYPE, 2), (ROLE, 3), (ALGORITHM, 3), (FORMAT, 1)]
    {
        for value in (0..=0x100).chain([0x8000_0000 | right, right << 8, right << 24]) {
            let expected = if value == right { accepted() } else { REFUSED };
            assert_eq!(with_enumeration(place, value), expected, "{value} at {place}");
        }
    }
    for bits in [0, 128, 255, 257, 32, -256, 0x1_0100] {
        assert_eq!(with_integer(LENGTH, bits), REFUSED, "{bits}");
    }
}

fn algorithm(value: u32) -> Node {
    node(0x420028, Content::Enumeration(value))
}

fn length(value: i32) -> Node {
    node(0x42002A, Content::Integer(value))
}

/// What must stand at one of the two places.
fn right(place: usize) -> Node {
    if place == ALGORITHM {
        algorithm(3)
    } else {
        length(256)
    }
}

fn wrong(place: usize) -> [Node; 2] {
    match place {
        ALGORITHM => [algorithm(4), node(0x420028, Content::Integer(3))],
        _ => [length(128), node(0x42002A, Content::Enumeration(256))],
    }
}

#[test]
fn algorithm_or_length_in_the_key_block() {
    for place in [ALGORITHM, LENGTH] {
        // Each on its own, first or last there.
        for in_block in [vec![right(place)], vec![right(place), wrong(place)[0].clone()]] {
            for at_front in [true, false] {
                let mut root = without(place);
                let way = way(&root, BLOCK - 1);
                let block = members(at(&mut root, &way));
                let index = if at_front { 0 } else { block.len() };
                block.splice(index..index, in_block.clone());
                assert_eq!(judged_tree(&root), accepted(), "{place}");
            }
        }
        // Nowhere else.
        for elsewhere in [MESSAGE, PAYLOAD, ATTRIBUTES, NAMESPACE - 1, BLOCK - 2, VALUE - 1] {
            let mut root = without(place);
            let way = way(&root, elsewhere);
            members(at(&mut root, &way)).push(right(place));
            assert_eq!(judged_tree(&root), REFUSED, "{place} in {elsewhere}");
        }
    }
}

#[test]
fn algorithm_and_length_in_the_key_block() {
    let mut root = changed(PARAMETERS, |node| members(node).truncate(1));
    let way = way(&root, BLOCK - 2);
    members(at(&mut root, &way)).extend([length(256), algorithm(3)]);
    assert_eq!(judged_tree(&root), accepted());
    // A second Cryptographic Parameters doesn't help.
    let second = structure(0x42002B, vec![algorithm(3), length(256)]);
    let mut root = changed(PARAMETERS, |node| members(node).truncate(1));
    let way = crate::way(&root, ATTRIBUTES);
    members(at(&mut root, &way)).push(second);
    assert_eq!(judged_tree(&root), REFUSED);
}

#[test]
fn algorithm_and_length_in_both_places() {
    for place in [ALGORITHM, LENGTH] {
        for other in wrong(place) {
            // The parameters' counts.
            assert_eq!(with_more(BLOCK, &other), accepted(), "{other:?}");
            assert_eq!(with_before(PARAMETERS, &other), REFUSED, "{other:?}");
            let mut root = without(place);
            let to_parameters = way(&root, PARAMETERS);
            let to_block = way(&root, BLOCK - 1);
            members(at(&mut root, &to_block)).push(right(place));
            assert_eq!(judged_tree(&root), accepted());
            members(at(&mut root, &to_parameters)).push(other.clone());
            assert_eq!(judged_tree(&root), REFUSED, "{other:?}");
            // Wrong in the block, and not in the parameters.
            let mut root = without(place);
            members(at(&mut root, &to_block)).push(other.clone());
            members(at(&mut root, &to_block)).push(right(place));
            assert_eq!(judged_tree(&root), REFUSED, "{other:?}");
        }
    }
}

#[test]
fn key_and_key_uid_lengths() {
    for key in 0..=64 {
        for uid in 0..=33 {
            let (uid, key) = (vec![0xE5; uid], vec![0x77; key]);
            let expected = match (key.len(), uid.len()) {
                (32, 1..=16) => Ok((uid.clone(), key.clone())),
                (32, _) => Err(0x0718),
                _ => REFUSED,
            };
            assert_eq!(loaded(&message(4, 9, &uid, &key), 4, 9), expected);
        }
    }
}

/// 07 17 comes before 07 18 wherever the cause of 07 17 stands.
#[test]
fn refusals_in_order() {
    for uid in [vec![], vec![0xAA; 17]] {
        let bytes = message(1, 0, &uid, &[0x11; 32]);
        assert_eq!(judged(&bytes), Err(0x0718));
        assert_eq!(loaded(&bytes, 2, 0), REFUSED);
        assert_eq!(loaded(&bytes, 1, 1), REFUSED);
        assert_eq!(judged(&bytes[..bytes.len() - 8]), REFUSED);
        assert_eq!(judged(&message(1, 0, &uid, &[0x11; 31])), REFUSED);
        let whole = tree(&bytes).unwrap().remove(0);
        for place in 1..29 {
            let mut root = whole.clone();
            let way = way(&root, place);
            let (&index, parent) = way.split_last().unwrap();
            members(at(&mut root, parent)).remove(index);
            assert_eq!(judged_tree(&root), REFUSED, "{place}");
        }
    }
}

#[test]
fn the_writer_refuses() {
    for depth in 1..=10 {
        let nodes = [nested(depth, text(0x540002, b"leaf")), node(0x540003, Content::Integer(5))];
        let bytes = encode(&nodes);
        for room in [0, bytes.len() - 1, bytes.len(), bytes.len() + 5] {
            let mut out = vec![0x5A; room];
            let expected = match () {
                _ if room < bytes.len() => Err(0x070F),
                _ if depth > 8 => Err(0x0717),
                _ => Ok(bytes.len()),
            };
            assert_eq!(write(&nodes, &mut out), expected, "{depth} in {room}");
            let written = expected.unwrap_or(0);
            assert_eq!(out[..written], bytes[..written]);
            assert!(out[written..].iter().all(|&byte| byte == 0x5A));
        }
    }
    assert_eq!(write(&[], &mut []), Ok(0));
}

fn random(dice: &mut Dice, depth: usize) -> Node {
    let tag = dice.roll() as u32 & 0xFF_FFFF;
    let bytes = |dice: &mut Dice| (0..dice.below(20)).map(|_| dice.roll() as u8).collect();
    let content = match dice.below(if depth < 8 { 7 } else { 4 }) {
        0 => Content::Integer(dice.roll() as i32),
        1 => Content::Enumeration(dice.roll() as u32),
        2 => Content::Text(bytes(dice)),
        3 => Content::Bytes(bytes(dice)),
        _ => Content::Structure((0..dice.below(4)).map(|_| random(dice, depth + 1)).collect()),
    };
    node(tag, content)
}

#[test]
fn random_trees_come_back() {
    let mut dice = Dice::new(5);
    for _ in 0..2000 {
        let nodes: Vec<Node> = (0..dice.below(4)).map(|_| random(&mut dice, 1)).collect();
        let mut out = vec![0xFF; encode(&nodes).len()];
        assert_eq!(write(&nodes, &mut out), Ok(out.len()));
        assert_eq!(tree(&out), Some(nodes));
    }
}

/// Whatever is read has no other encoding.
#[test]
fn spoilt_trees() {
    let mut dice = Dice::new(6);
    let mut read = 0;
    for _ in 0..20_000 {
        let nodes: Vec<Node> = (0..1 + dice.below(2)).map(|_| random(&mut dice, 1)).collect();
        let mut bytes = encode(&nodes);
        for _ in 0..1 + dice.below(2) {
            let at = dice.below(bytes.len());
            bytes[at] = if dice.once_in(2) { dice.below(9) as u8 } else { dice.roll() as u8 };
        }
        if dice.once_in(4) {
            bytes.truncate(dice.below(bytes.len()));
        }
        if let Some(nodes) = tree(&bytes) {
            assert_eq!(encode(&nodes), bytes);
            read += 1;
        }
    }
    assert!((2000..18_000).contains(&read), "{read}");
}
