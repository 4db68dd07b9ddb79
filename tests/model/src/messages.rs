//! Messages with one thing changed, for tests: what a key office that is nearly right sends.
//!
//! The items of a message are counted in the order in which their heads stand in it, the outermost
//! being item 0. Where items come or go, the lengths around them follow.

use crate::ttlv::{encode, tree, Content, Node, Tag};

/// The tag of an item that nothing asks for.
pub const UNKNOWN: Tag = [0x54, 0x00, 0x01];

/// What is done to an item.
#[derive(Clone, Copy, Debug, PartialEq, Eq)]
pub enum Change {
    Drop,
    Double,
    /// Its next sibling comes before it.
    Swap,
    /// Its value becomes one of another type, and as much alike as can be.
    Retype,
    /// It stands in a structure of its own tag.
    Wrap,
    /// Before it comes an unknown item: structures one in the other, and an integer at this depth.
    Nest(usize),
}

/// Both sides of the deepest that an item may stand.
pub const CHANGES: [Change; 7] = [
    Change::Drop,
    Change::Double,
    Change::Swap,
    Change::Retype,
    Change::Wrap,
    Change::Nest(8),
    Change::Nest(9),
];

/// How many items a sound message has.
pub fn items(message: &[u8]) -> usize {
    tree(message).map_or(0, |nodes| size(&nodes))
}

/// The message with one item changed. None if there is no such item or no such change of it: the
/// last of its siblings has no next one, and nothing beside it stands at a depth above its own.
pub fn changed(message: &[u8], item: usize, change: Change) -> Option<Vec<u8>> {
    let mut nodes = tree(message)?;
    let (siblings, at, depth) = find(&mut nodes, item, 1)?;
    match change {
        Change::Drop => drop(siblings.remove(at)),
        Change::Double => siblings.insert(at, siblings[at].clone()),
        Change::Swap if at + 1 < siblings.len() => siblings.swap(at, at + 1),
        Change::Retype => siblings[at].content = retyped(&siblings[at].content),
        Change::Wrap => {
            let inner = siblings.remove(at);
            siblings.insert(at, Node::structure(inner.tag, [inner]));
        }
        Change::Nest(deepest) if depth <= deepest => {
            siblings.insert(at, nested(deepest - depth, Node::integer(UNKNOWN, 0)));
        }
        Change::Swap | Change::Nest(_) => return None,
    }
    Some(encode(&nodes))
}

/// Every change of every item: the item, the change, and the message it makes.
pub fn all_changed(message: &[u8]) -> impl Iterator<Item = (usize, Change, Vec<u8>)> + '_ {
    let every = (0..items(message)).flat_map(|item| CHANGES.map(|change| (item, change)));
    every.filter_map(|(item, change)| Some((item, change, changed(message, item, change)?)))
}

/// The message after any edit of an item and its siblings; the edit gets these and the item's place
/// among them.
pub fn edited(
    message: &[u8],
    item: usize,
    edit: impl FnOnce(&mut Vec<Node>, usize),
) -> Option<Vec<u8>> {
    let mut nodes = tree(message)?;
    let (siblings, at, _) = find(&mut nodes, item, 1)?;
    edit(siblings, at);
    Some(encode(&nodes))
}

/// An item inside so many unknown structures.
pub fn nested(structures: usize, item: Node) -> Node {
    (0..structures).fold(item, |inner, _| Node::structure(UNKNOWN, [inner]))
}

/// The message with another value in one byte.
pub fn with_byte(message: &[u8], at: usize, value: u8) -> Vec<u8> {
    let mut bytes = message.to_vec();
    bytes[at] = value;
    bytes
}

/// The message cut at each length, from nothing to all but its last byte.
pub fn cuts(message: &[u8]) -> impl Iterator<Item = &[u8]> {
    (0..message.len()).map(|length| &message[..length])
}

/// Where the padding bytes of a message stand, as far as its heads can be followed.
pub fn padding(message: &[u8]) -> Vec<usize> {
    let mut places = Vec::new();
    let mut at = 0;
    while let Some(&[_, _, _, kind, l0, l1, l2, l3]) =
        message.get(at..).and_then(<[u8]>::first_chunk)
    {
        // A structure's members stand right behind its head.
        let length = if kind == 1 { 0 } else { u32::from_be_bytes([l0, l1, l2, l3]) as usize };
        let end = at + 8 + length;
        at = end.next_multiple_of(8);
        places.extend((end..at).filter(|&place| place < message.len()));
    }
    places
}

fn size(nodes: &[Node]) -> usize {
    nodes.iter().map(|node| 1 + size(node.members())).sum()
}

/// Among which nodes the item stands, at which place, and at which depth; these nodes are at `depth`.
fn find(
    nodes: &mut Vec<Node>,
    mut item: usize,
    depth: usize,
) -> Option<(&mut Vec<Node>, usize, usize)> {
    let mut at = 0;
    while item >= size(nodes.get(at..=at)?) {
        item -= size(&nodes[at..=at]);
        at += 1;
    }
    if item == 0 {
        return Some((nodes, at, depth));
    }
    match &mut nodes[at].content {
        Content::Structure(members) => find(members, item - 1, depth + 1),
        _ => None,
    }
}

fn retyped(content: &Content) -> Content {
    match content {
        Content::Structure(members) => Content::Bytes(encode(members)),
        Content::Integer(number) => Content::Enumeration(*number as u32),
        Content::Enumeration(number) => Content::Integer(*number as i32),
        Content::Text(text) => Content::Bytes(text.clone()),
        Content::Bytes(bytes) => Content::Text(bytes.clone()),
    }
}
