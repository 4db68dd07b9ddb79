//! The TTLV encoding of KMIP: tag, type, length, value, and zeros up to a multiple of eight.
//!
//! The reader goes over the bytes once to see that they are sound and then lends the items out of
//! them; the writer takes a tree of its own. Numbers of several bytes are big-endian.

use crate::status;

/// No item stands deeper; the outermost is depth one.
pub const DEPTH: usize = 8;
/// The bytes of an item before its value, and what its size is a multiple of.
const HEAD: usize = 8;

const STRUCTURE: u8 = 0x01;
const INTEGER: u8 = 0x02;
const ENUMERATION: u8 = 0x05;
const TEXT: u8 = 0x07;
const BYTES: u8 = 0x08;

pub type Tag = [u8; 3];

/// An item as it stands in sound bytes.
#[derive(Clone, Copy)]
pub struct Item<'a> {
    pub tag: Tag,
    pub value: Value<'a>,
}

/// Text is any bytes: UTF-8 isn't asked for.
#[derive(Clone, Copy)]
pub enum Value<'a> {
    Structure(Items<'a>),
    Integer(i32),
    Enumeration(u32),
    Text(&'a [u8]),
    Bytes(&'a [u8]),
}

/// Items one behind the other, known to be sound to the last byte; a structure's are its members.
#[derive(Clone, Copy)]
pub struct Items<'a>(&'a [u8]);

/// The outermost items of bytes that are sound; of no bytes, none.
pub fn read(bytes: &[u8]) -> Option<Items<'_>> {
    sound(bytes, 1).then_some(Items(bytes))
}

/// Whether bytes are items and nothing else, when these stand at that depth.
fn sound(mut bytes: &[u8], depth: usize) -> bool {
    if depth > DEPTH {
        return bytes.is_empty();
    }
    while !bytes.is_empty() {
        let Some((item, padding, rest)) = split(bytes) else {
            return false;
        };
        if padding.iter().any(|&byte| byte != 0) {
            return false;
        }
        if let Value::Structure(Items(members)) = item.value {
            if !sound(members, depth + 1) {
                return false;
            }
        }
        bytes = rest;
    }
    true
}

/// The first item, its padding, and what follows. Neither the padding nor a structure's members are
/// looked at; members take multiples of eight, so they fill no structure of another length.
fn split(bytes: &[u8]) -> Option<(Item<'_>, &[u8], &[u8])> {
    let (&[t0, t1, t2, kind, l0, l1, l2, l3], rest) = bytes.split_first_chunk::<HEAD>()?;
    let length = u32::from_be_bytes([l0, l1, l2, l3]) as usize;
    let (value, rest) = rest.split_at_checked(length)?;
    let (padding, rest) = rest.split_at_checked(padding(length))?;
    let value = match kind {
        STRUCTURE => Value::Structure(Items(value)),
        INTEGER => Value::Integer(i32::from_be_bytes(value.try_into().ok()?)),
        ENUMERATION => Value::Enumeration(u32::from_be_bytes(value.try_into().ok()?)),
        TEXT => Value::Text(value),
        BYTES => Value::Bytes(value),
        _ => return None,
    };
    Some((Item { tag: [t0, t1, t2], value }, padding, rest))
}

fn padding(length: usize) -> usize {
    length.wrapping_neg() % HEAD
}

impl<'a> Iterator for Items<'a> {
    type Item = Item<'a>;

    fn next(&mut self) -> Option<Item<'a>> {
        let (item, _, rest) = split(self.0)?;
        self.0 = rest;
        Some(item)
    }
}

impl<'a> Items<'a> {
    /// The value of the first item of a tag.
    pub fn first(mut self, tag: Tag) -> Option<Value<'a>> {
        self.behind(tag)
    }

    /// The same, and only what stands behind that item is left.
    pub fn behind(&mut self, tag: Tag) -> Option<Value<'a>> {
        self.find(|item| item.tag == tag).map(|item| item.value)
    }
}

impl<'a> Value<'a> {
    pub fn structure(self) -> Option<Items<'a>> {
        match self {
            Value::Structure(members) => Some(members),
            _ => None,
        }
    }

    pub fn integer(self) -> Option<i32> {
        match self {
            Value::Integer(number) => Some(number),
            _ => None,
        }
    }

    pub fn enumeration(self) -> Option<u32> {
        match self {
            Value::Enumeration(number) => Some(number),
            _ => None,
        }
    }

    pub fn text(self) -> Option<&'a [u8]> {
        match self {
            Value::Text(text) => Some(text),
            _ => None,
        }
    }

    pub fn bytes(self) -> Option<&'a [u8]> {
        match self {
            Value::Bytes(bytes) => Some(bytes),
            _ => None,
        }
    }
}

/// An item that owns its value, to be written.
#[derive(Clone, Debug, PartialEq, Eq)]
pub struct Node {
    pub tag: Tag,
    pub content: Content,
}

#[derive(Clone, Debug, PartialEq, Eq)]
pub enum Content {
    Structure(Vec<Node>),
    Integer(i32),
    Enumeration(u32),
    Text(Vec<u8>),
    Bytes(Vec<u8>),
}

impl Node {
    pub fn structure(tag: Tag, members: impl Into<Vec<Node>>) -> Node {
        Node { tag, content: Content::Structure(members.into()) }
    }

    pub fn integer(tag: Tag, number: i32) -> Node {
        Node { tag, content: Content::Integer(number) }
    }

    pub fn enumeration(tag: Tag, number: u32) -> Node {
        Node { tag, content: Content::Enumeration(number) }
    }

    pub fn text(tag: Tag, text: &[u8]) -> Node {
        Node { tag, content: Content::Text(text.to_vec()) }
    }

    pub fn bytes(tag: Tag, bytes: &[u8]) -> Node {
        Node { tag, content: Content::Bytes(bytes.to_vec()) }
    }

    /// What stands in it; nothing if it is no structure.
    pub fn members(&self) -> &[Node] {
        match &self.content {
            Content::Structure(members) => members,
            _ => &[],
        }
    }
}

/// The tree of sound bytes.
pub fn tree(bytes: &[u8]) -> Option<Vec<Node>> {
    Some(read(bytes)?.map(Node::from).collect())
}

impl From<Item<'_>> for Node {
    fn from(item: Item) -> Self {
        let content = match item.value {
            Value::Structure(members) => Content::Structure(members.map(Node::from).collect()),
            Value::Integer(number) => Content::Integer(number),
            Value::Enumeration(number) => Content::Enumeration(number),
            Value::Text(text) => Content::Text(text.to_vec()),
            Value::Bytes(bytes) => Content::Bytes(bytes.to_vec()),
        };
        Node { tag: item.tag, content }
    }
}

/// Writes the items and tells how many bytes they take. Too short an output gives 07 0F, then an
/// item that stands too deep 07 17, and nothing is written.
pub fn write(nodes: &[Node], out: &mut [u8]) -> Result<usize, u16> {
    let bytes = encode(nodes);
    let out = out.get_mut(..bytes.len()).ok_or(status::OUTPUT)?;
    if depth(nodes) > DEPTH {
        return Err(status::MESSAGE);
    }
    out.copy_from_slice(&bytes);
    Ok(bytes.len())
}

/// The bytes of the items, however deep they stand.
pub fn encode(nodes: &[Node]) -> Vec<u8> {
    let mut bytes = Vec::new();
    nodes.iter().for_each(|node| put(&mut bytes, node));
    bytes
}

/// The depth of the deepest item, 0 if there is none.
fn depth(nodes: &[Node]) -> usize {
    let deepest = |node: &Node| match &node.content {
        Content::Structure(members) => 1 + depth(members),
        _ => 1,
    };
    nodes.iter().map(deepest).max().unwrap_or(0)
}

fn put(bytes: &mut Vec<u8>, node: &Node) {
    bytes.extend(node.tag);
    match &node.content {
        Content::Structure(members) => put_value(bytes, STRUCTURE, &encode(members)),
        Content::Integer(number) => put_value(bytes, INTEGER, &number.to_be_bytes()),
        Content::Enumeration(number) => put_value(bytes, ENUMERATION, &number.to_be_bytes()),
        Content::Text(text) => put_value(bytes, TEXT, text),
        Content::Bytes(value) => put_value(bytes, BYTES, value),
    }
}

fn put_value(bytes: &mut Vec<u8>, kind: u8, value: &[u8]) {
    bytes.push(kind);
    bytes.extend((value.len() as u32).to_be_bytes());
    bytes.extend(value);
    bytes.extend(&[0; HEAD][..padding(value.len())]);
}
