//! Messages that the profile of a load tells apart: which attributes they have, where algorithm and
//! length stand, and how long KeyUID and key are.

use model::kmip;
use model::messages::edited;
use model::numbers::KEY;
use model::ttlv::{Content, Node, Tag};

/// Items of a whole message.
const ATTRIBUTES: usize = 11;
const PARAMETERS: usize = 12;
const KEY_BLOCK: usize = 25;

const ATTRIBUTE: Tag = [0x42, 0x00, 0x08];
const NAME: Tag = [0x42, 0x00, 0x0A];
const VALUE: Tag = [0x42, 0x00, 0x0B];
const ALGORITHM: Tag = [0x42, 0x00, 0x28];
const LENGTH: Tag = [0x42, 0x00, 0x2A];
const VENDOR: Tag = [0x42, 0x00, 0x9D];

/// Every list of up to three attributes, behind the parameters and before them.
pub fn attribute_lists(message: &[u8], namespace: u8, tag: u16) -> Vec<Vec<u8>> {
    let known = attributes(namespace.into(), tag.into());
    let mut lists: Vec<Vec<Node>> = vec![vec![]];
    for first in &known {
        lists.push(vec![first.clone()]);
        for second in &known {
            lists.push(vec![first.clone(), second.clone()]);
            lists.extend(known.iter().map(|third| [first, second, third].map(Node::clone).into()));
        }
    }
    let places = lists.iter().flat_map(|list| [(list, 0), (list, list.len())]);
    places.filter_map(|(list, place)| with_attributes(message, list.clone(), place)).collect()
}

fn with_attributes(message: &[u8], mut list: Vec<Node>, parameters_at: usize) -> Option<Vec<u8>> {
    edited(message, ATTRIBUTES, |siblings, at| {
        list.insert(parameters_at, siblings[at].members()[0].clone());
        siblings[at].content = Content::Structure(list);
    })
}

/// The two right ones, then some with one thing wrong, or odd.
fn attributes(namespace: i32, tag: i32) -> Vec<Node> {
    let of = |members: &[Node]| Node::structure(ATTRIBUTE, members);
    let vendor = || Node::text(VENDOR, b"TCG-SWG");
    let name = |name: &[u8]| Node::text(NAME, name);
    let value = |number: i32| Node::integer(VALUE, number);
    vec![
        of(&[vendor(), name(b"NamespaceID"), value(namespace)]),
        of(&[value(tag), name(b"KeyTag"), vendor()]),
        of(&[vendor(), name(b"NamespaceID"), value(namespace + 1)]),
        of(&[vendor(), name(b"KeyTag"), value(tag + 256)]),
        of(&[vendor(), name(b"NamespaceID"), Node::enumeration(VALUE, namespace as u32)]),
        of(&[vendor(), name(b"KeyTag"), value(tag), value(tag + 1)]),
        of(&[vendor(), name(b"KeyTag")]),
        of(&[vendor(), name(b"UID"), value(tag)]),
        of(&[vendor(), name(b"Room")]),
        of(&[vendor(), name(b"KeyTag"), name(b"UID"), value(tag)]),
        of(&[Node::text(VENDOR, b"TCG_SWG"), name(b"KeyTag"), value(tag)]),
        of(&[Node::bytes(VENDOR, b"TCG-SWG"), vendor(), name(b"Room")]),
        of(&[name(b"NamespaceID"), value(namespace)]),
        of(&[vendor(), Node::bytes(NAME, b"UID")]),
        of(&[vendor(), value(namespace)]),
        Node::integer(ATTRIBUTE, tag),
    ]
}

/// Algorithm and length each missing, right, wrong, of another type or twice: beside the role, and in
/// the key block.
pub fn cipher_places(message: &[u8]) -> Vec<Vec<u8>> {
    let algorithm = |number| Node::enumeration(ALGORITHM, number);
    let length = |number| Node::integer(LENGTH, number);
    let algorithms = [
        vec![],
        vec![algorithm(3)],
        vec![algorithm(2)],
        vec![Node::integer(ALGORITHM, 3)],
        vec![algorithm(3), algorithm(2)],
    ];
    let lengths = [
        vec![],
        vec![length(256)],
        vec![length(128)],
        vec![Node::enumeration(LENGTH, 256)],
        vec![length(256), length(128)],
    ];
    let both = |one: &Vec<Node>| lengths.iter().map(|two| [&one[..], two].concat()).collect();
    let ciphers: Vec<Vec<Node>> = algorithms.iter().flat_map::<Vec<_>, _>(both).collect();
    let pairs = ciphers.iter().flat_map(|one| ciphers.iter().map(move |two| (one, two)));
    pairs.filter_map(|(one, two)| with_cipher(message, one, two)).collect()
}

/// The block first: what is put beside the role moves it.
fn with_cipher(message: &[u8], beside_role: &[Node], in_block: &[Node]) -> Option<Vec<u8>> {
    let message = edited(message, KEY_BLOCK, |siblings, at| {
        let members = [in_block, siblings[at].members()].concat();
        siblings[at].content = Content::Structure(members);
    })?;
    edited(&message, PARAMETERS, |siblings, at| {
        let members = [&siblings[at].members()[..1], beside_role].concat();
        siblings[at].content = Content::Structure(members);
    })
}

/// KeyUIDs and keys of many lengths, both right, one, or neither.
pub fn materials(namespace: u8, tag: u16) -> Vec<Vec<u8>> {
    let uids = (0..=24).chain([32, 40, 64, 96, 120]);
    let keys = (0..=8).chain(KEY - 8..=KEY + 8).chain([64, 128]);
    let pairs = uids.flat_map(|uid| keys.clone().map(move |key| (vec![b'u'; uid], vec![7; key])));
    pairs.map(|(uid, key)| kmip::message(namespace, tag, &uid, &key)).collect()
}
