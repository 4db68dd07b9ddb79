//! The message of a load and a wrapped key as a walk sends them: as they must be, or with one thing otherwise.

use model::kmip;
use model::messages::{changed, edited, items, padding, with_byte, Change, CHANGES};
use model::numbers::{KEY, PROGRAM_KEK, WRAPPED};
use model::wrap::{wrap, wrap_behind, INTEGRITY};

use crate::dice::Dice;
use crate::message::{attribute, NAMESPACE, TAG};
use crate::wrapped::PADDED;

pub fn message(dice: &mut Dice, namespace: u8, tag: u16, uid: &[u8], key: &[u8]) -> Vec<u8> {
    let right = kmip::message(namespace, tag, uid, key);
    match dice.below(30) {
        0 => kmip::message(namespace, tag ^ dice.pick(&[1, 1, 2, 0x100, 0x8000]), uid, key),
        1 => kmip::message(namespace ^ dice.pick(&[1, 2, 3, 0x80]), tag, uid, key),
        2 | 3 => kmip::message(namespace, tag, &other_uid(dice, uid), key),
        4 => kmip::message(namespace, tag, &other_uid(dice, uid), &key[1..]),
        5 => kmip::message(namespace, tag, uid, &key.repeat(2)[..dice.pick(&[0, 31, 33])]),
        6 => {
            let at = dice.pick(&padding(&right));
            with_byte(&right, at, 1 << dice.below(8))
        }
        7 | 8 => with_byte(&right, dice.below(right.len()), dice.roll() as u8),
        9 => {
            let length = dice.below(right.len());
            right[..dice.pick(&[0, length])].to_vec()
        }
        10 | 11 => with_attribute(dice, &right),
        12 => change(dice, &right, &[Change::Nest(8), Change::Nest(9)]),
        13..=16 => change(dice, &right, &CHANGES),
        _ => right,
    }
}

/// Nothing, or a KeyUID that is one byte too long, or more.
fn other_uid(dice: &mut Dice, uid: &[u8]) -> Vec<u8> {
    let length = dice.pick(&[0, 17, 17, 24, 25]);
    uid.iter().copied().cycle().take(length).collect()
}

/// One of the attributes' names again, with any number, or the name that there must not be.
fn with_attribute(dice: &mut Dice, right: &[u8]) -> Vec<u8> {
    let name: &[u8] = dice.pick(&[&b"UID"[..], b"NamespaceID", b"KeyTag", b"Other"]);
    let more = attribute(name, dice.below(5) as i32);
    let (item, step) = (dice.pick(&[NAMESPACE, TAG]), dice.below(2));
    edited(right, item, |members, at| members.insert(at + step, more)).expect("an item")
}

/// A change of any item, or of the next one that can be changed so.
fn change(dice: &mut Dice, right: &[u8], changes: &[Change]) -> Vec<u8> {
    let (item, change) = (dice.below(items(right)), dice.pick(changes));
    let next = (item..items(right)).find_map(|item| changed(right, item, change));
    next.unwrap_or_else(|| right.to_vec())
}

/// The key wrapped as it must be, mostly, or what an office that is nearly right sends for that.
pub fn wrapped(dice: &mut Dice, key: &[u8; KEY]) -> Vec<u8> {
    let right = wrap(&PROGRAM_KEK, key);
    match dice.below(20) {
        0 | 1 => flipped(dice, right).to_vec(),
        2 => wrap(&flipped(dice, PROGRAM_KEK), key).to_vec(),
        3 | 4 => {
            let other = INTEGRITY ^ 1 << dice.below(64);
            let first = dice.pick(&[PADDED, other, other]);
            wrap_behind(&PROGRAM_KEK, first, key).to_vec()
        }
        5 => [&INTEGRITY.to_be_bytes(), &key[..]].concat(),
        6 => dice.pick(&[&key[..], &right[..WRAPPED - 1], &right[8..]]).to_vec(),
        _ => right.to_vec(),
    }
}

/// The bytes with one bit otherwise.
fn flipped<const N: usize>(dice: &mut Dice, mut bytes: [u8; N]) -> [u8; N] {
    bytes[dice.below(N)] ^= 1 << dice.below(8);
    bytes
}
