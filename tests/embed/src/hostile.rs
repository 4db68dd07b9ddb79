//! What a broken or ill-meaning host sends, and states that no drive reached.

use embed::Rng;
use model::messages::*;
use model::numbers::{
    BLOCKS, FRAME, HEAD, IMAGE, KEK, MARK, NAMESPACES, POOL, PROGRAM_KEK, REPLACE, SLOT, TAGS,
};
use model::ttlv::Node;

use crate::messages::others;
use crate::universe::{key, key_uid};

pub const DIGITS: &[u8] = b"0123456789ABCDEF";
/// The longest line that is made here.
pub const LONGEST: usize = 4 * FRAME;
/// Where an image has its key-encryption key.
pub const KEK_AT: usize = IMAGE - KEK;

pub fn to_digits(frame: &[u8], line: &mut Vec<u8>) {
    line.clear();
    for byte in frame {
        line.push(DIGITS[usize::from(byte >> 4)]);
        line.push(DIGITS[usize::from(byte & 0x0F)]);
    }
}

pub fn from_digits(digits: &[u8]) -> Option<Vec<u8>> {
    let value = |digit: &u8| Some(DIGITS.iter().position(|known| known == digit)? as u8);
    let byte = |pair: &[u8]| Some(value(pair.first()?)? << 4 | value(pair.get(1)?)?);
    digits.chunks(2).map(byte).collect()
}

/// At one place, or now and then at two, as far as something is left of the line.
pub fn damage_line(rng: &mut Rng, line: &mut Vec<u8>) {
    damage_once(rng, line);
    if line.len() > 1 && rng.once_in(4) {
        damage_once(rng, line);
        line.truncate(LONGEST);
    }
}

/// The line has two digits or more.
fn damage_once(rng: &mut Rng, line: &mut Vec<u8>) {
    let at = rng.below(line.len());
    match rng.below(13) {
        0 => line[at] = rng.pick(DIGITS),
        1 => line[at] = rng.byte(),
        2 => line.truncate(at),
        3 => line.make_ascii_lowercase(),
        4 => line.push(rng.pick(DIGITS)),
        5 => line.extend([rng.pick(DIGITS), rng.pick(DIGITS)]),
        6 => line.clear(),
        7 => line.insert(at, rng.pick(b"\n\r \0gG/:@`\xC1")),
        8 => line[1] = rng.pick(DIGITS),
        9 => lengthen(rng, line),
        10 => other_key_uid_length(rng, line),
        11 => random_digits(rng, line),
        _ => line.iter_mut().for_each(|byte| *byte = rng.byte()),
    }
}

/// To about the longest that a line may be, with a message or without, or far beyond.
fn lengthen(rng: &mut Rng, line: &mut Vec<u8>) {
    let length = match rng.below(4) {
        0 => line.len() + rng.below(LONGEST - line.len()),
        1 => 2 * REPLACE - 3 + rng.below(6),
        _ => 2 * FRAME - 3 + rng.below(6),
    };
    while line.len() < length {
        line.push(rng.pick(DIGITS));
    }
}

/// Where a load has its KeyUID length and a replace its first one.
fn other_key_uid_length(rng: &mut Rng, line: &mut [u8]) {
    let length: u8 = rng.pick(&[0, 1, 2, 8, 15, 16, 17, 18, 127, 255]);
    if let Some(digits) = line.get_mut(8..10) {
        digits[0] = DIGITS[usize::from(length >> 4)];
        digits[1] = DIGITS[usize::from(length & 0x0F)];
    }
}

fn random_digits(rng: &mut Rng, line: &mut Vec<u8>) {
    line.clear();
    line.extend_from_slice(b"0");
    let most = rng.pick(&[2 * REPLACE, 2 * FRAME]);
    for _ in 0..rng.below(most) {
        line.push(rng.pick(DIGITS));
    }
}

/// In its bytes, or in an item if they are still sound: then the lengths follow.
pub fn damage_message(rng: &mut Rng, message: &mut Vec<u8>) {
    let at = rng.below(message.len().max(1));
    let item = rng.below(items(message).max(1));
    let changed = match rng.below(9) {
        0 => padding(message).pop().map(|at| with_byte(message, at, rng.byte())),
        1 => message.get(at).map(|byte| with_byte(message, at, byte ^ 1 << rng.below(8))),
        2 => Some(message[..at.min(message.len())].to_vec()),
        3 => {
            let behind = vec![rng.pick(&[0, 0x42]); 1 + rng.below(16)];
            Some([&message[..], &behind].concat())
        }
        4 | 5 => edited(message, item, |siblings, at| siblings.insert(at, unknown(rng))),
        6 => edited(message, item, |siblings, at| {
            let others = others(&siblings[at].content);
            siblings[at].content = others[rng.below(others.len())].clone();
        }),
        _ => changed(message, item, rng.pick(&CHANGES)),
    };
    if let Some(changed) = changed {
        *message = changed;
    }
}

/// An item that nothing asks for, or one whose tag is another's.
fn unknown(rng: &mut Rng) -> Node {
    let tag = rng.pick(&[UNKNOWN, [0x42, 0x00, 0x08], [0x42, 0x00, 0x0B], [0x42, 0x00, 0x94]]);
    let length = rng.below(48);
    let item = match rng.below(4) {
        0 => Node::integer(tag, rng.word() as i32),
        1 => Node::text(tag, &vec![rng.byte(); length]),
        2 => Node::bytes(tag, &vec![rng.byte(); length]),
        _ => Node::structure(tag, []),
    };
    nested(rng.below(8), item)
}

/// Any, the program's, or one byte again and again.
pub fn random_kek(rng: &mut Rng) -> [u8; KEK] {
    let mut kek = [rng.byte(); KEK];
    match rng.below(4) {
        0 => {}
        1 => kek = PROGRAM_KEK,
        _ => rng.fill(&mut kek),
    }
    kek
}

/// A sound image and any marks, mostly of the universe's KeyUIDs; any key-encryption key.
pub fn random_state(rng: &mut Rng, image: &mut [u8], marks: &mut [u8]) {
    image.fill(0);
    image[KEK_AT..].copy_from_slice(&random_kek(rng));
    random_counts(rng, &mut image[..NAMESPACES]);
    // With most slots loaded, most KeyUIDs have two keys.
    let turns = rng.pick(&[1, 4, 16]);
    for lock in &mut image[NAMESPACES..NAMESPACES + 2] {
        *lock = rng.pick(&[1, 2, 3]);
    }
    let (head, slots) = image[..KEK_AT].split_at_mut(NAMESPACES + 2);
    for (count, slots) in head.iter().zip(slots.chunks_exact_mut(TAGS * SLOT)) {
        let allocated = &mut slots[..usize::from(*count) * SLOT];
        for slot in allocated.chunks_exact_mut(SLOT) {
            if rng.once_in(turns) {
                random_slot(rng, slot);
            }
        }
    }
    marks.chunks_exact_mut(MARK).for_each(|mark| random_mark(rng, mark));
}

/// From any namespace on, each count up to the most that it can be; often that, or one less.
fn random_counts(rng: &mut Rng, counts: &mut [u8]) {
    let (mut left, first) = (POOL, rng.below(NAMESPACES));
    for turn in 0..NAMESPACES {
        let most = left.min(TAGS);
        let count = match rng.below(8) {
            0 | 1 => most,
            2 => most.saturating_sub(1),
            _ => rng.below(most + 1),
        };
        counts[(first + turn) % NAMESPACES] = count as u8;
        left -= count;
    }
}

fn random_slot(rng: &mut Rng, slot: &mut [u8]) {
    match rng.below(4) {
        0 => {}
        1 => {
            let length = 1 + rng.below(16);
            slot[0] = length as u8;
            rng.fill(&mut slot[1..=length]);
            rng.fill(&mut slot[HEAD..]);
        }
        _ => {
            let uid = key_uid(rng);
            slot[0] = uid.len() as u8;
            slot[1..=uid.len()].copy_from_slice(uid);
            slot[HEAD..].copy_from_slice(&key(rng, uid));
        }
    }
}

fn random_mark(rng: &mut Rng, mark: &mut [u8]) {
    mark.fill(0);
    match rng.below(16) {
        0 => rng.fill(mark),
        1 => rng.fill(&mut mark[1..]),
        2..=7 => {
            let uid = key_uid(rng);
            mark[0] = uid.len() as u8;
            mark[1..=uid.len()].copy_from_slice(uid);
            // Nearly a KeyUID: another length or byte, or something behind it.
            if rng.once_in(4) {
                mark[rng.below(MARK)] ^= 1;
            }
        }
        _ => {}
    }
}

/// A place in an image and a value for it; mostly where soundness looks, or in the key-encryption
/// key.
pub fn damage_image(rng: &mut Rng, image: &mut [u8]) {
    let slot = damaged_slot(rng, image);
    let at = match rng.below(5) {
        0 => rng.below(NAMESPACES + 2),
        1 => slot,
        2 => slot + rng.below(HEAD),
        3 => KEK_AT + rng.below(KEK),
        _ => rng.below(IMAGE),
    };
    image[at] = match rng.below(4) {
        0 => rng.byte(),
        1 => rng.pick(&[0, 1, 16, 17, 127, 128, 129, 255]),
        2 => image[at].wrapping_add(1),
        _ => image[at] ^ 1 << rng.below(8),
    };
}

/// Where a slot starts: any, the last allocated, the one behind it, or the last of a namespace.
fn damaged_slot(rng: &mut Rng, image: &[u8]) -> usize {
    let index = rng.below(NAMESPACES);
    let count = usize::from(image[index]);
    let tag = match rng.below(8) {
        0 => count.saturating_sub(1),
        1 => count,
        2 => TAGS - 1,
        _ => rng.below(TAGS),
    };
    NAMESPACES + 2 + (index * TAGS + tag.min(TAGS - 1)) * SLOT
}

pub fn damage_marks(rng: &mut Rng, marks: &mut [u8]) {
    let block = rng.below(NAMESPACES * BLOCKS);
    random_mark(rng, &mut marks[block * MARK..][..MARK]);
}
