//! Frames over few namespaces, tags, KeyUIDs and keys, so that they meet each other often.

use embed::Rng;
use model::kmip;
use model::numbers::{
    COMMAND, FRAME, KEK, KEY, KEY_UID, NAMESPACES, POOL, PROGRAM_KEK, REPLACE, SLOT, TAGS,
};
use model::wrap::{wrap, wrap_behind, INTEGRITY};

use crate::hostile::damage_message;

/// Lengths and first bytes are shared in every way that a cut or a pad could confuse.
const KEY_UIDS: [&[u8]; 19] = [
    b"\xA0",
    b"\xA1",
    b"\xA0\x00",
    b"\x00\xA0",
    b"\x00",
    b"\x00\x00",
    b"\xA0\xA1\xA2\xA3\xA4\xA5\xA6",
    b"\xA0\xA1\xA2\xA3\xA4\xA5\xA6\xA7",
    b"\xA0\xA1\xA2\xA3\xA4\xA5\xA6\xFF",
    b"\xA0\xA1\xA2\xA3\xA4\xA5\xA6\xA7\xA8",
    b"\xA0\xA1\xA2\xA3\xA4\xA5\xA6\xA7\xFF",
    b"\xA0\xA1\xA2\xA3\xA4\xA5\xA6\xA7\x00",
    b"\xA0\xA1\xA2\xA3\xA4\xA5\xA6\xA7\x00\x00\x00\x00\x00\x00\x00\x00",
    b"\xA0\xA1\xA2\xA3\xA4\xA5\xA6\xA7\x00\x00\x00\x00\x00\x00\x00\x01",
    b"\xA0\xA1\xA2\xA3\xA4\xA5\xA6\xA7\xA8\xA9\xAA\xAB\xAC\xAD\xAE",
    b"\xA0\xA1\xA2\xA3\xA4\xA5\xA6\xA7\xA8\xA9\xAA\xAB\xAC\xAD\xAE\xAF",
    b"\xA0\xA1\xA2\xA3\xA4\xA5\xA6\xA7\xA8\xA9\xAA\xAB\xAC\xAD\xAE\xFF",
    b"\xA0\xA1\xA2\xA3\xA4\xA5\xA6\xA7\xFF\xA9\xAA\xAB\xAC\xAD\xAE\xAF",
    b"\x00\x00\x00\x00\x00\x00\x00\x00\x00\x00\x00\x00\x00\x00\x00\x00",
];

const COUNTS: [u8; 16] = [1, 2, 2, 3, 4, 8, 32, 63, 64, 126, 127, 128, 128, 0, 129, 255];

/// How often each kind comes, in turns of 256.
const KINDS: [(u8, u8); 14] = [
    (0x01, 14),
    (0x02, 2),
    (0x03, 39),
    (0x04, 34),
    (0x05, 16),
    (0x06, 2),
    (0x07, 66),
    (0x08, 16),
    (0x09, 6),
    (0x0A, 10),
    (0x0B, 3),
    (0x0C, 6),
    (0x0D, 20),
    (0x0E, 22),
];

/// Writes a frame's bytes, likely for a drive with this image.
pub fn frame(rng: &mut Rng, image: &[u8], frame: &mut Vec<u8>) {
    frame.clear();
    let kind = kind(rng);
    frame.push(kind);
    match kind {
        0x01 => frame.extend([namespace(rng), tag_count(rng, image)]),
        0x02 | 0x06 => frame.push(namespace(rng)),
        0x03 => load(rng, image, frame),
        0x04 => replace(rng, image, frame),
        0x05 => put_place(frame, place(rng, image, true)),
        0x07 => frame.extend(command(rng, image)),
        0x08 => frame.extend(dword_11(rng).to_le_bytes()),
        0x0A => frame.push(rng.pick(&[0, 0, 1, 1, 2, 3, 255])),
        0x0B => frame.push(rng.pick(&[0, 0, 0, 0, 1, 2, 2, 255])),
        // Longer than it may be.
        0x0C if rng.once_in(4) => {
            let most = rng.pick(&[REPLACE, FRAME]);
            frame.resize(2 + rng.below(most - 1), rng.byte());
        }
        0x0D => load_by_message(rng, image, frame),
        0x0E => load_wrapped(rng, image, frame),
        _ => {}
    }
}

pub fn key_uid(rng: &mut Rng) -> &'static [u8] {
    rng.pick(&KEY_UIDS)
}

/// Mostly the one key of its KeyUID; otherwise one that differs in its first or last byte.
pub fn key(rng: &mut Rng, key_uid: &[u8]) -> [u8; KEY] {
    let mut key = [key_uid.len() as u8; KEY];
    match rng.below(16) {
        0 => key[0] ^= 1,
        1 => key[KEY - 1] ^= 1,
        2 => key = [0; KEY],
        _ => {}
    }
    key
}

fn kind(rng: &mut Rng) -> u8 {
    let mut turn = rng.byte();
    for (kind, turns) in KINDS {
        if turn < turns {
            return kind;
        }
        turn -= turns;
    }
    0x07
}

fn namespace(rng: &mut Rng) -> u8 {
    match rng.below(32) {
        0 => rng.pick(&[0, 5, 255]),
        other => 1 + (other % 4) as u8,
    }
}

/// Now and then what is left of the pool, or one more.
fn tag_count(rng: &mut Rng, image: &[u8]) -> u8 {
    let counts = image[..NAMESPACES].iter().map(|&count| usize::from(count));
    let left = POOL.saturating_sub(counts.sum());
    match rng.below(4) {
        0 => left.min(255) as u8,
        1 => (left + 1).min(255) as u8,
        _ => rng.pick(&COUNTS),
    }
}

/// Mostly one of the first or the last, where slots are loaded.
fn tag(rng: &mut Rng, image: &[u8], namespace: u8) -> u16 {
    let index = usize::from(namespace.wrapping_sub(1));
    let count = u16::from(*image[..NAMESPACES].get(index).unwrap_or(&0));
    match rng.below(24) {
        0 => count,
        1 => rng.pick(&[count.wrapping_sub(1), count + 1, 127, 128, 255, 256, 0xFFFF]),
        2 => 256 + rng.below(4) as u16,
        3..=8 => count.saturating_sub(1 + rng.below(3) as u16),
        9..=18 => rng.below(usize::from(count.clamp(1, 8))) as u16,
        _ => rng.below(usize::from(count.max(1))) as u16,
    }
}

/// A namespace and a tag; for a slot that should be loaded, chosen from several.
fn place(rng: &mut Rng, image: &[u8], loaded: bool) -> (u8, u16) {
    let mut place = (0, 0);
    for _ in 0..4 {
        let namespace = namespace(rng);
        place = (namespace, tag(rng, image, namespace));
        if held(image, place).is_some() == loaded {
            break;
        }
    }
    place
}

fn put_place(frame: &mut Vec<u8>, (namespace, tag): (u8, u16)) {
    frame.push(namespace);
    frame.extend(tag.to_le_bytes());
}

fn led_by_length(frame: &mut Vec<u8>, key_uid: &[u8]) {
    frame.push(key_uid.len() as u8);
    frame.extend(key_uid);
}

fn load(rng: &mut Rng, image: &[u8], frame: &mut Vec<u8>) {
    put_place(frame, place(rng, image, false));
    let new = key_uid(rng);
    led_by_length(frame, new);
    frame.extend(key(rng, new));
}

/// Half of the messages are those of a load to this place; the others are nearly that.
fn load_by_message(rng: &mut Rng, image: &[u8], frame: &mut Vec<u8>) {
    let place = place(rng, image, false);
    put_place(frame, place);
    let new = key_uid(rng);
    let (mut uid, mut key) = (new.to_vec(), key(rng, new).to_vec());
    if rng.once_in(16) {
        uid.resize(rng.pick(&[0, 0, 17, 17, 18, 24, 25]), rng.byte());
    }
    if rng.once_in(32) {
        key.resize(rng.pick(&[0, 1, 24, 31, 33, 40, 64]), rng.byte());
    }
    let (namespace, tag) = if rng.once_in(16) { near(rng, place) } else { place };
    let mut message = kmip::message(namespace, tag, &uid, &key);
    for _ in 0..rng.pick(&[0, 0, 0, 0, 0, 1, 2, 3]) {
        damage_message(rng, &mut message);
    }
    frame.extend(message);
    // A line is read no further than that.
    frame.truncate(FRAME + 1);
}

fn load_wrapped(rng: &mut Rng, image: &[u8], frame: &mut Vec<u8>) {
    put_place(frame, place(rng, image, false));
    let new = key_uid(rng);
    led_by_length(frame, new);
    let kek = image.last_chunk().expect("a key-encryption key");
    let key = key(rng, new);
    frame.extend(wrapped(rng, kek, &key));
}

/// Half of the wrapped keys are; the others are nearly that.
fn wrapped(rng: &mut Rng, kek: &[u8; KEK], key: &[u8; KEY]) -> Vec<u8> {
    let mut wrapped = wrap(kek, key).to_vec();
    match rng.below(16) {
        0 => flip(rng, &mut wrapped),
        1 => {
            let mut other = *kek;
            flip(rng, &mut other);
            wrapped = wrap(&other, key).to_vec();
        }
        2 => wrapped = wrap(&PROGRAM_KEK, key).to_vec(),
        3 => wrapped = wrap_behind(kek, INTEGRITY ^ 1 << rng.below(64), key).to_vec(),
        4 => rng.fill(&mut wrapped),
        5 => wrapped.rotate_left(8),
        6 => wrapped = key.to_vec(),
        7 => wrapped.resize(rng.pick(&[0, 8, 24, 39, 41, 48, 80]), rng.byte()),
        _ => {}
    }
    wrapped
}

pub fn flip(rng: &mut Rng, bytes: &mut [u8]) {
    let at = rng.below(bytes.len());
    bytes[at] ^= 1 << rng.below(8);
}

/// Another place, which is likely to be taken for this.
fn near(rng: &mut Rng, (namespace, tag): (u8, u16)) -> (u8, u16) {
    match rng.below(4) {
        0 => (namespace.wrapping_add(1), tag),
        1 => (namespace, tag.wrapping_add(1)),
        2 => (namespace, tag ^ 0x0100),
        _ => (rng.byte(), rng.word() as u16),
    }
}

fn replace(rng: &mut Rng, image: &[u8], frame: &mut Vec<u8>) {
    let place = place(rng, image, true);
    put_place(frame, place);
    let old = match held(image, place) {
        Some(held) if !rng.once_in(4) => held,
        _ => key_uid(rng),
    };
    led_by_length(frame, old);
    let new = if rng.once_in(4) { old } else { key_uid(rng) };
    led_by_length(frame, new);
    frame.extend(key(rng, new));
}

/// The KeyUID of a loaded slot.
fn held(image: &[u8], (namespace, tag): (u8, u16)) -> Option<&[u8]> {
    let index = usize::from(namespace).checked_sub(1)? * TAGS + usize::from(tag);
    let slot = image[NAMESPACES + 2..].chunks_exact(SLOT).nth(index)?;
    match usize::from(slot[0]) {
        length @ 1..=KEY_UID => Some(&slot[1..=length]),
        _ => None,
    }
}

fn command(rng: &mut Rng, image: &[u8]) -> [u8; COMMAND] {
    let mut command = [0; COMMAND];
    if rng.once_in(8) {
        rng.fill(&mut command);
    }
    let (namespace, tag) = place(rng, image, true);
    let (first, field) = blocks(rng);
    command[0] = rng.pick(&[1, 1, 1, 1, 2, 2, 2, 2, 2, 5, 5, 5, 0x0C, 0x0C, 0x0C, 0]);
    command[4..8].copy_from_slice(&u32::from(namespace).to_le_bytes());
    command[40..48].copy_from_slice(&first.to_le_bytes());
    command[48..50].copy_from_slice(&field.to_le_bytes());
    command[50] = command[50] & 0xF0 | 1;
    command[52..54].copy_from_slice(&tag.to_le_bytes());
    if rng.once_in(16) {
        let at = rng.pick(&[0, 5, 6, 7, 41, 44, 47, 49, 50, 51, 53]);
        command[at] ^= rng.byte();
    }
    command
}

/// The first block and the count field.
fn blocks(rng: &mut Rng) -> (u64, u16) {
    let first = match rng.below(16) {
        0 => rng.pick(&[255, 256, 257, 1 << 32, 1 << 63, u64::MAX - 255, u64::MAX]),
        1..=4 => rng.below(256) as u64,
        _ => rng.below(12) as u64,
    };
    let to_last = 255u16.wrapping_sub(first as u16);
    let field = match rng.below(16) {
        0 => rng.pick(&[to_last.wrapping_add(1), 255, 256, 0xFFFF]),
        1 => to_last,
        _ => rng.below(4) as u16,
    };
    (first, field)
}

fn dword_11(rng: &mut Rng) -> u32 {
    let fields = (rng.below(4) | rng.below(4) << 3) as u32;
    match rng.below(8) {
        0 => rng.below(64) as u32,
        1 => fields | 1 << rng.below(32),
        _ => fields,
    }
}
