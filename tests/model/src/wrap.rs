//! The AES key wrap of RFC 3394, which is KW of NIST SP 800-38F, for keys of 32 bytes.

use crate::aes;
use crate::numbers::{KEK, KEY, WRAPPED};

/// What a key is wrapped behind, and what has to come out before it.
pub const INTEGRITY: u64 = 0xA6A6_A6A6_A6A6_A6A6;

/// How often each half of a block goes through the cipher.
const TURNS: usize = 6;

pub fn wrap(kek: &[u8; KEK], key: &[u8; KEY]) -> [u8; WRAPPED] {
    wrap_behind(kek, INTEGRITY, key)
}

/// The key that was wrapped. None if what comes out before it is not the integrity value.
pub fn unwrap(kek: &[u8; KEK], wrapped: &[u8; WRAPPED]) -> Option<[u8; KEY]> {
    let mut halves = std::array::from_fn(|at| half(wrapped, at));
    backward(kek, &mut halves);
    (halves[0] == INTEGRITY).then(|| *bytes(&halves).last_chunk().expect("a key"))
}

/// A key wrapped as it must be, but that anything may stand in the integrity value's place.
pub fn wrap_behind(kek: &[u8; KEK], first: u64, key: &[u8; KEY]) -> [u8; WRAPPED] {
    let mut halves = std::array::from_fn(|at| match at {
        0 => first,
        _ => half(key, at - 1),
    });
    forward(kek, &mut halves);
    bytes(&halves)
}

/// The wrapping process of the RFC (2.2.1) on halves of blocks, of which the first is its A.
pub fn forward(kek: &[u8; KEK], halves: &mut [u64]) {
    let keys = aes::expand(kek);
    let (first, others) = halves.split_first_mut().expect("an integrity value");
    let mut step = 0;
    for _ in 0..TURNS {
        for other in &mut *others {
            step += 1;
            let block = aes::encipher(&keys, joined(*first, *other));
            (*first, *other) = ((block >> 64) as u64 ^ step, block as u64);
        }
    }
}

/// The unwrapping process of the RFC (2.2.2): the same steps, the last one first.
pub fn backward(kek: &[u8; KEK], halves: &mut [u64]) {
    let keys = aes::expand(kek);
    let (first, others) = halves.split_first_mut().expect("an integrity value");
    let mut step = (TURNS * others.len()) as u64;
    for _ in 0..TURNS {
        for other in others.iter_mut().rev() {
            let block = aes::decipher(&keys, joined(*first ^ step, *other));
            (*first, *other) = ((block >> 64) as u64, block as u64);
            step -= 1;
        }
    }
}

fn joined(first: u64, other: u64) -> u128 {
    u128::from(first) << 64 | u128::from(other)
}

fn half(bytes: &[u8], at: usize) -> u64 {
    u64::from_be_bytes(*bytes[8 * at..].first_chunk().expect("eight bytes"))
}

fn bytes(halves: &[u64; WRAPPED / 8]) -> [u8; WRAPPED] {
    std::array::from_fn(|at| halves[at / 8].to_be_bytes()[at % 8])
}
