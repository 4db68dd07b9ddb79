//! Sessions from seeds: walks, and a few of noise, with what an input can have at its end.

use model::numbers::{DISCOVERY_ROOM, INPUT, OUTPUT, ROOM};
use model::session_room;

use crate::dice::Dice;
use crate::walk::Walk;

pub const SEEDS: std::ops::RangeInclusive<u64> = 1..=1400;

/// Most sessions end between two lines; one in `OF` has each of these ends instead.
const OF: u64 = 40;

pub fn session(seed: u64) -> Vec<u8> {
    match seed % OF {
        0 => digit_noise(seed),
        1 => byte_noise(seed),
        2 => filled(seed, INPUT),
        3 => filled(seed, INPUT + 1),
        4 => filled(seed, INPUT + 2 + seed as usize),
        5 => crowded(seed),
        _ => walked(seed),
    }
}

fn walked(seed: u64) -> Vec<u8> {
    let mut walk = Walk::new(seed);
    let most = walk.dice.pick(&[800, 2000, INPUT, INPUT]);
    let mut text = up_to(&mut walk, most);
    if walk.dice.once_in(4) {
        text.pop();
    }
    text
}

fn up_to(walk: &mut Walk, most: usize) -> Vec<u8> {
    let mut text = Vec::new();
    loop {
        let line = walk.line();
        if text.len() + line.len() + 1 > most {
            return text;
        }
        text.extend(line);
        text.push(b'\n');
    }
}

/// A walk with further lines up to just so many bytes; the last line feed may be missing.
fn filled(seed: u64, bytes: usize) -> Vec<u8> {
    let mut walk = Walk::new(seed);
    let mut text = up_to(&mut walk, INPUT.min(bytes) - 200);
    while text.len() < bytes {
        text.extend_from_slice(walk.dice.pick(&[&b"09\n"[..], b"0B00\n", b"\n"]));
    }
    text.truncate(bytes);
    text
}

/// A walk with further lines until there is room for no other; in half of the sessions one more.
fn crowded(seed: u64) -> Vec<u8> {
    let mut walk = Walk::new(seed);
    let mut text = up_to(&mut walk, 1000);
    let small = [&b"\n"[..], b"0C00\n", b"0c\n", b"09\n"];
    loop {
        text.extend_from_slice(match OUTPUT - session_room(&text) {
            DISCOVERY_ROOM.. if !walk.dice.once_in(8) => b"0C\n",
            ROOM.. => walk.dice.pick(&small),
            _ => break,
        });
    }
    if walk.dice.once_in(2) {
        text.extend_from_slice(walk.dice.pick(&small));
    }
    text
}

/// Digits in lines of any length: frames by chance.
fn digit_noise(seed: u64) -> Vec<u8> {
    let mut dice = Dice::new(seed);
    let mut text = String::new();
    while text.len() < INPUT - 20 {
        text += dice.pick(&["", "0", "0", "0"]);
        for _ in 0..dice.below(6) {
            text += &format!("{:X}", dice.below(16));
        }
        text += "\n";
    }
    text.into_bytes()
}

fn byte_noise(seed: u64) -> Vec<u8> {
    let mut dice = Dice::new(seed);
    let bytes = dice.pick(&[1, 100, 1000, INPUT]);
    (0..bytes).map(|_| dice.roll() as u8).collect()
}
