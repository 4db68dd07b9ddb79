//! Lines as a typist writes them, and the rows that are shown for one.

#![allow(dead_code)] // each test file has its own copy, and uses a part of it

pub const KEY: [u8; 32] = [0x11; 32];
/// In a line any 40 bytes are a wrapped key.
pub const WRAPPED: [u8; 40] = [0x5E; 40];
pub const HERON: &[u8] = b"HERON";

const TEXT: u8 = 0x07;
const STRUCTURE: u8 = 0x01;

pub fn hex(bytes: &[u8]) -> String {
    bytes.iter().map(|byte| format!("{byte:02X}")).collect()
}

fn head(kind: u8, room: u8, number: u16) -> Vec<u8> {
    let [low, high] = number.to_le_bytes();
    vec![kind, room, low, high]
}

fn named(name: &[u8]) -> Vec<u8> {
    [&[name.len() as u8], name].concat()
}

pub fn load(room: u8, number: u16, name: &[u8], key: &[u8]) -> String {
    hex(&[&head(0x03, room, number), &named(name), key].concat())
}

pub fn wrapped_load(room: u8, number: u16, name: &[u8], wrapped: &[u8]) -> String {
    hex(&[&head(0x0E, room, number), &named(name), wrapped].concat())
}

pub fn replace(room: u8, number: u16, old: &[u8], new: &[u8], key: &[u8]) -> String {
    hex(&[&head(0x04, room, number), &named(old), &named(new), key].concat())
}

pub fn io(opcode: u8, room: u32, number: u16, first: u64, more: u16, cetype: u8) -> String {
    let mut frame = [0xEE; 65];
    frame[0] = 0x07;
    let command = &mut frame[1..];
    command[0] = opcode;
    command[4..8].copy_from_slice(&room.to_le_bytes());
    command[40..48].copy_from_slice(&first.to_le_bytes());
    command[48..50].copy_from_slice(&more.to_le_bytes());
    command[50] = 0xE0 | cetype;
    command[52..54].copy_from_slice(&number.to_le_bytes());
    hex(&frame)
}

pub fn play(room: u32, number: u16, first: u64, more: u16) -> String {
    io(0x02, room, number, first, more, 1)
}

/// An item of a message, padded.
pub fn item(tag: u32, of_type: u8, value: &[u8]) -> Vec<u8> {
    let mut item = tag.to_be_bytes()[1..].to_vec();
    item.push(of_type);
    item.extend((value.len() as u32).to_be_bytes());
    item.extend(value);
    item.resize(item.len().next_multiple_of(8), 0);
    item
}

pub fn structure(tag: u32, members: &[Vec<u8>]) -> Vec<u8> {
    item(tag, STRUCTURE, &members.concat())
}

pub fn text(tag: u32, value: &[u8]) -> Vec<u8> {
    item(tag, TEXT, value)
}

/// A message with the payload given: enough of one for the way to its name.
pub fn request(payload: &[Vec<u8>]) -> Vec<u8> {
    let header = structure(0x420077, &[item(0x42000D, 0x02, &[0, 0, 0, 1])]);
    let operation = item(0x42005C, 0x05, &[0, 0, 0, 0x2A]);
    let batch = structure(0x42000F, &[operation, structure(0x420079, payload)]);
    structure(0x420078, &[header, batch])
}

/// The key's structures, as they stand behind the name.
pub fn symmetric_key(key: &[u8]) -> Vec<u8> {
    let material = structure(0x420045, &[item(0x420043, 0x08, key)]);
    structure(0x42008F, &[structure(0x420040, &[material])])
}

pub fn message_line(room: u8, number: u16, message: &[u8]) -> String {
    hex(&head(0x0D, room, number)) + &hex(message)
}

pub fn message_load(room: u8, number: u16, name: &[u8], key: &[u8]) -> String {
    message_line(room, number, &request(&[text(0x420094, name), symmetric_key(key)]))
}

/// The answer to a line with a bad digit at a place.
pub fn bad_digit(place: usize) -> String {
    "070103".to_string() + &hex(&(place as u16).to_le_bytes())
}

/// The rows for one line and its answer, without the column of line numbers.
pub fn rows(line: impl AsRef<[u8]>, answer: &str) -> Vec<String> {
    let session = [line.as_ref(), b"\n"].concat();
    let page =
        words::page(&session, format!("{answer}\n").as_bytes()).expect("one line, one answer");
    page.lines().map(|row| row[3..].to_string()).collect()
}

/// What was asked.
pub fn asked(line: impl AsRef<[u8]>) -> String {
    let rows = rows(line, "0000");
    rows[rows.len() - 2].strip_prefix("asked  ").expect("the row of what was asked").to_string()
}

/// What the drive said, behind its number.
pub fn said(line: impl AsRef<[u8]>, answer: &str) -> String {
    let rows = rows(line, answer);
    let (number, words) = rows[rows.len() - 1].split_at(4);
    assert!(number == &answer[..4] || number == "????", "{number} for {answer}");
    words.trim_start().to_string()
}

/// The same numbers from the same seed, on any machine.
pub struct Dice(u64);

impl Dice {
    pub fn new(seed: u64) -> Dice {
        Dice(seed.wrapping_mul(0x9E37_79B9_7F4A_7C15) | 1)
    }

    pub fn below(&mut self, sides: usize) -> usize {
        self.0 ^= self.0 << 13;
        self.0 ^= self.0 >> 7;
        self.0 ^= self.0 << 17;
        (self.0.wrapping_mul(0x2545_F491_4F6C_DD1D) >> 32) as usize % sides
    }

    pub fn byte(&mut self) -> u8 {
        self.below(256) as u8
    }

    pub fn bytes(&mut self, count: usize) -> Vec<u8> {
        (0..count).map(|_| self.byte()).collect()
    }

    pub fn pick<T: Copy>(&mut self, things: &[T]) -> T {
        things[self.below(things.len())]
    }
}
