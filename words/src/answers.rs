//! The answers of the drive, read, and what each number means whatever was asked.

use crate::digits;

/// The bytes of a discovery response.
const RESPONSE: usize = 112;

/// Why a line is no frame line.
#[derive(Clone, Copy, Debug, PartialEq, Eq)]
pub enum Reason {
    Empty,
    TooLong,
    /// The place of the first bad digit, from 0.
    BadDigit(usize),
    Odd,
}

#[derive(Clone, Debug, PartialEq, Eq)]
pub enum Answer {
    Done,
    /// The data of Get Features.
    Locks(u32),
    /// A discovery response.
    Response(Vec<u8>),
    NotAFrameLine(Reason),
    Refused(u16),
    /// Nothing that the drive answers. It is never shown, since it may be a line of a session.
    Unknown,
}

const PLAIN: [(u16, &str); 27] = [
    (0x0001, "the command is no record, play, compare or verify"),
    (0x0002, "a field has a value that it cannot have"),
    (0x000B, "there is no such room: rooms are 1 to 4"),
    (0x0025, "the room has no such number, or no key is loaded under it"),
    (0x0028, "a block was recorded under another key"),
    (0x0080, "the blocks reach past the room's last, 255"),
    (0x010E, "a boot partition is held until the power cycles"),
    (0x011E, "the boot partition is locked"),
    (0x0701, "this is no frame line"),
    (0x0702, "there is no such kind: kinds are 01 to 0E"),
    (0x0703, "the line is too short or too long for its kind"),
    (0x0704, "a KeyUID has 1 to 16 bytes"),
    (0x0705, "the room has numbers already"),
    (0x0706, "the room has no numbers"),
    (0x0707, "a room can have 1 to 128 numbers"),
    (0x0708, "the drive has not so many numbers left"),
    (0x0709, "the number is taken: the key there stays"),
    (0x070A, "no key is loaded under the number"),
    (0x070B, "the key to be replaced has another name"),
    (0x070C, "the name is loaded somewhere with another key"),
    (0x070D, "the mark store handed in has the wrong length"),
    (0x070E, "the state handed in is broken"),
    (0x070F, "the output handed in is too short"),
    (0x0710, "the wrapped key cannot be opened"),
    (0x0716, "these bytes are no discovery response"),
    (0x0717, "this is no message that brings a key to this number"),
    (0x0718, "the message names its key with no bytes, or with more than 16"),
];

/// What a refusal means, whatever was asked.
pub fn plain(number: u16) -> Option<&'static str> {
    PLAIN.iter().find(|row| row.0 == number).map(|row| row.1)
}

pub fn read(line: &[u8]) -> Answer {
    let Some(bytes) = digits::bytes(line) else { return Answer::Unknown };
    match bytes[..] {
        [0, 0] => Answer::Done,
        [0, 0, a, b, c, d] => Answer::Locks(u32::from_le_bytes([a, b, c, d])),
        [0, 0, ref response @ ..] if response.len() == RESPONSE => {
            Answer::Response(response.to_vec())
        }
        [0x07, 0x01, reason, low, high] => {
            not_a_frame_line(reason, u16::from_le_bytes([low, high]))
        }
        [high, low] => refused(u16::from_be_bytes([high, low])),
        _ => Answer::Unknown,
    }
}

fn refused(number: u16) -> Answer {
    match plain(number) {
        Some(_) => Answer::Refused(number),
        None => Answer::Unknown,
    }
}

fn not_a_frame_line(reason: u8, place: u16) -> Answer {
    let reason = match reason {
        0x01 => Reason::Empty,
        0x02 => Reason::TooLong,
        0x03 => Reason::BadDigit(place.into()),
        0x04 => Reason::Odd,
        _ => return Answer::Refused(0x0701),
    };
    Answer::NotAFrameLine(reason)
}

impl Answer {
    /// The four digits that every answer begins with.
    pub fn number(&self) -> String {
        match self {
            Answer::Done | Answer::Locks(_) | Answer::Response(_) => "0000".to_string(),
            Answer::NotAFrameLine(_) => "0701".to_string(),
            Answer::Refused(number) => format!("{number:04X}"),
            Answer::Unknown => "????".to_string(),
        }
    }
}
