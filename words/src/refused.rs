//! Why the drive refused, in words that fit what was asked. A number that has none of its own here, because every line
//! can get it or none of this kind can, has those of `answers::plain`.

use crate::answers::{self, Reason};
use crate::asked::{blocks, place_words};
use crate::caret;
use crate::frames::{Asked, Command, Frame, Place, Spoilt, DIGITS};
use crate::kinds::{self, Kind};
use crate::names;
use crate::shown;

pub fn words(line: &[u8], asked: &Asked, number: u16) -> String {
    let own = match asked {
        Asked::Frame(frame) => frame_refused(frame, number),
        Asked::Spoilt(kind, spoilt) => unread(line, *kind, *spoilt, number),
        Asked::UnknownKind if number == 0x0702 => Some(unknown_kind(line)),
        Asked::UnknownKind | Asked::NotAFrameLine => None,
    };
    own.unwrap_or_else(|| answers::plain(number).unwrap_or("refused").to_string())
}

/// Why a line is no frame line.
pub fn not_a_frame_line(line: &[u8], reason: Reason) -> String {
    let why = match reason {
        Reason::Empty => "it is empty".to_string(),
        Reason::TooLong => {
            format!("it has {} characters, and a line has at most {DIGITS}", line.len())
        }
        Reason::BadDigit(told) => {
            let bad = caret::bad(line, told).and_then(|place| caret::hint(line[place]));
            bad.unwrap_or("a character in it is no digit").to_string()
        }
        Reason::Odd => odd(line),
    };
    format!("this is no frame line: {why}")
}

fn odd(line: &[u8]) -> String {
    let should = match kinds::would_be(line) {
        Some(kind) => format!("{} has {}", kind.called(), kind.length()),
        None => "one is missing, or one too many".to_string(),
    };
    let digits = if line.len() == 1 { "digit" } else { "digits" };
    format!("it has {} {digits}, an odd number; {should}", line.len())
}

fn unknown_kind(line: &[u8]) -> String {
    match shown::kind_digits(line) {
        0 => "there is no such kind: kinds are 01 to 0E. Is it the rest of a broken line?"
            .to_string(),
        open => {
            let kind = String::from_utf8_lossy(&line[..open]);
            format!("there is no kind {kind}: kinds are 01 to 0E")
        }
    }
}

fn unread(line: &[u8], kind: Kind, spoilt: Spoilt, number: u16) -> Option<String> {
    let length = |how| {
        let (digits, called, length) = (line.len(), kind.called(), kind.length());
        format!("the line is too {how} with {digits} digits: {called} has {length}")
    };
    Some(match (number, spoilt) {
        (0x0703, Spoilt::Short) => length("short"),
        (0x0703, Spoilt::Long) => length("long"),
        (0x0704, Spoilt::OldNameLength) => "the old KeyUID's length is not 1 to 16".to_string(),
        (0x0704, Spoilt::NewNameLength) => "the new KeyUID's length is not 1 to 16".to_string(),
        (0x0704, Spoilt::NameLength) => "the KeyUID's length is not 1 to 16".to_string(),
        (0x0717, Spoilt::NotAMessage) => {
            "this is no KMIP message: one begins with 420078, behind room and number".to_string()
        }
        _ => return None,
    })
}

fn frame_refused(frame: &Frame, number: u16) -> Option<String> {
    match frame {
        Frame::Manage { room, count } => manage(*room, *count, number),
        Frame::Release { room } | Frame::ClearAll { room } => in_room(*room, number),
        Frame::Load { place, name } => load(place, &names::shown(name), number),
        Frame::WrappedLoad { place, name } => wrapped_load(place, name, number),
        Frame::Message { place, name } => message(place, name.as_deref(), number),
        Frame::Replace { place, old, new } => replace(place, old, new, number),
        Frame::ClearOne { place } => at_place(place, number),
        Frame::Io(command) => io(command, number),
        Frame::SetLocks { .. } | Frame::BootWrite { .. } | Frame::Reset { .. } => {
            boot(frame, number)
        }
        Frame::GetLocks | Frame::Discovery => None,
    }
}

fn in_room(room: u32, number: u16) -> Option<String> {
    Some(match number {
        0x000B => format!("there is no room {room}: rooms are 1 to 4"),
        0x0705 => {
            format!("room {room} has numbers already; they must be taken back first (kind 02)")
        }
        0x0706 => format!("room {room} has no numbers; it must be given some first (kind 01)"),
        _ => return None,
    })
}

fn manage(room: u32, count: u8, number: u16) -> Option<String> {
    Some(match number {
        0x0707 => format!("a room can have 1 to 128 numbers, and not {count}"),
        0x0708 => {
            "the drive has 256 numbers for all rooms together, and not so many are left".to_string()
        }
        _ => return in_room(room, number),
    })
}

fn at_place(place: &Place, number: u16) -> Option<String> {
    let Place { room, number: tag } = place;
    Some(match number {
        0x0025 => format!("room {room} has no number {tag}"),
        0x0709 => format!(
            "{} is taken: the key there stays; clear it first, or replace it (kind 04)",
            place_words(place)
        ),
        0x070A => format!("no key is loaded under {}", place_words(place)),
        _ => return in_room(*room, number),
    })
}

fn load(place: &Place, name: &str, number: u16) -> Option<String> {
    match number {
        0x070C => Some(format!(
            "{name} is loaded somewhere with another key: one name stands for one key"
        )),
        _ => at_place(place, number),
    }
}

fn wrapped_load(place: &Place, name: &[u8], number: u16) -> Option<String> {
    match number {
        0x0710 => Some(
            "the wrapped key cannot be opened: a digit of it is wrong, or it was wrapped for another drive"
                .to_string(),
        ),
        _ => load(place, &names::shown(name), number),
    }
}

fn message(place: &Place, name: Option<&[u8]>, number: u16) -> Option<String> {
    match number {
        0x0717 => {
            let place = place_words(place);
            Some(format!(
                "the message brings no key to {place}: it is for another, damaged or incomplete"
            ))
        }
        _ => load(place, &name.map_or("its name".to_string(), names::shown), number),
    }
}

fn replace(place: &Place, old: &[u8], new: &[u8], number: u16) -> Option<String> {
    match number {
        0x070B => {
            let old = names::shown(old);
            Some(format!("the key under {} is not {old}: it stays", place_words(place)))
        }
        _ => load(place, &names::shown(new), number),
    }
}

fn io(command: &Command, number: u16) -> Option<String> {
    let Place { room, number: tag } = command.place;
    let (blocks, one) = (blocks(command), command.more == 0);
    Some(match number {
        0x0001 => "the drive can record (01), play (02), compare (05) and verify (0C)".to_string(),
        0x0002 => format!("room {room} has numbers, so one must be named: CETYPE must be 1"),
        0x0025 => format!("room {room} has no number {tag}, or no key is loaded under it"),
        0x0028 if one => format!("{blocks} was recorded under another key"),
        0x0028 => format!("at least one of {blocks} was recorded under another key"),
        0x0080 if one => format!("{blocks} is past the room's last, 255"),
        0x0080 => format!("{blocks} reach past the room's last, 255"),
        _ => return in_room(room, number),
    })
}

fn boot(frame: &Frame, number: u16) -> Option<String> {
    Some(match (number, frame) {
        (0x0002, Frame::SetLocks { .. }) => {
            "there is no such state: one is 0 to 3 for each partition, and all other bits are zero"
                .to_string()
        }
        (0x0002, Frame::BootWrite { .. }) => "the boot partitions are 0 and 1".to_string(),
        (0x0002, _) => "a reset is of level 0 (controller) or 1 (power cycle)".to_string(),
        (0x010E, _) => {
            "a boot partition is held until the power cycles; neither lock was changed".to_string()
        }
        (0x011E, Frame::BootWrite { partition }) => format!("boot partition {partition} is locked"),
        _ => return None,
    })
}
