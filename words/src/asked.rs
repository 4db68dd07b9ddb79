//! What was asked, in words.

use crate::frames::{Asked, Command, Frame, Place, Spoilt};
use crate::kinds;
use crate::locks;
use crate::names;

pub fn words(line: &[u8], asked: &Asked) -> String {
    match asked {
        Asked::Frame(frame) => frame_words(frame),
        Asked::Spoilt(kind, Spoilt::NotAMessage) => format!("{}, without a message", kind.called()),
        Asked::Spoilt(kind, _) => format!("{} that cannot be read", kind.called()),
        Asked::UnknownKind => "nothing that the drive knows".to_string(),
        Asked::NotAFrameLine => match kinds::would_be(line) {
            Some(kind) => {
                format!("nothing that can be read; by its first two digits {}", kind.called())
            }
            None => "nothing that can be read".to_string(),
        },
    }
}

pub fn place_words(place: &Place) -> String {
    format!("number {} of room {}", place.number, place.room)
}

fn frame_words(frame: &Frame) -> String {
    match frame {
        Frame::Manage { room, count } => manage(*room, *count),
        Frame::Release { room } => format!("take back all numbers of room {room}"),
        Frame::Load { place, name } => {
            format!("load {} under {}", names::shown(name), place_words(place))
        }
        Frame::WrappedLoad { place, name } => {
            format!("load {}, wrapped, under {}", names::shown(name), place_words(place))
        }
        Frame::Replace { place, old, new } => {
            let (old, new) = (names::shown(old), names::shown(new));
            format!("replace {old} by {new} under {}", place_words(place))
        }
        Frame::ClearOne { place } => format!("clear {}", place_words(place)),
        Frame::ClearAll { room } => format!("clear all numbers of room {room}"),
        Frame::Io(command) => io(command),
        Frame::SetLocks { dword } => locks::asked(*dword),
        Frame::GetLocks => "tell the boot locks".to_string(),
        Frame::BootWrite { partition } => format!("write boot partition {partition}"),
        Frame::Reset { level: 0 } => "controller level reset".to_string(),
        Frame::Reset { level: 1 } => "power cycle".to_string(),
        Frame::Reset { level } => format!("a reset of level {level}"),
        Frame::Discovery => "tell what the drive is".to_string(),
        Frame::Message { place, name } => {
            let name = name.as_ref().map_or("a key".to_string(), |name| names::shown(name));
            format!("load {name} by a message under {}", place_words(place))
        }
    }
}

fn manage(room: u32, count: u8) -> String {
    match count {
        0 => format!("give no numbers to room {room}"),
        1 => format!("give 1 number to room {room}: 0"),
        _ => format!("give {count} numbers to room {room}: 0 to {}", count - 1),
    }
}

fn io(command: &Command) -> String {
    let doing = match command.opcode {
        0x01 => "record".to_string(),
        0x02 => "play".to_string(),
        0x05 => "compare".to_string(),
        0x0C => "verify".to_string(),
        opcode => format!("do what opcode {opcode:02X} says with"),
    };
    let Place { room, number } = command.place;
    let with = match command.cetype {
        1 => format!(" with number {number}"),
        cetype => format!(" without a number (CETYPE is {cetype:X})"),
    };
    format!("{doing} {} of room {room}{with}", blocks(command))
}

pub fn blocks(command: &Command) -> String {
    match command.more {
        0 => format!("block {}", command.first),
        _ => format!("blocks {} to {}", command.first, command.last()),
    }
}
