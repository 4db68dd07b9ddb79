//! What a line asks of the drive. A `Frame` has no room for a key, wrapped or not, or a message: what is said of a line
//! is made of its `Frame`, so a key cannot get there.

use std::cmp::Ordering;

use crate::digits;
use crate::kinds::Kind;
use crate::messages;
use crate::names;

/// The digits that a line may have at most.
pub const DIGITS: usize = 1024;

const KEY: usize = 32;
const WRAPPED: usize = 40;

/// A namespace and a tag; to the typists a room and a number.
#[derive(Clone, Copy, Debug, PartialEq, Eq)]
pub struct Place {
    pub room: u32,
    pub number: u16,
}

/// What counts in an NVMe command.
#[derive(Clone, Copy, Debug, PartialEq, Eq)]
pub struct Command {
    pub opcode: u8,
    pub place: Place,
    pub first: u64,
    /// One less than the number of blocks.
    pub more: u16,
    pub cetype: u8,
}

#[derive(Clone, Debug, PartialEq, Eq)]
pub enum Frame {
    Manage { room: u32, count: u8 },
    Release { room: u32 },
    Load { place: Place, name: Vec<u8> },
    WrappedLoad { place: Place, name: Vec<u8> },
    Replace { place: Place, old: Vec<u8>, new: Vec<u8> },
    ClearOne { place: Place },
    ClearAll { room: u32 },
    Io(Command),
    SetLocks { dword: u32 },
    GetLocks,
    BootWrite { partition: u8 },
    Reset { level: u8 },
    Discovery,
    Message { place: Place, name: Option<Vec<u8>> },
}

/// Why a frame of a known kind cannot be read.
#[derive(Clone, Copy, Debug, PartialEq, Eq)]
pub enum Spoilt {
    Short,
    Long,
    NameLength,
    OldNameLength,
    NewNameLength,
    NotAMessage,
}

#[derive(Clone, Debug, PartialEq, Eq)]
pub enum Asked {
    Frame(Frame),
    Spoilt(Kind, Spoilt),
    UnknownKind,
    NotAFrameLine,
}

/// What a line asks. The order of the checks is that of docs/RULES.md.
pub fn read(line: &[u8]) -> Asked {
    if line.is_empty() || line.len() > DIGITS {
        return Asked::NotAFrameLine;
    }
    let Some(bytes) = digits::bytes(line) else { return Asked::NotAFrameLine };
    let Some(kind) = Kind::of(bytes[0]) else { return Asked::UnknownKind };
    match frame(kind, &bytes) {
        Ok(frame) => Asked::Frame(frame),
        Err(spoilt) => Asked::Spoilt(kind, spoilt),
    }
}

fn frame(kind: Kind, bytes: &[u8]) -> Result<Frame, Spoilt> {
    if let Some(count) = kind.bytes() {
        exactly(bytes, count)?;
    }
    let room = |bytes: &[u8]| u32::from(bytes[1]);
    Ok(match kind {
        Kind::Manage => Frame::Manage { room: room(bytes), count: bytes[2] },
        Kind::Release => Frame::Release { room: room(bytes) },
        Kind::Load => {
            let (place, name) = load(bytes, KEY)?;
            Frame::Load { place, name }
        }
        Kind::WrappedLoad => {
            let (place, name) = load(bytes, WRAPPED)?;
            Frame::WrappedLoad { place, name }
        }
        Kind::Replace => replace(bytes)?,
        Kind::ClearOne => Frame::ClearOne { place: place(bytes) },
        Kind::ClearAll => Frame::ClearAll { room: room(bytes) },
        Kind::Io => Frame::Io(command(&bytes[1..])),
        Kind::SetLocks => Frame::SetLocks { dword: number(&bytes[1..5]) as u32 },
        Kind::GetLocks => Frame::GetLocks,
        Kind::BootWrite => Frame::BootWrite { partition: bytes[1] },
        Kind::Reset => Frame::Reset { level: bytes[1] },
        Kind::Discovery => Frame::Discovery,
        Kind::Message => message(bytes)?,
    })
}

fn exactly(bytes: &[u8], count: usize) -> Result<(), Spoilt> {
    match bytes.len().cmp(&count) {
        Ordering::Less => Err(Spoilt::Short),
        Ordering::Equal => Ok(()),
        Ordering::Greater => Err(Spoilt::Long),
    }
}

/// A number of up to eight bytes, the lowest first.
fn number(bytes: &[u8]) -> u64 {
    bytes.iter().rev().fold(0, |number, &byte| number << 8 | u64::from(byte))
}

/// The namespace and the tag of a frame that has both behind its kind.
fn place(bytes: &[u8]) -> Place {
    Place { room: bytes[1].into(), number: number(&bytes[2..4]) as u16 }
}

fn name_length(bytes: &[u8], at: usize, wrong: Spoilt) -> Result<usize, Spoilt> {
    let length = usize::from(*bytes.get(at).ok_or(Spoilt::Short)?);
    if (1..=names::MOST).contains(&length) {
        Ok(length)
    } else {
        Err(wrong)
    }
}

/// Where a load goes and under which name, if so many bytes stand behind that.
fn load(bytes: &[u8], behind: usize) -> Result<(Place, Vec<u8>), Spoilt> {
    let length = name_length(bytes, 4, Spoilt::NameLength)?;
    exactly(bytes, 5 + length + behind)?;
    Ok((place(bytes), bytes[5..5 + length].to_vec()))
}

fn replace(bytes: &[u8]) -> Result<Frame, Spoilt> {
    let old = name_length(bytes, 4, Spoilt::OldNameLength)?;
    let new = name_length(bytes, 5 + old, Spoilt::NewNameLength)?;
    exactly(bytes, 6 + old + new + KEY)?;
    let names = &bytes[5..6 + old + new];
    Ok(Frame::Replace {
        place: place(bytes),
        old: names[..old].to_vec(),
        new: names[old + 1..].to_vec(),
    })
}

fn message(bytes: &[u8]) -> Result<Frame, Spoilt> {
    let message = bytes.get(4..).ok_or(Spoilt::Short)?;
    if !messages::begins(message) {
        return Err(Spoilt::NotAMessage);
    }
    Ok(Frame::Message { place: place(bytes), name: messages::name(message).map(<[u8]>::to_vec) })
}

fn command(bytes: &[u8]) -> Command {
    Command {
        opcode: bytes[0],
        place: Place { room: number(&bytes[4..8]) as u32, number: number(&bytes[52..54]) as u16 },
        first: number(&bytes[40..48]),
        more: number(&bytes[48..50]) as u16,
        cetype: bytes[50] & 0x0F,
    }
}

impl Command {
    /// The last block, which may be past any that there is.
    pub fn last(&self) -> u128 {
        u128::from(self.first) + u128::from(self.more)
    }
}
