//! The kinds of frames, what they are called, and how long they are.

use crate::digits;
use crate::shown;

#[derive(Clone, Copy, Debug, PartialEq, Eq)]
pub enum Kind {
    Manage,
    Release,
    Load,
    Replace,
    ClearOne,
    ClearAll,
    Io,
    SetLocks,
    GetLocks,
    BootWrite,
    Reset,
    Discovery,
    Message,
    WrappedLoad,
}

/// From 01 on: the kind, what it is called, and its bytes where they are always as many.
const KINDS: [(Kind, &str, Option<usize>); 14] = [
    (Kind::Manage, "a line that gives a room its numbers", Some(3)),
    (Kind::Release, "a line that takes a room's numbers back", Some(2)),
    (Kind::Load, "a load", None),
    (Kind::Replace, "a replace", None),
    (Kind::ClearOne, "a line that clears one number", Some(4)),
    (Kind::ClearAll, "a line that clears all numbers of a room", Some(2)),
    (Kind::Io, "a line that records, plays, compares or verifies", Some(65)),
    (Kind::SetLocks, "a line that sets the boot locks", Some(5)),
    (Kind::GetLocks, "a line that asks for the boot locks", Some(1)),
    (Kind::BootWrite, "a write of a boot partition", Some(2)),
    (Kind::Reset, "a reset", Some(2)),
    (Kind::Discovery, "a discovery", Some(1)),
    (Kind::Message, "a load by a message", None),
    (Kind::WrappedLoad, "a load of a wrapped key", None),
];

/// The kind that a line begins with, whether or not the rest of it can be read.
pub fn would_be(line: &[u8]) -> Option<Kind> {
    let front = digits::bytes(&line[..shown::kind_digits(line)])?;
    Kind::of(*front.first()?)
}

impl Kind {
    /// The kind that a frame's first byte stands for.
    pub fn of(byte: u8) -> Option<Kind> {
        let row = usize::from(byte).checked_sub(1)?;
        KINDS.get(row).map(|(kind, _, _)| *kind)
    }

    pub fn called(self) -> &'static str {
        KINDS[self as usize].1
    }

    /// The bytes of a frame, if all frames of this kind have as many.
    pub fn bytes(self) -> Option<usize> {
        KINDS[self as usize].2
    }

    /// The digits of a line of this kind, in words.
    pub fn length(self) -> String {
        match (self, self.bytes()) {
            (_, Some(bytes)) => format!("{} digits", 2 * bytes),
            (Kind::Replace, None) => "76 digits and 2 for each byte of both KeyUIDs".to_string(),
            (Kind::Message, None) => "8 digits and those of the message".to_string(),
            (Kind::WrappedLoad, None) => "90 digits and 2 for each byte of the KeyUID".to_string(),
            (_, None) => "74 digits and 2 for each byte of the KeyUID".to_string(),
        }
    }
}
