//! From a line's digits to a frame: 07 01 with its reason and place, 07 02, the lengths 07 03 and
//! 07 04, and what a message is refused with, 07 17 and 07 18.

use crate::kmip;
use crate::numbers::{COMMAND, FRAME, KEY, KEY_UID, WRAPPED};
use crate::status;

/// A namespace number as a frame gives it, in range or not.
#[derive(Clone, Copy)]
pub struct Namespace(pub u32);

/// A key tag as a frame gives it, in range or not.
#[derive(Clone, Copy)]
pub struct Tag(pub u16);

/// A KeyUID of 1 to 16 bytes and its key, as a frame brings them.
#[derive(Clone, Copy, Debug, PartialEq, Eq)]
pub struct Material<'a> {
    pub uid: &'a [u8],
    pub key: &'a [u8; KEY],
}

pub enum Frame<'a> {
    Manage(Namespace, u8),
    Release(Namespace),
    /// Of kind 03 or 0D.
    Load(Namespace, Tag, Material<'a>),
    /// A KeyUID and its key, still wrapped.
    WrappedLoad(Namespace, Tag, &'a [u8], &'a [u8; WRAPPED]),
    Replace(Namespace, Tag, &'a [u8], Material<'a>),
    ClearOne(Namespace, Tag),
    ClearAll(Namespace),
    Io(&'a [u8; COMMAND]),
    SetFeatures(u32),
    GetFeatures,
    BootWrite(u8),
    Reset(u8),
    Discovery,
}

/// Why a line is no frame line, in the order in which it is looked for.
#[derive(Clone, Copy, Debug, PartialEq, Eq)]
pub enum Fault {
    Empty,
    TooLong,
    /// The place of the first one, counted from 0.
    BadDigit(u16),
    Odd,
}

pub const DIGITS: &[u8; 16] = b"0123456789ABCDEF";
const BAD: u8 = 0xFF;
/// The digits of the longest line.
const MOST_DIGITS: usize = 2 * FRAME;

const VALUES: [u8; 256] = {
    let mut values = [BAD; 256];
    let mut value = 0;
    while value < DIGITS.len() {
        values[DIGITS[value] as usize] = value as u8;
        value += 1;
    }
    values
};

/// A good line is gone over once, and only a bad one again for its fault.
pub fn decode<'b>(line: &[u8], buffer: &'b mut [u8; FRAME]) -> Result<&'b [u8], Fault> {
    if !(2..=MOST_DIGITS).contains(&line.len()) || line.len() % 2 == 1 {
        return Err(Fault::of(line));
    }
    let bytes = &mut buffer[..line.len() / 2];
    let mut seen = 0;
    for (byte, pair) in bytes.iter_mut().zip(line.chunks_exact(2)) {
        let (high, low) = (VALUES[usize::from(pair[0])], VALUES[usize::from(pair[1])]);
        seen |= high | low;
        *byte = high << 4 | low;
    }
    if seen == BAD {
        return Err(Fault::of(line));
    }
    Ok(bytes)
}

impl Fault {
    /// What is wrong with a line that is no frame line: where nothing else is, it is odd.
    #[cold]
    fn of(line: &[u8]) -> Fault {
        match line.len() {
            0 => return Fault::Empty,
            1..=MOST_DIGITS => {}
            _ => return Fault::TooLong,
        }
        match line.iter().position(|&digit| VALUES[usize::from(digit)] == BAD) {
            Some(place) => Fault::BadDigit(place as u16),
            None => Fault::Odd,
        }
    }

    /// What the answer says behind 07 01: the reason, then the place, or 0 where there is none.
    pub fn data(self) -> [u8; 3] {
        let (reason, place) = match self {
            Fault::Empty => (1, 0),
            Fault::TooLong => (2, 0),
            Fault::BadDigit(place) => (3, place),
            Fault::Odd => (4, 0),
        };
        let [low, high] = place.to_le_bytes();
        [reason, low, high]
    }
}

pub fn parse(bytes: &[u8]) -> Result<Frame<'_>, u16> {
    match *bytes {
        [0x01, namespace, count] => Ok(Frame::Manage(namespace.into(), count)),
        [0x02, namespace] => Ok(Frame::Release(namespace.into())),
        [0x03, ref fields @ ..] => load(fields),
        [0x04, ref fields @ ..] => replace(fields),
        [0x05, namespace, t0, t1] => Ok(Frame::ClearOne(namespace.into(), Tag::new(t0, t1))),
        [0x06, namespace] => Ok(Frame::ClearAll(namespace.into())),
        [0x07, ref command @ ..] => match command.try_into() {
            Ok(command) => Ok(Frame::Io(command)),
            Err(_) => Err(status::LENGTH),
        },
        [0x08, d0, d1, d2, d3] => Ok(Frame::SetFeatures(u32::from_le_bytes([d0, d1, d2, d3]))),
        [0x09] => Ok(Frame::GetFeatures),
        [0x0A, partition] => Ok(Frame::BootWrite(partition)),
        [0x0B, level] => Ok(Frame::Reset(level)),
        [0x0C] => Ok(Frame::Discovery),
        [0x0D, namespace, t0, t1, ref message @ ..] => {
            message_load(namespace, Tag::new(t0, t1), message)
        }
        [0x0E, ref fields @ ..] => wrapped_load(fields),
        [0x01..=0x0E, ..] => Err(status::LENGTH),
        _ => Err(status::KIND),
    }
}

fn load(fields: &[u8]) -> Result<Frame<'_>, u16> {
    let &[namespace, t0, t1, ref rest @ ..] = fields else {
        return Err(status::LENGTH);
    };
    Ok(Frame::Load(namespace.into(), Tag::new(t0, t1), material(rest)?))
}

fn wrapped_load(fields: &[u8]) -> Result<Frame<'_>, u16> {
    let &[namespace, t0, t1, ref rest @ ..] = fields else {
        return Err(status::LENGTH);
    };
    let (uid, wrapped) = key_uid_then(rest)?;
    Ok(Frame::WrappedLoad(namespace.into(), Tag::new(t0, t1), uid, wrapped))
}

/// The message says a second time which namespace and tag it is for.
fn message_load(namespace: u8, tag: Tag, message: &[u8]) -> Result<Frame<'_>, u16> {
    let material = kmip::load(message, namespace, tag.0)?;
    Ok(Frame::Load(namespace.into(), tag, material))
}

fn replace(fields: &[u8]) -> Result<Frame<'_>, u16> {
    let &[namespace, t0, t1, ref rest @ ..] = fields else {
        return Err(status::LENGTH);
    };
    let (old, rest) = key_uid(rest)?;
    Ok(Frame::Replace(namespace.into(), Tag::new(t0, t1), old, material(rest)?))
}

fn material(bytes: &[u8]) -> Result<Material<'_>, u16> {
    let (uid, key) = key_uid_then(bytes)?;
    Ok(Material { uid, key })
}

/// A KeyUID and so many bytes behind it.
fn key_uid_then<const N: usize>(bytes: &[u8]) -> Result<(&[u8], &[u8; N]), u16> {
    let (uid, rest) = key_uid(bytes)?;
    Ok((uid, rest.try_into().map_err(|_| status::LENGTH)?))
}

/// Splits a KeyUID, led by its length byte, from what follows it.
fn key_uid(bytes: &[u8]) -> Result<(&[u8], &[u8]), u16> {
    let (&length, rest) = bytes.split_first().ok_or(status::LENGTH)?;
    let length = usize::from(length);
    if length == 0 || length > KEY_UID {
        return Err(status::KEY_UID_LENGTH);
    }
    rest.split_at_checked(length).ok_or(status::LENGTH)
}

impl From<u8> for Namespace {
    fn from(number: u8) -> Self {
        Namespace(number.into())
    }
}

impl Tag {
    fn new(low: u8, high: u8) -> Self {
        Tag(u16::from_le_bytes([low, high]))
    }
}
