//! A KMIP message, followed as far as the name of its key and no further. Whether the message is sound is the drive's
//! to say; docs/KMIP.md has the encoding and the profile.

use crate::names;

type Tag = [u8; 3];

const REQUEST_MESSAGE: Tag = [0x42, 0x00, 0x78];
const BATCH_ITEM: Tag = [0x42, 0x00, 0x0F];
const REQUEST_PAYLOAD: Tag = [0x42, 0x00, 0x79];
const UNIQUE_IDENTIFIER: Tag = [0x42, 0x00, 0x94];

const STRUCTURE: u8 = 0x01;
const TEXT: u8 = 0x07;

/// Tag, type and length; the value stands behind them.
const HEAD: usize = 8;

/// Whether the bytes begin as every message does. Others may be a key that was typed into the wrong kind of line.
pub fn begins(bytes: &[u8]) -> bool {
    bytes.starts_with(&REQUEST_MESSAGE)
}

/// The KeyUID that the message names, if it is found where it has to stand and has a length that a KeyUID may have.
pub fn name(message: &[u8]) -> Option<&[u8]> {
    let request = member(message, REQUEST_MESSAGE, STRUCTURE)?;
    let batch = member(request, BATCH_ITEM, STRUCTURE)?;
    let payload = member(batch, REQUEST_PAYLOAD, STRUCTURE)?;
    let name = member(payload, UNIQUE_IDENTIFIER, TEXT)?;
    (1..=names::MOST).contains(&name.len()).then_some(name)
}

/// The value of the first item that has the tag. Nothing if it has another type, or if an item up to it runs past the
/// end or is padded with anything but zeros: then bytes were lost, and what looks like a name may be something else.
fn member(mut items: &[u8], tag: Tag, of_type: u8) -> Option<&[u8]> {
    while items.len() >= HEAD {
        let (head, rest) = items.split_at(HEAD);
        let length = u32::from_be_bytes([head[4], head[5], head[6], head[7]]) as usize;
        let value = rest.get(..length)?;
        let padded = length.next_multiple_of(8);
        if rest.get(length..padded)?.iter().any(|&byte| byte != 0) {
            return None;
        }
        if head[..3] == tag {
            return (head[3] == of_type).then_some(value);
        }
        items = &rest[padded..];
    }
    None
}
