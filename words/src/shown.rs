//! How much of a line is shown: a short frame whole, the others up to where a key or a message may begin.

use crate::digits;
use crate::frames::{Asked, Frame};

/// How many characters of any line are shown: the kind's two digits, or none. Every kind begins with 0; a line that does
/// not may be the rest of a load that was broken in two.
pub fn kind_digits(line: &[u8]) -> usize {
    match line {
        [b'0', second, ..] if digits::value(*second).is_some() => 2,
        _ => 0,
    }
}

/// A frame line as it is shown. What cannot be read is hidden but for its kind: where a length is wrong, nobody knows
/// where the key begins.
pub fn shown(line: &[u8], asked: &Asked) -> String {
    let open = match asked {
        Asked::Frame(frame) => open_digits(frame).unwrap_or(line.len()),
        Asked::Spoilt(..) | Asked::UnknownKind | Asked::NotAFrameLine => kind_digits(line),
    };
    let front = String::from_utf8_lossy(&line[..open]);
    let cut = if open < line.len() { ".." } else { "" };
    format!("{front}{cut}")
}

/// How many digits of a long frame are shown; a short one is shown whole.
fn open_digits(frame: &Frame) -> Option<usize> {
    let bytes = match frame {
        Frame::Load { name, .. } | Frame::WrappedLoad { name, .. } => 5 + name.len(),
        Frame::Replace { old, new, .. } => 6 + old.len() + new.len(),
        Frame::Message { .. } => 4,
        // The opcode; the rest is mostly zeros, and what counts of it is told in words.
        Frame::Io(_) => 2,
        _ => return None,
    };
    Some(2 * bytes)
}
