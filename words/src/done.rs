//! What it means that the drive did what was asked.

use crate::frames::{Asked, Frame};
use crate::names;

/// Reads and writes are just done: in a room without numbers no key was looked at, and the answer does not tell which
/// rooms have numbers.
pub fn words(asked: &Asked) -> String {
    let Asked::Frame(frame) = asked else { return "done".to_string() };
    let now = match frame {
        Frame::Manage { room, .. } => format!("room {room} has its numbers"),
        Frame::Release { room } => format!("room {room} has no numbers and no keys now"),
        Frame::Load { name, .. }
        | Frame::WrappedLoad { name, .. }
        | Frame::Message { name: Some(name), .. } => {
            format!("{} is loaded there", names::shown(name))
        }
        Frame::Message { name: None, .. } => "the key is loaded there".to_string(),
        Frame::Replace { new, .. } => format!("{} is there now", names::shown(new)),
        Frame::ClearOne { .. } => "no key is there now".to_string(),
        Frame::ClearAll { room } => format!("room {room} has no keys now"),
        Frame::BootWrite { .. } => "it is unlocked".to_string(),
        Frame::Reset { level: 0 } => "it changes nothing".to_string(),
        Frame::Reset { .. } => {
            "all keys are gone, and both boot partitions are locked; rooms keep their numbers"
                .to_string()
        }
        Frame::Io(_) | Frame::SetLocks { .. } | Frame::GetLocks | Frame::Discovery => {
            return "done".to_string()
        }
    };
    format!("done: {now}")
}
