//! A session in plain words, for those who type sessions: of each line what was asked, what the drive said, and why.
//!
//! It is no part of the proof, and does not know the drive: what the drive said is read from its answers. It prints no
//! key. What it says of a line is made of a `frames::Frame`, which has no place for a key; a line that cannot be read
//! may have a key anywhere, and is masked but for its kind and its first bad character.

pub mod answers;
mod asked;
mod caret;
mod digits;
mod discovery;
mod done;
pub mod frames;
pub mod kinds;
pub mod lines;
mod locks;
mod messages;
mod names;
mod page;
mod refused;
mod shown;

pub use page::page;
