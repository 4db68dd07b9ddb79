//! The drive of the paper (`01-scope.md`) and of the requests that amend it, written from these alone
//! as ordinary Rust.
//!
//! It shares nothing with the proved code: where the two differ, one of them misread the paper.

pub mod aes;
mod boot;
pub mod discovery;
mod drive;
mod frame;
mod io;
mod keys;
pub mod kmip;
pub mod lines;
pub mod messages;
pub mod numbers;
mod session;
pub mod status;
pub mod ttlv;
pub mod wrap;

pub use drive::Drive;
pub use frame::Material;
pub use session::{room, session_room};
