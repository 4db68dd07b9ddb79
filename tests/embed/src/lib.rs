//! The proved drive as a Rust program sees it. The tests here and the bench share this.

pub mod proved;
mod rng;

pub use rng::Rng;
