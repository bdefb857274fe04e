//! Stand-in for src/image/mod.rs, with the one file that is taken.

#[path = "../../target/rust/src/image/format.rs"]
mod format;

pub use format::*;
