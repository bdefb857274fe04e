//! Stand-in for the root of the crate `visioncortex`. The modules `point`, `image` and `path` hold
//! the files of the Rust, unchanged, from where `oracle/build` put them; `rest` has the types
//! that these files mention and that are not among them.

// The Rust's text is taken as it is, with whatever today's compiler has to say about it.
#![allow(warnings)]

#[path = "../../target/rust/src/point.rs"]
mod point;

mod image;
pub mod path;
mod rest;

pub use image::*;
pub use path::*;
pub use point::*;
pub use rest::*;
