//! Outlines of bitmaps, simplified so that zooms nest: safe functions over `libsandline_c.a`, a library
//! in which every function is proved. What is right is said by the repository's docs/01-scope.md
//! ("document 01").
//!
//! Nothing is allocated: a call writes to what it is lent, and answers how many places it filled. Points
//! are pairs x, y in pixels, y down; a list has at most 4,096 of them, with coordinates from -16,383 to
//! 16,383.
//!
//! A call that cannot be done answers a [`Refusal`], the lowest that applies, and then every lent
//! slice holds what it held, scratch too. After an answer the places behind it hold what they held.
//! Room is judged on the length of the input alone: [`places`] says how much is asked for. (Of a picture
//! that is read, it is judged on its sizes, and after all else.)
//!
//! # From pixels to zooms
//!
//! ```
//! use sandline::{numbers, places, simplify, zoom, Chart};
//!
//! // Six by four pixels, a row a byte: a block with a notch.
//! let chart = Chart { width: 6, height: 4, pixels: &[0b111111_00, 0b111111_00, 0b110111_00, 0b110111_00] };
//! let start = chart.first_start()?;
//! let mut walked = [[0; 2]; 64];
//! let n = chart.walk(start, true, &mut walked)?;
//! let outline = &walked[..n];
//! assert_eq!(outline.first(), outline.last());
//!
//! let mut kept = [[0; 2]; 64];
//! let n = simplify(outline, true, &mut kept[..places(outline.len())])?;
//! let outline = &kept[..n];
//!
//! // One number for each point, and then any zoom by comparing.
//! let mut by = [0.0; 64];
//! let n = numbers(outline, &mut by)?;
//! let (mut near, mut wide) = ([[0; 2]; 64], [[0; 2]; 64]);
//! let more = zoom(outline, &by[..n], 0.25, &mut near)?;
//! let fewer = zoom(outline, &by[..n], 16.0, &mut wide)?;
//! assert!(wide[..fewer].iter().all(|point| near[..more].contains(point)));
//! # Ok::<(), sandline::Refusal>(())
//! ```
//!
//! # Linking
//!
//! `tools/archive FOLDER` makes the archive, and `SANDLINE_ARCHIVE=FOLDER cargo build` links it. This crate has no
//! dependencies and does without the standard library.
//!
//! The archive may be one for a Cortex-M: `tools/archive FOLDER thumbv7em` makes it for an M4 or M7, and `thumbv6m`
//! for an M0 or M0+. It is compiled for soft floats: build for `thumbv7em-none-eabi` or `thumbv6m-none-eabi`, and for
//! no target that ends in `eabihf`. tools/archive says what else it asks of the program.
//!
//! The repository's include/sandline.h says what stack each call takes: no call calls itself, so that it is the
//! same for every list.
#![no_std]
#![warn(missing_docs)]

mod chart;
mod corners;
mod frames;
mod lent;
mod pbm;
mod raw;
mod reduce;
mod refusal;
mod simplify;
mod smooth;
mod spiral;
mod sqrt;
mod util;
mod walker;

pub use chart::Chart;
pub use corners::{find_corners, Pair};
pub use frames::answer;
pub use pbm::{read_pbm, write_pbm, Picture};
pub use reduce::{
    numbers, numbers_counted, reduce, simplify_douglas_peucker, simplify_douglas_peucker_counted,
    simplify_radial_dist, zoom, Work,
};
pub use refusal::Refusal;
pub use simplify::{limit_penalties, remove_staircase, simplify};
pub use smooth::{subdivide_keep_corners, Settings, Subdivided};
pub use spiral::Spiral;
pub use sqrt::{sqrt, sqrt_bits};
pub use util::{find_intersection, find_mid_point, norm, norm_i32, signed_area, Intersection};

/// A point of a chart or an outline: x and y, in pixels, y down.
pub type Point = [i32; 2];

/// A point with fractions.
pub type PointF64 = [f64; 2];

/// How many places a list of `points` points asks of the slice for its answer: as many, and 2 for a single
/// one, which may be answered twice.
///
/// ```
/// assert_eq!([0, 1, 2, 5].map(sandline::places), [0, 2, 2, 5]);
/// ```
pub const fn places(points: usize) -> usize {
    if points == 1 {
        2
    } else {
        points
    }
}
