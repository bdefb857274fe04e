//! Stand-in for src/path/mod.rs, with the files that are taken, and doors to what is private in
//! them.

#[path = "../../target/rust/src/path/paths.rs"]
mod paths;
#[path = "../../target/rust/src/path/reduce.rs"]
pub mod reduce;
#[path = "../../target/rust/src/path/smooth.rs"]
mod smooth;
#[path = "../../target/rust/src/path/util.rs"]
mod util;

pub use paths::*;
pub use simplify::*;
pub use smooth::*;
pub use walker::*;

/// simplify.rs, with a door to `evaluate_penalty`.
mod simplify {
    include!("../../target/rust/src/path/simplify.rs");

    pub fn evaluate_penalty(a: PointI32, b: PointI32, c: PointI32) -> f64 {
        PathSimplify::evaluate_penalty(a, b, c)
    }
}

/// walker.rs, with doors to all fields of a `SpiralWalker`.
mod walker {
    include!("../../target/rust/src/path/walker.rs");

    /// The fields of a `SpiralWalker`, in its order.
    #[derive(Clone, Copy, Debug, PartialEq)]
    pub struct SpiralState {
        pub x: i32,
        pub y: i32,
        pub dir: i32,
        pub gx: i32,
        pub gy: i32,
        pub sq: i32,
        pub cc: i32,
        pub area: usize,
        pub step: usize,
    }

    impl SpiralWalker {
        pub fn from_state(s: SpiralState) -> Self {
            let SpiralState { x, y, dir, gx, gy, sq, cc, area, step } = s;
            Self { x, y, dir, gx, gy, sq, cc, area, step }
        }

        pub fn state(&self) -> SpiralState {
            let &Self { x, y, dir, gx, gy, sq, cc, area, step } = self;
            SpiralState { x, y, dir, gx, gy, sq, cc, area, step }
        }
    }
}

/// util.rs, what the crate shows and what it keeps to itself.
pub mod open_util {
    use super::util;
    use crate::{Point2, PointF64, PointI32};

    pub use super::util::{find_intersection, Intersection};

    pub fn signed_area(p1: PointI32, p2: PointI32, p3: PointI32) -> i32 {
        util::signed_area(p1, p2, p3)
    }

    pub fn find_mid_point(p1: &PointF64, p2: &PointF64) -> PointF64 {
        util::find_mid_point(p1, p2)
    }

    pub fn norm_i32(p: &PointI32) -> f64 {
        util::norm(p)
    }

    pub fn norm_f64(p: &PointF64) -> f64 {
        util::norm(p)
    }
}
