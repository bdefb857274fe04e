//! Stand-in for the crate `num_traits`: what point.rs asks of a float, answered by the
//! standard library.

use std::ops::{Add, Div, Mul, Neg, Sub};

pub trait Float:
    Copy
    + PartialEq
    + Add<Output = Self>
    + Sub<Output = Self>
    + Mul<Output = Self>
    + Div<Output = Self>
    + Neg<Output = Self>
{
    fn zero() -> Self;
    fn sqrt(self) -> Self;
    fn sin(self) -> Self;
    fn cos(self) -> Self;
    fn atan2(self, other: Self) -> Self;
}

impl Float for f64 {
    fn zero() -> Self {
        0.0
    }

    fn sqrt(self) -> Self {
        f64::sqrt(self)
    }

    fn sin(self) -> Self {
        f64::sin(self)
    }

    fn cos(self) -> Self {
        f64::cos(self)
    }

    fn atan2(self, other: Self) -> Self {
        f64::atan2(self, other)
    }
}
