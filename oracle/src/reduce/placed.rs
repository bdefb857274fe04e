//! Douglas-Peucker with the places of the points that it keeps.
//!
//! The Rust gives the kept points and not their places, which repeated points leave open. But it
//! takes points over any kind of number: here over whole numbers that know their place.

use crate::hold_eq;
use std::ops::{Add, Mul, Sub};
use visioncortex::reduce::simplify_douglas_peucker;
use visioncortex::{Point2, PointI32};

/// An i32 in every respect, with the place of its point beside it.
#[derive(Clone, Copy)]
struct Placed {
    value: i32,
    place: usize,
}

impl Add for Placed {
    type Output = Placed;
    fn add(self, other: Placed) -> Placed {
        Placed { value: self.value + other.value, ..self }
    }
}

impl Sub for Placed {
    type Output = Placed;
    fn sub(self, other: Placed) -> Placed {
        Placed { value: self.value - other.value, ..self }
    }
}

impl Mul for Placed {
    type Output = Placed;
    fn mul(self, other: Placed) -> Placed {
        Placed { value: self.value * other.value, ..self }
    }
}

impl PartialEq for Placed {
    fn eq(&self, other: &Placed) -> bool {
        self.value == other.value
    }
}

impl From<Placed> for f64 {
    fn from(placed: Placed) -> f64 {
        placed.value.into()
    }
}

/// The kept points, and a mark for each point: 1 if it is kept.
pub fn douglas_peucker(points: &[PointI32], sq_tolerance: f64) -> (Vec<PointI32>, Vec<u8>) {
    let with_place = |(place, point): (usize, &PointI32)| Point2 {
        x: Placed { value: point.x, place },
        y: Placed { value: point.y, place },
    };
    let placed: Vec<_> = points.iter().enumerate().map(with_place).collect();
    let places: Vec<usize> =
        simplify_douglas_peucker(&placed, sq_tolerance).iter().map(|point| point.x.place).collect();

    let kept = simplify_douglas_peucker(points, sq_tolerance);
    let at_places: Vec<PointI32> = places.iter().map(|&place| points[place]).collect();
    hold_eq!(at_places, kept, "places do not fit the points for {points:?} at {sq_tolerance}");

    let mut marks = vec![0; points.len()];
    for place in places {
        marks[place] = 1;
    }
    (kept, marks)
}
