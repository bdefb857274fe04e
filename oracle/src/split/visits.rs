//! Document 02's count of distances (8/13), held against the Rust: how many it computes there.

use crate::hold_eq;
use crate::reduce::numbers::farthest;
use std::cell::RefCell;
use std::ops::{Add, Mul, Sub};
use visioncortex::reduce::simplify_douglas_peucker;
use visioncortex::{Point2, PointI32};

/// "The sum of interior points over all spans the split rule visits at that tolerance."
pub fn distances(points: &[PointI32], sq_tolerance: f64) -> usize {
    if points.is_empty() {
        return 0;
    }
    let count = visited(points, 0, points.len() - 1, sq_tolerance);
    hold_eq!(count, by_the_rust(points, sq_tolerance), "distances of {points:?} at {sq_tolerance}");
    count
}

/// The numbers split every span but those with no distance other than 0.
pub fn of_numbers(points: &[PointI32]) -> usize {
    distances(points, 0.0)
}

/// A span has each of its interior points looked at; its parts are visited where it is split.
fn visited(points: &[PointI32], first: usize, last: usize, sq_tolerance: f64) -> usize {
    let Some((index, distance)) = farthest(points, first, last) else { return 0 };
    let mut count = last - first - 1;
    if distance > sq_tolerance {
        count += visited(points, first, index, sq_tolerance);
        count += visited(points, index, last, sq_tolerance);
    }
    count
}

/// How many distances the Rust computes, which it does not say: told by the coordinates that it takes.
fn by_the_rust(points: &[PointI32], sq_tolerance: f64) -> usize {
    let noted = |(place, &point): (usize, &PointI32)| Point2 {
        x: Noted { point, place, is_x: true },
        y: Noted { point, place, is_x: false },
    };
    let noted: Vec<_> = points.iter().enumerate().map(noted).collect();
    WATCH.set(Watch::default());
    simplify_douglas_peucker(&noted, sq_tolerance);
    WATCH.with_borrow(|watch| watch.count)
}

/// A coordinate of a point, which is noted where it is made a double.
#[derive(Clone, Copy)]
struct Noted {
    point: PointI32,
    place: usize,
    is_x: bool,
}

/// The points whose x was taken for the distance at hand, and how many distances are done.
#[derive(Default)]
struct Watch {
    taken: Vec<Noted>,
    count: usize,
}

thread_local! {
    static WATCH: RefCell<Watch> = RefCell::default();
}

impl Watch {
    /// The Rust takes the x of the first end, of the second and of the point. Where the ends differ it takes that of
    /// the point once more at last, and before it may take that of the second end again.
    fn take(&mut self, noted: Noted) {
        self.taken.push(noted);
        let done = match self.taken[..] {
            [first, second, _] => first.point == second.point,
            [_, _, point, .., last] => point.place == last.place,
            _ => false,
        };
        if done {
            self.taken.clear();
            self.count += 1;
        }
    }
}

impl From<Noted> for f64 {
    fn from(noted: Noted) -> f64 {
        if !noted.is_x {
            return noted.point.y.into();
        }
        WATCH.with_borrow_mut(|watch| watch.take(noted));
        noted.point.x.into()
    }
}

// The rest the Rust asks of a number, and does not use for these distances.

impl Add for Noted {
    type Output = Noted;
    fn add(self, _: Noted) -> Noted {
        unreachable!("coordinates are added as doubles")
    }
}

impl Sub for Noted {
    type Output = Noted;
    fn sub(self, _: Noted) -> Noted {
        unreachable!("coordinates are subtracted as doubles")
    }
}

impl Mul for Noted {
    type Output = Noted;
    fn mul(self, _: Noted) -> Noted {
        unreachable!("coordinates are multiplied as doubles")
    }
}

impl PartialEq for Noted {
    fn eq(&self, _: &Noted) -> bool {
        unreachable!("coordinates are compared as doubles")
    }
}
