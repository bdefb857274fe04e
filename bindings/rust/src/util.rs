//! Geometry: areas, midpoints, lengths, and where two lines cross.

use crate::refusal::{answered, handed};
use crate::{raw, Point, PointF64, Refusal};

/// Twice the area of the triangle of three points: positive where they turn clockwise.
///
/// ```
/// assert_eq!(sandline::signed_area([0, 0], [4, 0], [4, 4]), Ok(16));
/// ```
pub fn signed_area(p1: Point, p2: Point, p3: Point) -> Result<i32, Refusal> {
    let points = [p1[0], p1[1], p2[0], p2[1], p3[0], p3[1]];
    answered(0, |area| unsafe { raw::sandline_signed_area(&points, area) })
}

/// The midpoint of two points.
///
/// ```
/// assert_eq!(sandline::find_mid_point([0.0, 0.0], [3.0, -4.0]), Ok([1.5, -2.0]));
/// ```
pub fn find_mid_point(p1: PointF64, p2: PointF64) -> Result<PointF64, Refusal> {
    answered([0.0; 2], |middle| unsafe { raw::sandline_find_mid_point(&joined(p1, p2), middle) })
}

/// The length of a vector.
///
/// ```
/// assert_eq!(sandline::norm([3.0, -4.0]), Ok(5.0));
/// assert_eq!(sandline::norm([f64::NAN, 0.0]), Err(sandline::Refusal::BadPoint));
/// ```
pub fn norm(p: PointF64) -> Result<f64, Refusal> {
    answered(0.0, |length| unsafe { raw::sandline_norm(p[0], p[1], length) })
}

/// The length of a vector in whole numbers.
///
/// ```
/// assert_eq!(sandline::norm_i32([3, -4]), Ok(5.0));
/// ```
pub fn norm_i32(p: Point) -> Result<f64, Refusal> {
    answered(0.0, |length| unsafe { raw::sandline_norm_i32(p[0], p[1], length) })
}

/// Where two lines cross.
#[derive(Clone, Copy, Debug, PartialEq)]
pub enum Intersection {
    /// Nowhere.
    Parallel,
    /// They are one line: the midpoint of the first two points.
    Coincide(PointF64),
    /// The point, and where it lies on the first line and on the second: 0 is the line's first point, 1
    /// its second.
    Cross(PointF64, f64, f64),
}

/// Where the line through `p1` and `p2` crosses the one through `p3` and `p4`.
///
/// ```
/// use sandline::{find_intersection, Intersection};
/// let crossing = find_intersection([0.0, 0.0], [2.0, 2.0], [0.0, 2.0], [2.0, 0.0]);
/// assert_eq!(crossing, Ok(Intersection::Cross([1.0, 1.0], 0.5, 0.5)));
/// ```
pub fn find_intersection(
    p1: PointF64,
    p2: PointF64,
    p3: PointF64,
    p4: PointF64,
) -> Result<Intersection, Refusal> {
    let (first, second) = (joined(p1, p2), joined(p3, p4));
    let (mut values, mut count) = ([0.0; 4], 0);
    let number =
        unsafe { raw::sandline_find_intersection(&first, &second, &mut values, &mut count) };
    let [x, y, mua, mub] = values;
    let found = match count {
        0 => Intersection::Parallel,
        2 => Intersection::Coincide([x, y]),
        _ => Intersection::Cross([x, y], mua, mub),
    };
    handed(number, found)
}

impl Intersection {
    /// Whether it lies outside of either line's two points, by more than 1e-3 of their distance.
    ///
    /// ```
    /// use sandline::Intersection::Cross;
    /// assert!(Cross([1.0, 1.0], f64::NAN, 5.0).outside());
    /// assert!(!Cross([1.0, 1.0], f64::NAN, 0.5).outside());
    /// ```
    pub fn outside(&self) -> bool {
        let (values, count) = self.values();
        unsafe { raw::sandline_outside(values.as_ptr(), count) }
    }

    /// Whether it lies between the two points of both lines, or up to that far off.
    ///
    /// ```
    /// use sandline::Intersection::{Coincide, Parallel};
    /// assert!(Coincide([1.0, 1.0]).inside() && !Parallel.inside() && !Parallel.outside());
    /// ```
    pub fn inside(&self) -> bool {
        let (values, count) = self.values();
        unsafe { raw::sandline_inside(values.as_ptr(), count) }
    }

    /// Whether the lines are one.
    ///
    /// ```
    /// use sandline::Intersection::{Coincide, Cross};
    /// assert!(Coincide([1.0, 1.0]).coincide() && !Cross([1.0, 1.0], 0.5, 0.5).coincide());
    /// ```
    pub fn coincide(&self) -> bool {
        let (values, count) = self.values();
        unsafe { raw::sandline_coincide(values.as_ptr(), count) }
    }

    /// As the calls take it: values, and how many count.
    fn values(&self) -> ([f64; 4], u64) {
        match *self {
            Intersection::Parallel => ([0.0; 4], 0),
            Intersection::Coincide([x, y]) => ([x, y, 0.0, 0.0], 2),
            Intersection::Cross([x, y], mua, mub) => ([x, y, mua, mub], 4),
        }
    }
}

fn joined(p: PointF64, q: PointF64) -> [f64; 4] {
    [p[0], p[1], q[0], q[1]]
}
