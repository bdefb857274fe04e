//! Zooms: fewer points, the wider the tolerance.

use crate::lent::{lent, lent_mut, narrow};
use crate::refusal::{counted, handed};
use crate::{raw, Point, Refusal};

/// What a call answers whose work is counted.
///
/// That work is squared distances, from a point to the segment between the ends of a span: of every span that
/// the call comes to, one for each point inside it. For n points these are at most (n - 2)(n - 1) / 2, and none
/// below two.
#[derive(Clone, Copy, Debug, PartialEq, Eq, Hash)]
pub struct Work {
    /// How many places it filled.
    pub points: usize,
    /// How many distances it computed.
    pub distances: usize,
}

/// What a call answers that puts a count and its distances in place of those it is lent.
fn worked(call: impl FnOnce(&mut u64, &mut u64) -> u8) -> Result<Work, Refusal> {
    let (mut count, mut distances) = (0, 0);
    let number = call(&mut count, &mut distances);
    handed(number, Work { points: narrow(count), distances: narrow(distances) })
}

/// The radial pass: keeps a point if it lies farther than the tolerance from the last one kept, and the
/// first and the last. The tolerance is squared, 0 to 4,294,967,296 square pixels.
///
/// Asks for [`places(points.len())`](crate::places) places, and answers how many it filled.
///
/// ```
/// let line = [[0, 0], [3, 4], [6, 8]];
/// let mut out = [[9; 2]; 3];
/// assert_eq!(sandline::simplify_radial_dist(&line, 25.0, &mut out), Ok(2));
/// assert_eq!(out, [[0, 0], [6, 8], [9, 9]]);
/// assert_eq!(sandline::simplify_radial_dist(&line, 24.0, &mut out), Ok(3));
/// ```
pub fn simplify_radial_dist(
    points: &[Point],
    sq_tolerance: f64,
    out: &mut [Point],
) -> Result<usize, Refusal> {
    let (points, length) = lent(points.as_flattened());
    let (out, room) = lent_mut(out.as_flattened_mut());
    counted(|count| unsafe {
        raw::sandline_simplify_radial_dist(points, length, sq_tolerance, out, room, count)
    })
}

/// Douglas-Peucker at a squared tolerance, 0 to 4,294,967,296 square pixels. Both ends stay; one point is
/// answered twice. `marks` then starts with a byte for each point, 1 if it is kept and 0 if not.
///
/// Asks for [`places(points.len())`](crate::places) places and for as many marks as there are points, and
/// answers how many places it filled.
///
/// ```
/// let zigzag = [[0, 0], [8, 2], [0, 4], [8, 0]];
/// let (mut out, mut marks) = ([[9; 2]; 4], [9; 4]);
/// assert_eq!(sandline::simplify_douglas_peucker(&zigzag, 16.0, &mut out, &mut marks), Ok(2));
/// assert_eq!(out[..2], [[0, 0], [8, 0]]);
/// assert_eq!(marks, [1, 0, 0, 1]);
/// ```
pub fn simplify_douglas_peucker(
    points: &[Point],
    sq_tolerance: f64,
    out: &mut [Point],
    marks: &mut [u8],
) -> Result<usize, Refusal> {
    simplify_douglas_peucker_counted(points, sq_tolerance, out, marks).map(|work| work.points)
}

/// [`simplify_douglas_peucker`], and how many distances were computed.
///
/// ```
/// use sandline::{simplify_douglas_peucker_counted, Refusal, Work};
///
/// let zigzag = [[0, 0], [8, 2], [0, 4], [8, 0]];
/// let (mut out, mut marks) = ([[9; 2]; 4], [9; 4]);
/// // The whole list alone, with two points inside.
/// let work = simplify_douglas_peucker_counted(&zigzag, 16.0, &mut out, &mut marks)?;
/// assert_eq!(work, Work { points: 2, distances: 2 });
/// assert_eq!(marks, [1, 0, 0, 1]);
/// // And the part up to (0,4), with one.
/// let work = simplify_douglas_peucker_counted(&zigzag, 15.0, &mut out, &mut marks)?;
/// assert_eq!(work, Work { points: 4, distances: 3 });
/// assert_eq!(out, zigzag);
/// # Ok::<(), Refusal>(())
/// ```
pub fn simplify_douglas_peucker_counted(
    points: &[Point],
    sq_tolerance: f64,
    out: &mut [Point],
    marks: &mut [u8],
) -> Result<Work, Refusal> {
    let (points, length) = lent(points.as_flattened());
    let (out, room) = lent_mut(out.as_flattened_mut());
    let (marks, mark_room) = lent_mut(marks);
    worked(|count, distances| unsafe {
        raw::sandline_simplify_douglas_peucker_counted(
            points,
            length,
            sq_tolerance,
            out,
            room,
            marks,
            mark_room,
            count,
            distances,
        )
    })
}

/// The radial pass at half the squared tolerance, and then Douglas-Peucker. The tolerance is in pixels, 0
/// to 65,536. Up to two points, and any list at tolerance 0, are answered whole; else `scratch` then starts
/// with what the radial pass left, and `marks` with a byte for each point of that.
///
/// Asks for [`places(points.len())`](crate::places) places, and for as much scratch and as many marks as
/// there are points, and answers how many places it filled.
///
/// ```
/// let pixel = [[0, 0], [1, 0], [1, 1], [0, 1], [0, 0]];
/// let (mut out, mut scratch, mut marks) = ([[9; 2]; 5], [[9; 2]; 5], [9; 5]);
/// assert_eq!(sandline::reduce(&pixel, 3.0, &mut out, &mut scratch, &mut marks), Ok(2));
/// assert_eq!(out[..3], [[0, 0], [0, 0], [9, 9]]);
/// ```
pub fn reduce(
    points: &[Point],
    tolerance: f64,
    out: &mut [Point],
    scratch: &mut [Point],
    marks: &mut [u8],
) -> Result<usize, Refusal> {
    let (points, length) = lent(points.as_flattened());
    let (out, room) = lent_mut(out.as_flattened_mut());
    let (scratch, scratch_room) = lent_mut(scratch.as_flattened_mut());
    let (marks, mark_room) = lent_mut(marks);
    counted(|count| unsafe {
        raw::sandline_reduce(
            points,
            length,
            tolerance,
            out,
            room,
            scratch,
            scratch_room,
            marks,
            mark_room,
            count,
        )
    })
}

/// Puts one number for each point at the start of `out`: at exactly the squared tolerances below it
/// Douglas-Peucker keeps the point. Both ends have infinity.
///
/// Asks for [`places(points.len())`](crate::places) places, and answers how many it filled.
///
/// ```
/// let zigzag = [[0, 0], [8, 2], [0, 4], [8, 0]];
/// let mut out = [0.0; 4];
/// assert_eq!(sandline::numbers(&zigzag, &mut out), Ok(4));
/// assert_eq!(out, [f64::INFINITY, 16.0, 16.0, f64::INFINITY]);
/// ```
pub fn numbers(points: &[Point], out: &mut [f64]) -> Result<usize, Refusal> {
    numbers_counted(points, out).map(|work| work.points)
}

/// [`numbers`], and how many distances were computed: as many as by Douglas-Peucker at the squared tolerance 0.
///
/// ```
/// use sandline::{numbers_counted, Refusal, Work};
///
/// let zigzag = [[0, 0], [8, 2], [0, 4], [8, 0]];
/// let mut out = [0.0; 4];
/// assert_eq!(numbers_counted(&zigzag, &mut out), Ok(Work { points: 4, distances: 3 }));
/// assert_eq!(out, [f64::INFINITY, 16.0, 16.0, f64::INFINITY]);
/// // All on one line: nothing is split.
/// let line = [[0, 0], [3, 4], [6, 8], [9, 12]];
/// assert_eq!(numbers_counted(&line, &mut out), Ok(Work { points: 4, distances: 2 }));
/// assert_eq!(numbers_counted(&line, &mut out[..3]), Err(Refusal::NoRoom));
/// ```
pub fn numbers_counted(points: &[Point], out: &mut [f64]) -> Result<Work, Refusal> {
    let (points, length) = lent(points.as_flattened());
    let (out, room) = lent_mut(out);
    worked(|count, distances| unsafe {
        raw::sandline_numbers_counted(points, length, out, room, count, distances)
    })
}

/// Puts the points whose number is greater than a squared tolerance, with both ends, at the start of `out`:
/// what Douglas-Peucker answers at that tolerance, where `numbers` are those of the same list.
///
/// Asks for [`places(points.len())`](crate::places) places, and answers how many it filled. Numbers that are
/// not as many as the points are a [`Refusal::BadPoint`].
///
/// ```
/// let zigzag = [[0, 0], [8, 2], [0, 4], [8, 0]];
/// let (mut by, mut out) = ([0.0; 4], [[9; 2]; 4]);
/// sandline::numbers(&zigzag, &mut by)?;
/// assert_eq!(sandline::zoom(&zigzag, &by, 16.0, &mut out), Ok(2));
/// assert_eq!(out, [[0, 0], [8, 0], [9, 9], [9, 9]]);
/// assert_eq!(sandline::zoom(&zigzag, &by, 15.0, &mut out), Ok(4));
/// # Ok::<(), sandline::Refusal>(())
/// ```
pub fn zoom(
    points: &[Point],
    numbers: &[f64],
    sq_tolerance: f64,
    out: &mut [Point],
) -> Result<usize, Refusal> {
    let (points, length) = lent(points.as_flattened());
    let (numbers, numbers_length) = lent(numbers);
    let (out, room) = lent_mut(out.as_flattened_mut());
    counted(|count| unsafe {
        raw::sandline_zoom(points, length, numbers, numbers_length, sq_tolerance, out, room, count)
    })
}
