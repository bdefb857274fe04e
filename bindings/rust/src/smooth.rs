//! Smoothing: one round of subdivision.

use crate::lent::{lent, lent_mut, narrow};
use crate::refusal::answered;
use crate::{raw, PointF64, Refusal};

/// What a round of subdivision goes by.
#[derive(Clone, Copy, Debug, PartialEq)]
pub struct Settings {
    /// The greater, the less a new point leaves its segment: 1 to 1,000.
    pub ratio: f64,
    /// A segment of at most this length is left as it is: 0 to 65,536.
    pub length: f64,
}

/// What a round of subdivision answers.
#[derive(Clone, Copy, Debug, PartialEq, Eq)]
pub struct Subdivided {
    /// How many points there are then.
    pub points: usize,
    /// Whether of every point that entered both new segments are at most the given length, so also where
    /// none entered: no other round is needed.
    pub finished: bool,
}

/// One round of subdivision: between two points a third may enter, a little outside, so that the outline is
/// smoother; corners stay. `corners` has a flag for each point, as [`find_corners`](crate::find_corners) puts
/// them. What comes out stands at the start of `out`, its flags at the start of `flags`.
///
/// Asks for `2 * points.len() - 1` places and as many flags, and for none where there are no points.
///
/// ```
/// use sandline::{subdivide_keep_corners, Settings, Subdivided};
/// let square = [[0.0, 0.0], [4.0, 0.0], [4.0, 4.0], [0.0, 4.0], [0.0, 0.0]];
/// let settings = Settings { ratio: 8.0, length: 1.0 };
/// let (mut out, mut flags) = ([[0.0; 2]; 9], [0; 9]);
/// let round = subdivide_keep_corners(&square, &[0; 4], settings, true, &mut out, &mut flags);
/// assert_eq!(round, Ok(Subdivided { points: 9, finished: false }));
/// assert_eq!(out[..3], [[0.0, 0.0], [2.0, -0.5], [4.0, 0.0]]);
/// ```
pub fn subdivide_keep_corners(
    points: &[PointF64],
    corners: &[u8],
    settings: Settings,
    closed: bool,
    out: &mut [PointF64],
    flags: &mut [u8],
) -> Result<Subdivided, Refusal> {
    let (points, points_length) = lent(points.as_flattened());
    let (corners, corners_length) = lent(corners);
    let (out, room) = lent_mut(out.as_flattened_mut());
    let (flags, flag_room) = lent_mut(flags);
    let (count, finished) = answered((0, false), |(count, finished)| unsafe {
        raw::sandline_subdivide_keep_corners(
            points,
            points_length,
            corners,
            corners_length,
            settings.ratio,
            settings.length,
            closed,
            out,
            room,
            flags,
            flag_room,
            count,
            finished,
        )
    })?;
    Ok(Subdivided { points: narrow(count), finished })
}
