//! Answers for the crate `smooth`: one round of subdivision by the Rust, and corners by the exact rule of
//! documents 01 and 02, held against the Rust's angles.

mod corners;
pub mod fixed;
pub mod make;

pub use corners::held;

use crate::document::{bad_point, bad_point_f64, lowest, too_many};
use crate::document::{BAD_FLAGS, BAD_POINT, BAD_SETTINGS, NO_ROOM, TOO_FEW, TOO_MANY};
use crate::reduce::{lent, points_of, put_number_and_count};
use crate::text::{Line, Words, BYTE_MARKER, F64_MARKER};
use visioncortex::{PathF64, PointF64, SubdivideSmooth};

pub fn answer(words: &mut Words, answer: &mut Line) -> Option<()> {
    match words.word()? {
        b"corners" => {
            let (c, s, closed) = (words.i32()?, words.i32()?, words.bool()?);
            let (values, room) = (words.i32s()?, words.room()?);
            words.end()?;
            answer_corners((c, s), closed, &values, room, answer);
        }
        b"subdivide" => {
            let round = Round {
                ratio: words.f64()?,
                length: words.f64()?,
                closed: words.bool()?,
                values: words.f64s()?,
                corners: words.bytes()?,
            };
            let (room, flag_room) = (words.room()?, words.room()?);
            words.end()?;
            answer_round(&round, room, flag_room, answer);
        }
        _ => return None,
    }
    Some(())
}

/// How many points have a flag: "closed lists drop the last point unseen".
fn seen(n: usize, closed: bool) -> usize {
    if closed {
        n.saturating_sub(1)
    } else {
        n
    }
}

fn answer_corners(pair: (i32, i32), closed: bool, values: &[i32], room: usize, answer: &mut Line) {
    let n = values.len() / 2;
    let fair = (-1000..=1000).contains(&pair.0) && (1..=1000).contains(&pair.1);
    let refusal = lowest(&[
        (TOO_MANY, too_many(values)),
        (BAD_POINT, bad_point(values)),
        (TOO_FEW, n == 0),
        (BAD_SETTINGS, !fair),
        (NO_ROOM, room < seen(n, closed)),
    ]);
    let mut flags = Vec::new();
    if refusal.is_none() {
        flags = corners::corners(&points_of(values), pair, closed);
    }
    put_number_and_count(answer, refusal, flags.len());
    answer.bytes(&lent(room, BYTE_MARKER, flags));
}

/// A round to ask for.
pub struct Round {
    pub ratio: f64,
    pub length: f64,
    pub closed: bool,
    pub values: Vec<f64>,
    pub corners: Vec<u8>,
}

fn answer_round(round: &Round, room: usize, flag_room: usize, answer: &mut Line) {
    let n = round.values.len() / 2;
    let count = round.corners.len();
    let bad_flags = count != seen(n, round.closed) || round.corners.iter().any(|&flag| flag > 1);
    let fair = (1.0..=1000.0).contains(&round.ratio) && (0.0..=65536.0).contains(&round.length);
    let places = (2 * n).saturating_sub(1);
    let refusal = lowest(&[
        (TOO_MANY, too_many(&round.values)),
        (BAD_POINT, bad_point_f64(&round.values)),
        (TOO_FEW, round.closed && n < 2),
        (BAD_FLAGS, bad_flags),
        (BAD_SETTINGS, !fair),
        (NO_ROOM, room / 2 < places || flag_room < places),
    ]);
    let (mut path, mut flags, mut finished) = (Vec::new(), Vec::new(), false);
    if refusal.is_none() {
        (path, flags, finished) = subdivide(round);
    }
    put_number_and_count(answer, refusal, path.len());
    let values = path.iter().flat_map(|point| [point.x, point.y]).collect();
    answer.bool(finished).f64s(&lent(room, f64::from_bits(F64_MARKER), values));
    answer.bytes(&lent(flag_room, BYTE_MARKER, flags));
}

fn subdivide(round: &Round) -> (Vec<PointF64>, Vec<u8>, bool) {
    let points = round.values.chunks_exact(2).map(|pair| PointF64::new(pair[0], pair[1])).collect();
    let corners: Vec<bool> = round.corners.iter().map(|&flag| flag == 1).collect();
    let (path, corners, finished) = SubdivideSmooth::subdivide_keep_corners(
        &PathF64::from_points(points),
        &corners,
        round.ratio,
        round.length,
        round.closed,
    );
    (path.path, corners.into_iter().map(u8::from).collect(), finished)
}
