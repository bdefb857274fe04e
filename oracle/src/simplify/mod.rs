//! Answers for the crate `simplify`: staircases, penalties, and both, by the Rust.

pub mod fixed;
pub mod make;
pub(crate) mod shapes;

use crate::document::{bad_point, lowest, no_room, too_many, BAD_POINT, NO_ROOM, TOO_MANY};
use crate::reduce::{lent, points_of, put_number_and_count, values_of};
use crate::text::{Line, Words, I32_MARKER};
use visioncortex::{PathI32, PathSimplify};

pub fn answer(words: &mut Words, answer: &mut Line) -> Option<()> {
    match words.word()? {
        b"remove_staircase" => {
            let clockwise = words.bool()?;
            let case = Case::read(words)?;
            case.answer(answer, |path| PathSimplify::remove_staircase(path, clockwise));
        }
        b"limit_penalties" => Case::read(words)?.answer(answer, PathSimplify::limit_penalties),
        b"simplify" => {
            let clockwise = words.bool()?;
            Case::read(words)?.answer(answer, |path| path.simplify(clockwise));
        }
        _ => return None,
    }
    Some(())
}

/// What every call is given: a list, and the room for its answer.
struct Case {
    values: Vec<i32>,
    room: usize,
}

impl Case {
    /// The last two words of a line.
    fn read(words: &mut Words) -> Option<Case> {
        let (values, room) = (words.i32s()?, words.room()?);
        words.end()?;
        Some(Case { values, room })
    }

    /// A refusal leaves the list that would be written empty: count 0, and markers.
    fn answer(&self, answer: &mut Line, call: impl Fn(&PathI32) -> PathI32) {
        let Case { values, room } = self;
        let refusal = lowest(&[
            (TOO_MANY, too_many(values)),
            (BAD_POINT, bad_point(values)),
            (NO_ROOM, no_room(values.len() / 2, *room)),
        ]);
        let mut kept = Vec::new();
        if refusal.is_none() {
            kept = call(&PathI32::from_points(points_of(values))).path;
        }
        put_number_and_count(answer, refusal, kept.len());
        answer.i32s(&lent(*room, I32_MARKER, values_of(&kept)));
    }
}
