//! Answers for the crate `point`: document 01's limits. The Rust has none.

pub mod fixed;
pub mod make;

use crate::document::{self, lowest, BAD_POINT, BAD_TOLERANCE, TOO_MANY};
use crate::text::{Line, Words};

pub fn answer(words: &mut Words, answer: &mut Line) -> Option<()> {
    let refusal = match words.word()? {
        b"points" => {
            let values = words.i32s()?;
            let (many, bad) = (document::too_many(&values), document::bad_point(&values));
            lowest(&[(TOO_MANY, many), (BAD_POINT, bad)])
        }
        b"points_f64" => {
            let values = words.f64s()?;
            let (many, bad) = (document::too_many(&values), document::bad_point_f64(&values));
            lowest(&[(TOO_MANY, many), (BAD_POINT, bad)])
        }
        b"tolerance" => lowest(&[(BAD_TOLERANCE, document::bad_tolerance(words.f64()?))]),
        b"sq_tolerance" => lowest(&[(BAD_TOLERANCE, document::bad_sq_tolerance(words.f64()?))]),
        _ => return None,
    };
    words.end()?;
    answer.number(refusal.unwrap_or(0));
    Some(())
}
