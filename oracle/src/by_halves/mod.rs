//! Answers for the crate `by_halves`: those of `sqrt`.

pub mod fixed;
pub mod make;

use crate::sqrt::put_root;
use crate::text::{Line, Words};

pub fn answer(words: &mut Words, answer: &mut Line) -> Option<()> {
    if words.word()? != b"by_halves" {
        return None;
    }
    let pattern = words.pattern()?;
    words.end()?;
    put_root(pattern, answer);
    Some(())
}
