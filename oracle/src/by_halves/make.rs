//! Cases for the crate `by_halves`.

use crate::random::Random;
use crate::sqrt::make::pattern;
use crate::text::Line;

pub fn make(random: &mut Random, _: u64, case: &mut Line) {
    case.word("by_halves");
    case.pattern(pattern(random));
}
