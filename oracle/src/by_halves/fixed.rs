//! The fixed list of the crate `by_halves`: that of `sqrt`.

use crate::sqrt::fixed::fixed_patterns;
use crate::text::Cases;

pub fn fixed(cases: &mut Cases) {
    for pattern in fixed_patterns() {
        cases.line(&format!("by_halves {pattern:016x}"));
    }
    for line in BAD_LINES {
        cases.line(line);
    }
}

/// Lines that are no cases.
const BAD_LINES: [&str; 6] = [
    "by_halves",
    "by_halves ",
    "by_halves 400000000000000",
    "by_halves 4000000000000000 ",
    "by_halve 4000000000000000",
    "by_halvess 4000000000000000",
];
