//! The fixed list of the crate `sqrt`.

use super::make::{beside_midpoint, pattern, power_of_two, INFINITY, ONE, SIGN, SPECIAL};
use crate::random::Random;
use crate::text::Cases;

/// 2, 3, 5, 10, 0.5, 0.25, 0.1, 4, 9, 2e300: roots that are found in print.
const PUBLISHED: [f64; 10] = [2.0, 3.0, 5.0, 10.0, 0.5, 0.25, 0.1, 4.0, 9.0, 2e300];

pub fn fixed(cases: &mut Cases) {
    for pattern in fixed_patterns() {
        cases.line(&format!("sqrt_bits {pattern:016x}"));
        cases.line(&format!("sqrt {pattern:016x}"));
    }
    cases.line("sqrt_bits 3FF6A09E667F3BCD");
    cases.line("sqrt 7FEFffffFFFFffff");
    for line in BAD_LINES {
        cases.line(line);
    }
    cases.line(&format!("sqrt {}", "4".repeat(295)));
}

pub fn fixed_patterns() -> Vec<u64> {
    let mut patterns: Vec<u64> = PUBLISHED.iter().map(|value| value.to_bits()).collect();
    patterns.extend(SPECIAL.iter().flat_map(|&pattern| [pattern, pattern | SIGN]));
    patterns.extend([u64::MAX, INFINITY | 0xdead, ONE | SIGN, 0xc000 << 48]);
    for k in (-537..=511).step_by(16) {
        let power = power_of_two(2 * k);
        patterns.extend([power - 1, power, power + 1]);
    }
    for root in 1..=40u32 {
        let square = f64::from(root * root).to_bits();
        patterns.extend([square - 1, square, square + 1]);
    }
    for bit in 0..52 {
        patterns.extend([1 << bit, (1 << bit) * 3 - 1]);
    }
    let mut random = Random::new(2);
    patterns.extend((0..150).map(|_| beside_midpoint(&mut random)));
    patterns.extend((0..340).map(|_| pattern(&mut random)));
    patterns
}

/// Lines that are no cases.
const BAD_LINES: [&str; 20] = [
    "",
    " ",
    "sqrt",
    "sqrt ",
    "sqrt_bits 400000000000000",
    "sqrt_bits 40000000000000000",
    "sqrt 400000000000000g",
    "sqrt 0x40000000000000",
    "sqrt 4000000000000000 ",
    "sqrt 4000000000000000 4000000000000000",
    "sqrt  4000000000000000",
    " sqrt 4000000000000000",
    "root 4000000000000000",
    "SQRT 4000000000000000",
    "sqrt_bit 4000000000000000",
    "sqrt_bitss 4000000000000000",
    "4000000000000000",
    "sqrt,4000000000000000",
    "sqrt 4000000000000000,4000000000000000",
    "sqrt -",
];
