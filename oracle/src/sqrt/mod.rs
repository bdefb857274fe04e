//! Answers for the crate `sqrt`: the machine's own square root, which IEEE 754 fixes to the bit.

pub mod fixed;
pub mod make;

use crate::text::{Line, Words};

/// The one NaN of document 01.
const NAN: u64 = 0x7ff8_0000_0000_0000;

pub fn answer(words: &mut Words, answer: &mut Line) -> Option<()> {
    let call = words.word()?;
    let pattern = words.pattern()?;
    words.end()?;
    match call {
        b"sqrt_bits" => answer.pattern(root(pattern)),
        b"sqrt" => put_root(pattern, answer),
        _ => return None,
    };
    Some(())
}

/// The root as a double, of which a NaN has no pattern of its own.
pub fn put_root<'a, 'b>(pattern: u64, answer: &'a mut Line<'b>) -> &'a mut Line<'b> {
    match root(pattern) {
        NAN => answer.word("nan"),
        root => answer.pattern(root),
    }
}

fn root(bits: u64) -> u64 {
    let root = f64::from_bits(bits).sqrt();
    if root.is_nan() {
        NAN
    } else {
        root.to_bits()
    }
}

#[cfg(test)]
mod tests {
    use super::*;
    use crate::random::Random;

    /// Document 01's definition: the whole number `m` of half steps of the root lies beside the
    /// root, by comparing squares of whole numbers.
    fn is_nearest(bits: u64, root: u64) -> bool {
        // value = x * 2^power, root = r * 2^half, with power - 2 * half = shift.
        let (x, power) = parts(bits);
        let (r, half) = parts(root);
        let shift = power - 2 * half;
        let below = if r == 1 << 52 { 4 * r - 1 } else { 4 * r - 2 };
        let above = 4 * r + 2;
        // Sixteen times the value in units of the root's last place, squared.
        let value = if shift >= -4 { x << (shift + 4) } else { return false };
        let (low, high) = (below * below, above * above);
        if r % 2 == 0 {
            low <= value && value <= high
        } else {
            low < value && value < high
        }
    }

    fn parts(bits: u64) -> (u128, i32) {
        let exponent = (bits >> 52) as i32;
        let fraction = u128::from(bits % (1 << 52));
        match exponent {
            0 => (fraction, -1074),
            _ => (fraction | 1 << 52, exponent - 1075),
        }
    }

    #[test]
    fn the_machine_rounds_to_nearest() {
        let mut random = Random::new(1);
        for _ in 0..1_000_000 {
            let bits = make::pattern(&mut random);
            if bits != 0 && bits < 0x7ff0_0000_0000_0000 {
                assert!(is_nearest(bits, root(bits)), "{bits:016x}");
            }
        }
    }
}
