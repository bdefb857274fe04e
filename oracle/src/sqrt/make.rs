//! Cases for the crate `sqrt`.

use crate::random::Random;
use crate::text::Line;

pub const SIGN: u64 = 1 << 63;
pub const INFINITY: u64 = 0x7ff << 52;
pub const ONE: u64 = 1023 << 52;

/// Zeros, the least and greatest of each kind, infinities, NaNs, and their negatives.
pub const SPECIAL: [u64; 13] = [
    0,
    1,
    2,
    (1 << 52) - 1,
    1 << 52,
    (1 << 52) + 1,
    ONE - 1,
    ONE,
    ONE + 1,
    INFINITY - 1,
    INFINITY,
    INFINITY + 1,
    INFINITY | 1 << 51,
];

pub fn make(random: &mut Random, _: u64, case: &mut Line) {
    case.word(if random.once_in(8) { "sqrt" } else { "sqrt_bits" });
    case.pattern(pattern(random));
}

/// A pattern of one of the kinds that matter.
pub fn pattern(random: &mut Random) -> u64 {
    match random.below(16) {
        0..=2 => random.next(),
        3..=5 => positive(random),
        6 => random.scaled(52),
        7 | 8 => near(random, exact_square),
        9 => near(random, power_of_four),
        10 => near(random, square_of_double),
        11..=13 => beside_midpoint(random),
        14 => near(random, |random| random.pick(&SPECIAL)) ^ (random.below(2) * SIGN),
        _ => positive(random) | SIGN,
    }
}

/// Any finite exponent, any fraction, no sign.
fn positive(random: &mut Random) -> u64 {
    random.below(0x7ff) << 52 | random.next() >> 12
}

/// A pattern up to two steps away.
fn near(random: &mut Random, pattern: impl Fn(&mut Random) -> u64) -> u64 {
    pattern(random).wrapping_add_signed(random.within(-2, 2))
}

/// The square of a whole number of up to 26 bits, times a power of four.
fn exact_square(random: &mut Random) -> u64 {
    let root = random.scaled(26) as f64;
    let scale = f64::from_bits((random.within(-537, 480) + 1023) as u64 * (1 << 52));
    (root * scale * (root * scale)).to_bits()
}

/// 4^k for k from -537 to 511.
fn power_of_four(random: &mut Random) -> u64 {
    power_of_two(2 * random.within(-537, 511))
}

pub fn power_of_two(power: i64) -> u64 {
    if power >= -1022 {
        ((power + 1023) as u64) << 52
    } else {
        1 << (power + 1074)
    }
}

/// The square of a double, rounded.
fn square_of_double(random: &mut Random) -> u64 {
    let exponent = random.within(-530, 510) + 1023;
    let root = f64::from_bits((exponent as u64) << 52 | random.next() >> 12);
    (root * root).to_bits()
}

/// A value whose root lies as near as can be beside the midpoint between two doubles.
///
/// A midpoint is an odd whole number m of 54 bits, scaled. Its square has some 108 bits and is no
/// double; but where m * m = x * 2^j + c with a small c and an x of 53 bits, the root of x * 2^j
/// is m - c / 2m and a little: beside the midpoint.
pub fn beside_midpoint(random: &mut Random) -> u64 {
    loop {
        let small = random.scaled(30) as i64 - random.scaled(30) as i64;
        let c = 8 * i128::from(small) + 1;
        let j = random.pick(&[54, 55]);
        let root = root_modulo(c as u64, j) ^ random.below(2) << (j - 1);
        let m = if random.once_in(2) { root } else { (1 << j) - root };
        let x = (i128::from(m) * i128::from(m) - c) >> j;
        if m >> 53 == 1 && x >> 52 == 1 {
            // The power has j's parity.
            let power = 2 * random.within(-500, 480) + i64::from(j % 2);
            return ((power + 1023) as u64) << 52 | (x as u64 % (1 << 52));
        }
    }
}

/// An s under 2^j with s * s = c modulo 2^j, for a c that is 1 modulo 8: bit by bit.
fn root_modulo(c: u64, j: u32) -> u64 {
    let mut s: u64 = 1;
    for k in 3..j {
        if (s.wrapping_mul(s) ^ c) >> k & 1 == 1 {
            s += 1 << (k - 1);
        }
    }
    s % (1 << j)
}
