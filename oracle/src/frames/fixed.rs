//! The fixed list, which the program `sandline` replays: document 01's worked cases that frames can reach, every
//! way to be no frame, the edges of each count and of each length of a line, and generated ones.

use super::make::{frame, listed as listed_points, make, walk_frame};
use super::{digits, MOST_BYTES};
use crate::chart::draw;
use crate::random::Random;
use crate::reduce::fixed::fixed_random;
use crate::reduce::shapes::stroll;
use crate::text::Cases;
use visioncortex::PointI32;

const SEED: u64 = 41;

/// The example, then the same in every way damaged.
const WALK: &str = "0101000100010000000080";

pub fn fixed(cases: &mut Cases) {
    first(cases);
    worked(cases);
    no_frames(cases);
    counts(cases);
    outlines(cases);
    let mut random = Random::new(SEED);
    (0..12).for_each(|place| longest(cases, &mut random, place));
    lengths(cases, &mut random);
    fixed_random(cases, make, SEED, 1750);
    // "A last line needs no newline."
    cases.text.extend_from_slice(WALK.as_bytes());
}

/// One of each kind, and what each kind is refused by.
fn first(cases: &mut Cases) {
    let lines = [
        WALK,
        "0101000100010005000580",
        "01010002000100010000c0",
        "010100020002000000008040",
        "020100050000000000010000000100010000000100000000",
        "020100050000000000040000000400040000000400000000",
        "03003000050000000000010000000100010000000100000000",
        "04000400000000000800020000000400080000",
        "040000",
        "0300000001c0000000",
        "01010002000100010000C0",
        "",
        "010100010001000000008",
        "01010001000100000000g0",
        "0501000100010000000080",
        "0102000100010000000080",
        "01010001000100000000",
        "010100010001000000008000",
        "0300000001c000000000",
        WALK,
    ];
    lines.iter().for_each(|line| cases.line(line));
}

fn worked(cases: &mut Cases) {
    let lines = [
        WALK,
        "0101000100010005000580",    // P2: start (5,5)
        "01010002000100010000c0",    // two set pixels in one row, start (1,0): 9
        "0101000200020000000080 40", // a space
        "010100020002000000008040",  // pixels (0,0) and (1,1)
        "0200000500000000000100000001000100000001000000 00",
        "02000005000000000001000000010001000000010000000",
        "020000050000000000010000000100010000000100000000", // the pixel's outline
        "020100050000000000010000000100010000000100000000",
        "020100050000000000040000000400040000000400000000", // the 4 by 4 square
        "0200000100070007",                                 // (7,7)
        "0200000200070007000800 08",
        "020000020007000700080008",
        "02000003000000000064000000000000", // (0,0) (100,0) (0,0)
        "03003000050000000000010000000100010000000100000000", // P11: tolerance 3
        "0300a000040000000000070001000b0006000bffec", // a radial distance of exactly half the squared tolerance
        "0300000003000000000003000400060008",
        "030040000300000000000300040006000800",
        "0400040000000000080002000000040008 0000",
        "04000400000000000800020000000400080000", // P9
        "04000100070008",
        "040000", // no points: 4
        "020000",
        "02000000",
        "0300100000",
    ];
    lines.iter().for_each(|line| cases.line(line));
}

/// "Empty line, odd or non-hex digits, unknown kind, direction over 1, wrong or excess length"; each is
/// followed by a frame.
fn no_frames(cases: &mut Cases) {
    let long = "01".repeat(16_385);
    let lines = [
        "",
        "0",
        "010",
        "g1",
        "00",
        "05",
        "ff",
        "80",
        "0102000100010000000080",
        "01ff000100010000000080",
        "0202000100070007",
        "01010001000100000000",
        "010100010001000000008080",
        "0101000100010000000 80",
        " 0101000100010000000080",
        "0101000100010000000080 ",
        "0101000100010000000080\r",
        "010100010001000000008\r",
        "\r",
        "0101000100010000000080\t",
        "0x0101000100010000000080",
        "01",
        "02",
        "03",
        "04",
        "0400",
        "0300100001",
        "040001000700",
        "0400010007000800",
        "02000001000700",
        "020000010007000700",
        &long,
    ];
    for line in lines {
        cases.line(line);
        cases.line(WALK);
    }
    // Other kinds, with what a walk or numbers would have behind them.
    for kind in ["00", "05", "11", "14", "81", "84", "41", "44"] {
        cases.line(&format!("{kind}01000100010000000080"));
        cases.line(&format!("{kind}000100070008"));
    }
    // What stands right beside the digits in the table of characters.
    for c in ['/', ':', '@', 'G', '`', 'g', '\u{1}', '\u{7f}'] {
        cases.line(&format!("010100010001000000008{c}"));
        cases.line(&format!("01010001000100000000{c}0"));
    }
    cases.line(&WALK.to_uppercase());
    cases.line("0200000100FF00ff");
    cases.line("0200000100aA0Bb0");
    cases.line("0200000112340567");
    cases.line("0200000189abcdef");
}

/// Every count of points at its edges: 4,095 fill a frame, and 2,047 numbers an answer.
fn counts(cases: &mut Cases) {
    for n in [2047, 2048, 4095, 4096] {
        cases.line(&listed("04", n));
    }
    // Too many numbers, and a bad point: 3 before 10.
    cases.line(&listed("04", 2048).replacen("00010001", "40000001", 1));
    for n in [4095, 4096] {
        cases.line(&listed("0201", n));
    }
    for n in [4094, 4095] {
        cases.line(&listed("030010", n));
    }
    // Coordinates on both sides of the limits.
    for coordinate in ["3fff", "4000", "c001", "c000", "7fff", "8000"] {
        for head in ["0200", "030010", "04"] {
            cases.line(&format!("{head}0002{coordinate}000000000000"));
            cases.line(&format!("{head}0002000000000000{coordinate}"));
        }
        cases.line(&format!("010100010001{coordinate}000080"));
        cases.line(&format!("0101000100010000{coordinate}80"));
    }
    // Sizes on both sides of theirs.
    for (width, height) in [(0_u16, 1_u16), (1, 0), (0, 0), (512, 1), (513, 1), (1, 512), (1, 513)]
    {
        let bytes = usize::from(width).div_ceil(8) * usize::from(height);
        cases.line(&format!("0101{width:04x}{height:04x}00000000{}", "80".repeat(bytes)));
    }
    // The longest frame of a chart that is not refused, 321 rows of 51 bytes; and of any: 6 rows of 2,729.
    cases.line(&format!("01010198014100000000{}", "ff".repeat(51 * 321)));
    cases.line(&format!("01015548000600000000{}", "80".repeat(6 * 2729)));
    // A good chart, but too long a frame: 256 rows of 64 bytes.
    cases.line(&format!("01010200010000000000{}", "ff".repeat(256 * 64)));
}

/// A list of points on a saw, short enough to be split quickly.
fn listed(head: &str, n: u16) -> String {
    let points: String = (0..n).map(|i| format!("{:04x}{:04x}", i, i % 7)).collect();
    format!("{head}{n:04x}{points}")
}

/// Outlines of 4,092 to 4,097 points, of which up to 4,095 fit.
fn outlines(cases: &mut Cases) {
    for chart in draw::long_outlines() {
        cases.line(&digits(&walk_frame(true, &chart, PointI32::new(0, 0))));
        cases.line(WALK);
    }
}

/// A frame as long as can be, mostly behind short ones, so that it begins anywhere in a buffer. Every third
/// is answered whole, so that the answer is as long as can be too.
fn longest(cases: &mut Cases, random: &mut Random, place: usize) {
    for _ in 0..place / 3 {
        short(cases, random);
    }
    let spread: Vec<i32> = (0..4095).flat_map(|i| [i % 2 * 9, i % 3 * 9]).collect();
    let values = if place % 3 == 0 { spread } else { stroll(random, 4095) };
    let frame = digits(&listed_points(vec![2, (place % 2) as u8], &values));
    assert_eq!(frame.len(), 2 * MOST_BYTES);
    cases.line(&frame);
}

/// A frame of some hundred digits at the most.
fn short(cases: &mut Cases, random: &mut Random) {
    let frame = digits(&frame(random));
    cases.line(if frame.len() < 600 { &frame } else { WALK });
}

/// Lines of any length, frames or not: about the powers of two, about the longest frame, about what a buffer
/// may hold, and far beyond.
fn lengths(cases: &mut Cases, random: &mut Random) {
    let values = stroll(random, 4095);
    let digits_of = |n: usize| digits(&listed_points(vec![2, 1], &values[..2 * n]));
    // Frames of 2 and of 4 times 4,096 digits, with one digit less, one and two more.
    for n in [1023, 2047] {
        let frame = digits_of(n);
        let longer = format!("{frame}00");
        for length in [frame.len() - 1, frame.len(), frame.len() + 1, frame.len() + 2] {
            cases.line(&longer[..length]);
            short(cases, random);
        }
    }
    let mut long = digits_of(4095).repeat(3);
    for length in [32_767, 32_769, 32_770, 33_790, 33_791, 33_792, 33_793, 33_794, 40_000, 70_000] {
        long.replace_range(0..2, random.pick(&["01", "02", "03", "04"]));
        cases.line(&long[..length]);
        short(cases, random);
    }
    // The end of a line that is too long is a frame by itself.
    cases.line(&format!("{}{WALK}", "0".repeat(33_792)));
    cases.line(&format!("{}\r", digits_of(4095)));
    cases.line("");
    cases.line("");
    short(cases, random);
}
