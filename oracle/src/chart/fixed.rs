//! The fixed list of the crate `chart`.

use super::{draw, Chart};
use crate::random::Random;
use crate::text::Cases;

pub fn fixed(cases: &mut Cases) {
    for (width, height) in [(1, 1), (1, 2), (2, 1), (2, 2)] {
        for bits in 0..1 << (width * height) {
            whole(cases, &Chart::of_bits(width, height, bits));
            whole(cases, &Chart::of_bits(width, height, bits).with_padding());
        }
    }
    widths(cases);
    pixels(cases);
    refusals(cases);
    largest(cases);
    for line in BAD_LINES {
        cases.line(line);
    }
}

/// What is asked of a chart as a whole.
fn whole(cases: &mut Cases, chart: &Chart) {
    for call in ["area", "first_start"] {
        cases.case(|case| _ = chart.write(case.word(call)));
    }
}

fn pixel(cases: &mut Cases, chart: &Chart, x: i32, y: i32) {
    cases.case(|case| _ = chart.write(case.word("pixel")).number(x).number(y));
}

/// Widths about multiples of eight: noise, a blank chart with its padding set, the last pixel alone;
/// and bytes behind the last row.
fn widths(cases: &mut Cases) {
    let mut random = Random::new(3);
    for width in [1, 7, 8, 9, 15, 16, 17, 31, 33, 63, 64, 65, 511, 512] {
        for height in [1, 3] {
            let mut chart = draw::noise(&mut random, width, height);
            whole(cases, &chart);
            chart.bytes.extend([0xff, 0x55]);
            whole(cases, &chart);
            whole(cases, &Chart::blank(width, height).with_padding());
            let last = |x, y| (x, y) == (width - 1, height - 1);
            whole(cases, &Chart::of_rule(width, height, last).with_padding());
        }
    }
}

/// Each pixel of some charts and all about them, and the ends of i32.
fn pixels(cases: &mut Cases) {
    let mut random = Random::new(4);
    for (width, height) in [(1, 1), (3, 3), (7, 2), (8, 2), (9, 2)] {
        let chart = draw::noise(&mut random, width, height).with_padding();
        for y in -1..=height as i32 {
            for x in -1..=width as i32 {
                pixel(cases, &chart, x, y);
            }
        }
    }
    let full = Chart::of_bits(2, 2, 15).with_padding();
    for far in [i32::MIN, i32::MIN + 1, -65536, -8, 7, 8, 256, 65536, 1 << 30, i32::MAX] {
        pixel(cases, &full, far, 0);
        pixel(cases, &full, 1, far);
        pixel(cases, &full, far, far);
    }
}

fn refusals(cases: &mut Cases) {
    let full = |width, height, bytes| Chart { width, height, bytes: vec![0xff; bytes] };
    let mut charts =
        vec![full(1, 1, 0), full(8, 1, 0), full(9, 1, 1), full(9, 2, 3), full(16, 3, 5)];
    charts.extend([full(512, 1, 63), full(1, 512, 511), full(511, 2, 127)]);
    for size in [0, 513, 520, 65536, 1 << 32, (1 << 61) + 1, usize::MAX] {
        charts.extend([full(size, 1, 66), full(1, size, 66), full(size, size, 66)]);
    }
    for chart in charts {
        whole(cases, &chart);
        pixel(cases, &chart, 0, 0);
    }
    for chart in [full(512, 1, 64), full(1, 512, 512), full(9, 2, 4)] {
        whole(cases, &chart);
        pixel(cases, &chart, 0, 0);
    }
    // Beyond 512, with all the bytes: the first pixel, the last, and one beside it.
    for chart in [full(1, 513, 513), full(513, 1, 65), full(8, 600, 600), full(520, 2, 130)] {
        whole(cases, &chart);
        let (right, bottom) = (chart.width as i32 - 1, chart.height as i32 - 1);
        for (x, y) in [(0, 0), (right, bottom), (right + 1, bottom), (right, bottom + 1)] {
            pixel(cases, &chart, x, y);
        }
    }
}

fn largest(cases: &mut Cases) {
    let full = Chart::of_rule(512, 512, |_, _| true);
    cases.case(|case| _ = full.write(case.word("area")));
    let last = Chart::of_rule(512, 512, |x, y| (x, y) == (511, 511));
    cases.case(|case| _ = last.write(case.word("first_start")));
    let mut random = Random::new(5);
    let noise = draw::noise(&mut random, 512, 512);
    cases.case(|case| _ = noise.write(case.word("area")));
    pixel(cases, &noise, 511, 511);
}

/// Lines that are no cases.
const BAD_LINES: [&str; 20] = [
    "",
    "area",
    "area 1 1",
    "area 1 1 8",
    "area 1 1 800",
    "area 1 1 8g",
    "area 1 1 80 0",
    "area 1 1  80",
    "area 1 1 80 ",
    "area -1 1 80",
    "area 1 +1 80",
    "area 1 18446744073709551616 80",
    "area 1,1 80",
    "area 1 1 --",
    "first_start 1 1",
    "pixel 1 1 80 0",
    "pixel 1 1 80 0 0 0",
    "pixel 1 1 80 0 2147483648",
    "pixel 1 1 80 -2147483649 0",
    "pixels 1 1 80 0 0",
];
