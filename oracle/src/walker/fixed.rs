//! The fixed list of the crate `walker`.

use super::make::{anywhere, at, brisk_start, count_of, put_edge, small, state, Walk, SMALL};
use super::{ends_soon, put_state};
use crate::chart::{draw, first_start, Chart};
use crate::random::Random;
use crate::text::Cases;
use visioncortex::{PointI32, SpiralState, SpiralWalker};

pub fn fixed(cases: &mut Cases) {
    fixed_small(cases);
    fixed_worked(cases);
    fixed_larger(cases);
    fixed_refusals(cases);
    fixed_spiral(cases);
    for line in BAD_LINES {
        cases.line(line);
    }
}

/// Writes the walk with room for its outline and one point more, or with little where it has none.
fn with_room(cases: &mut Cases, mut walk: Walk) {
    walk.room = walk.values() + 2;
    cases.case(|case| walk.write(case));
}

/// All walks on charts of up to 2 by 2 cells, and every 101st of those up to 3 by 3; of the walks that
/// take their million steps one in sixteen.
fn fixed_small(cases: &mut Cases) {
    let all: u64 = SMALL.iter().map(|&(width, height)| count_of(width, height)).sum();
    let whole: u64 = SMALL[..4].iter().map(|&(width, height)| count_of(width, height)).sum();
    let mut long = 0;
    for place in (0..whole).chain((whole..all).step_by(101)) {
        let walk = small(place).expect("a small walk");
        let soon = ends_soon(&walk.chart.image(), walk.start, walk.clockwise);
        long += usize::from(!soon);
        if soon || long % 16 == 0 {
            with_room(cases, walk);
        }
    }
}

/// Document 01's examples.
fn fixed_worked(cases: &mut Cases) {
    for line in [
        "walk 1 1 1 80 0 0 10",
        "walk 1 1 1 80 5 5 10",
        "walk 1 2 1 c0 1 0 10",
        "walk 1 2 2 8040 0 0 16",
    ] {
        cases.line(line);
    }
}

fn fixed_larger(cases: &mut Cases) {
    let mut random = Random::new(6);
    for place in 0..400 {
        let (width, height) = (random.within(1, 40) as usize, random.within(1, 40) as usize);
        let chart = match place % 6 {
            0 => draw::noise(&mut random, width, height),
            1 => draw::thin(&mut random),
            2 | 3 => draw::about_eight(&mut random),
            _ => draw::blobs(&mut random, width, height),
        };
        let image = chart.image();
        let clockwise = random.once_in(2);
        let start = brisk_start(&mut random, &image, clockwise);
        with_room(cases, Walk { clockwise, chart, start, room: 0 });
    }
    with_room(cases, disc(false));
    with_room(cases, disc(true));
    with_room(cases, teeth(false));
    with_room(cases, teeth(true));
    // "A walked outline may be longer" than a list of points handed in.
    for chart in draw::long_outlines() {
        with_room(cases, Walk { clockwise: true, chart, start: PointI32::new(0, 0), room: 0 });
    }
    for (width, height) in [(512, 1), (1, 512), (511, 1), (1, 511)] {
        for clockwise in [false, true] {
            let chart = Chart::of_rule(width, height, |_, _| true);
            with_room(cases, Walk { clockwise, chart, start: PointI32::new(0, 0), room: 0 });
        }
    }
}

/// Every other row of a chart of 512 by 512, the column that joins them, and a pixel at the corner where the
/// column ends, from which the walk goes all its way back: 522,248 steps. Columns for rows the other way round.
fn teeth(clockwise: bool) -> Walk {
    let rows = |x: usize, y: usize| match y {
        511 => x == 1,
        510 => x == 0,
        _ => x == 0 || y % 2 == 0,
    };
    let set = |x, y| if clockwise { rows(x, y) } else { rows(y, x) };
    let chart = Chart::of_rule(512, 512, set);
    Walk { clockwise, chart, start: PointI32::new(0, 0), room: 0 }
}

/// A ragged disc that fills a chart of 512 by 512.
fn disc(clockwise: bool) -> Walk {
    let ragged = |x: usize, y: usize| (x * 7 + y * 13) % 11 * 150;
    let chart = Chart::of_rule(512, 512, |x, y| {
        let (dx, dy) = (2 * x as i64 - 511, 2 * y as i64 - 511);
        dx * dx + dy * dy + (ragged(x, y) as i64) < 512 * 512
    });
    let start = first_start(&chart.image()).map(at).expect("a set pixel");
    Walk { clockwise, chart, start, room: 0 }
}

/// Starts far outside, rooms about the outline's need, bad charts, and several refusals at once.
fn fixed_refusals(cases: &mut Cases) {
    for far in [i32::MIN, -16384, -16383, -16382, 16382, 16383, 16384, i32::MAX] {
        for start in [PointI32::new(far, 0), PointI32::new(0, far), PointI32::new(far, far)] {
            let chart = Chart::of_bits(3, 3, 0x1ef);
            cases.case(|case| Walk { clockwise: true, chart, start, room: 4 }.write(case));
        }
    }
    let start = PointI32::new(0, 0);
    for room in 0..=14 {
        let chart = Chart::of_bits(3, 3, 0x1ef).with_padding();
        cases.case(|case| Walk { clockwise: true, chart, start, room }.write(case));
    }
    // From the middle of an edge: stuck, whatever the room.
    let start = PointI32::new(1, 0);
    for room in [0, 7, 10] {
        let chart = Chart::of_bits(3, 1, 7);
        cases.case(|case| Walk { clockwise: true, chart, start, room }.write(case));
    }
    // Beyond 512, with all the bytes; the start good, and out of range.
    for (width, height) in [(1, 513), (513, 1), (513, 2), (2, 513)] {
        for start in [PointI32::new(0, 0), PointI32::new(16384, 0)] {
            let chart = Chart::of_rule(width, height, |_, _| true);
            cases.case(|case| Walk { clockwise: true, chart, start, room: 10 }.write(case));
        }
    }
    let mut random = Random::new(7);
    for _ in 0..60 {
        let (chart, start) = (draw::refused(&mut random), anywhere(&mut random));
        cases.case(|case| Walk { clockwise: false, chart, start, room: 3 }.write(case));
    }
}

/// Spirals from fresh until they are over, and states at and beyond the ends of each field.
fn fixed_spiral(cases: &mut Cases) {
    for size in [0, 1, 2, 3, 4, 5, 6, 7, 8, 9, 255, 256, 510, 511, 512, 513, 1024, usize::MAX] {
        cases.case(|case| _ = case.word("spiral").number(size));
    }
    for size in 0..=6 {
        let mut walker = SpiralWalker::new(size);
        for _ in 0..=size * size {
            cases.case(|case| put_state(case.word("spiral_step"), &walker.state()));
            walker.next();
        }
    }
    fields(cases);
    let mut random = Random::new(8);
    for _ in 0..200 {
        let mut state = state(&mut random);
        if random.once_in(2) {
            put_edge(&mut random, &mut state);
        }
        cases.case(|case| put_state(case.word("spiral_step"), &state));
    }
    let mut walker = SpiralWalker::new(512);
    for skip in [0, 1, 510, 130_000, 131_070, 561, 0, 0] {
        _ = walker.nth(skip);
        cases.case(|case| put_state(case.word("spiral_step"), &walker.state()));
    }
}

/// Each field of a state at both its ends and beyond them, all others within.
fn fields(cases: &mut Cases) {
    let state = SpiralState { x: 1, y: 2, dir: 1, gx: 0, gy: 1, sq: 5, cc: 2, area: 100, step: 50 };
    for edge in [-513, -512, 512, 513] {
        spiral_step(cases, SpiralState { x: edge, ..state });
        spiral_step(cases, SpiralState { y: edge, ..state });
    }
    for edge in -2..=5 {
        spiral_step(cases, SpiralState { dir: edge, ..state });
        spiral_step(cases, SpiralState { gx: edge, ..state });
        spiral_step(cases, SpiralState { gy: edge, ..state });
        spiral_step(cases, SpiralState { cc: edge, ..state });
    }
    for edge in [-1, 0, 1, 2, 1023, 1024, 1025] {
        spiral_step(cases, SpiralState { sq: edge, cc: 0, ..state });
    }
    for edge in [49, 50, 51, 262_143, 262_144, 262_145] {
        spiral_step(cases, SpiralState { area: edge, ..state });
        spiral_step(cases, SpiralState { area: edge, step: edge, ..state });
    }
}

fn spiral_step(cases: &mut Cases, state: SpiralState) {
    cases.case(|case| put_state(case.word("spiral_step"), &state));
}

/// Lines that are no cases.
const BAD_LINES: [&str; 19] = [
    "",
    "walk",
    "walk 1 1 1 80 0 0",
    "walk 1 1 1 80 0 0 10 0",
    "walk 2 1 1 80 0 0 10",
    "walk -1 1 1 80 0 0 10",
    "walk 1 1 1 8 0 0 10",
    "walk 1 1 1 80 0 0 -10",
    "walk 1 1 1 80 0 0  10",
    "walk 1 -1 1 80 0 0 10",
    "walk 1 1 1 80 0 3000000000 10",
    "walks 1 1 1 80 0 0 10",
    "spiral",
    "spiral -1",
    "spiral 2 2",
    "spiral_step -1 -1 0 1 0 1 0 1",
    "spiral_step -1 -1 0 1 0 1 0 1 0 0",
    "spiral_step -1 -1 0 1 0 1 0 -1 0",
    "spiral_step -1 -1 0 1 0 1 x 1 0",
];
