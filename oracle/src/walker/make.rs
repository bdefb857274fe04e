//! Cases for the crate `walker`.

use super::{ends_soon, exits, outline, put_state};
use crate::chart::{draw, first_start, Chart};
use crate::random::Random;
use crate::text::{Line, MOST_ROOM};
use visioncortex::{BinaryImage, PointI32, SpiralState, SpiralWalker};

/// A walk to ask for.
pub struct Walk {
    pub clockwise: bool,
    pub chart: Chart,
    pub start: PointI32,
    pub room: usize,
}

impl Walk {
    pub fn write(&self, case: &mut Line) {
        self.chart.write(case.word("walk").bool(self.clockwise));
        case.number(self.start.x).number(self.start.y).number(self.room);
    }

    /// The number of values that the outline takes, or none where the walk is refused.
    pub fn values(&self) -> usize {
        outline(&self.chart, self.start, self.clockwise).map_or(0, |points| 2 * points.len())
    }
}

/// Sizes whose charts are all gone through, the fixed list's first.
pub const SMALL: [(usize, usize); 9] =
    [(1, 1), (1, 2), (2, 1), (2, 2), (1, 3), (3, 1), (2, 3), (3, 2), (3, 3)];

/// More values than any outline on 3 by 3 cells has.
const SMALL_ROOM: usize = 40;

/// All charts of a size, from all starts up to one cell outside, both ways.
pub fn count_of(width: usize, height: usize) -> u64 {
    (2 * (width + 3) * (height + 3)) as u64 * (1 << (width * height))
}

/// The walk at a place in the list of all small ones, or none behind its end.
pub fn small(mut place: u64) -> Option<Walk> {
    for (width, height) in SMALL {
        let count = count_of(width, height);
        if place < count {
            return Some(small_of(width, height, place));
        }
        place -= count;
    }
    None
}

fn small_of(width: usize, height: usize, place: u64) -> Walk {
    let (columns, rows) = (width as u64 + 3, height as u64 + 3);
    let (clockwise, place) = (place % 2 == 1, place / 2);
    let (x, place) = (place % columns, place / columns);
    let (y, bits) = (place % rows, place / rows);
    let mut chart = Chart::of_bits(width, height, bits);
    if (x + y) % 2 == 1 {
        chart = chart.with_padding();
    }
    Walk { clockwise, chart, start: PointI32::new(x as i32 - 1, y as i32 - 1), room: SMALL_ROOM }
}

/// All small walks first, and then whatever comes.
pub fn make(random: &mut Random, index: u64, case: &mut Line) {
    match small(index) {
        Some(walk) => walk.write(case),
        None => match random.below(20) {
            0 => spiral(random, case),
            1..=3 => put_state(case.word("spiral_step"), &state(random)),
            _ => any(random).write(case),
        },
    }
}

fn any(random: &mut Random) -> Walk {
    let chart = any_chart(random);
    let image = chart.image();
    let clockwise = random.once_in(2);
    let start = brisk_start(random, &image, clockwise);
    let mut walk = Walk { clockwise, chart, start, room: 0 };
    walk.room = match random.below(8) {
        0 => random.below(20) as usize,
        1 => walk.values().saturating_sub(random.below(3) as usize),
        _ => walk.values() + random.below(5) as usize,
    };
    walk.room = walk.room.min(MOST_ROOM);
    walk
}

pub fn any_chart(random: &mut Random) -> Chart {
    let mut size = |most| random.within(1, most) as usize;
    let (few, many) = ((size(12), size(12)), (size(80), size(80)));
    match random.below(32) {
        0..=7 => draw::noise(random, few.0, few.1),
        8..=15 => draw::blobs(random, few.0, few.1),
        16..=21 => draw::blobs(random, many.0, many.1),
        22..=24 => draw::thin(random),
        25..=27 => draw::about_eight(random),
        28 => draw::refused(random),
        29 if random.once_in(64) => draw::blobs(random, 512, 512),
        30 if random.once_in(64) => draw::about_long(random),
        _ => draw::noise(random, many.0, many.1),
    }
}

/// A start whose walk takes a million steps only now and then.
pub fn brisk_start(random: &mut Random, image: &BinaryImage, clockwise: bool) -> PointI32 {
    for _ in 0..20 {
        let start = any_start(random, image);
        if ends_soon(image, start, clockwise) || random.once_in(64) {
            return start;
        }
    }
    PointI32::new(-1, -1)
}

/// Mostly where the outline turns: from the middle of an edge no walk closes.
fn any_start(random: &mut Random, image: &BinaryImage) -> PointI32 {
    let (width, height) = (image.width as i64, image.height as i64);
    match random.below(16) {
        0 => anywhere(random),
        1 => near(random, width, height),
        2..=5 => first_start(image).map_or(PointI32::new(0, 0), at),
        _ => {
            let mut tries = (0..100).map(|_| near(random, width, height));
            tries.find(|&start| turns(image, start)).unwrap_or_default()
        }
    }
}

pub fn at((x, y): (usize, usize)) -> PointI32 {
    PointI32::new(x as i32, y as i32)
}

fn near(random: &mut Random, width: i64, height: i64) -> PointI32 {
    PointI32::new(random.within(-1, width + 1) as i32, random.within(-1, height + 1) as i32)
}

pub fn anywhere(random: &mut Random) -> PointI32 {
    let mut coordinate = || match random.below(4) {
        0 => random.pick(&[i32::MIN, i32::MAX, -16384, 16384, -16383, 16383]),
        1 => random.next() as i32,
        2 => random.within(-16383, 16383) as i32,
        _ => random.within(-2, 20) as i32,
    };
    PointI32::new(coordinate(), coordinate())
}

fn turns(image: &BinaryImage, start: PointI32) -> bool {
    !matches!(exits(image, start)[..], [] | [0, 4] | [2, 6])
}

fn spiral(random: &mut Random, case: &mut Line) {
    let size = match random.below(4) {
        0 => random.next(),
        1 => random.pick(&[0, 1, 511, 512, 513, 514, u64::MAX]),
        _ => random.below(513),
    };
    case.word("spiral").number(size);
}

/// A state on the way from a fresh one, or one with any fields, or one with a field out of range.
pub fn state(random: &mut Random) -> SpiralState {
    if random.once_in(2) {
        let mut walker = SpiralWalker::new(random.below(20) as usize);
        let steps = random.below(402) as usize;
        walker.by_ref().take(steps).for_each(drop);
        return walker.state();
    }
    let mut within = |low, high| random.within(low, high) as i32;
    let (x, y, dir) = (within(-512, 512), within(-512, 512), within(0, 3));
    let (gx, gy, sq) = (within(-1, 1), within(-1, 1), within(1, 1024));
    let cc = random.pick(&[0, sq / 2, sq - 1]);
    let area = random.pick(&[0, 1, 2, 4, 261_121, 262_144]);
    let step = random.below(area as u64 + 1) as usize;
    let mut state = SpiralState { x, y, dir, gx, gy, sq, cc, area, step };
    if random.once_in(3) {
        put_edge(random, &mut state);
    }
    state
}

/// Puts one field at or beyond an end of its range.
pub fn put_edge(random: &mut Random, state: &mut SpiralState) {
    match random.below(9) {
        0 => state.x = random.pick(&[-513, -512, 512, 513, i32::MIN, i32::MAX]),
        1 => state.y = random.pick(&[-513, -512, 512, 513, i32::MIN, i32::MAX]),
        2 => state.dir = random.pick(&[-1, 0, 3, 4, i32::MAX]),
        3 => state.gx = random.pick(&[-2, -1, 1, 2, i32::MIN]),
        4 => state.gy = random.pick(&[-2, -1, 1, 2, i32::MIN]),
        5 => state.sq = random.pick(&[i32::MIN, -1, 0, 1, 1024, 1025, i32::MAX]),
        6 => state.cc = random.pick(&[i32::MIN, -1, state.sq.wrapping_sub(1), state.sq, i32::MAX]),
        7 => state.area = random.pick(&[262_143, 262_144, 262_145, usize::MAX]),
        _ => state.step = random.pick(&[state.area, state.area.wrapping_add(1), usize::MAX]),
    }
}
