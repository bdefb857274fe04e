//! Islands: charts of one bank without holes, whose cells meet at no corner alone. The outline shuts in all of such a
//! bank and nothing else, so that its area is the Rust's count of set pixels.

use super::twice_area;
use crate::chart::{draw, first_start, Chart};
use crate::hold_eq;
use crate::random::Random;
use crate::reduce::values_of;
use crate::walker::{self, make::at};
use std::cell::Cell;
use visioncortex::PointI32;

thread_local! {
    /// In a comparison the cases are made twice, once for each side: each thread counts its own.
    static ASKED: Cell<u64> = const { Cell::new(0) };
}

/// How many islands this thread has asked for.
pub fn asked() -> u64 {
    ASKED.get()
}

/// The outline of some island, of 4,096 points at the most, or the same without the point that closes it.
pub fn any(random: &mut Random) -> Vec<i32> {
    loop {
        let chart = if random.once_in(3) { maze(random) } else { filled(random) };
        let mut points = outline(&chart, random.once_in(2));
        if points.len() <= 4096 {
            if random.once_in(2) {
                points.pop();
            }
            ASKED.set(ASKED.get() + 1);
            return values_of(&points);
        }
    }
}

/// The Rust's outline of an island from its first start. Its area is the chart's, below zero if it goes the other way.
pub fn outline(chart: &Chart, clockwise: bool) -> Vec<PointI32> {
    assert!(is_island(chart));
    let image = chart.image();
    let start = first_start(&image).map(at).expect("a bank");
    let points = walker::outline(chart, start, clockwise).expect("an outline that closes");
    let twice = 2 * i128::from(image.area()) * if clockwise { 1 } else { -1 };
    for points in [&points[..], &points[1..]] {
        hold_eq!(twice_area(points), twice, "the area of an island: {points:?}");
    }
    points
}

/// The cells of a chart, with water all about it.
struct Cells {
    wide: usize,
    set: Vec<bool>,
}

impl Cells {
    fn of(chart: &Chart) -> Cells {
        let (wide, high) = (chart.width + 2, chart.height + 2);
        let mut cells = Cells { wide, set: vec![false; wide * high] };
        for y in 0..chart.height {
            for x in 0..chart.width {
                cells.set[(y + 1) * wide + x + 1] = chart.bit(x, y);
            }
        }
        cells
    }

    fn chart(&self) -> Chart {
        let (wide, high) = (self.wide, self.set.len() / self.wide);
        Chart::of_rule(wide - 2, high - 2, |x, y| self.set[(y + 1) * wide + x + 1])
    }

    /// The cells that are reached from one by steps between cells alike.
    fn reached(&self, from: usize) -> Vec<bool> {
        let mut reached = vec![false; self.set.len()];
        let mut ways = vec![from];
        while let Some(cell) = ways.pop() {
            let alike = self.set.get(cell) == Some(&self.set[from]);
            if !alike || reached[cell] {
                continue;
            }
            reached[cell] = true;
            let beside = [cell.checked_sub(1), cell.checked_sub(self.wide)];
            ways.extend(beside.into_iter().flatten().chain([cell + 1, cell + self.wide]));
        }
        reached
    }

    /// The first cells of the blocks of 2 by 2 with only a diagonal set.
    fn corners(&self) -> Vec<usize> {
        let block = |i: usize| [0, 1, self.wide, self.wide + 1].map(|by| self.set[i + by]);
        let meets = |i: &usize| {
            matches!(block(*i), [true, false, false, true] | [false, true, true, false])
        };
        (0..self.set.len() - self.wide - 1).filter(meets).collect()
    }
}

/// One bank, no holes, no corners that meet.
fn is_island(chart: &Chart) -> bool {
    let cells = Cells::of(chart);
    let Some(first) = cells.set.iter().position(|&set| set) else { return false };
    let (bank, water) = (cells.reached(first), cells.reached(0));
    let in_one = bank.iter().zip(&water).all(|(bank, water)| bank != water);
    in_one && cells.corners().is_empty()
}

/// The first bank of some chart, with all that it shuts in, filled up where corners meet.
fn filled(random: &mut Random) -> Chart {
    let (width, height) = (random.within(1, 60) as usize, random.within(1, 60) as usize);
    let chart = match random.below(8) {
        0 | 1 => draw::noise(random, width.min(12), height.min(12)),
        2 => draw::noise(random, width, height),
        3 => draw::thin(random),
        4 | 5 => draw::blobs(random, width.min(12), height.min(12)),
        _ => draw::blobs(random, width, height),
    };
    let mut cells = Cells::of(&chart);
    match cells.set.iter().position(|&set| set) {
        Some(first) => cells.set = cells.reached(first),
        None => cells.set[cells.wide + 1] = true,
    }
    loop {
        cells.set = cells.reached(0).iter().map(|water| !water).collect();
        let corners = cells.corners();
        if corners.is_empty() {
            return cells.chart();
        }
        // One cell of each row is set already.
        for corner in corners {
            let row = corner + cells.wide * random.below(2) as usize;
            cells.set[row] = true;
            cells.set[row + 1] = true;
        }
    }
}

/// Paths that branch and never meet again, as long as may be: cells two apart, each joined to one that was there.
fn maze(random: &mut Random) -> Chart {
    let most = random.pick(&[3, 6, 12, 40]);
    let (width, height) = (random.within(1, most), random.within(1, most));
    let mut chart = Chart::blank(2 * width as usize - 1, 2 * height as usize - 1);
    let straight = random.once_in(2);
    let mut ends = vec![(random.within(1, width) - 1, random.within(1, height) - 1)];
    chart.set(2 * ends[0].0 as usize, 2 * ends[0].1 as usize, true);
    while !ends.is_empty() {
        let last = ends.len() - 1;
        let at = if straight { last } else { random.below(ends.len() as u64) as usize };
        let (x, y) = ends[at];
        let beside = [(x + 1, y), (x, y + 1), (x - 1, y), (x, y - 1)];
        let is_free = |&(x, y): &(i64, i64)| {
            let within = (0..width).contains(&x) && (0..height).contains(&y);
            within && !chart.bit(2 * x as usize, 2 * y as usize)
        };
        let free: Vec<(i64, i64)> = beside.into_iter().filter(is_free).collect();
        if free.is_empty() || random.once_in(200) {
            ends.swap_remove(at);
            continue;
        }
        let next = random.pick(&free);
        chart.set((x + next.0) as usize, (y + next.1) as usize, true);
        chart.set(2 * next.0 as usize, 2 * next.1 as usize, true);
        ends.push(next);
    }
    chart
}

#[cfg(test)]
mod tests {
    use super::*;

    /// Each island of up to 4 by 4 cells has the area of its outline, both ways: `outline` holds it.
    #[test]
    fn small_islands() {
        let mut count = 0;
        for (width, height) in (1..=4).flat_map(|width| (1..=4).map(move |height| (width, height)))
        {
            let charts = (0..1 << (width * height)).map(|bits| Chart::of_bits(width, height, bits));
            for island in charts.filter(is_island) {
                outline(&island, true);
                outline(&island, false);
                count += 1;
            }
        }
        assert_eq!(count, 12_008);
    }

    #[test]
    fn no_islands() {
        let rule = |rows: &'static [u8]| Chart::of_rule(3, 3, |x, y| rows[3 * y + x] == b'1');
        // A ring, two banks, two cells that meet at a corner, a hole that does, and water alone.
        for rows in [b"111101111", b"111000111", b"100011011", b"111101110", b"000000000"] {
            assert!(!is_island(&rule(rows)));
        }
    }
}
