//! Charts to make cases of.

use super::Chart;
use crate::random::Random;

impl Chart {
    pub fn blank(width: usize, height: usize) -> Chart {
        Chart { width, height, bytes: vec![0; width.div_ceil(8) * height] }
    }

    /// The chart whose pixels, row by row, are the bits of a number from the lowest on.
    pub fn of_bits(width: usize, height: usize, bits: u64) -> Chart {
        let mut chart = Chart::blank(width, height);
        for place in 0..width * height {
            chart.set(place % width, place / width, bits >> place & 1 == 1);
        }
        chart
    }

    /// Every pixel by a rule of its own.
    pub fn of_rule(width: usize, height: usize, rule: impl Fn(usize, usize) -> bool) -> Chart {
        let mut chart = Chart::blank(width, height);
        for y in 0..height {
            for x in 0..width {
                chart.set(x, y, rule(x, y));
            }
        }
        chart
    }

    pub fn set(&mut self, x: usize, y: usize, value: bool) {
        let byte = &mut self.bytes[y * self.width.div_ceil(8) + x / 8];
        let mask = 0x80 >> (x % 8);
        *byte = if value { *byte | mask } else { *byte & !mask };
    }

    /// The same pixels, with zeros in the padding of every row, and no bytes behind them.
    pub fn without_padding(&self) -> Chart {
        Chart::of_rule(self.width, self.height, |x, y| self.bit(x, y))
    }

    /// The same pixels, with ones in the padding of every row.
    pub fn with_padding(mut self) -> Chart {
        let stride = self.width.div_ceil(8);
        let padding = (0xff_u32 >> ((self.width + 7) % 8 + 1)) as u8;
        for row in self.bytes.chunks_exact_mut(stride) {
            row[stride - 1] |= padding;
        }
        self
    }
}

/// Every bit by chance, the padding too; some charts fuller than others.
pub fn noise(random: &mut Random, width: usize, height: usize) -> Chart {
    let mut chart = Chart::blank(width, height);
    let fullness = random.below(4);
    for byte in &mut chart.bytes {
        let (a, b) = (random.next() as u8, random.next() as u8);
        *byte = [a & b, a, a, a | b][fullness as usize];
    }
    chart
}

/// Some rectangles laid over each other, some set and some cut out, with a little noise.
pub fn blobs(random: &mut Random, width: usize, height: usize) -> Chart {
    let mut chart = Chart::blank(width, height);
    for layer in 0..random.within(2, 9) {
        let (left, right) = span(random, width);
        let (top, bottom) = span(random, height);
        let value = layer == 0 || !random.once_in(3);
        for y in top..=bottom {
            for x in left..=right {
                chart.set(x, y, value);
            }
        }
    }
    for _ in 0..random.below((width * height / 16 + 2) as u64) {
        let (x, y) = (random.below(width as u64), random.below(height as u64));
        chart.set(x as usize, y as usize, random.once_in(2));
    }
    if random.once_in(2) {
        chart = chart.with_padding();
    }
    chart
}

fn span(random: &mut Random, length: usize) -> (usize, usize) {
    let (a, b) = (random.below(length as u64) as usize, random.below(length as u64) as usize);
    (a.min(b), a.max(b))
}

/// One side short, the other up to 512.
pub fn thin(random: &mut Random) -> Chart {
    let (short, long) = (random.within(1, 3) as usize, random.within(1, 512) as usize);
    if random.once_in(2) {
        blobs(random, short, long)
    } else {
        blobs(random, long, short)
    }
}

/// Charts whose outline, clockwise from the top left, has 4,093, 4,095, 4,097, 4,096 and 4,092 points.
pub fn long_outlines() -> Vec<Chart> {
    let plain = two_rakes();
    let (mut foot, mut bump) = (two_rakes(), two_rakes());
    foot.set(510, 9, true);
    foot.set(511, 9, true);
    bump.set(1, 4, true);
    // The two below meet a pixel at its corner, and go all their way back from there: a number of points that
    // is even.
    let (mut back, mut less) = (rake(), rake());
    for chart in [&mut back, &mut less] {
        chart.set(1, 4, true);
        chart.set(2, 5, true);
    }
    back.set(511, 0, true);
    less.set(20, 0, false);
    vec![plain, foot, bump, back, less]
}

/// One of these, often with a few pixels changed.
pub fn about_long(random: &mut Random) -> Chart {
    let mut chart = long_outlines().swap_remove(random.below(5) as usize);
    for _ in 0..random.below(3) {
        let (x, y) = (random.below(512), random.below(chart.height as u64));
        chart.set(x as usize, y as usize, random.once_in(2));
    }
    chart
}

/// A row with teeth on both its sides, and a column that hangs down from its left end.
fn rake() -> Chart {
    Chart::of_rule(512, 7, |x, y| match y {
        1 => true,
        0 | 2 => x % 2 == 0,
        _ => x == 0,
    })
}

/// Two of them, joined by the column.
fn two_rakes() -> Chart {
    Chart::of_rule(512, 10, |x, y| match y {
        1 | 7 => true,
        3..=5 => x == 0,
        9 => false,
        _ => x % 2 == 0,
    })
}

/// A width at or beside a multiple of eight.
pub fn about_eight(random: &mut Random) -> Chart {
    let width = (8 * random.within(1, 6) + random.within(-1, 1)) as usize;
    let height = random.within(1, 6) as usize;
    noise(random, width, height)
}

/// A chart that is refused: a size out of range, often with all the bytes of that size, or a byte
/// missing.
pub fn refused(random: &mut Random) -> Chart {
    let (width, height) = (random.within(1, 20) as usize, random.within(1, 6) as usize);
    let size = random.pick(&[513, 514, 520, 1024]);
    match random.below(6) {
        0 => noise(random, size, height),
        1 => noise(random, width, size),
        2 => Chart { width: far(random), ..noise(random, width, height) },
        3 => Chart { height: far(random), ..noise(random, width, height) },
        _ => {
            let mut chart = noise(random, width, height);
            let length = random.below(chart.bytes.len() as u64);
            chart.bytes.truncate(length as usize);
            chart
        }
    }
}

/// A size out of range.
fn far(random: &mut Random) -> usize {
    random.pick(&[0, 513, 1024, 65536, usize::MAX, usize::MAX / 8])
}
