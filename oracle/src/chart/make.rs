//! Cases for the crate `chart`.

use super::{draw, Chart};
use crate::random::Random;
use crate::text::Line;

const CALLS: [&str; 3] = ["pixel", "area", "first_start"];

pub fn make(random: &mut Random, _: u64, case: &mut Line) {
    let chart = any(random);
    let call = random.pick(&CALLS);
    chart.write(case.word(call));
    if call == "pixel" {
        case.number(place(random, chart.width)).number(place(random, chart.height));
    }
}

fn any(random: &mut Random) -> Chart {
    let mut chart = match random.below(64) {
        0..=31 => small(random),
        32..=47 => draw::about_eight(random),
        48..=52 => draw::thin(random),
        53..=60 => draw::refused(random),
        61 if random.once_in(16) => draw::noise(random, 512, 512),
        62 => nearly_blank(random),
        _ => {
            let (width, height) = (random.within(1, 64), random.within(1, 64));
            draw::blobs(random, width as usize, height as usize)
        }
    };
    if random.once_in(8) {
        // Bytes behind the last row are no part of the chart.
        chart.bytes.push(random.next() as u8);
    }
    chart
}

fn small(random: &mut Random) -> Chart {
    let (width, height) = (random.within(1, 10), random.within(1, 4));
    draw::noise(random, width as usize, height as usize)
}

/// No pixel or one, all padding set.
fn nearly_blank(random: &mut Random) -> Chart {
    let (width, height) = (random.within(1, 100) as usize, random.within(1, 20) as usize);
    let mut chart = Chart::blank(width, height);
    if random.once_in(2) {
        let (x, y) = (random.below(width as u64), random.below(height as u64));
        chart.set(x as usize, y as usize, true);
    }
    chart.with_padding()
}

/// A coordinate within the chart, beside it, or anywhere.
fn place(random: &mut Random, size: usize) -> i32 {
    match random.below(8) {
        0 => random.next() as i32,
        1 => random.pick(&[-1, i32::MIN, i32::MAX, size as i32]),
        _ => random.within(-1, size.min(512) as i64 + 8) as i32,
    }
}
