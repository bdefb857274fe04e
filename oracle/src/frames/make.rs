//! Frames of all kinds: valid ones, damaged by one digit, cut, lengthened, and random bytes.

use super::{digits, MOST_BYTES};
use crate::chart::{draw, Chart};
use crate::random::Random;
use crate::text::Line;
use crate::{reduce, simplify, walker};
use visioncortex::PointI32;

pub fn make(random: &mut Random, _: u64, case: &mut Line) {
    let line = line(random);
    case.word(&line);
}

pub fn line(random: &mut Random) -> String {
    let frame = match random.below(64) {
        0 => rubbish(random),
        1 if random.once_in(64) => vec![1; MOST_BYTES + random.below(3) as usize],
        2 if random.once_in(512) => vec![0; 1_000_000],
        // The frame of a chart is as long as can be at sizes out of range alone: here 6 rows of 2,729 bytes.
        3 if random.once_in(64) => {
            walk_frame(true, &draw::noise(random, 21832, 6), PointI32::new(0, 0))
        }
        _ => frame(random),
    };
    let mut line = digits(&frame);
    if random.once_in(1024) {
        lengthen(random, &mut line);
    }
    match random.below(16) {
        0 => damage(random, &mut line),
        1 => line.truncate(random.below(line.len() as u64 + 1) as usize),
        2 => line.push_str(random.pick(&["0", "00", "ff", "g", "0000"])),
        3 => line.make_ascii_uppercase(),
        _ => {}
    }
    line
}

/// Digits behind the line, up to about a length that a buffer may have.
fn lengthen(random: &mut Random, line: &mut String) {
    let about = random.pick(&[4096, 8192, 16_384, 32_768, 33_792, 36_864, 65_536]);
    let length = (about + random.within(-2, 2)) as usize;
    while line.len() < length {
        line.push(random.pick(&['0', '1', '7', '8', 'a', 'f']));
    }
}

/// Puts another digit, or what is none, in some place.
fn damage(random: &mut Random, line: &mut String) {
    if line.is_empty() {
        return;
    }
    // Most of what a frame is judged by stands at its front.
    let most = if random.once_in(2) { line.len().min(20) } else { line.len() };
    let at = random.below(most as u64) as usize;
    let with = random
        .pick(&["0", "1", "2", "3", "4", "5", "7", "8", "9", "a", "c", "F", "g", "-", "x", "~"]);
    line.replace_range(at..at + 1, with);
}

fn rubbish(random: &mut Random) -> Vec<u8> {
    let length = random.scaled(8);
    (0..length).map(|_| random.next() as u8).collect()
}

pub fn frame(random: &mut Random) -> Vec<u8> {
    match random.below(4) {
        0 => walk(random),
        1 => {
            let direction = random.below(2) as u8;
            let n = length(random);
            listed(vec![2, direction], &simplify::shapes::shape(random, n))
        }
        2 => {
            let tolerance = match random.below(4) {
                0 => random.next() as u16,
                1 => random.pick(&[0, 1, 16, 65535]),
                _ => random.scaled(8) as u16,
            };
            let [high, low] = tolerance.to_be_bytes();
            let n = length(random);
            listed(vec![3, high, low], &reduce::shapes::shape(random, n))
        }
        _ => {
            let n = length(random);
            listed(vec![4], &reduce::shapes::shape(random, n))
        }
    }
}

fn length(random: &mut Random) -> usize {
    match random.below(64) {
        0 if random.once_in(4) => random.pick(&[2046, 2047, 2048, 4094, 4095]),
        1..=8 => random.below(4) as usize,
        9..=16 => random.below(200) as usize,
        _ => random.below(24) as usize,
    }
}

/// A head, the count of points, and the points; now and then a coordinate is at or out of the range.
pub fn listed(mut head: Vec<u8>, values: &[i32]) -> Vec<u8> {
    head.extend((values.len() as u16 / 2).to_be_bytes());
    head.extend(values.iter().flat_map(|&value| (value as i16).to_be_bytes()));
    head
}

fn walk(random: &mut Random) -> Vec<u8> {
    let chart = walker::make::any_chart(random);
    let clockwise = random.once_in(2);
    if chart.is_bad() {
        return walk_frame(clockwise, &chart, walker::make::anywhere(random));
    }
    let start = walker::make::brisk_start(random, &chart.image(), clockwise);
    walk_frame(clockwise, &chart, start)
}

pub fn walk_frame(clockwise: bool, chart: &Chart, start: PointI32) -> Vec<u8> {
    let mut frame = vec![1, u8::from(clockwise)];
    for value in [chart.width as u16, chart.height as u16, start.x as u16, start.y as u16] {
        frame.extend(value.to_be_bytes());
    }
    frame.extend(&chart.bytes);
    frame
}
