//! Answers for the crate `walker`: whole walks and the spiral, by the Rust.

pub mod fixed;
pub mod make;

use crate::chart::Chart;
use crate::document::{self, lowest, BAD_POINT, BAD_SIZE, NO_ROOM, NO_WAY, STUCK};
use crate::hold_eq;
use crate::panics;
use crate::text::{Line, Words, I32_MARKER};
use visioncortex::{BinaryImage, PathWalker, PointI32, SpiralState, SpiralWalker};

pub fn answer(words: &mut Words, answer: &mut Line) -> Option<()> {
    match words.word()? {
        b"walk" => {
            let clockwise = words.bool()?;
            let chart = Chart::read(words)?;
            let start = PointI32::new(words.i32()?, words.i32()?);
            let room = words.room()?;
            words.end()?;
            answer_walk(&chart, start, clockwise, room, answer);
        }
        b"spiral" => {
            let size = words.usize()?;
            words.end()?;
            match lowest(&[(BAD_SIZE, size > 512)]) {
                Some(refusal) => _ = answer.number(refusal),
                None => put_state(answer.number(0), &SpiralWalker::new(size).state()),
            }
        }
        b"spiral_step" => {
            let state = read_state(words)?;
            words.end()?;
            answer_step(state, answer);
        }
        _ => return None,
    }
    Some(())
}

fn answer_walk(chart: &Chart, start: PointI32, clockwise: bool, room: usize, answer: &mut Line) {
    let outline =
        outline(chart, start, clockwise).and_then(|points| match room / 2 < points.len() {
            true => Err(NO_ROOM),
            false => Ok(points),
        });
    let mut out = vec![I32_MARKER; room];
    for (place, point) in out.chunks_exact_mut(2).zip(outline.iter().flatten()) {
        place.copy_from_slice(&[point.x, point.y]);
    }
    answer.number(outline.as_ref().err().unwrap_or(&0));
    answer.number(outline.map_or(0, |points| points.len())).i32s(&out);
}

/// The outline, or the number of the refusal, before the room is looked at.
pub fn outline(chart: &Chart, start: PointI32, clockwise: bool) -> Result<Vec<PointI32>, u8> {
    let far = !document::coordinate(start.x) || !document::coordinate(start.y);
    match lowest(&[(BAD_SIZE, chart.is_bad()), (BAD_POINT, far)]) {
        Some(refusal) => Err(refusal),
        None => walk(&chart.image(), start, clockwise),
    }
}

/// The Rust's outline, or the number that stands for its panic.
fn walk(image: &BinaryImage, start: PointI32, clockwise: bool) -> Result<Vec<PointI32>, u8> {
    let outline = panics::caught(|| PathWalker::new(image, start, clockwise).collect());
    let outline = outline.map_err(|message| match message.as_str() {
        "no way to go?" => NO_WAY,
        message if message.starts_with("STUCK") => STUCK,
        message => panic!("the walk from {start:?} says: {message}"),
    });
    // "NoWay: the start has no exit": the Rust may find none at the start alone.
    let no_way = matches!(outline, Err(NO_WAY));
    hold_eq!(no_way, exits(image, start).is_empty(), "no way in mid walk from {start:?}");
    outline
}

/// Whether a walk comes to an end soon, closed or without a way, and not after a million steps. A
/// walk with more runs than there are steps on the chart goes round for ever.
pub fn ends_soon(image: &BinaryImage, start: PointI32, clockwise: bool) -> bool {
    let most = 4 * (image.width + 1) * (image.height + 1);
    let walker = PathWalker::new(image, start, clockwise);
    panics::caught(|| walker.take(most).count() < most).unwrap_or(true)
}

/// The directions whose two side pixels differ.
pub fn exits(image: &BinaryImage, at: PointI32) -> Vec<u32> {
    let is_exit = |&dir: &u32| {
        let (a, b) = PathWalker::side_vecs(dir);
        image.get_pixel_at_safe(at + a) != image.get_pixel_at_safe(at + b)
    };
    [0, 2, 4, 6].into_iter().filter(is_exit).collect()
}

fn answer_step(state: SpiralState, answer: &mut Line) {
    if let Some(refusal) = lowest(&[(BAD_SIZE, bad_state(&state))]) {
        return put_state(answer.number(refusal), &state);
    }
    let mut walker = SpiralWalker::from_state(state);
    match walker.next() {
        None => answer.number(0).word("none"),
        Some((x, y)) => answer.number(0).number(x).number(y),
    };
    put_state(answer, &walker.state());
}

/// "A spiral state's field out of range."
fn bad_state(state: &SpiralState) -> bool {
    let within = |value: i32, low: i32, high: i32| low <= value && value <= high;
    !(within(state.x, -512, 512)
        && within(state.y, -512, 512)
        && within(state.dir, 0, 3)
        && within(state.gx, -1, 1)
        && within(state.gy, -1, 1)
        && within(state.sq, 1, 1024)
        && within(state.cc, 0, state.sq - 1)
        && state.area <= 262_144
        && state.step <= state.area)
}

fn read_state(words: &mut Words) -> Option<SpiralState> {
    Some(SpiralState {
        x: words.i32()?,
        y: words.i32()?,
        dir: words.i32()?,
        gx: words.i32()?,
        gy: words.i32()?,
        sq: words.i32()?,
        cc: words.i32()?,
        area: words.usize()?,
        step: words.usize()?,
    })
}

fn put_state(line: &mut Line, s: &SpiralState) {
    for number in [s.x, s.y, s.dir, s.gx, s.gy, s.sq, s.cc] {
        line.number(number);
    }
    line.number(s.area).number(s.step);
}
