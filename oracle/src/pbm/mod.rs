//! Answers for the crate `pbm`: pictures are read and written by document 02's text, for which there is no Rust. In
//! a comparison each is also held against netpbm (`netpbm.rs`).

pub mod fixed;
pub mod make;
pub mod netpbm;
pub mod reader;

use crate::chart::Chart;
use crate::document::{lowest, BAD_SIZE, NO_ROOM};
use crate::reduce::{lent, put_number_and_count};
use crate::text::{Line, Words, BYTE_MARKER};
use reader::{Manners, Picture};

pub fn answer(words: &mut Words, answer: &mut Line) -> Option<()> {
    match words.word()? {
        b"read_pbm" => {
            let (file, room) = (words.bytes()?, words.room()?);
            words.end()?;
            answer_read(&file, room, answer);
        }
        b"write_pbm" => {
            let (chart, room) = (Chart::read(words)?, words.room()?);
            words.end()?;
            answer_write(&chart, room, answer);
        }
        _ => return None,
    }
    Some(())
}

fn answer_read(file: &[u8], room: usize, answer: &mut Line) {
    let picture = reader::read(file, Manners::NONE);
    netpbm::hold_read(file, &picture);
    let picture = picture.and_then(|picture| fitting(picture, room));
    let number = picture.as_ref().map_or_else(|&refusal| refusal, |_| 0);
    let Picture { chart, taken } =
        picture.unwrap_or_else(|_| Picture { chart: Chart::blank(0, 0), taken: 0 });
    answer.number(number).number(chart.width).number(chart.height).number(taken);
    answer.bytes(&lent(room, BYTE_MARKER, chart.bytes));
}

/// "10, last, when the chart buffer .. is shorter than what goes into it."
fn fitting(picture: Picture, room: usize) -> Result<Picture, u8> {
    if room < picture.chart.bytes.len() {
        Err(NO_ROOM)
    } else {
        Ok(picture)
    }
}

fn answer_write(chart: &Chart, room: usize, answer: &mut Line) {
    let bad = chart.is_bad();
    let mut text = Vec::new();
    if !bad {
        text = written(chart);
        netpbm::hold_written(chart, &text);
    }
    let refusal = lowest(&[(BAD_SIZE, bad), (NO_ROOM, room < text.len())]);
    if refusal.is_some() {
        text.clear();
    }
    put_number_and_count(answer, refusal, text.len());
    answer.bytes(&lent(room, BYTE_MARKER, text));
}

/// "The written header is P4, newline, width, space, height, newline."
pub fn written(chart: &Chart) -> Vec<u8> {
    let mut text = format!("P4\n{} {}\n", chart.width, chart.height).into_bytes();
    text.extend(chart.without_padding().bytes);
    text
}
