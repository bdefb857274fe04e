//! What the program `survey` answers to a picture: the outline from its first start, clockwise, the outline simplified,
//! and the numbers of what is left; each line as a frame of that kind is answered.

pub mod compare;

use crate::chart::{first_start, Chart};
use crate::document::NO_WAY;
use crate::frames::{digits, put_points, reply, walked};
use crate::pbm::reader::{self, Manners};
use visioncortex::PointI32;

/// What the program reads at the most.
const MOST_BYTES: usize = 600_000;

/// A line for each call; one line for what is no picture.
pub fn text(file: &[u8]) -> String {
    let file = &file[..file.len().min(MOST_BYTES)];
    let replies = match reader::read(file, Manners::NONE) {
        Ok(picture) => three(&picture.chart),
        Err(refusal) => vec![put_points(0, Err(refusal))],
    };
    replies.iter().map(|reply| digits(reply) + "\n").collect()
}

/// Behind the kind and the number of an answer stand its points as a frame has them: none, if it was refused.
fn three(chart: &Chart) -> Vec<Vec<u8>> {
    let outline = match first_start(&chart.image()) {
        Some((x, y)) => walked(chart, PointI32::new(x as i32, y as i32), true),
        None => put_points(1, Err(NO_WAY)),
    };
    let call = |head: &[u8], points: &[u8]| reply(&[head, &points[2..]].concat()).expect("a frame");
    let simplified = call(&[2, 1], &outline);
    let numbers = call(&[4], &simplified);
    vec![outline, simplified, numbers]
}
