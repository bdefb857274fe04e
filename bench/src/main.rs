//! The same calls of both sides on the same lists, measured. `bench/run` calls it:
//!
//!     bench time TOLERANCES WORD..    holds the answers against each other, and writes the stack and the time
//!                                     of each part, one a line: a part is one call on one list by one side
//!     bench count TOLERANCES WORD..   the same parts in the same order, for callgrind
//!     bench table FOLDER              makes one table of what these have left in a folder
//!
//! TOLERANCES are six squared ones, with commas between. With words, only cases that have one of them in
//! their name are taken.

mod callgrind;
mod cases;
mod lists;
mod measure;
mod ours;
mod results;
mod rust;
mod sides;
mod table;

use cases::{cases, Case};
use sides::{Job, Six};

fn main() {
    let words: Vec<String> = std::env::args().skip(1).collect();
    match words.iter().map(String::as_str).collect::<Vec<_>>()[..] {
        ["time", six, ref words @ ..] => each_part(six, words, |name, job| {
            println!("{name}\t{}\t{:e}", measure::stack(job), measure::seconds(job));
        }),
        ["count", six, ref words @ ..] => each_part(six, words, |_, job| measure::counted(job)),
        ["table", folder] => print!("{}", table::both_sides(&results::read(folder.as_ref()))),
        _ => panic!("usage: see bench/run"),
    }
}

/// Does something with each part of the cases that are asked for, once both sides have given the same
/// answer.
fn each_part(six: &str, words: &[&str], mut measure: impl FnMut(&str, &mut dyn Job)) {
    let six: Vec<f64> = six.split(',').map(|word| word.parse().expect("a tolerance")).collect();
    let six: Six = six.try_into().expect("six tolerances");
    let asked = |name: &str| words.is_empty() || words.iter().any(|word| name.contains(word));
    for Case { call, list, points, mut ours, rust } in cases(six) {
        let name = format!("{call}\t{list}\t{points}");
        if !asked(&name) {
            continue;
        }
        ours.run();
        let Some(mut rust) = rust else {
            measure(&format!("{name}\tours"), &mut *ours);
            continue;
        };
        rust.run();
        assert!(ours.answer() == rust.answer(), "{name}: two answers that differ");
        measure(&format!("{name}\tours"), &mut *ours);
        measure(&format!("{name}\trust"), &mut *rust);
    }
}
