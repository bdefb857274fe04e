//! What the runs have left in a folder: `parts`, a line for each part; for the part on line K callgrind's
//! `instructions.K` and `calls.K`; and `code`, what objdump says of the program that `calls` was counted of.

use crate::callgrind::{total, Code, Runs};
use std::fs::read_to_string;
use std::path::Path;

/// What was measured of a case: of our part, and of the Rust's if it has such a call.
pub struct Measured {
    pub call: String,
    pub list: String,
    pub points: u64,
    pub ours: Part,
    pub rust: Option<Part>,
}

/// What was measured of a part. Without callgrind there are no counts.
pub struct Part {
    pub stack: u64,
    pub seconds: f64,
    pub instructions: Option<u64>,
    pub counts: Option<Counts>,
}

/// What a part works out: distances to a segment, and roots.
pub struct Counts {
    pub distances: u64,
    pub roots: u64,
}

impl Counts {
    fn of(runs: &Runs, code: &Code) -> Counts {
        let is_distance = |name: &str| name.ends_with("::get_sq_seg_dist");
        let is_root = |name: &str| {
            ["by_halves::sqrt", "sandline_sqrt", "std::f64::<impl f64>::sqrt"].contains(&name)
        };
        Counts { distances: runs.calls(code, is_distance), roots: runs.calls(code, is_root) }
    }
}

pub fn read(folder: &Path) -> Vec<Measured> {
    let text = read_to_string(folder.join("parts")).expect("parts");
    let code = read_to_string(folder.join("code")).ok().map(|text| Code::read(&text));
    let mut cases: Vec<Measured> = Vec::new();
    for (at, line) in text.lines().enumerate() {
        let words: Vec<&str> = line.split('\t').collect();
        let [call, list, points, side, stack, seconds] = words[..] else { panic!("{line}") };
        let file = |kind: &str| read_to_string(folder.join(format!("{kind}.{}", at + 1))).ok();
        let runs = file("calls").map(|text| Runs::read(&text));
        let part = Part {
            stack: stack.parse().expect("bytes"),
            seconds: seconds.parse().expect("seconds"),
            instructions: file("instructions").map(|text| total(&text)),
            counts: runs.zip(code.as_ref()).map(|(runs, code)| Counts::of(&runs, code)),
        };
        if side == "rust" {
            cases.last_mut().expect("our part").rust = Some(part);
            continue;
        }
        let (call, list) = (call.to_string(), list.to_string());
        let points = points.parse().expect("a count of points");
        cases.push(Measured { call, list, points, ours: part, rust: None });
    }
    cases
}
