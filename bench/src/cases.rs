//! What is measured: each call on each list, written once for both sides.

use crate::lists::{coast, lists, runs, squares, teeth, List};
use crate::ours::{corners, Ours};
use crate::rust::Rust;
use crate::sides::{Job, Side, Six};
use crate::table::grouped;

pub struct Case {
    pub call: &'static str,
    pub list: String,
    pub points: usize,
    pub ours: Box<dyn Job>,
    /// The Rust has no numbers, and other corners where points are equal.
    pub rust: Option<Box<dyn Job>>,
}

/// A call on a list. The tolerances are squared.
type Call = fn(&dyn Side, &List, Six) -> Option<Box<dyn Job>>;

const CALLS: [(&str, Call); 7] = [
    ("simplify", |side, list, _| Some(side.simplify(list))),
    ("reduce, six tolerances", |side, list, six| Some(side.reduce(list, six.map(f64::sqrt)))),
    ("Douglas-Peucker, the six", |side, list, six| Some(side.douglas_peucker(list, six))),
    ("numbers", |side, list, _| side.numbers(list)),
    ("six zooms", |side, list, six| side.zooms(list, six)),
    ("numbers and six zooms", |side, list, six| Some(side.numbers_and_zooms(list, six))),
    ("subdivision", |side, list, _| Some(side.subdivide(list, &corners(list)))),
];

/// All cases at six squared tolerances.
pub fn cases(six: Six) -> Vec<Case> {
    let coast = coast();
    let outline = points(&mut *Rust.walk(&coast));
    let steps: i32 = outline.windows(2).map(steps).sum();
    let name = format!("coast, {} steps", grouped(steps as u64));
    let mut cases = vec![case("walk", name, outline.len(), |side| Some(side.walk(&coast)))];
    let outline = List { name: "outline", points: outline, closed: true };
    let simplified = points(&mut *Rust.simplify(&outline));
    let simplified = List { name: "outline, simplified", points: simplified, closed: true };
    for list in [outline, simplified].into_iter().chain(lists()) {
        for (call, ready) in CALLS {
            let ready = |side: &dyn Side| ready(side, &list, six);
            cases.push(case(call, list.name.to_string(), list.points.len(), ready));
        }
    }
    let outline = points(&mut *Rust.walk(&teeth()));
    let outline = List { name: "teeth", points: outline, closed: true };
    let [equal, two_runs] = runs();
    let corners = |list: &List| {
        let ready = |side: &dyn Side| Some(side.find_corners(list));
        case("find corners", list.name.to_string(), list.points.len(), ready)
    };
    cases.extend([corners(&outline), corners(&equal), Case { rust: None, ..corners(&two_runs) }]);
    let squares = squares(4096);
    let doubles = "doubles of all sizes".to_string();
    cases.push(case("root", doubles, squares.len(), |side| Some(side.roots(&squares))));
    cases
}

fn case(
    call: &'static str,
    list: String,
    points: usize,
    ready: impl Fn(&dyn Side) -> Option<Box<dyn Job>>,
) -> Case {
    Case { call, list, points, ours: ready(&Ours).expect("a call of ours"), rust: ready(&Rust) }
}

/// The points that a call answers.
fn points(job: &mut dyn Job) -> Vec<[i32; 2]> {
    job.run();
    job.answer()[1..].chunks(2).map(|words| [words[0] as i32, words[1] as i32]).collect()
}

/// How many steps lie between two points of a walk.
fn steps(run: &[[i32; 2]]) -> i32 {
    (run[1][0] - run[0][0]).abs() + (run[1][1] - run[0][1]).abs()
}
