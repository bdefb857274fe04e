//! Our calls, by the crate that makes them safe for Rust. What they fill is lent to them beforehand.

use crate::lists::{Chart, List};
use crate::sides::{job, words, Job, Side, Six, Word, LENGTH, RATIO};
use sandline::{Point, PointF64, Subdivided};

/// A list that is lent for an answer, and how many of its points the answer has.
struct Lent {
    points: Vec<Point>,
    count: usize,
}

impl Lent {
    fn places(n: usize) -> Lent {
        Lent { points: vec![[0; 2]; n], count: 0 }
    }

    fn answer(&self) -> Vec<u64> {
        words(self.points[..self.count].as_flattened())
    }
}

pub struct Ours;

impl Side for Ours {
    fn walk(&self, chart: &Chart) -> Box<dyn Job> {
        let (side, pixels, start) = (chart.side, chart.bytes.clone(), chart.start);
        let run = move |out: &mut Lent| {
            let chart = sandline::Chart { width: side, height: side, pixels: &pixels };
            out.count = done(chart.walk(start, true, &mut out.points));
        };
        job(Lent::places(4096), run, Lent::answer)
    }

    fn simplify(&self, list: &List) -> Box<dyn Job> {
        let points = list.points.clone();
        let run = move |out: &mut Lent| {
            out.count = done(sandline::simplify(&points, true, &mut out.points));
        };
        job(Lent::places(list.points.len()), run, Lent::answer)
    }

    fn reduce(&self, list: &List, tolerances: Six) -> Box<dyn Job> {
        let (points, n) = (list.points.clone(), list.points.len());
        let (mut scratch, mut marks) = (points.clone(), vec![0; n]);
        six(n, tolerances, move |tolerance, out| {
            done(sandline::reduce(&points, tolerance, out, &mut scratch, &mut marks))
        })
    }

    fn douglas_peucker(&self, list: &List, squared: Six) -> Box<dyn Job> {
        let (points, n) = (list.points.clone(), list.points.len());
        let mut marks = vec![0; n];
        six(n, squared, move |tolerance, out| {
            done(sandline::simplify_douglas_peucker(&points, tolerance, out, &mut marks))
        })
    }

    fn numbers(&self, list: &List) -> Option<Box<dyn Job>> {
        let points = list.points.clone();
        let run = move |out: &mut Vec<f64>| _ = done(sandline::numbers(&points, out));
        Some(job(vec![0.0; list.points.len()], run, |out| words(out)))
    }

    fn zooms(&self, list: &List, squared: Six) -> Option<Box<dyn Job>> {
        let (points, n) = (list.points.clone(), list.points.len());
        let mut numbers = vec![0.0; n];
        done(sandline::numbers(&points, &mut numbers));
        Some(six(n, squared, move |tolerance, out| {
            done(sandline::zoom(&points, &numbers, tolerance, out))
        }))
    }

    fn numbers_and_zooms(&self, list: &List, squared: Six) -> Box<dyn Job> {
        let (points, n) = (list.points.clone(), list.points.len());
        let mut numbers = vec![0.0; n];
        let run = move |zooms: &mut [Lent; 6]| {
            done(sandline::numbers(&points, &mut numbers));
            for (tolerance, out) in squared.into_iter().zip(zooms) {
                out.count = done(sandline::zoom(&points, &numbers, tolerance, &mut out.points));
            }
        };
        job(six_lists(n), run, six_answers)
    }

    fn find_corners(&self, list: &List) -> Box<dyn Job> {
        let (points, closed) = (list.points.clone(), list.closed);
        let flags = vec![0; list.points.len() - usize::from(closed)];
        let run = move |flags: &mut Vec<u8>| {
            done(sandline::find_corners(&points, PAIR, closed, flags));
        };
        job(flags, run, |flags| words(flags))
    }

    fn subdivide(&self, list: &List, corners: &[u8]) -> Box<dyn Job> {
        let points: Vec<PointF64> = list.points.iter().map(|p| p.map(f64::from)).collect();
        let (corners, closed, places) = (corners.to_vec(), list.closed, 2 * list.points.len());
        let settings = sandline::Settings { ratio: RATIO, length: LENGTH };
        let run = move |Round { points: out, flags, answer, .. }: &mut Round| {
            *answer = done(sandline::subdivide_keep_corners(
                &points, &corners, settings, closed, out, flags,
            ));
        };
        let answer = Subdivided { points: 0, finished: false };
        let (points, flags) = (vec![[0.0; 2]; places], vec![0; places]);
        job(Round { points, flags, closed, answer }, run, Round::words)
    }

    fn roots(&self, squares: &[f64]) -> Box<dyn Job> {
        let (squares, roots) = (squares.to_vec(), squares.to_vec());
        let run = move |roots: &mut Vec<f64>| {
            for (root, &square) in roots.iter_mut().zip(&squares) {
                *root = sandline::sqrt(square);
            }
        };
        job(roots, run, |roots| words(roots))
    }
}

/// What a round of subdivision fills.
struct Round {
    points: Vec<PointF64>,
    flags: Vec<u8>,
    closed: bool,
    answer: Subdivided,
}

impl Round {
    /// A closed list's last point has no flag.
    fn words(&self) -> Vec<u64> {
        let Subdivided { points: n, finished } = self.answer;
        let flags = &self.flags[..n - usize::from(self.closed)];
        let finished = u8::from(finished).word();
        [words(self.points[..n].as_flattened()), words(flags), vec![finished]].concat()
    }
}

const PAIR: sandline::Pair = sandline::Pair { c: -1, s: 1 };

/// The corners of a list: turns of 135 degrees and more.
pub fn corners(list: &List) -> Vec<u8> {
    let mut flags = vec![0; list.points.len() - usize::from(list.closed)];
    done(sandline::find_corners(&list.points, PAIR, list.closed, &mut flags));
    flags
}

/// A call at six tolerances, each into a list of its own.
fn six(
    n: usize,
    six: Six,
    mut call: impl FnMut(f64, &mut [Point]) -> usize + 'static,
) -> Box<dyn Job> {
    let run = move |lists: &mut [Lent; 6]| {
        for (tolerance, out) in six.into_iter().zip(lists) {
            out.count = call(tolerance, &mut out.points);
        }
    };
    job(six_lists(n), run, six_answers)
}

fn six_lists(n: usize) -> [Lent; 6] {
    [(); 6].map(|_| Lent::places(n))
}

fn six_answers(lists: &[Lent; 6]) -> Vec<u64> {
    lists.iter().flat_map(Lent::answer).collect()
}

fn done<T>(answer: Result<T, sandline::Refusal>) -> T {
    answer.expect("no refusal")
}
