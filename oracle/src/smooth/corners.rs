//! Corners by the rule of documents 01 and 02 in whole numbers, held against the Rust's `find_corners`, which
//! compares angles.

use crate::held;
use std::sync::atomic::{AtomicU64, Ordering::Relaxed};
use visioncortex::{PathI32, PointI32, SubdivideSmooth};

/// Angles within this of the threshold may come out either way.
const BAND: f64 = 1e-9;

static HELD: AtomicU64 = AtomicU64::new(0);
static REPEATED: AtomicU64 = AtomicU64::new(0);
static IN_BAND: AtomicU64 = AtomicU64::new(0);
static ONE_SIDED: AtomicU64 = AtomicU64::new(0);

/// What was held against the Rust since the program began.
pub fn held() -> String {
    let [held, repeated, in_band, one_sided] =
        [&HELD, &REPEATED, &IN_BAND, &ONE_SIDED].map(|count| count.load(Relaxed));
    format!(
        "corners: {held} points held against the Rust's find_corners on lists without repeats, \
         {repeated} of them beside an equal point; not held: {in_band} within {BAND:e} of the \
         threshold, {one_sided} with no point that differs on a side"
    )
}

type Vector = (i64, i64);

/// The vectors into a point and out of it.
type Turn = (Vector, Vector);

/// "With v1 into and v2 out of a point, it is a corner when c·|cross| - s·dot ≥ 0. Closed lists drop the last
/// point unseen and wrap; open lists flag both ends." And by document 02, 2/13: "v1 comes from the nearest
/// earlier point that differs, v2 goes to the nearest later one that differs". So points in a row that are
/// equal turn alike, and each run of them is judged once.
pub fn corners(points: &[PointI32], pair: (i32, i32), closed: bool) -> Vec<u8> {
    let (seen, dropped) = points.split_at(points.len() - usize::from(closed));
    let (runs, run_of) = runs(seen, closed);
    let turns: Vec<Option<Turn>> = (0..runs.len()).map(|k| turn(&runs, k, closed)).collect();
    let is_end = |i| !closed && (i == 0 || i == seen.len() - 1);
    let flag = |i: usize| is_end(i) || turns[run_of[i]].is_some_and(|turn| sharp(pair, turn));
    let flags: Vec<bool> = (0..seen.len()).map(flag).collect();
    if held::holds() {
        assert_eq!(flags, by_search(seen, pair, closed));
        let threshold = f64::from(pair.1).atan2(f64::from(pair.0));
        let path = PathI32::from_points([&runs, dropped].concat());
        let rust = SubdivideSmooth::find_corners(&path, threshold, closed);
        assert_eq!(rust.len(), runs.len());
        for i in (0..seen.len()).filter(|&i| !is_end(i)) {
            let run = run_of[i];
            let beside = [(i + 1) % seen.len(), (i + seen.len() - 1) % seen.len()];
            let repeated = beside.iter().any(|&j| seen[j] == seen[i]);
            hold(flags[i], rust[run], turns[run], threshold, repeated);
        }
    }
    flags.into_iter().map(u8::from).collect()
}

/// The list without repeats, and for each point where its run is there. The last run of a closed list may go on
/// with the first.
fn runs(seen: &[PointI32], closed: bool) -> (Vec<PointI32>, Vec<usize>) {
    let (mut runs, mut run_of) = (Vec::new(), Vec::new());
    for point in seen {
        if runs.last() != Some(point) {
            runs.push(*point);
        }
        run_of.push(runs.len() - 1);
    }
    if closed && runs.len() > 1 && runs.last() == runs.first() {
        runs.pop();
        run_of.iter_mut().for_each(|run| *run %= runs.len());
    }
    (runs, run_of)
}

/// The turn at a run: "on an open list the search stops at the ends", and so it does where there
/// is no other run.
fn turn(runs: &[PointI32], k: usize, closed: bool) -> Option<Turn> {
    let wraps = closed && runs.len() > 1;
    let before = if k > 0 { runs.get(k - 1) } else { runs.last().filter(|_| wraps) };
    let behind = runs.get(k + 1).or(runs.first().filter(|_| wraps));
    Some((vector(*before?, runs[k]), vector(runs[k], *behind?)))
}

fn vector(p: PointI32, q: PointI32) -> Vector {
    (i64::from(q.x) - i64::from(p.x), i64::from(q.y) - i64::from(p.y))
}

fn sharp(pair: (i32, i32), turn: Turn) -> bool {
    let (cross, dot) = products(turn);
    i64::from(pair.0) * cross.abs() - i64::from(pair.1) * dot >= 0
}

fn products((v1, v2): Turn) -> (i64, i64) {
    (v1.0 * v2.1 - v1.1 * v2.0, v1.0 * v2.0 + v1.1 * v2.1)
}

/// The same flags by the words of document 02, point by point: from each one the search goes back and forth.
fn by_search(seen: &[PointI32], pair: (i32, i32), closed: bool) -> Vec<bool> {
    let n = seen.len();
    let round = if closed { n } else { 0 };
    let flag = |i: usize| {
        let differs = |j: &usize| seen[*j] != seen[i];
        let earlier = (0..i).rev().chain((i + 1..round).rev()).find(differs);
        let later = (i + 1..n).chain(0..i.min(round)).find(differs);
        let found = earlier.zip(later);
        let turn = found.map(|(j, k)| (vector(seen[j], seen[i]), vector(seen[i], seen[k])));
        !closed && (i == 0 || i == n - 1) || turn.is_some_and(|turn| sharp(pair, turn))
    };
    (0..n).map(flag).collect()
}

/// "For distinct neighbours the oracle's `find_corners` agrees when its angle is over 1e-9 from the threshold":
/// on the list without repeats.
fn hold(flag: bool, rust: bool, turn: Option<Turn>, threshold: f64, repeated: bool) {
    let Some(turn) = turn else {
        ONE_SIDED.fetch_add(1, Relaxed);
        return;
    };
    let (cross, dot) = products(turn);
    let angle = (cross.abs() as f64).atan2(dot as f64);
    if (angle - threshold).abs() <= BAND {
        IN_BAND.fetch_add(1, Relaxed);
        return;
    }
    HELD.fetch_add(1, Relaxed);
    REPEATED.fetch_add(u64::from(repeated), Relaxed);
    assert_eq!(flag, rust, "the corner at {turn:?}: angle {angle}, threshold {threshold}");
}
