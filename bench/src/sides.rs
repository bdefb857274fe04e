//! What both sides can be asked for. Each makes a call ready, with all that it is handed, so that running it
//! is the call alone.

use crate::lists::{Chart, List};

/// Six tolerances, near to wide: squared, or in pixels, as the call takes them.
pub type Six = [f64; 6];

/// What a round of subdivision goes by: the outset ratio, and the length in pixels up to which a segment is
/// left as it is.
pub const RATIO: f64 = 8.0;
pub const LENGTH: f64 = 1.0;

pub trait Side {
    fn walk(&self, chart: &Chart) -> Box<dyn Job>;
    fn simplify(&self, list: &List) -> Box<dyn Job>;
    fn reduce(&self, list: &List, tolerances: Six) -> Box<dyn Job>;
    fn douglas_peucker(&self, list: &List, squared: Six) -> Box<dyn Job>;
    /// One number per point. The Rust has none.
    fn numbers(&self, list: &List) -> Option<Box<dyn Job>>;
    /// The list at six zooms, by numbers that are there.
    fn zooms(&self, list: &List, squared: Six) -> Option<Box<dyn Job>>;
    /// The same, and the numbers first. The Rust runs Douglas-Peucker six times.
    fn numbers_and_zooms(&self, list: &List, squared: Six) -> Box<dyn Job>;
    /// Turns of 135 degrees and more.
    fn find_corners(&self, list: &List) -> Box<dyn Job>;
    /// One round, of corners that are handed in.
    fn subdivide(&self, list: &List, corners: &[u8]) -> Box<dyn Job>;
    fn roots(&self, squares: &[f64]) -> Box<dyn Job>;
}

/// A call that is ready. It may run any number of times.
pub trait Job {
    fn run(&mut self);
    /// What it answered, as words of its bits.
    fn answer(&self) -> Vec<u64>;
}

/// A call made ready from what it fills, what it does, and how its answer is read.
pub fn job<S: 'static>(
    filled: S,
    run: impl FnMut(&mut S) + 'static,
    answer: impl Fn(&S) -> Vec<u64> + 'static,
) -> Box<dyn Job> {
    Box::new(Ready { filled, run, answer })
}

struct Ready<S, R, A> {
    filled: S,
    run: R,
    answer: A,
}

impl<S, R: FnMut(&mut S), A: Fn(&S) -> Vec<u64>> Job for Ready<S, R, A> {
    fn run(&mut self) {
        (self.run)(&mut self.filled);
    }

    fn answer(&self) -> Vec<u64> {
        (self.answer)(&self.filled)
    }
}

/// A value as the word that its bits are.
pub trait Word: Copy {
    fn word(self) -> u64;
}

impl Word for i32 {
    fn word(self) -> u64 {
        self as u64
    }
}

impl Word for u8 {
    fn word(self) -> u64 {
        u64::from(self)
    }
}

impl Word for f64 {
    fn word(self) -> u64 {
        self.to_bits()
    }
}

/// How many there are, and each.
pub fn words<T: Word>(values: &[T]) -> Vec<u64> {
    let count = values.len() as u64;
    std::iter::once(count).chain(values.iter().map(|value| value.word())).collect()
}
