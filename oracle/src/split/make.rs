//! Cases for the crate `split`.

use super::shapes;
use crate::random::Random;
use crate::reduce::make::{length, room, steps, EDGES};
use crate::reduce::{numbers::numbers, points_of};
use crate::text::Line;

pub const CALLS: [&str; 4] = ["mark", "number", "mark_waiting", "number_waiting"];

/// A call with all that it is given.
pub struct Call<'a> {
    pub name: &'static str,
    pub tolerance: f64,
    pub values: &'a [i32],
    pub room: usize,
}

impl Call<'_> {
    /// The call with room that is just enough.
    pub fn new<'a>(name: &'static str, tolerance: f64, values: &'a [i32]) -> Call<'a> {
        Call { name, tolerance, values, room: values.len() / 2 }
    }

    pub fn write(&self, case: &mut Line) {
        case.word(self.name);
        if has_tolerance(self.name) {
            case.f64(self.tolerance);
        }
        case.i32s(self.values).number(self.room);
    }
}

pub fn has_tolerance(name: &str) -> bool {
    name.starts_with("mark")
}

pub fn make(random: &mut Random, _: u64, case: &mut Line) {
    let n = length(random);
    let mut values = shapes::shape(random, n);
    if random.once_in(8) {
        values.push(random.pick(&[0, 7, -16384, i32::MAX]));
    }
    let tolerance = any_tolerance(random, &values);
    let mut call = Call::new(random.pick(&CALLS), tolerance, &values);
    if random.once_in(4) {
        call.room = room(random, call.room);
    }
    call.write(case);
}

/// A tolerance, mostly one at which something happens.
fn any_tolerance(random: &mut Random, values: &[i32]) -> f64 {
    match random.below(16) {
        0 | 1 => 0.0,
        2 | 3 => random.pick(&EDGES),
        4 => f64::from_bits(random.next()),
        5 => random.fraction() * random.pick(&[-1.0, 0.5, 10.0, 1e3, 1e6, 1e18]),
        6 | 7 => random.within(-1, 40) as f64,
        _ if values.len() > 2000 || values.len() < 6 => 1.0,
        _ => {
            let numbers = numbers(&points_of(values));
            let inside = &numbers[1..numbers.len() - 1];
            steps(random.pick(inside), random.within(-1, 1))
        }
    }
}
