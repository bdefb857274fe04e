//! Cases for the crate `reduce`.

use super::numbers::numbers;
use super::{points_of, shapes};
use crate::document::{bad_point, too_many};
use crate::random::Random;
use crate::text::Line;

pub const CALLS: [&str; 7] = [
    "radial",
    "douglas_peucker",
    "reduce",
    "numbers",
    "zoom",
    "douglas_peucker_counted",
    "numbers_counted",
];

/// The greatest tolerance, and the greatest squared one.
pub const TOLERANCE: f64 = 65536.0;
pub const SQ_TOLERANCE: f64 = 4294967296.0;

/// Numbers that are bad tolerances or nearly so.
pub const EDGES: [f64; 9] = [
    -0.0,
    f64::from_bits(1),
    -f64::from_bits(1),
    f64::MIN_POSITIVE,
    -1.0,
    f64::MAX,
    f64::INFINITY,
    f64::NEG_INFINITY,
    f64::NAN,
];

/// A call with all that it is given.
pub struct Call {
    pub name: &'static str,
    pub tolerance: f64,
    pub values: Vec<i32>,
    pub numbers: Vec<f64>,
    pub room: usize,
    pub scratch: usize,
    pub marks: usize,
}

impl Call {
    /// The call with its own numbers and rooms that are just enough.
    pub fn new(name: &'static str, tolerance: f64, values: &[i32]) -> Call {
        let n = values.len() / 2;
        let room = match (name, n) {
            ("numbers" | "numbers_counted", n) => n,
            (_, 1) => 4,
            (_, n) => 2 * n,
        };
        let numbers = if name == "zoom" { numbers_of(values) } else { Vec::new() };
        Call { name, tolerance, values: values.to_vec(), numbers, room, scratch: 2 * n, marks: n }
    }

    pub fn write(&self, case: &mut Line) {
        case.word(self.name);
        if !matches!(self.name, "numbers" | "numbers_counted") {
            case.f64(self.tolerance);
        }
        case.i32s(&self.values);
        if self.name == "zoom" {
            case.f64s(&self.numbers);
        }
        case.number(self.room);
        if self.name == "reduce" {
            case.number(self.scratch);
        }
        if matches!(self.name, "reduce" | "douglas_peucker" | "douglas_peucker_counted") {
            case.number(self.marks);
        }
    }
}

/// The numbers of a list, or one for each whole point where the list is refused.
pub fn numbers_of(values: &[i32]) -> Vec<f64> {
    if too_many(values) || bad_point(values) {
        return vec![f64::INFINITY; values.len() / 2];
    }
    numbers(&points_of(values))
}

pub fn make(random: &mut Random, _: u64, case: &mut Line) {
    make_of(&CALLS, random, case);
}

/// A case of a call that does not count its distances, and of one that does.
pub fn make_plain(random: &mut Random, _: u64, case: &mut Line) {
    make_of(&CALLS[..5], random, case);
}
pub fn make_counted(random: &mut Random, _: u64, case: &mut Line) {
    make_of(&CALLS[5..], random, case);
}

fn make_of(calls: &[&'static str], random: &mut Random, case: &mut Line) {
    let n = length(random);
    let mut values = shapes::shape(random, n);
    if random.once_in(16) {
        damage(random, &mut values);
    }
    let name = random.pick(calls);
    let mut call = Call::new(name, any_tolerance(random, name, &values), &values);
    if random.once_in(4) {
        call.room = room(random, call.room);
        call.scratch = room(random, call.scratch);
        call.marks = room(random, call.marks);
    }
    if random.once_in(4) {
        change_numbers(random, &mut call.numbers);
    }
    call.write(case);
}

pub(crate) fn length(random: &mut Random) -> usize {
    let length = match random.below(128) {
        0..=15 => random.within(0, 3),
        16..=111 => random.within(3, 18),
        112..=124 => random.within(18, 80),
        125 | 126 => random.within(80, 400),
        _ if random.once_in(4) => random.within(4094, 4098),
        _ => random.within(400, 1500),
    };
    length as usize
}

/// Makes a list bad: an odd count, or a coordinate out of range.
pub(crate) fn damage(random: &mut Random, values: &mut Vec<i32>) {
    if values.is_empty() || random.once_in(2) {
        values.push(1);
    } else {
        let place = random.below(values.len() as u64) as usize;
        values[place] = random.pick(&[16384, -16384, i32::MAX, i32::MIN]);
    }
}

pub(crate) fn room(random: &mut Random, enough: usize) -> usize {
    match random.below(4) {
        0 => enough.saturating_sub(random.below(3) as usize),
        1 => enough + random.below(5) as usize,
        2 => random.below(enough as u64 + 1) as usize,
        _ => enough,
    }
}

/// Numbers that are not those of the list, or not one for each point.
fn change_numbers(random: &mut Random, numbers: &mut Vec<f64>) {
    for number in numbers.iter_mut() {
        if random.once_in(2) {
            let any = f64::from_bits(random.next());
            *number = random.pick(&[f64::NAN, f64::NEG_INFINITY, 0.0, -0.0, any, *number]);
        }
    }
    match random.below(6) {
        0 => _ = numbers.pop(),
        1 => numbers.push(1.0),
        _ => {}
    }
}

/// A tolerance, mostly one at which something happens.
pub(crate) fn any_tolerance(random: &mut Random, name: &str, values: &[i32]) -> f64 {
    let limit = if name == "reduce" { TOLERANCE } else { SQ_TOLERANCE };
    match random.below(16) {
        0 => 0.0,
        1 => random.pick(&EDGES),
        2 => steps(limit, random.within(-1, 1)),
        3 if random.once_in(4) => f64::from_bits(random.next()),
        3 | 4 => random.fraction() * random.pick(&[0.5, 10.0, 1e3, 1e6, limit]),
        5 | 6 => random.within(0, 40) as f64,
        7 => random.within(0, 400) as f64 / 16.0,
        _ => match occurring(random, name, values) {
            Some(number) => steps(number, random.within(-1, 1)),
            None => 1.0,
        },
    }
}

/// The double some steps up or down.
pub(crate) fn steps(number: f64, by: i64) -> f64 {
    f64::from_bits(number.to_bits().wrapping_add_signed(by))
}

/// A tolerance that equals a distance of the list, for the pass that looks at it.
fn occurring(random: &mut Random, name: &str, values: &[i32]) -> Option<f64> {
    if values.len() > 2000 || bad_point(values) {
        return None;
    }
    let n = values.len() / 2;
    let between = |random: &mut Random| {
        let i = random.below(n as u64) as usize;
        let j = (i + 1 + random.below(3) as usize).min(n - 1);
        let (dx, dy) = (values[2 * i] - values[2 * j], values[2 * i + 1] - values[2 * j + 1]);
        f64::from(dx * dx + dy * dy)
    };
    let number = |random: &mut Random| random.pick(&numbers_of(values)[1..n - 1]);
    match name {
        _ if n < 3 => None,
        "radial" => Some(between(random)),
        "reduce" if random.once_in(2) => Some((2.0 * between(random)).sqrt()),
        "reduce" => Some(number(random).sqrt()),
        _ => Some(number(random)),
    }
}
