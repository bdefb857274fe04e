//! Cases for the crate `simplify`.

use super::shapes;
use crate::random::Random;
use crate::reduce::make::{damage, room};
use crate::text::Line;

pub const CALLS: [&str; 3] = ["remove_staircase", "limit_penalties", "simplify"];

/// A call with all that it is given.
pub struct Call {
    pub name: &'static str,
    pub clockwise: bool,
    pub values: Vec<i32>,
    pub room: usize,
}

impl Call {
    /// The call with a room that is just enough.
    pub fn new(name: &'static str, clockwise: bool, values: &[i32]) -> Call {
        let room = match values.len() / 2 {
            1 => 4,
            n => 2 * n,
        };
        Call { name, clockwise, values: values.to_vec(), room }
    }

    pub fn write(&self, case: &mut Line) {
        case.word(self.name);
        if self.name != "limit_penalties" {
            case.bool(self.clockwise);
        }
        case.i32s(&self.values).number(self.room);
    }
}

pub fn make(random: &mut Random, _: u64, case: &mut Line) {
    let n = length(random);
    let mut values = shapes::shape(random, n);
    if values.len() > 4 && random.once_in(4) {
        close(&mut values);
    }
    if random.once_in(16) {
        damage(random, &mut values);
    }
    let mut call = Call::new(random.pick(&CALLS), random.once_in(2), &values);
    if random.once_in(4) {
        call.room = room(random, call.room);
    }
    call.write(case);
}

/// Lets a list end where it began.
fn close(values: &mut [i32]) {
    let n = values.len() / 2;
    values.copy_within(..2, 2 * n - 2);
}

fn length(random: &mut Random) -> usize {
    let length = match random.below(1024) {
        0..=127 => random.within(0, 3),
        128..=895 => random.within(3, 18),
        896..=999 => random.within(18, 80),
        1000..=1020 => random.within(80, 400),
        1021 | 1022 => random.within(400, 1500),
        _ => random.within(4094, 4098),
    };
    length as usize
}
