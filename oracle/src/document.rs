//! Document 01's limits and numbers, and document 02's, as plain tests.

pub const BAD_SIZE: u8 = 1;
pub const TOO_MANY: u8 = 2;
pub const BAD_POINT: u8 = 3;
pub const TOO_FEW: u8 = 4;
pub const BAD_TOLERANCE: u8 = 5;
pub const BAD_FLAGS: u8 = 6;
pub const BAD_SETTINGS: u8 = 7;
pub const NO_WAY: u8 = 8;
pub const STUCK: u8 = 9;
pub const NO_ROOM: u8 = 10;
pub const BAD_FRAME: u8 = 11;
pub const BAD_PICTURE: u8 = 12;

/// The number of the first test that applies. The tests stand in the order of their numbers.
pub fn lowest(tests: &[(u8, bool)]) -> Option<u8> {
    assert!(tests.windows(2).all(|pair| pair[0].0 < pair[1].0));
    tests.iter().find(|test| test.1).map(|test| test.0)
}

/// "A list of points handed in has over 8,192 values."
pub fn too_many<T>(values: &[T]) -> bool {
    values.len() > 8192
}

/// "Odd count of values, or a coordinate out of range."
pub fn bad_point(values: &[i32]) -> bool {
    values.len() % 2 == 1 || values.iter().any(|&value| !coordinate(value))
}

/// "Odd count of values, or a coordinate out of range, NaN or infinite."
pub fn bad_point_f64(values: &[f64]) -> bool {
    values.len() % 2 == 1 || values.iter().any(|value| !(-16383.0..=16383.0).contains(value))
}

pub fn coordinate(value: i32) -> bool {
    (-16383..=16383).contains(&value)
}

/// "NaN or out of range", for a tolerance.
pub fn bad_tolerance(tolerance: f64) -> bool {
    !(0.0..=65536.0).contains(&tolerance)
}

/// "NaN or out of range", for a squared tolerance.
pub fn bad_sq_tolerance(sq_tolerance: f64) -> bool {
    !(0.0..=4294967296.0).contains(&sq_tolerance)
}

/// "Chart size out of range, or pixel slice too short."
pub fn bad_chart(width: usize, height: usize, bytes: &[u8]) -> bool {
    let size = 1..=512;
    !size.contains(&width) || !size.contains(&height) || bytes.len() < width.div_ceil(8) * height
}

/// "Room is judged on n alone: n places, 2 where n is 1."
pub fn places(points: usize) -> usize {
    if points == 1 {
        2
    } else {
        points
    }
}

/// A place for a point is two values.
pub fn no_room(points: usize, room: usize) -> bool {
    room / 2 < places(points)
}
