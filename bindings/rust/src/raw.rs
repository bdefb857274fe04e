//! The calls of include/sandline.h, in its order. It says what each does and what its caller owes. (Of Douglas-Peucker
//! and of the numbers the calls whose work is counted serve for both.)

use crate::Spiral;

extern "C" {
    // Charts: a pixel, the area, and where a walk may begin.
    pub fn sandline_pixel(
        width: u64,
        height: u64,
        pixels: *const u8,
        bytes: u64,
        x: i32,
        y: i32,
    ) -> bool;
    pub fn sandline_area(
        width: u64,
        height: u64,
        pixels: *const u8,
        bytes: u64,
        count: *mut u64,
    ) -> u8;
    pub fn sandline_first_start(
        width: u64,
        height: u64,
        pixels: *const u8,
        bytes: u64,
        start: *mut [i32; 2],
    ) -> u8;

    // Walks along the outline of what is set.
    pub fn sandline_walk(
        width: u64,
        height: u64,
        pixels: *const u8,
        bytes: u64,
        x: i32,
        y: i32,
        clockwise: bool,
        out: *mut i32,
        room: u64,
        count: *mut u64,
    ) -> u8;

    // Spirals: a square of pixels, one by one from its centre outwards.
    pub fn sandline_spiral(size: u64, spiral: *mut Spiral) -> u8;
    pub fn sandline_spiral_advance(
        spiral: *mut Spiral,
        place: *mut [i32; 2],
        count: *mut u64,
    ) -> u8;

    // Pictures: charts out of Netpbm's PBM files, and into them.
    pub fn sandline_read_pbm(
        file: *const u8,
        length: u64,
        pixels: *mut u8,
        room: u64,
        width: *mut u64,
        height: *mut u64,
        count: *mut u64,
    ) -> u8;
    pub fn sandline_write_pbm(
        width: u64,
        height: u64,
        pixels: *const u8,
        bytes: u64,
        out: *mut u8,
        room: u64,
        count: *mut u64,
    ) -> u8;

    // Geometry: areas, midpoints, lengths, and where two lines cross.
    pub fn sandline_signed_area(points: *const [i32; 6], area: *mut i32) -> u8;
    pub fn sandline_find_mid_point(points: *const [f64; 4], middle: *mut [f64; 2]) -> u8;
    pub fn sandline_norm(x: f64, y: f64, length: *mut f64) -> u8;
    pub fn sandline_norm_i32(x: i32, y: i32, length: *mut f64) -> u8;
    pub fn sandline_find_intersection(
        first: *const [f64; 4],
        second: *const [f64; 4],
        values: *mut [f64; 4],
        count: *mut u64,
    ) -> u8;
    pub fn sandline_outside(values: *const f64, count: u64) -> bool;
    pub fn sandline_inside(values: *const f64, count: u64) -> bool;
    pub fn sandline_coincide(values: *const f64, count: u64) -> bool;

    // Simplification: an outline without staircases, and without the points that cost little.
    pub fn sandline_remove_staircase(
        points: *const i32,
        length: u64,
        clockwise: bool,
        out: *mut i32,
        room: u64,
        count: *mut u64,
    ) -> u8;
    pub fn sandline_limit_penalties(
        points: *const i32,
        length: u64,
        out: *mut i32,
        room: u64,
        count: *mut u64,
    ) -> u8;
    pub fn sandline_simplify(
        points: *const i32,
        length: u64,
        clockwise: bool,
        out: *mut i32,
        room: u64,
        count: *mut u64,
    ) -> u8;

    // Corners: where an outline turns.
    pub fn sandline_find_corners(
        points: *const i32,
        length: u64,
        c: i32,
        s: i32,
        closed: bool,
        flags: *mut u8,
        room: u64,
        count: *mut u64,
    ) -> u8;

    // Smoothing: one round of subdivision.
    pub fn sandline_subdivide_keep_corners(
        points: *const f64,
        points_length: u64,
        corners: *const u8,
        corners_length: u64,
        ratio: f64,
        length: f64,
        closed: bool,
        out: *mut f64,
        room: u64,
        flags: *mut u8,
        flag_room: u64,
        count: *mut u64,
        finished: *mut bool,
    ) -> u8;

    // Zooms: fewer points, the wider the tolerance.
    pub fn sandline_simplify_radial_dist(
        points: *const i32,
        length: u64,
        tolerance: f64,
        out: *mut i32,
        room: u64,
        count: *mut u64,
    ) -> u8;
    pub fn sandline_simplify_douglas_peucker_counted(
        points: *const i32,
        length: u64,
        tolerance: f64,
        out: *mut i32,
        room: u64,
        marks: *mut u8,
        mark_room: u64,
        count: *mut u64,
        distances: *mut u64,
    ) -> u8;
    pub fn sandline_reduce(
        points: *const i32,
        length: u64,
        tolerance: f64,
        out: *mut i32,
        room: u64,
        scratch: *mut i32,
        scratch_room: u64,
        marks: *mut u8,
        mark_room: u64,
        count: *mut u64,
    ) -> u8;
    pub fn sandline_numbers_counted(
        points: *const i32,
        length: u64,
        out: *mut f64,
        room: u64,
        count: *mut u64,
        distances: *mut u64,
    ) -> u8;
    pub fn sandline_zoom(
        points: *const i32,
        length: u64,
        numbers: *const f64,
        numbers_length: u64,
        tolerance: f64,
        out: *mut i32,
        room: u64,
        count: *mut u64,
    ) -> u8;

    // Square roots.
    pub fn sandline_sqrt(x: f64) -> f64;
    pub fn sandline_sqrt_bits(bits: u64) -> u64;

    // Frames: a call as a line of hexadecimal digits.
    pub fn sandline_answer(line: *const u8, length: u64, out: *mut u8, room: u64, at: u64) -> u64;
}
