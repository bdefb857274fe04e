//! Document 01's worked cases and refusals, and document 02's of pictures, through the safe calls. What is
//! expected is their word, and nowhere what the library answered.

use sandline::*;

const INFINITY: f64 = f64::INFINITY;

const PIXEL: [Point; 5] = [[0, 0], [1, 0], [1, 1], [0, 1], [0, 0]];
const SQUARE: [Point; 5] = [[0, 0], [4, 0], [4, 4], [0, 4], [0, 0]];
const ZIGZAG: [Point; 4] = [[0, 0], [8, 2], [0, 4], [8, 0]];
const LINE: [Point; 3] = [[0, 0], [3, 4], [6, 8]];

/// What a place holds before a call.
const OLD: Point = [-7, -7];

/// What a call puts into so many places, with what it answers.
fn put<const N: usize>(
    call: impl Fn(&mut [Point]) -> Result<usize, Refusal>,
) -> (Result<usize, Refusal>, [Point; N]) {
    let mut out = [OLD; N];
    (call(&mut out), out)
}

#[test]
fn walks() {
    let one = Chart { width: 1, height: 1, pixels: &[0x80] };
    let two = Chart { width: 2, height: 1, pixels: &[0xc0] };
    let diagonal = Chart { width: 2, height: 2, pixels: &[0x80, 0x40] };
    // P1, P2
    assert_eq!(put(|out| one.walk([0, 0], true, out)), (Ok(5), PIXEL));
    assert_eq!(put(|out| one.walk([5, 5], true, out)), (Err(Refusal::NoWay), [OLD; 5]));
    // Two set pixels in one row, start (1,0): 9.
    assert_eq!(put(|out| two.walk([1, 0], true, out)), (Err(Refusal::Stuck), [OLD; 5]));
    let outline = [[0, 0], [1, 0], [1, 1], [2, 1], [2, 2], [1, 2], [1, 0], [0, 0], OLD];
    assert_eq!(put(|out| diagonal.walk([0, 0], true, out)), (Ok(8), outline));
    assert_eq!(put(|out| diagonal.walk([0, 0], true, out)), (Err(Refusal::NoRoom), [OLD; 7]));
    assert_eq!(one.walk([0, 0], true, &mut []), Err(Refusal::NoRoom));
    // Both sides of the limits; the lowest refusal wins.
    assert_eq!(one.walk([16383, -16383], true, &mut []), Err(Refusal::NoWay));
    assert_eq!(one.walk([16384, 0], true, &mut []), Err(Refusal::BadPoint));
    assert_eq!(one.walk([0, -16384], true, &mut []), Err(Refusal::BadPoint));
    let none = Chart { width: 0, height: 1, pixels: &[] };
    assert_eq!(none.walk([16384, 0], true, &mut []), Err(Refusal::BadSize));
}

#[test]
fn charts() {
    let rows = [0xff; 64 * 513];
    let chart = |width, height, bytes: usize| Chart { width, height, pixels: &rows[..bytes] };
    assert_eq!(chart(512, 512, 64 * 512).area(), Ok(512 * 512));
    assert_eq!(chart(512, 512, 64 * 512 - 1).area(), Err(Refusal::BadSize));
    assert_eq!(chart(513, 1, 65).area(), Err(Refusal::BadSize));
    assert_eq!(chart(1, 513, 513).area(), Err(Refusal::BadSize));
    assert_eq!(chart(1, 0, 0).area(), Err(Refusal::BadSize));
    assert_eq!(chart(9, 2, 4).area(), Ok(18));
    assert_eq!(chart(9, 2, 4).first_start(), Ok([0, 0]));
    assert_eq!(chart(9, 2, 3).first_start(), Err(Refusal::BadSize));
    let blank = Chart { width: 1, height: 2, pixels: &[0x7f, 0x7f] };
    assert_eq!((blank.area(), blank.first_start()), (Ok(0), Err(Refusal::NoWay)));
    assert!(!blank.pixel(0, 0) && !blank.pixel(1, 0) && chart(9, 2, 4).pixel(8, 1));
}

#[test]
fn pictures() {
    let read = |file: &[u8], room: usize| {
        let mut pixels = [9; 4];
        let answer = read_pbm(file, &mut pixels[..room])
            .map(|Picture { chart, bytes }| (chart.width, chart.height, bytes));
        (answer, pixels)
    };
    // One pixel, raw and plain, with what stands behind it left unread.
    assert_eq!(read(b"P4 1 1 \xff", 1), (Ok((1, 1, 8)), [0x80, 9, 9, 9]));
    assert_eq!(read(b"P1 1 1 1", 4), (Ok((1, 1, 8)), [0x80, 9, 9, 9]));
    assert_eq!(read(b"P1 1 1 02", 4), (Ok((1, 1, 8)), [0, 9, 9, 9]));
    // "with comments in the header", "may stand without spaces", "set padding to 0"
    assert_eq!(read(b"P4#\n9#\n2#\n\x01\xff\x02\x7fP4", 4), (Ok((9, 2, 14)), [1, 0x80, 2, 0]));
    assert_eq!(
        read(b"P1\r9\t2\x0b\x0c100000001 0000 00010", 4),
        (Ok((9, 2, 28)), [0x80, 0x80, 1, 0])
    );
    // "12 BadPicture for a wrong header, a plain raster byte other than 0, 1 or white space, or missing pixels"
    for file in [
        "", "P", "P4", "P4 1", "P4 1 1", "P2 1 1 1", "p1 1 1 1", "P11 1 1", "P1 1 1#1", "P1 1 1 2",
        "P1 1 1 ",
    ] {
        assert_eq!(read(file.as_bytes(), 0), (Err(Refusal::BadPicture), [9; 4]), "{file}");
    }
    assert_eq!(read(b"P4 9 2 \xff\xff\xff", 4), (Err(Refusal::BadPicture), [9; 4]));
    // "1 for a size out of range, tested as soon as both sizes are read"
    for file in ["P4 0 1", "P1 1 513x", "P4 18446744073709551617 1 1"] {
        assert_eq!(read(file.as_bytes(), 0), (Err(Refusal::BadSize), [9; 4]), "{file}");
    }
    // "10, last"
    assert_eq!(read(b"P4 9 2 \xff\xff\xff\xff", 3), (Err(Refusal::NoRoom), [9; 4]));
    assert_eq!(read(b"P1 1 1 1", 0), (Err(Refusal::NoRoom), [9; 4]));
}

#[test]
fn pictures_read_back() {
    let (rows, mut out, mut pixels) = ([0xff; 64 * 512], [9; 64 * 512 + 12], [9; 64 * 512]);
    for (width, height, head) in
        [(1_usize, 1, "P4\n1 1\n"), (9, 2, "P4\n9 2\n"), (512, 512, "P4\n512 512\n")]
    {
        let bytes = width.div_ceil(8) * height;
        let chart = Chart { width, height, pixels: &rows[..bytes] };
        let all = head.len() + bytes;
        out.fill(9);
        assert_eq!(write_pbm(chart, &mut out[..all - 1]), Err(Refusal::NoRoom));
        assert_eq!(out, [9; 64 * 512 + 12]);
        assert_eq!(write_pbm(chart, &mut out[..all]), Ok(all));
        assert_eq!((&out[..head.len()], out[all]), (head.as_bytes(), 9));
        let read = read_pbm(&out, &mut pixels).unwrap();
        assert_eq!((read.bytes, read.chart.width, read.chart.height), (all, width, height));
        assert_eq!(read.chart.area(), Ok(width * height));
        assert_eq!(read.chart.pixels, &out[head.len()..all]);
    }
    // "1" of a chart as everywhere, before "10".
    let refused = |width, bytes| {
        write_pbm(Chart { width, height: 2, pixels: &rows[..bytes] }, &mut []).unwrap_err()
    };
    assert_eq!(refused(9, 4), Refusal::NoRoom);
    assert_eq!(refused(9, 3), Refusal::BadSize);
    assert_eq!(refused(513, 130), Refusal::BadSize);
}

#[test]
fn simplification() {
    let twice = [[0, 0], [0, 0], OLD, OLD, OLD];
    // P3, and the 4 by 4 square keeps all five.
    assert_eq!(put(|out| remove_staircase(&PIXEL, false, out)), (Ok(2), twice));
    assert_eq!(put(|out| simplify(&PIXEL, true, out)), (Ok(2), twice));
    assert_eq!(put(|out| simplify(&SQUARE, true, out)), (Ok(5), SQUARE));
    // P4, P5, P6
    assert_eq!(put(|out| limit_penalties(&[[7, 7]], out)), (Ok(2), [[7, 7], [7, 7], OLD]));
    assert_eq!(put(|out| limit_penalties(&LINE[..2], out)), (Ok(1), [[0, 0], OLD]));
    let back = [[0, 0], [100, 0], [0, 0]];
    assert_eq!(put(|out| limit_penalties(&back, out)), (Ok(2), [[0, 0], [0, 0], OLD]));
    // "Room is judged on n alone: n places, 2 where n is 1"
    assert_eq!(put(|out| simplify(&PIXEL, true, out)), (Err(Refusal::NoRoom), [OLD; 4]));
    assert_eq!(put(|out| limit_penalties(&[[7, 7]], out)), (Err(Refusal::NoRoom), [OLD; 1]));
    assert_eq!(simplify(&[], true, &mut []), Ok(0));
    assert_eq!(simplify(&[[0, 16384]], true, &mut []), Err(Refusal::BadPoint));
    assert_eq!(simplify(&[[0, 16383]; 4097], true, &mut []), Err(Refusal::TooMany));
    assert_eq!(simplify(&[[0, 16383]; 4096], true, &mut []), Err(Refusal::NoRoom));
}

#[test]
fn reduction() {
    // P7, P8
    assert_eq!(put(|out| simplify_radial_dist(&LINE, 25.0, out)), (Ok(2), [LINE[0], LINE[2], OLD]));
    assert_eq!(put(|out| simplify_radial_dist(&LINE, 24.0, out)), (Ok(3), LINE));
    // P10
    let (ends, mut marks) = ([[0, 0], [8, 0], OLD, OLD], [9; 5]);
    let mut out = [OLD; 4];
    assert_eq!(simplify_douglas_peucker(&ZIGZAG, 16.0, &mut out, &mut marks), Ok(2));
    assert_eq!((out, marks), (ends, [1, 0, 0, 1, 9]));
    assert_eq!(simplify_douglas_peucker(&ZIGZAG, 15.0, &mut out, &mut marks), Ok(4));
    assert_eq!((out, marks), (ZIGZAG, [1, 1, 1, 1, 9]));
    // P11, and Douglas-Peucker of one point gives it twice.
    let (mut out, mut scratch, mut marks) = ([OLD; 5], [OLD; 5], [9; 5]);
    assert_eq!(reduce(&PIXEL, 3.0, &mut out, &mut scratch, &mut marks), Ok(2));
    assert_eq!(out, [[0, 0], [0, 0], OLD, OLD, OLD]);
    assert_eq!(simplify_douglas_peucker(&LINE[1..2], 0.0, &mut out, &mut marks), Ok(2));
    assert_eq!(out, [[3, 4], [3, 4], OLD, OLD, OLD]);
}

#[test]
fn reduction_refuses() {
    let (mut out, mut scratch, mut marks) = ([OLD; 5], [OLD; 5], [9; 5]);
    let mut reduced = |tolerance, room: usize, more: usize, marked: usize| {
        let lent = (&mut out[..room], &mut scratch[..more], &mut marks[..marked]);
        let answer = reduce(&PIXEL, tolerance, lent.0, lent.1, lent.2);
        assert!(answer.is_ok() || (out, scratch, marks) == ([OLD; 5], [OLD; 5], [9; 5]));
        answer
    };
    for tolerance in [-1.0, f64::NAN, 65536.5, -INFINITY] {
        assert_eq!(reduced(tolerance, 0, 0, 0), Err(Refusal::BadTolerance));
    }
    assert_eq!(reduced(65536.0, 4, 5, 5), Err(Refusal::NoRoom));
    assert_eq!(reduced(65536.0, 5, 4, 5), Err(Refusal::NoRoom));
    assert_eq!(reduced(65536.0, 5, 5, 4), Err(Refusal::NoRoom));
    assert_eq!(reduced(-0.0, 5, 5, 5), Ok(5));
    let refused = simplify_douglas_peucker(&[], f64::NAN, &mut [], &mut []);
    assert_eq!(refused, Err(Refusal::TooFew));
    let wide = [4294967296.0, 4294967296.5];
    let refused = wide.map(|t| simplify_radial_dist(&LINE, t, &mut []));
    assert_eq!(refused, [Err(Refusal::NoRoom), Err(Refusal::BadTolerance)]);
}

#[test]
fn zooms() {
    // P9, and its tempting but wrong answer: a point's own distance, 64 for (8,2).
    let mut by = [9.0; 5];
    assert_eq!(numbers(&ZIGZAG, &mut by), Ok(4));
    assert_eq!(by, [INFINITY, 16.0, 16.0, INFINITY, 9.0]);
    assert_eq!(numbers(&ZIGZAG, &mut by[..3]), Err(Refusal::NoRoom));
    assert_eq!(numbers(&[], &mut by), Err(Refusal::TooFew));
    assert_eq!(numbers(&LINE[..1], &mut by[..1]), Err(Refusal::NoRoom));
    let ends = [[0, 0], [8, 0], OLD, OLD];
    assert_eq!(put(|out| zoom(&ZIGZAG, &by[..4], 16.0, out)), (Ok(2), ends));
    assert_eq!(put(|out| zoom(&ZIGZAG, &by[..4], 15.0, out)), (Ok(4), ZIGZAG));
    assert_eq!(
        put(|out| zoom(&ZIGZAG, &by[..4], -1.0, out)),
        (Err(Refusal::BadTolerance), [OLD; 4])
    );
    // "A zoom whose numbers are not one for each point is BadPoint" (oracle/README.md)
    assert_eq!(zoom(&ZIGZAG, &by, 15.0, &mut []), Err(Refusal::BadPoint));
}

#[test]
fn geometry() {
    assert_eq!(sqrt_bits(2.0_f64.to_bits()), 0x3ff6a09e667f3bcd);
    assert_eq!(sqrt(-0.0).to_bits(), (-0.0_f64).to_bits());
    assert_eq!(sqrt(INFINITY), INFINITY);
    assert_eq!(sqrt_bits(f64::NAN.to_bits()), 0x7ff8000000000000);
    assert_eq!(norm([16383.0, f64::NAN]), Err(Refusal::BadPoint));
    assert_eq!(norm_i32([0, i32::MIN]), Err(Refusal::BadPoint));
    assert_eq!(find_mid_point([0.0, 0.0], [0.0, INFINITY]), Err(Refusal::BadPoint));
    assert_eq!(signed_area([0, 0], [0, 16384], [1, 1]), Err(Refusal::BadPoint));
    let lines = |p2, p3, p4| find_intersection([0.0, 0.0], p2, p3, p4);
    let crossing = lines([2.0, 2.0], [0.0, 2.0], [2.0, 0.0]);
    assert_eq!(crossing, Ok(Intersection::Cross([1.0, 1.0], 0.5, 0.5)));
    let same = lines([4.0, 0.0], [1.0, 0.0], [3.0, 0.0]);
    assert_eq!(same, Ok(Intersection::Coincide([2.0, 0.0])));
    let level = lines([2.0, 0.0], [0.0, 1.0], [2.0, 1.0]);
    assert_eq!(level, Ok(Intersection::Parallel));
    assert_eq!(lines([2.0, 16383.5], [0.0, 1.0], [2.0, 1.0]), Err(Refusal::BadPoint));
}

#[test]
fn crossings() {
    let says =
        |crossing: Intersection| [crossing.outside(), crossing.inside(), crossing.coincide()];
    let cross = |mua, mub| says(Intersection::Cross([1.0, 1.0], mua, mub));
    assert_eq!(cross(0.5, 0.5), [false, true, false]);
    // "ratios NaN and 5 are outside, NaN and 0.5 inside; it coincides if both are NaN"
    assert_eq!(cross(f64::NAN, 5.0), [true, false, false]);
    assert_eq!(cross(f64::NAN, 0.5), [false, true, false]);
    assert_eq!(cross(f64::NAN, f64::NAN), [false, true, true]);
    assert_eq!(says(Intersection::Coincide([1.0, 1.0])), [false, true, true]);
    assert_eq!(says(Intersection::Parallel), [false; 3]);
}

#[test]
fn smoothing() {
    let square = SQUARE.map(|[x, y]| [f64::from(x), f64::from(y)]);
    let settings = Settings { ratio: 8.0, length: 1.0 };
    let round = |corners: [u8; 4], settings, room: usize, more: usize| {
        let (mut out, mut flags) = ([[-7.0; 2]; 10], [9; 10]);
        let lent = (&mut out[..room], &mut flags[..more]);
        let answer = subdivide_keep_corners(&square, &corners, settings, true, lent.0, lent.1);
        (answer, out, flags)
    };
    // (2,-0.5) enters after (0,0); with (0,0) a corner, (2,-0.25); all corners: nothing, finished.
    let (answer, out, _) = round([0; 4], settings, 9, 9);
    assert_eq!(answer, Ok(Subdivided { points: 9, finished: false }));
    assert_eq!(out[..3], [[0.0, 0.0], [2.0, -0.5], [4.0, 0.0]]);
    let (_, out, _) = round([1, 0, 0, 0], settings, 9, 9);
    assert_eq!(out[1], [2.0, -0.25]);
    let (answer, out, flags) = round([1; 4], settings, 9, 9);
    assert_eq!(answer, Ok(Subdivided { points: 5, finished: true }));
    assert_eq!((&out[..5], out[5]), (&square[..], [-7.0; 2]));
    assert_eq!(flags, [1, 1, 1, 1, 9, 9, 9, 9, 9, 9]);
    // Refused, by the lowest number, with nothing written.
    for (flag, ratio, room, more, refusal) in [
        (2, 0.5, 8, 8, Refusal::BadFlags),
        (0, 0.5, 8, 8, Refusal::BadSettings),
        (0, 8.0, 8, 9, Refusal::NoRoom),
        (0, 8.0, 9, 8, Refusal::NoRoom),
    ] {
        let settings = Settings { ratio, length: 1.0 };
        let (answer, out, flags) = round([0, flag, 0, 0], settings, room, more);
        assert_eq!((answer, out, flags), (Err(refusal), [[-7.0; 2]; 10], [9; 10]));
    }
}

#[test]
fn corners() {
    let right = Pair { c: 0, s: 1 };
    let mut flags = [9; 5];
    assert_eq!(find_corners(&SQUARE, right, true, &mut flags), Ok(4));
    assert_eq!(flags, [1, 1, 1, 1, 9]);
    assert_eq!(find_corners(&[[0, 0], [4, 0], [8, 0]], right, false, &mut flags), Ok(3));
    assert_eq!(flags, [1, 0, 1, 1, 9]);
    // Document 02, 2/13: pegs entered twice, inside and at both ends; a closed list of equal points.
    assert_eq!(find_corners(&[[0, 0], [4, 0], [4, 0], [8, 0]], right, false, &mut flags), Ok(4));
    assert_eq!(flags, [1, 0, 0, 1, 9]);
    assert_eq!(find_corners(&[[0, 0], [0, 0], [4, 4], [4, 4]], right, false, &mut flags), Ok(4));
    assert_eq!(flags, [1, 0, 0, 1, 9]);
    assert_eq!(find_corners(&[[7, 7]; 5], right, true, &mut flags), Ok(4));
    assert_eq!(flags, [0, 0, 0, 0, 9]);
    for (c, s, refusal) in [(0, 0, true), (-1001, 1, true), (0, 1001, true), (-1000, 1000, false)] {
        let answer = find_corners(&SQUARE, Pair { c, s }, true, &mut flags);
        assert_eq!(answer == Err(Refusal::BadSettings), refusal);
    }
    assert_eq!(find_corners(&SQUARE, right, false, &mut flags[..4]), Err(Refusal::NoRoom));
    assert_eq!(find_corners(&[], right, true, &mut []), Err(Refusal::TooFew));
}

#[test]
fn spirals() {
    // P12; "size 0 gives none, size 1 gives (0,0)"
    let points = |size| {
        let mut spiral = Spiral::new(size).unwrap();
        std::iter::from_fn(move || spiral.advance().unwrap()).collect::<Vec<Point>>()
    };
    assert_eq!(points(2), [[0, 0], [1, 0], [1, 1], [0, 1]]);
    assert_eq!((points(0), points(1)), (vec![], vec![[0, 0]]));
    assert_eq!(points(512).len(), 512 * 512);
    assert_eq!(Spiral::new(513), Err(Refusal::BadSize));
    // "A refused step leaves the state as it came."
    let mut bad = Spiral { dir: 4, ..Spiral::new(2).unwrap() };
    let old = bad;
    assert_eq!((bad.advance(), bad), (Err(Refusal::BadSize), old));
}

#[test]
fn frames() {
    let mut out = vec![b'.'; 32768];
    let mut ask =
        |line: &str, at| answer(line.as_bytes(), &mut out, at).map(|next| out[at..next].to_vec());
    let said = ask("0101000100010000000080", 0).unwrap();
    assert_eq!(said, b"810000050000000000010000000100010000000100000000");
    for line in ["", "0", "0x", "05", "0102000100010000000080", "010100010001000000008000"] {
        assert_eq!(ask(line, 7).unwrap(), b"ff0b0000");
    }
    assert_eq!(ask("", 32768 - 7), None);
    assert_eq!(ask("", usize::MAX), None);
}

#[test]
fn numbers_of_refusals() {
    let numbers = (0..=255).filter_map(Refusal::of_number).map(Refusal::number);
    assert!(numbers.eq(1..=12));
}
