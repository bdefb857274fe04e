//! Document 01's worked examples ("Both sides of each edge") and some of document 02, asked of the oracle.

use crate::{bank_sizes, pbm, survey, Subject};
use visioncortex::open_util::{find_intersection, find_mid_point, norm_f64, norm_i32, signed_area};
use visioncortex::{
    evaluate_penalty, PathF64, PathI32, PathSimplify, PointF64, PointI32, SubdivideSmooth,
};

fn says(name: &str, case: &str, answer: &str) {
    let mut text = Vec::new();
    Subject::named(name).expect("a name").answer_line(case.as_bytes(), &mut text);
    assert_eq!(String::from_utf8(text).expect("a line of text"), answer, "{case}");
}

fn path(points: &[(i32, i32)]) -> PathI32 {
    PathI32::from_points(points.iter().map(|&(x, y)| PointI32::new(x, y)).collect())
}

fn points(path: &PathI32) -> Vec<(i32, i32)> {
    path.iter().map(|point| (point.x, point.y)).collect()
}

const PIXEL: [(i32, i32); 5] = [(0, 0), (1, 0), (1, 1), (0, 1), (0, 0)];
const SQUARE: [(i32, i32); 5] = [(0, 0), (4, 0), (4, 4), (0, 4), (0, 0)];

/// A place behind the answer.
const OLD: &str = ",-99999";

#[test]
fn p1_one_set_pixel() {
    says("walker", "walk 1 1 1 80 0 0 10", "0 5 0,0,1,0,1,1,0,1,0,0");
    says("walker", "walk 1 1 1 80 0 0 9", &format!("10 0 {}-99999", "-99999,".repeat(8)));
}

#[test]
fn p2_start_without_exit() {
    says("walker", "walk 1 1 1 80 5 5 2", "8 0 -99999,-99999");
}

#[test]
fn start_in_the_middle_of_an_edge_is_stuck() {
    says("walker", "walk 1 2 1 c0 1 0 0", "9 0 -");
    says("walker", "walk 0 2 1 c0 1 0 0", "9 0 -");
}

#[test]
fn one_edge_is_walked_twice() {
    says("walker", "walk 1 2 2 8040 0 0 16", "0 8 0,0,1,0,1,1,2,1,2,2,1,2,1,0,0,0");
}

#[test]
fn p3_staircase() {
    let removed = PathSimplify::remove_staircase(&path(&PIXEL), false);
    assert_eq!(points(&removed), [(0, 0), (0, 0)]);
    assert_eq!(points(&path(&PIXEL).simplify(true)), [(0, 0), (0, 0)]);
    assert_eq!(points(&path(&SQUARE).simplify(true)), SQUARE);
    let two = format!("0 2 0,0,0,0{}", OLD.repeat(6));
    says("simplify", "remove_staircase 0 0,0,1,0,1,1,0,1,0,0 10", &two);
    says("simplify", "simplify 1 0,0,1,0,1,1,0,1,0,0 10", &two);
    says("simplify", "simplify 1 0,0,4,0,4,4,0,4,0,0 10", "0 5 0,0,4,0,4,4,0,4,0,0");
}

#[test]
fn p4_p5_p6_penalties() {
    let limited = |of: &[(i32, i32)]| points(&PathSimplify::limit_penalties(&path(of)));
    assert_eq!(limited(&[(7, 7)]), [(7, 7), (7, 7)]);
    assert_eq!(limited(&[(1, 2), (3, 4)]), [(1, 2)]);
    assert_eq!(limited(&[(0, 0), (100, 0), (0, 0)]), [(0, 0), (0, 0)]);
    let (a, b) = (PointI32::new(0, 0), PointI32::new(100, 0));
    assert!(evaluate_penalty(a, b, a).is_nan());
    says("simplify", "limit_penalties 7,7 4", "0 2 7,7,7,7");
    says("simplify", "limit_penalties 7,7 3", "10 0 -99999,-99999,-99999");
    says("simplify", "limit_penalties 1,2,3,4 4", "0 1 1,2,-99999,-99999");
    says("simplify", "limit_penalties 0,0,100,0,0,0 6", "0 2 0,0,0,0,-99999,-99999");
}

#[test]
fn p7_p8_radial() {
    says("reduce", "radial 4039000000000000 0,0,3,4,6,8 6", "0 2 0,0,6,8,-99999,-99999");
    says("reduce", "radial 4038000000000000 0,0,3,4,6,8 6", "0 3 0,0,3,4,6,8");
}

#[test]
fn p9_p10_numbers() {
    let infinity = "7ff0000000000000";
    let sixteen = "4030000000000000";
    let numbers = [infinity, sixteen, sixteen, infinity].join(",");
    says("reduce", "numbers 0,0,8,2,0,4,8,0 4", &format!("0 4 {numbers}"));
    let old = OLD.repeat(4);
    let at = |tolerance: &str| format!("douglas_peucker {tolerance} 0,0,8,2,0,4,8,0 8 4");
    says("reduce", &at(sixteen), &format!("0 2 0,0,8,0{old} 01000001"));
    says("reduce", &at("402e000000000000"), "0 4 0,0,8,2,0,4,8,0 01010101");
    let zoom = |tolerance: &str| format!("zoom {tolerance} 0,0,8,2,0,4,8,0 {numbers} 8");
    says("reduce", &zoom(sixteen), &format!("0 2 0,0,8,0{old}"));
    says("reduce", &zoom("402e000000000000"), "0 4 0,0,8,2,0,4,8,0");
}

#[test]
fn p11_reduce() {
    let out = ["0,0,0,0", &OLD.repeat(6)].concat();
    let scratch = ["0,0", &OLD.repeat(8)].concat();
    let case = "reduce 4008000000000000 0,0,1,0,1,1,0,1,0,0 10 10 5";
    says("reduce", case, &format!("0 2 {out} {scratch} 01eeeeeeee"));
    says("reduce", "douglas_peucker 4008000000000000 7,7 4 1", "0 2 7,7,7,7 01");
}

#[test]
fn distances_are_counted() {
    let infinity = "7ff0000000000000";
    let zero = "0000000000000000";
    // (3,0) is split off, and the two points before it lie on their span: 3 distances and 2, not 3, 2 and 1.
    let line = "0,0,1,0,2,0,3,0,3,3";
    let numbers = [infinity, zero, zero, "4012000000000000", infinity].join(",");
    says("reduce", &format!("numbers_counted {line} 5"), &format!("0 5 5 {numbers}"));
    says("split", &format!("number_waiting {line} 5"), &format!("5 {numbers}"));
    says("split", &format!("number {line} 5"), &numbers);
    let kept = format!("0 3 5 0,0,3,0,3,3{} 0100000101", OLD.repeat(4));
    says("reduce", &format!("douglas_peucker_counted {zero} {line} 10 5"), &kept);
    // At 4.5 the whole is not split, and below 0 every span is.
    says("split", &format!("mark_waiting 4012000000000000 {line} 5"), "3 0100000001");
    says("split", &format!("mark_waiting bff0000000000000 {line} 6"), "6 0101010101ee");
    says("split", &format!("mark bff0000000000000 {line} 4"), "eeeeeeee");
    says("reduce", "numbers_counted - 0", "4 0 0 -");
    says(
        "reduce",
        &format!("douglas_peucker_counted {zero} 7,7 3 1"),
        "10 0 0 -99999,-99999,-99999 ee",
    );
}

/// "For n points it is at most (n-2)(n-1)/2, or 0 below two."
#[test]
fn distances_reach_their_bound() {
    for n in 0..40 {
        let rising: Vec<String> = (0..n).map(|i| format!("{i},{}", i % 2 * i)).collect();
        let list = if n == 0 { "-".to_string() } else { rising.join(",") };
        let bound = if n < 2 { 0 } else { (n - 2) * (n - 1) / 2 };
        let marks = if n == 0 { "-".to_string() } else { "01".repeat(n) };
        let case = format!("mark_waiting 0000000000000000 {list} {n}");
        says("split", &case, &format!("{bound} {marks}"));
    }
}

#[test]
fn p12_spiral() {
    says("walker", "spiral 2", "0 0 0 0 1 0 1 0 4 0");
    says("walker", "spiral_step 0 0 0 1 0 1 0 4 0", "0 0 0 1 0 1 0 1 1 0 4 1");
    says("walker", "spiral_step 1 0 1 0 1 1 0 4 1", "0 1 0 1 1 2 -1 0 2 0 4 2");
    says("walker", "spiral_step 1 1 2 -1 0 2 0 4 2", "0 1 1 0 1 2 -1 0 2 1 4 3");
    says("walker", "spiral_step 0 1 2 -1 0 2 1 4 3", "0 0 1 -1 1 3 0 -1 2 0 4 4");
    says("walker", "spiral_step -1 1 3 0 -1 2 0 4 4", "0 none -1 1 3 0 -1 2 0 4 4");
    says("walker", "spiral 513", "1");
    says("walker", "spiral_step 0 0 4 1 0 1 0 4 0", "1 0 0 4 1 0 1 0 4 0");
    // Size 0 gives none, size 1 gives (0,0).
    says("walker", "spiral 0", "0 -1 -1 0 1 0 1 0 0 0");
    says("walker", "spiral_step -1 -1 0 1 0 1 0 0 0", "0 none -1 -1 0 1 0 1 0 0 0");
    says("walker", "spiral_step -1 -1 0 1 0 1 0 1 0", "0 0 0 -1 -1 0 1 0 1 0 1 1");
}

#[test]
fn root_of_two() {
    says("sqrt", "sqrt_bits 4000000000000000", "3ff6a09e667f3bcd");
    says("sqrt", "sqrt 8000000000000000", "8000000000000000");
    says("sqrt", "sqrt_bits bff0000000000000", "7ff8000000000000");
}

#[test]
fn two_lines_cross() {
    let at = |x, y| PointF64::new(x, y);
    let crossing = find_intersection(&at(0., 0.), &at(2., 2.), &at(0., 2.), &at(2., 0.));
    let (point, ratios) = crossing.expect("a crossing");
    assert_eq!((point, ratios.mua, ratios.mub), (at(1., 1.), 0.5, 0.5));
    assert!(ratios.inside() && !ratios.outside() && !ratios.coincide());
}

#[test]
fn the_rest_of_util() {
    let at = PointI32::new;
    assert_eq!(signed_area(at(0, 0), at(1, 0), at(1, 1)), 1);
    let (a, b) = (PointF64::new(1., 2.), PointF64::new(2., 5.));
    assert_eq!(find_mid_point(&a, &b), PointF64::new(1.5, 3.5));
    assert_eq!((norm_i32(&at(3, 4)), norm_f64(&PointF64::new(3., 4.))), (5., 5.));
}

#[test]
fn subdivision_of_a_square() {
    let square: PathF64 = path(&SQUARE).to_path_f64();
    let round = |corners: [bool; 4]| {
        let (path, _, finished) =
            SubdivideSmooth::subdivide_keep_corners(&square, &corners, 8., 1., true);
        (path.path, finished)
    };
    let (smooth, finished) = round([false; 4]);
    assert_eq!((smooth.len(), smooth[1], finished), (9, PointF64::new(2., -0.5), false));
    assert_eq!(round([true, false, false, false]).0[1], PointF64::new(2., -0.25));
    assert_eq!(round([true; 4]), (square.path.clone(), true));
}

#[test]
fn pegs_entered_twice() {
    // "The nearest earlier point that differs": the peg turns as it does when it is entered once.
    says("smooth", "corners 0 1 0 0,0,4,0,4,0,4,4 4", "0 4 01010101");
    says("smooth", "corners 0 1 0 0,0,4,0,4,0,8,1 4", "0 4 01000001");
    // "On an open list the search stops at the ends", which "stay flagged"; closed, it wraps.
    says("smooth", "corners 0 1 0 0,0,0,0,4,0,4,0 4", "0 4 01000001");
    says("smooth", "corners 0 1 1 0,0,0,0,4,0,4,0,0,0 4", "0 4 01010101");
    // "A closed list of equal points has no corners."
    says("smooth", "corners 0 1 1 7,7,7,7,7,7 2", "0 2 0000");
}

#[test]
fn tempting_but_wrong() {
    // A run does not stop at the start: it is passed in the middle of the row's upper edge.
    says("walker", "walk 1 3 1 e0 1 0 0", "9 0 -");
    // The earliest of equal distances is split first: 9 for (1,3), and less for (2,3).
    let numbers = "7ff0000000000000,4022000000000000,3fe6276276276277,7ff0000000000000";
    says("reduce", "numbers 0,0,1,3,2,3,3,0 4", &format!("0 4 {numbers}"));
    // Adding the last of two points: see P5. Letting a NaN win: see P6.
    // An integer shortcut for a penalty: here the area's square is the third side's length, and so
    // the penalty 1, but the double is less.
    let (a, b, c) = (PointI32::new(0, 0), PointI32::new(1, 2), PointI32::new(15, 20));
    assert_eq!(signed_area(a, b, c).pow(2), 4 * 25);
    assert!(evaluate_penalty(a, b, c) < 1.0);
}

/// `read_pbm` of a file.
fn picture(file: &[u8], room: usize) -> String {
    let digits: String = file.iter().map(|byte| format!("{byte:02x}")).collect();
    format!("read_pbm {digits} {room}")
}

#[test]
fn pictures_are_read() {
    // Rubbish in the padding, and a byte behind the image.
    says("pbm", &picture(b"P4 9 1\n\x81\xff\x07", 3), "0 9 1 9 8180ee");
    says("pbm", &picture(b"P1 2 2\n01 10", 2), "0 2 2 12 4080");
    says("pbm", &picture(b"P4#\n1 1#7\n\xff", 1), "0 1 1 11 80");
    says("pbm", &picture(b"P1 1 1 1", 0), "10 0 0 0 -");
}

#[test]
fn pictures_are_refused() {
    says("pbm", &picture(b"P4 0 1x", 1), "1 0 0 0 ee");
    says("pbm", &picture(b"P4 9", 1), "12 0 0 0 ee");
    says("pbm", &picture(b"P41 1 \xff", 1), "12 0 0 0 ee");
    says("pbm", &picture(b"P1 1 1 2", 0), "12 0 0 0 -");
}

#[test]
fn pictures_are_written() {
    says("pbm", "write_pbm 1 1 ff 9", "0 8 50340a3120310a80ee");
    says("pbm", "write_pbm 1 1 ff 7", "10 0 eeeeeeeeeeeeee");
    says("pbm", "write_pbm 9 1 ff 0", "1 0 -");
}

#[test]
fn pictures_are_surveyed() {
    let pixel = "810000050000000000010000000100010000000100000000\n\
                 820000020000000000000000\n840000027ff00000000000007ff0000000000000\n";
    assert_eq!(survey::text(b"P4 1 1 \x80"), pixel);
    assert_eq!(survey::text(b"P4 1 1 \x00"), "81080000\n82000000\n84040000\n");
    assert_eq!(survey::text(b"P4 1 1"), "800c0000\n");
}

#[test]
fn areas_of_lists() {
    // Clockwise, where y goes down, is above zero. No points have no area.
    says("areas", "twice_area 0,0,1,0,1,1,0,1", "0 2");
    says("areas", "twice_area 0,1,1,1,1,0,0,0", "0 -2");
    says("areas", "twice_area -", "0 0");
    // 2 - 0, 15 - 2 and 0 - 5: the last is the edge that closes the list.
    says("areas", "twice_area 1,0,3,2,2,5", "0 8");
    // Two turns round the largest square: past 32 bits.
    let square = "-16383,-16383,16383,-16383,16383,16383,-16383,16383";
    says("areas", &format!("twice_area {square},{square}"), "0 4294443024");
    says("areas", "twice_area 1,2,3", "3");
    says("areas", "twice_area 16384,0", "3");
    says("areas", &format!("twice_area 16384{}", ",1".repeat(8192)), "2");
}

#[test]
fn areas_of_kept_points_and_gaps() {
    // There and back along a diagonal, and half the square on each side of it.
    says("areas", "areas 0,0,4,0,4,4,0,4,0,0 0100010001", "0 32 0 32");
    // One half is kept, and the other is the gap from (4,4) over (0,4) to (0,0).
    says("areas", "areas 0,0,4,0,4,4,0,4,0,0 0101010001", "0 32 16 16");
    // A hill, and a larger valley behind it: 12 and -20.
    says("areas", "areas 0,0,2,-3,4,0,6,5,8,0 0100010001", "0 -8 0 -8");
    says("areas", "areas 7,5 01", "0 0 0 0");
    for flags in ["010100", "000101", "0101", "01010101", "010201"] {
        says("areas", &format!("areas 0,0,4,0,4,4 {flags}"), "6");
    }
    says("areas", "areas - 01", "4");
}

#[test]
fn areas_at_a_tolerance() {
    // At 8 the corners (4,0) and (0,4) are 8 from the diagonal, and at 32 (4,4) is 32 from the start.
    let at = |tolerance: &str, room| format!("areas_at {tolerance} 0,0,4,0,4,4,0,4,0,0 {room}");
    says("areas", &at("401e000000000000", 5), "0 32 32 0 0101010101");
    says("areas", &at("4020000000000000", 6), "0 32 0 32 0100010001ee");
    says("areas", &at("4040000000000000", 5), "0 32 0 32 0100000001");
    says("areas", &at("4040000000000000", 4), "10 eeeeeeee");
    says("areas", &at("bff0000000000000", 4), "5 eeeeeeee");
    says("areas", "areas_at 8000000000000000 7,5 1", "0 0 0 0 01");
    says("areas", "areas_at 7ff8000000000000 - 2", "4 eeee");
}

#[test]
fn totals_stay_in_i64() {
    let (most, least) = (i64::MAX, i64::MIN);
    says("areas", "together 1 -2 3 4 -5 6", "0 5 -7 9");
    says("areas", &format!("together {most} 0 0 0 {least} 0"), &format!("0 {most} {least} 0"));
    says("areas", &format!("together 0 0 {most} 0 0 1"), "10");
    says("areas", &format!("together 0 -1 0 0 {least} 0"), "10");
    says("areas", "together 9223372036854775808 0 0 -1 0 0", "bad line");
}

#[test]
fn sheets_are_reported() {
    let report = |sheet: &str| bank_sizes::text(sheet.as_bytes());
    let square = "0400050000000000040000000400040000000400000000";
    let back = "0400050000000000000004000400040004000000000000";
    assert_eq!(report(&format!("8\n{square}\n")), "32 0 32\n32 0 32\n");
    assert_eq!(report(&format!("7\n{square}\n{back}")), "32 32 0\n-32 -32 0\n0 0 0\n");
    // Refused lines count nothing, and the next one is read. An empty line is one; none follows the last newline.
    let lines = format!("07\n\n040000\n0400014000000\n04000140000000\n{square}\n\n");
    assert_eq!(report(&lines), "11\n4\n11\n3\n32 32 0\n11\n32 32 0\n");
    assert_eq!(report("8"), "0 0 0\n");
    assert_eq!(report("8\n"), "0 0 0\n");
    assert_eq!(report("8\n04000100070005\r\n040001FfFf0aA0"), "11\n0 0 0\n0 0 0\n");
    // 4,095 points are a frame, 4,096 are none.
    let list = |n: usize| format!("0\n04{n:04x}{}", "00070005".repeat(n));
    assert_eq!(report(&list(4095)), "0 0 0\n0 0 0\n");
    assert_eq!(report(&list(4096)), "11\n0 0 0\n");
}

#[test]
fn first_lines_of_sheets() {
    let zeros = "0".repeat(32_768);
    let bad = [
        "", "\n", "\n16", "+1", "-0", " 16", "16 \n", "16\t", "16\r\n", "1\0", "1e3", "1.0", "0x1",
    ];
    for first in
        bad.into_iter().chain(["4294967297", "18446744073709551616", &(zeros.clone() + "0")])
    {
        assert_eq!(bank_sizes::text(first.as_bytes()), "5\n");
    }
    for first in ["0", "0016", "4294967296", "00004294967296\n", &zeros] {
        assert_eq!(bank_sizes::text(first.as_bytes()), "0 0 0\n");
    }
}

/// Every row that files are counted under is a row of docs/DIFFERENCES.md.
#[test]
fn rows_are_written_down() {
    let text = include_str!("../../docs/DIFFERENCES.md").to_lowercase();
    for row in pbm::netpbm::ROWS.map(str::to_lowercase) {
        assert!(text.contains(&format!("\n- **{row}.** ")), "nothing about '{row}'");
    }
}
