//! The sheet that our program `bank_sizes` is run on.

use crate::areas::shapes;
use crate::frames::digits;
use crate::frames::make::listed;
use crate::random::Random;
use crate::reduce::shapes::stroll;
use crate::text::Cases;

const SEED: u64 = 81;

/// Tolerance 16, and every kind of line.
pub fn sheet() -> Vec<u8> {
    let mut cases = Cases::default();
    cases.line("16");
    worked(&mut cases);
    no_lists(&mut cases);
    limits(&mut cases);
    let mut random = Random::new(SEED);
    for n in 1..=12 {
        list(&mut cases, &shapes::shape(&mut random, 4 * n));
        list(&mut cases, &stroll(&mut random, 6 * n));
    }
    long_lists(&mut cases);
    // A last line without a newline.
    cases.line("04000400000000000800020000000400090000");
    cases.text.pop();
    cases.text
}

fn list(cases: &mut Cases, values: &[i32]) {
    cases.line(&digits(&listed(vec![4], values)));
}

/// Short lists: none to three points, squares both ways round, at the tolerance and beside it, repeats, lines that cross.
fn worked(cases: &mut Cases) {
    let lists = [
        &[][..],
        &[7, 5],
        &[3, 1, 4, 2],
        &[0, 0, 4, 0, 4, 4],
        &[0, 0, 4, 0, 4, 4, 0, 4, 0, 0],
        &[0, 0, 0, 4, 4, 4, 4, 0, 0, 0],
        &[0, 0, 5, 0, 5, 5, 0, 5, 0, 0],
        &[0, 0, 6, 0, 6, 6, 0, 6, 0, 0],
        &[0, 0, 8, 2, 0, 4, 9, 0],
        &[0, 0, 9, 4, 20, 0],
        &[0, 0, 9, 5, 20, 0],
        &[0, 0, 9, -5, 20, 0],
        &[0, 0, 9, 4, 20, 0, 29, 5, 40, 0],
        &[5, 5, 5, 5, 9, 20, 9, 20, -7, 3, 5, 5],
        &[1, 1, 1, 1, 1, 1],
        &[0, 0, 9, 9, 9, 0, 0, 9],
        &[-16383, -16383, 16383, -16383, 16383, 16383, -16383, 16383],
        &[16383, 16383, 16383, -16383, -16383, -16383, -16383, 16383, 16383, 16383],
    ];
    lists.iter().for_each(|values| list(cases, values));
}

/// "A line that is no well-formed kind 04 frame."
fn no_lists(cases: &mut Cases) {
    let lines = [
        "",
        "0",
        "04",
        "0400",
        "04000",
        "040001",
        "0400010007000",
        "040001000700",
        "0400010007000500",
        "0400010007000500070005",
        "0400030007000500070006",
        "040000000000",
        "0400000",
        "16",
        "5",
        " 04000100070005",
        "04000100070005 ",
        "04 000100070005",
        "04000100070005\r",
        "04000100070005\t",
        "04000100070005\0",
        "\r",
        "\0",
        "04000100070g05",
        "0400010007G005",
        "/4000100070005",
        "0400010007000:",
        "0400010007000@",
        "0400010007000`",
        "0x04000100070005",
        "00000100070005",
        "05000100070005",
        "14000100070005",
        "44000100070005",
        "84000100070005",
        "0101000100010000000080",
        "0201000100070005",
        "0300100001c0010005",
        "0401000100070005",
        // Either case is read.
        "04000300AA00BBcCCc0D0d0E0e0F0f",
        "0400030012034504560678089a0abc",
        "0400010FFf0FfF",
    ];
    lines.iter().for_each(|line| cases.line(line));
}

/// Each coordinate at its limits and beyond.
fn limits(cases: &mut Cases) {
    for edge in [16383, 16384, -16383, -16384, 32767, -32768] {
        list(cases, &[edge, 0, 3, 9, 20, 1]);
        list(cases, &[0, 0, 3, 9, 20, edge]);
        list(cases, &[0, 0, edge, edge, 20, 1]);
    }
}

/// 2,047 points and more: as many as a frame holds, one too many, and lines longer than any frame.
fn long_lists(cases: &mut Cases) {
    let hill = |n: i32| -> Vec<i32> { (0..n).flat_map(|i| [i, i * (n - i) >> 9]).collect() };
    list(cases, &hill(2047));
    list(cases, &hill(2048));
    list(cases, &hill(4095));
    list(cases, &hill(4096));
    let mut far = hill(4095);
    far[8189] = -16384;
    list(cases, &far);
    list(cases, &shapes::largest(4095));
    cases.line(&"04".repeat(16_384));
    cases.line(&"0".repeat(40_000));
}
