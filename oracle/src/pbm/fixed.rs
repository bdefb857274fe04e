//! The fixed list of the crate `pbm`.

use super::make::{make, plain, raw};
use super::{reader, written};
use crate::chart::{draw, Chart};
use crate::random::Random;
use crate::reduce::fixed::fixed_random;
use crate::text::{Cases, MOST_BYTES, MOST_ROOM};
use reader::Manners;

pub fn fixed(cases: &mut Cases) {
    every_byte(cases);
    gaps(cases);
    comments(cases);
    numbers(cases);
    sizes(cases);
    orders(cases);
    rasters(cases);
    cut(cases);
    pictures(cases);
    write_sizes(cases);
    write_refusals(cases);
    largest(cases);
    fixed_random(cases, make, 12, 600);
    for line in BAD_LINES {
        cases.line(line);
    }
}

fn read(cases: &mut Cases, file: &[u8], room: usize) {
    cases.case(|case| _ = case.word("read_pbm").bytes(file).number(room));
}

fn write(cases: &mut Cases, chart: &Chart, room: usize) {
    cases.case(|case| _ = chart.write(case.word("write_pbm")).number(room));
}

/// The front of the file, a piece in the middle, the rest.
fn with(front: &[u8], piece: &[u8], rest: &[u8]) -> Vec<u8> {
    [front, piece, rest].concat()
}

/// Every byte there is in every place that means something: both of the magic number, before each size, a size and a
/// digit of it, between the header and the raster, in a comment before the sizes and behind them, in both rasters, and where
/// a comment would begin.
fn every_byte(cases: &mut Cases) {
    let places: [(&[u8], &[u8]); 19] = [
        (b"", b"P4 1 1 \x80"),
        (b"", b"4 1 1 \x80"),
        (b"P", b" 1 1 1"),
        (b"P4", b"1 1 \x80"),
        (b"P4 ", b"1 1 \x80"),
        (b"P4 1", b"1 \x80"),
        (b"P4 ", b" 1 \xff\xff"),
        (b"P4 1 ", b" \x80\x80\x80\x80\x80\x80\x80\x80\x80"),
        (b"P4 1 1", b"\x80"),
        (b"P1 1 1", b"1"),
        (b"P4#1", b"1 1 \x80"),
        (b"P4 1 1#", b"\x80"),
        (b"P1 2 1 1", b"1"),
        (b"P1 2 1 1", b""),
        (b"P4 8 1 ", b""),
        (b"P4 ", b"c\n1 1 \x80"),
        (b"P4 1 ", b"c\n1 \x80"),
        (b"P4 1 1", b"c\n\x80"),
        (b"P1 2 1 1", b"c\n1"),
    ];
    for (front, rest) in places {
        for byte in 0..=255 {
            read(cases, &with(front, &[byte], rest), 9);
        }
    }
}

/// Every two kinds of white space and comments before each size and behind the last, and none; both kinds of picture.
fn gaps(cases: &mut Cases) {
    let pieces: [&[u8]; 10] =
        [b"", b" ", b"\t", b"\n", b"\x0b", b"\x0c", b"\r", b"#\n", b"#1 \r", b"x"];
    for a in pieces {
        for b in pieces {
            let gap = [a, b].concat();
            read(cases, &with(b"P4", &gap, b"9 1 \xff\xff"), 3);
            read(cases, &with(b"P4 9", &gap, b"1 \xff\xff"), 3);
            read(cases, &with(b"P4 9 1", &gap, b"\xff\xff\x01"), 3);
            read(cases, &with(b"P1 1 1", &gap, b"1"), 3);
        }
    }
}

fn comments(cases: &mut Cases) {
    let files: [&[u8]; 31] = [
        b"#c\nP4 1 1 \x80",
        b"P#c\n4 1 1 \x80",
        b" \n P1 1 1 1",
        b"P4#\n1#\n1#\n\x80",
        b"P4#\r1#\r1#\r\x80",
        b"P4#\r\n1#\r\n1#\n\x80",
        b"P4#c\n#d\n  #e\r\r1 1 \x80",
        b"P4##\n1 1 \x80",
        b"P4 #P1 2 2\n1 1 \x80",
        b"P4 1#2\n1 \x80",
        b"P4 1#\n2 \x80\x80",
        b"P4 1 1#\n2 \x80",
        b"P4 8 1#\r\n\xff",
        b"P4 8 1#\n\n\xff",
        b"P4 8 1 #\n\xff",
        b"P4 8 1 \n\xff",
        b"P4 8 1\r\n\xff",
        b"P4 8 1\n\x23\n",
        b"P1 2 1#1\n11",
        b"P1 2 1 #\n11",
        b"P1 2 1 1#\n1",
        b"P1 2 1 11#",
        b"P1 1 1#\x0b1\n1",
        b"P1 1 1#\x0c1\n0",
        b"P4#",
        b"P4#c",
        b"P4 1#",
        b"P4 1#c",
        b"P4 1 1#",
        b"P4 1 1#c",
        b"P4 0 1#c",
    ];
    for file in files {
        read(cases, file, 3);
    }
}

/// Sizes as they may be spelled, at either place.
fn numbers(cases: &mut Cases) {
    let mut spelled: Vec<String> =
        ["", "0", "00", "01", "0001", "1", "-1", "+1", "1.0", "1e1", "0x1"]
            .map(String::from)
            .to_vec();
    for zeros in [1, 2, 9, 19, 20, 1000] {
        for number in ["", "1", "9", "16"] {
            spelled.push("0".repeat(zeros) + number);
        }
    }
    // What a word of so many bits would take for 1 or 8.
    for bits in [8, 9, 10, 15, 16, 31, 32, 63, 64, 65] {
        spelled.extend([1, 8].map(|rest| ((1u128 << bits) + rest).to_string()));
    }
    spelled.extend(["5120", "5121", "5129", "5130", "1000", "9999", "00512001"].map(String::from));
    for digits in [4, 9, 10, 19, 20, 1000] {
        spelled.push("9".repeat(digits));
        spelled.push(format!("1{}", "0".repeat(digits - 1)));
    }
    for number in spelled {
        read(cases, format!("P4 {number} 1 \x7f\x7f\x7f").as_bytes(), 3);
        read(cases, format!("P4 1 {number} {}", "\x7f".repeat(16)).as_bytes(), 17);
    }
}

/// Sizes at their ends with all their pixels, in either place and in both; both kinds of picture.
fn sizes(cases: &mut Cases) {
    let mut random = Random::new(13);
    let ends = [0, 1, 2, 511, 512, 513, 514, 600, 1024];
    let small = [1, 7, 8, 9];
    let mut both: Vec<(usize, usize)> = vec![(0, 0), (0, 513), (513, 0), (513, 513)];
    for end in ends {
        both.extend(small.map(|size| (end, size)));
        both.extend(small.map(|size| (size, end)));
    }
    for (width, height) in both {
        let chart = draw::noise(&mut random, width, height);
        let room = chart.bytes.len() + 1;
        read(cases, &raw(&chart), room);
        if width * height < 1100 {
            read(cases, &plain(&chart, ""), room);
        }
    }
}

/// Several refusals at once: 12 up to the second size, then 1, then 12, and 10 last.
fn orders(cases: &mut Cases) {
    let files: [&[u8]; 40] = [
        b"",
        b"P",
        b"P4",
        b"P1",
        b"P4 ",
        b"P4 0",
        b"P4 513",
        b"P4 0 ",
        b"P4 0 x",
        b"P4 0x1 \x80",
        b"P4 513 x",
        b"P5 0 0 ",
        b"P40 0 ",
        b"P4 0 1",
        b"P4 1 0",
        b"P4 0 1x",
        b"P4 513 1x",
        b"P4 1 513x",
        b"P4 1 0 ",
        b"P4 0 0",
        b"P4 513 513",
        b"P4 0 513",
        b"P4 513 1 \xff",
        b"P1 0 1 2",
        b"P1 513 1 2",
        b"P1 1 513 1",
        b"P4 1 1",
        b"P4 1 1x\x80",
        b"P4 1 1 ",
        b"P4 9 1 \xff",
        b"P4 9 2 \xff\xff\xff",
        b"P1 1 1",
        b"P1 1 1 ",
        b"P1 1 1 2",
        b"P1 1 1 2 1",
        b"P1 9 1 11111111",
        b"P1 9 1 111111112",
        b"P1 9 1 111111110",
        b"P4 9 1 \xff\xff",
        b"P4 9 2 \xff\xff\xff\xff",
    ];
    for file in files {
        for room in [0, 1, 4] {
            read(cases, file, room);
        }
    }
}

/// Widths about multiples of eight: noise with noise in the padding, ones in the padding alone, the last pixel alone; each raw
/// and plain, with room and without, and with something behind it.
fn rasters(cases: &mut Cases) {
    let mut random = Random::new(14);
    for width in [1, 2, 7, 8, 9, 15, 16, 17, 31, 33, 64, 65] {
        for height in [1, 2, 3] {
            let noise = draw::noise(&mut random, width, height);
            let last = |x, y| (x, y) == (width - 1, height - 1);
            let last = Chart::of_rule(width, height, last).with_padding();
            let blank = Chart::blank(width, height).with_padding();
            for chart in [noise, last, blank] {
                with_rooms(cases, &raw(&chart));
                with_rooms(
                    cases,
                    &plain(&chart, random.pick(&["", " ", "\n", "\r\n", "\t \x0b\x0c"])),
                );
            }
        }
    }
    // Lines are not rows.
    for file in
        ["P1 2 2 1 0 0 1", "P1 2 2 1001", "P1 2 2 1\n0\n0\n1\n", "P1 2 2 100 1", "P1 2 2 1 001"]
    {
        with_rooms(cases, file.as_bytes());
    }
    // Nothing behind the image is looked at.
    for behind in ["0", "1", "2", "x", "\n", " 2", "#", "P4 1 1 \u{1}", "\0"] {
        read(cases, format!("P1 1 1 1{behind}").as_bytes(), 2);
        read(cases, format!("P4 1 1 \x7f{behind}").as_bytes(), 2);
    }
}

/// Rooms of none, one short, exact, and more; then one byte less of the file, and some behind it.
fn with_rooms(cases: &mut Cases, file: &[u8]) {
    let picture = reader::read(file, Manners::NONE).ok().expect("a picture");
    let need = picture.chart.bytes.len();
    let mut rooms = vec![0, need - 1, need, need + 3];
    rooms.dedup();
    rooms.into_iter().for_each(|room| read(cases, file, room));
    read(cases, &file[..picture.taken - 1], need + 1);
    read(cases, &with(file, b"\xff", b"01"), need + 1);
}

/// Every front of two pictures.
fn cut(cases: &mut Cases) {
    let files: [&[u8]; 2] =
        [b"P4\n# c\n 9 #\n3\n\xff\xff\x80\x00\x01\x7f", b"P1\n# c\n 3 #\n2\n1 01\n0 1 1\n"];
    for file in files {
        (0..=file.len()).for_each(|length| read(cases, &file[..length], 7));
    }
}

/// Pictures that other programs wrote: README.md says which.
fn pictures(cases: &mut Cases) {
    let files: [&[u8]; 11] = [
        include_bytes!("pictures/text.pbm"),
        include_bytes!("pictures/text-plain.pbm"),
        include_bytes!("pictures/grey.pbm"),
        include_bytes!("pictures/grey-plain.pbm"),
        include_bytes!("pictures/dithered.pbm"),
        include_bytes!("pictures/two.pbm"),
        include_bytes!("pictures/circle.pbm"),
        include_bytes!("pictures/circle-plain.pbm"),
        include_bytes!("pictures/circle-comment.pbm"),
        include_bytes!("pictures/gimp.pbm"),
        include_bytes!("pictures/gimp-plain.pbm"),
    ];
    for file in files {
        with_rooms(cases, file);
        let picture = reader::read(file, Manners::NONE).ok().expect("a picture");
        let room = written(&picture.chart).len();
        write(cases, &picture.chart, room);
    }
}

/// Sizes of one to three digits with noise in the padding, the last pixel alone and ones in the padding alone; rooms about the need.
fn write_sizes(cases: &mut Cases) {
    let mut random = Random::new(15);
    let mut sizes: Vec<(usize, usize)> = Vec::new();
    for width in [1, 2, 7, 8, 9, 10, 15, 16, 17, 99, 100, 101, 511, 512] {
        sizes.extend([(width, 1), (width, 3)]);
    }
    sizes.extend([9, 10, 99, 100, 511, 512].map(|height| (1, height)));
    sizes.extend([9, 10, 99].map(|height| (9, height)));
    for (width, height) in sizes {
        let noise = draw::noise(&mut random, width, height);
        let need = written(&noise).len();
        for room in [0, need - 1, need, need + 1, need + 5] {
            write(cases, &noise, room);
        }
        let last = Chart::of_rule(width, height, |x, y| (x, y) == (width - 1, height - 1));
        write(cases, &last.with_padding(), need);
        write(cases, &Chart::blank(width, height).with_padding(), need);
        // Bytes behind the last row are not written.
        let mut longer = draw::noise(&mut random, width, height);
        longer.bytes.extend([0xff, 0x55]);
        write(cases, &longer, need);
        write(cases, &longer, need + 3);
    }
    for room in 0..14 {
        write(cases, &Chart { width: 9, height: 2, bytes: vec![0xff; 4] }, room);
    }
}

/// Sizes out of range and bytes too few, with room and without.
fn write_refusals(cases: &mut Cases) {
    let full = |width, height, bytes| Chart { width, height, bytes: vec![0xff; bytes] };
    let mut charts =
        vec![full(1, 1, 0), full(8, 1, 0), full(9, 1, 1), full(9, 2, 3), full(16, 3, 5)];
    charts.extend([full(512, 1, 63), full(1, 512, 511), full(511, 2, 127)]);
    charts.extend([full(513, 1, 65), full(1, 513, 513), full(520, 2, 130), full(8, 600, 600)]);
    for size in [0, 513, 65536, 1 << 32, (1 << 61) + 1, usize::MAX] {
        charts.extend([full(size, 1, 66), full(1, size, 66), full(size, size, 66)]);
    }
    for chart in charts {
        for room in [0, 8, 700] {
            write(cases, &chart, room);
        }
    }
}

/// As large as can be: 512 by 512 raw, what fits of a plain one, all rooms and bytes that a case may have.
fn largest(cases: &mut Cases) {
    let mut random = Random::new(16);
    let noise = draw::noise(&mut random, 512, 512);
    read(cases, &raw(&noise), 32_768);
    read(cases, &raw(&noise), 32_767);
    write(cases, &noise, 32_779);
    let cut = &raw(&noise)[..32_778];
    read(cases, cut, 32_768);
    read(cases, &plain(&draw::noise(&mut random, 255, 256), ""), 8_192);
    read(cases, b"P4 1 1 \xff", MOST_ROOM);
    let mut long = b"P4 1 1 \xff".to_vec();
    long.resize(MOST_BYTES, b'1');
    read(cases, &long, 1);
}

/// Lines that are no cases.
const BAD_LINES: [&str; 24] = [
    "",
    "read_pbm",
    "read_pbm 50",
    "read_pbm 5 1",
    "read_pbm 503 1",
    "read_pbm 5g 1",
    "read_pbm 50 1 1",
    "read_pbm  50 1",
    "read_pbm 50  1",
    "read_pbm 50 1 ",
    "read_pbm 50 -1",
    "read_pbm 50 65537",
    "read_pbm 50 18446744073709551616",
    "read_pbm -- 1",
    "read_pbm 50 -",
    "read 50 1",
    "write_pbm 1 1 80",
    "write_pbm 1 1 80 8 8",
    "write_pbm 1 1 8 8",
    "write_pbm -1 1 80 8",
    "write_pbm 1 18446744073709551616 80 8",
    "write_pbm 1 1 80 65537",
    "write_pbm 1 1 8g 8",
    "writes_pbm 1 1 80 8",
];
