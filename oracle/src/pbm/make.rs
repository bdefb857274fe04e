//! Cases for the crate `pbm`: pictures in every spelling, damaged ones, and charts to be written.

use super::written;
use crate::chart::{draw, Chart};
use crate::random::Random;
use crate::text::{Line, MOST_BYTES, MOST_ROOM};

/// Space, TAB, LF, VT, FF and CR.
const WHITES: [u8; 6] = [b' ', 9, 10, 11, 12, 13];

/// What stands right beside a byte that means something, and others that mean nothing.
const OTHERS: [u8; 16] = *b"x/:2!\"$-+,\0\x08\x0e\x1f\x85\xa0";

/// Sizes at which something changes.
const EDGES: [usize; 12] = [0, 1, 7, 8, 9, 16, 17, 511, 512, 513, 514, 1024];

pub fn make(random: &mut Random, _: u64, case: &mut Line) {
    if random.once_in(8) {
        make_write(random, case);
    } else {
        make_read(random, case);
    }
}

fn make_read(random: &mut Random, case: &mut Line) {
    let (width, height) = sizes(random);
    let file = file(random, width, height);
    let room = room(random, width.div_ceil(8) * height);
    case.word("read_pbm").bytes(&file).number(room);
}

/// A picture of any sizes.
pub fn any(random: &mut Random) -> Vec<u8> {
    let (width, height) = sizes(random);
    file(random, width, height)
}

/// A picture of these sizes, mostly; as it should be, or damaged.
fn file(random: &mut Random, width: usize, height: usize) -> Vec<u8> {
    let plain = random.once_in(2) && width * height < 30_000;
    let mut file = match random.below(64) {
        0 => rubbish(random),
        _ => picture(random, plain, width, height),
    };
    damage(random, &mut file);
    file.truncate(MOST_BYTES);
    file
}

fn make_write(random: &mut Random, case: &mut Line) {
    let mut chart = match random.below(8) {
        0..=2 => draw::about_eight(random),
        3 => draw::thin(random),
        4 => draw::refused(random),
        5 if random.once_in(64) => draw::noise(random, 512, 512),
        _ => {
            let (width, height) = (random.within(1, 20), random.within(1, 6));
            draw::noise(random, width as usize, height as usize)
        }
    };
    if random.once_in(4) {
        chart.bytes.extend([0x5a, 0xff]);
    }
    let need = if chart.is_bad() { chart.bytes.len() } else { written(&chart).len() };
    chart.write(case.word("write_pbm")).number(room(random, need));
}

/// Mostly small ones.
fn sizes(random: &mut Random) -> (usize, usize) {
    let small = |random: &mut Random| random.within(1, 6) as usize;
    match random.below(16) {
        0 => (random.pick(&EDGES), small(random)),
        1 => (small(random), random.pick(&EDGES)),
        2 if random.once_in(16) => (random.pick(&EDGES), random.pick(&EDGES)),
        3 if random.once_in(8) => (random.within(1, 512) as usize, random.within(1, 64) as usize),
        4..=7 => ((8 * random.within(1, 4) + random.within(-1, 1)) as usize, small(random)),
        _ => (random.within(1, 20) as usize, small(random)),
    }
}

/// Exact, one short, none, or some more.
fn room(random: &mut Random, need: usize) -> usize {
    let room = match random.below(8) {
        0 => need.saturating_sub(1),
        1 if random.once_in(2) => 0,
        1 => random.below(need as u64 + 1) as usize,
        2..=4 => need,
        _ => need + random.within(1, 9) as usize,
    };
    room.min(MOST_ROOM)
}

/// A raw picture of a chart, with its padding as it is.
pub fn raw(chart: &Chart) -> Vec<u8> {
    let head = format!("P4\n{} {}\n", chart.width, chart.height);
    [head.as_bytes(), &chart.bytes].concat()
}

/// A plain one, with something before each digit.
pub fn plain(chart: &Chart, before: &str) -> Vec<u8> {
    let mut text = format!("P1\n{} {}\n", chart.width, chart.height);
    for y in 0..chart.height {
        for x in 0..chart.width {
            text += before;
            text.push(if chart.bit(x, y) { '1' } else { '0' });
        }
    }
    text.into_bytes()
}

fn rubbish(random: &mut Random) -> Vec<u8> {
    let mut bytes = b"P4"[..random.below(3) as usize].to_vec();
    bytes.extend((0..random.scaled(6)).map(|_| random.next() as u8));
    bytes
}

/// A picture of these sizes, and often something behind it.
fn picture(random: &mut Random, plain: bool, width: usize, height: usize) -> Vec<u8> {
    let mut file = magic(random, plain).to_vec();
    let wild = random.once_in(3);
    put_gap(random, wild, &mut file);
    put_number(random, width, &mut file);
    put_gap(random, wild, &mut file);
    put_number(random, height, &mut file);
    put_delimiter(random, wild, &mut file);
    if plain {
        put_digits(random, width, width * height, &mut file);
    } else {
        file.extend(draw::noise(random, width, height).bytes);
    }
    match random.below(8) {
        0 => file.push(b'\n'),
        1 => file.extend(b"P4\n1 1\n\x80"),
        2 => file.extend((0..random.below(4)).map(|_| random.next() as u8)),
        _ => {}
    }
    file
}

/// Now and then that of another kind of picture, or of none.
fn magic(random: &mut Random, plain: bool) -> &'static [u8] {
    const NONE: [&[u8]; 14] = [
        b"P2", b"P3", b"P5", b"P6", b"P7", b"P0", b"P8", b"p4", b"p1", b"Q4", b"4P", b"PP", b"P",
        b"",
    ];
    match random.below(32) {
        0 => random.pick(&NONE),
        _ if plain => b"P1",
        _ => b"P4",
    }
}

/// What parts two words of a header: one space or newline, or a wilder spelling.
fn put_gap(random: &mut Random, wild: bool, file: &mut Vec<u8>) {
    if !wild {
        return file.push(random.pick(b" \n"));
    }
    match random.below(24) {
        0 => {}
        1 => file.push(random.pick(&OTHERS)),
        _ => {
            for _ in 0..random.within(1, 4) {
                match random.below(4) {
                    0 => put_comment(random, file),
                    1 => file.push(random.pick(&WHITES)),
                    _ => file.push(random.pick(b" \t\n\r")),
                }
            }
        }
    }
}

/// A comment, its line ended by LF or CR.
fn put_comment(random: &mut Random, file: &mut Vec<u8>) {
    file.push(b'#');
    for _ in 0..random.below(4) {
        file.push(random.pick(b"a1 #0\t\x0b\x0c\0\xff"));
    }
    file.push(random.pick(b"\n\n\r"));
}

/// A size; now and then with zeros before it, or one that a word of 32 or 64 bits would take for it, or a long one.
fn put_number(random: &mut Random, size: usize, file: &mut Vec<u8>) {
    let zeros = match random.below(256) {
        0 => random.pick(&[1, 2, 9, 10, 18, 19, 20, 1000]),
        1..=15 => random.within(1, 3) as usize,
        _ => 0,
    };
    file.extend(vec![b'0'; zeros]);
    match random.below(256) {
        0 => {
            file.extend((size as u128 + (1 << random.pick(&[16, 31, 32, 64]))).to_string().bytes())
        }
        1 => file.extend(vec![b'9'; random.pick(&[4, 9, 10, 19, 20, 21, 1000])]),
        2 => {}
        _ => file.extend(size.to_string().bytes()),
    }
}

/// What parts the header from the raster: one white space mostly.
fn put_delimiter(random: &mut Random, wild: bool, file: &mut Vec<u8>) {
    match random.below(32) {
        0 => file.push(random.pick(&OTHERS)),
        1 if wild => {}
        2..=5 if wild => put_comment(random, file),
        6..=9 => file.push(random.pick(&WHITES)),
        _ => file.push(b'\n'),
    }
}

/// The digits of a plain raster: in a row, parted by spaces, by any white space, or with what should not be there.
fn put_digits(random: &mut Random, width: usize, count: usize, file: &mut Vec<u8>) {
    let style = random.below(16);
    for place in 0..count {
        if place > 0 && place % width == 0 && random.once_in(2) {
            file.push(b'\n');
        }
        match style {
            0..=3 => {}
            4..=7 => file.push(b' '),
            8..=10 => (0..random.below(3)).for_each(|_| file.push(random.pick(b" \t\r\n"))),
            11 => (0..random.below(3)).for_each(|_| file.push(random.pick(&WHITES))),
            12..=13 if random.once_in(count as u64) => put_comment(random, file),
            14 if random.once_in(2 * count as u64) => file.push(random.pick(&OTHERS)),
            _ => {}
        }
        file.push(random.pick(b"01"));
    }
}

/// Cuts the file, or changes, adds or takes away a byte; mostly leaves it.
fn damage(random: &mut Random, file: &mut Vec<u8>) {
    if file.is_empty() {
        return;
    }
    let place = match random.below(4) {
        0 => random.below(file.len() as u64) as usize,
        1 => file.len() - 1 - random.below(file.len().min(4) as u64) as usize,
        _ => random.below(file.len().min(20) as u64) as usize,
    };
    match random.below(32) {
        0 | 1 => file.truncate(place),
        2 => file[place] = random.next() as u8,
        3 => file[place] = random.pick(b"P14# \n\r\x0b\x0c059/:"),
        4 => file.insert(place, random.pick(b"P14# \n\r\x0b\x0c059/:")),
        5 => _ = file.remove(place),
        _ => {}
    }
}
