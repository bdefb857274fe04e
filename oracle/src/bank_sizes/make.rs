//! Sheets of all kinds: good lists of any length, every kind of bad line, good and bad first lines.

use crate::areas::shapes;
use crate::frames::make::{line as any_frame, listed};
use crate::frames::{digits, MOST_BYTES};
use crate::random::Random;

pub fn file(random: &mut Random) -> Vec<u8> {
    if random.once_in(64) {
        return Vec::new();
    }
    let (first, end) = (first_line(random), ending(random));
    let mut lines = vec![first];
    let count = random.pick(&[0, 1, 2, 5, 10, 20, 40]);
    lines.extend((0..count).map(|_| line(random)));
    let mut file = lines.join(end);
    let behind: &[u8] = random.pick(&[b"", b"\n", b"\n", b"\n", b"\n\n", b"\r\n", b" \n", b"\0"]);
    file.extend(behind);
    file
}

/// What stands between lines.
fn ending(random: &mut Random) -> &'static [u8] {
    if random.once_in(32) {
        b"\r\n"
    } else {
        b"\n"
    }
}

fn first_line(random: &mut Random) -> Vec<u8> {
    if random.once_in(8) {
        return bad_first_line(random);
    }
    let number = match random.below(8) {
        0 => 0,
        1 => 1 << 32,
        2 => random.scaled(32),
        3 => random.below(1 << 32),
        4 => (1 << 32) - 1,
        _ => random.below(100),
    };
    let number = number.to_string();
    let zeros = match random.below(16) {
        0 => random.below(40) as usize,
        1 => 2 * MOST_BYTES - number.len() - random.below(3) as usize,
        _ => 0,
    };
    ("0".repeat(zeros) + &number).into()
}

/// Beyond the range, too long, or not of digits alone.
fn bad_first_line(random: &mut Random) -> Vec<u8> {
    let number = random.below(100).to_string();
    match random.below(16) {
        0 => b"4294967297".to_vec(),
        1 => (u128::from(random.next()) + (1 << 32) + 1).to_string().into(),
        2 => b"9".repeat(random.within(11, 60) as usize),
        3 => b"0".repeat(2 * MOST_BYTES + random.within(1, 3) as usize),
        4 => b"0".repeat(random.pick(&[65_536, 1_000_000])),
        5 => Vec::new(),
        6 => digits(&listed(vec![4], &[0, 0])).into(),
        7 => b"18446744073709551616".to_vec(),
        8 | 9 => {
            let before: &str = random.pick(&["+", "-", " ", "\t", "\0", "0x", "\u{b2}", "/", ":"]);
            (before.to_string() + &number).into()
        }
        _ => {
            let behind: &str =
                random.pick(&[" ", "\t", "\r", "\0", ".0", "e3", ",", " 0", "a", "\u{b2}", ":"]);
            (number + behind).into()
        }
    }
}

/// A line that is mostly a list.
fn line(random: &mut Random) -> Vec<u8> {
    match random.below(16) {
        0 => any_frame(random).into(),
        1 => odd_line(random),
        2 => far_list(random),
        3 => spoilt(random),
        _ => list(random),
    }
}

fn list(random: &mut Random) -> Vec<u8> {
    let n = match random.below(128) {
        0 if random.once_in(4) => random.pick(&[2047, 2048, 4094, 4095, 4096]),
        1..=8 => random.below(4),
        9..=12 => random.below(300),
        _ => random.below(40),
    };
    let mut line = digits(&listed(vec![4], &shapes::shape(random, n as usize)));
    if random.once_in(8) {
        line.make_ascii_uppercase();
    }
    line.into()
}

/// A list with a coordinate at a limit or beyond it.
fn far_list(random: &mut Random) -> Vec<u8> {
    let n = random.pick(&[1, 2, 3, 8]);
    let mut values = shapes::shape(random, n);
    if !values.is_empty() {
        let place = random.below(values.len() as u64) as usize;
        values[place] = random.pick(&[16383, 16384, -16383, -16384, 32767, -32768]);
    }
    digits(&listed(vec![4], &values)).into()
}

/// A list in which a character is another one, is left out, or is one too many.
fn spoilt(random: &mut Random) -> Vec<u8> {
    let mut line = list(random);
    // What tells a frame of kind 04 stands at its front.
    let most = if random.once_in(2) { line.len().min(8) } else { line.len() };
    let at = random.below(most as u64) as usize;
    let character = random.pick(b"0123456789abcdefABCDEFgG/:@` \t\r\0-xX\x7f\x80\xff");
    match random.below(8) {
        0 => _ = line.remove(at),
        1 => line.truncate(at),
        2 => line.insert(at, character),
        3 => line.push(character),
        4 => line.extend(random.pick(&["00", "0000", "00000000", "ffff", "  "]).as_bytes()),
        _ => line[at] = character,
    }
    line
}

/// No list at all, or one that is far too long.
fn odd_line(random: &mut Random) -> Vec<u8> {
    match random.below(12) {
        0..=2 => Vec::new(),
        3 | 4 => b"040000".to_vec(),
        5 => {
            let length = random.scaled(9);
            let other = |byte: u64| if byte as u8 == b'\n' { 0 } else { byte as u8 };
            (0..length).map(|_| other(random.next())).collect()
        }
        6 => vec![random.pick(b"\0 \r\t0"); random.scaled(6) as usize],
        7 if random.once_in(4) => b"04".repeat(500_000),
        8 if random.once_in(4) => vec![random.pick(b"0\0z"); 1_000_000],
        9 => {
            let length = 2 * MOST_BYTES as i64 + random.within(-3, 3);
            let list = digits(&listed(vec![4], &vec![7; 2 * 4097]));
            list.as_bytes()[..length as usize].to_vec()
        }
        10 => {
            digits(&listed(vec![random.pick(&[0, 1, 2, 3, 5, 0x84, 0x44])], &[1, 2, 3, 4])).into()
        }
        _ => random.pick(&["04", "0400", "16", "5", "ff0b0000", "0400010000"]).into(),
    }
}
