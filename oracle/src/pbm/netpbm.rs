//! What netpbm itself says of the files: asked of the program that NETPBM names (oracle/netpbm/ask.c), if it does.
//!
//! A file that netpbm reads otherwise than document 02 has it must fall under a row of docs/DIFFERENCES.md: with that row's
//! manner the reader here must say what netpbm says.

use super::reader::{self, Manners, Picture};
use crate::chart::Chart;
use crate::held;
use crate::text::{Line, Words};
use std::io::{BufRead, BufReader, Write};
use std::process::{ChildStdin, ChildStdout, Command, Stdio};
use std::sync::{LazyLock, Mutex};

/// The rows, in the order of the manners.
pub const ROWS: [&str; 5] = [
    "comments in a plain raster",
    "any byte behind a size",
    "nothing behind the magic number",
    "a size of 0 or over 512",
    "VT and FF as white space",
];

static NETPBM: LazyLock<Option<Mutex<Netpbm>>> =
    LazyLock::new(|| std::env::var("NETPBM").ok().map(|program| Mutex::new(start(&program))));

struct Netpbm {
    input: ChildStdin,
    output: BufReader<ChildStdout>,
    tally: Tally,
}

/// How many files were asked for, by what came of it.
#[derive(Default)]
struct Tally {
    read: u64,
    refused: u64,
    row: [u64; ROWS.len()],
    several: u64,
    none: u64,
    /// The shortest under none.
    smallest: Option<Vec<u8>>,
    written: u64,
}

fn start(program: &str) -> Netpbm {
    let mut command = Command::new(program);
    let process = command.stdin(Stdio::piped()).stdout(Stdio::piped()).spawn();
    let mut process = process.unwrap_or_else(|error| panic!("{program}: {error}"));
    Netpbm {
        input: process.stdin.take().expect("a pipe"),
        output: BufReader::with_capacity(1 << 16, process.stdout.take().expect("a pipe")),
        tally: Tally::default(),
    }
}

/// A picture that netpbm takes.
#[derive(PartialEq, Debug)]
struct Taken {
    width: usize,
    height: usize,
    bytes: usize,
    rows: Vec<u8>,
}

impl Taken {
    fn of(picture: &Picture) -> Taken {
        let Chart { width, height, ref bytes } = picture.chart;
        Taken { width, height, bytes: picture.taken, rows: bytes.clone() }
    }
}

impl Netpbm {
    fn ask(&mut self, write: impl FnOnce(&mut Line)) -> Vec<u8> {
        let mut line = Vec::new();
        write(&mut Line::at_end_of(&mut line));
        line.push(b'\n');
        self.input.write_all(&line).expect("netpbm listens");
        line.clear();
        self.output.read_until(b'\n', &mut line).expect("netpbm answers");
        assert_eq!(line.pop(), Some(b'\n'), "netpbm has ended");
        line
    }

    fn read(&mut self, file: &[u8]) -> Option<Taken> {
        let line = self.ask(|line| _ = line.word("read").bytes(file));
        if line == b"refused" {
            return None;
        }
        let mut words = Words::of(&line);
        let mut number = || words.usize().expect("a number");
        let (width, height, bytes) = (number(), number(), number());
        Some(Taken { width, height, bytes, rows: words.bytes().expect("rows") })
    }

    fn write(&mut self, chart: &Chart) -> Vec<u8> {
        let line = self.ask(|line| _ = chart.write(line.word("write")));
        Words::of(&line).bytes().expect("a file")
    }
}

/// Counts what netpbm makes of a file beside what document 02 does.
pub fn hold_read(file: &[u8], ours: &Result<Picture, u8>) {
    let Some(netpbm) = asked() else { return };
    let mut netpbm = netpbm.lock().expect("no panic before");
    let theirs = netpbm.read(file);
    let ours = ours.as_ref().ok().map(Taken::of);
    let tally = &mut netpbm.tally;
    if ours == theirs {
        *(if ours.is_some() { &mut tally.read } else { &mut tally.refused }) += 1;
        return;
    }
    match explained(file, &theirs) {
        Some(Manners(manners)) if manners.is_power_of_two() => {
            tally.row[manners.trailing_zeros() as usize] += 1;
        }
        Some(_) => tally.several += 1,
        None => {
            tally.none += 1;
            if tally.smallest.as_ref().is_none_or(|than| file.len() < than.len()) {
                tally.smallest = Some(file.to_vec());
            }
        }
    }
}

/// The fewest manners with which the file is read as netpbm reads it.
fn explained(file: &[u8], theirs: &Option<Taken>) -> Option<Manners> {
    let mut sets: Vec<u32> = (1..1 << ROWS.len()).collect();
    sets.sort_by_key(|set| set.count_ones());
    let says = |&set: &Manners| reader::read(file, set).ok().as_ref().map(Taken::of) == *theirs;
    sets.into_iter().map(Manners).find(says)
}

/// netpbm reads the pixels from what is written, and writes it so too.
pub fn hold_written(chart: &Chart, text: &[u8]) {
    let Some(netpbm) = asked() else { return };
    let mut netpbm = netpbm.lock().expect("no panic before");
    let Chart { width, height, bytes: rows } = chart.without_padding();
    let whole = Taken { width, height, bytes: text.len(), rows };
    assert_eq!(netpbm.read(text), Some(whole), "netpbm reads what is written otherwise");
    assert_eq!(netpbm.write(chart), text, "netpbm writes otherwise");
    netpbm.tally.written += 1;
}

fn asked() -> Option<&'static Mutex<Netpbm>> {
    NETPBM.as_ref().filter(|_| held::holds())
}

/// Whether every difference has its row.
pub fn all_named() -> bool {
    NETPBM.as_ref().is_none_or(|netpbm| netpbm.lock().expect("no panic before").tally.none == 0)
}

/// What came of all files.
pub fn held() -> String {
    let Some(netpbm) = NETPBM.as_ref() else { return "netpbm was not asked".to_string() };
    let Tally { read, refused, row, several, none, ref smallest, written } =
        netpbm.lock().expect("no panic before").tally;
    let files = read + refused + row.iter().sum::<u64>() + several + none;
    let mut says = format!("beside netpbm, {files} files: {read} read alike, {refused} refused");
    for (name, count) in ROWS.iter().zip(row) {
        says += &format!("; {count} under '{name}'");
    }
    says += &format!("; {several} under two rows or more; {none} under none");
    if let Some(file) = smallest {
        says += &format!(", the smallest: {}", String::from_utf8_lossy(&hexadecimal(file)));
    }
    says + &format!("\nnetpbm reads and writes {written} written files alike")
}

fn hexadecimal(bytes: &[u8]) -> Vec<u8> {
    let mut text = Vec::new();
    Line::at_end_of(&mut text).bytes(bytes);
    text
}
