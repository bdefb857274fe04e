//! The test oracle: answers cases as the Rust does, makes cases, and compares. See README.md.

mod all;
mod areas;
mod bank_sizes;
mod by_halves;
mod chart;
mod compare;
mod document;
mod frames;
mod held;
mod panics;
mod pbm;
mod point;
mod random;
mod reduce;
mod simplify;
mod smooth;
mod split;
mod sqrt;
mod survey;
mod text;
mod told;
mod util;
mod walker;
#[cfg(test)]
mod worked;

use random::Random;
use std::io::{self, BufRead, Read, Write};
use std::process::ExitCode;
use std::thread;
use text::{Cases, Line, Words};

const USAGE: &str = "oracle answer NAME | make NAME COUNT SEED | cases NAME | \
    compare NAME COUNT SEED OURS.. | told NAME CASES ANSWERS | survey | bank_sizes";

/// A list of 4,096 points may be split 4,096 deep.
const STACK: usize = 1 << 28;

/// What there is to one crate of the repository.
#[derive(Clone, Copy)]
pub struct Subject {
    name: &'static str,
    /// The words that its cases begin with. No two subjects share one; a frame has none.
    calls: &'static [&'static str],
    /// Answers a case, or says `None` where the line is no case.
    answer: fn(&mut Words, &mut Line) -> Option<()>,
    /// Writes the next case of a generated list, given its place in the list.
    make: fn(&mut Random, u64, &mut Line),
    /// Writes the fixed list.
    fixed: fn(&mut Cases),
}

macro_rules! subject {
    ($name:ident, [$($call:ident),*]) => {
        Subject {
            name: stringify!($name),
            calls: &[$(stringify!($call)),*],
            answer: $name::answer,
            make: $name::make::make,
            fixed: $name::fixed::fixed,
        }
    };
}

const SUBJECTS: [Subject; 13] = [
    subject!(sqrt, [sqrt_bits, sqrt]),
    subject!(by_halves, [by_halves]),
    subject!(point, [points, points_f64, tolerance, sq_tolerance]),
    subject!(chart, [pixel, area, first_start]),
    subject!(walker, [walk, spiral, spiral_step]),
    subject!(split, [mark, number, mark_waiting, number_waiting]),
    subject!(
        reduce,
        [radial, douglas_peucker, reduce, numbers, zoom, douglas_peucker_counted, numbers_counted]
    ),
    subject!(simplify, [remove_staircase, limit_penalties, simplify]),
    subject!(frames, []),
    subject!(util, [signed_area, norm, norm_i32, mid_point, intersection, ratios]),
    subject!(smooth, [corners, subdivide]),
    subject!(pbm, [read_pbm, write_pbm]),
    subject!(areas, [twice_area, areas, areas_at, together]),
];

const ALL: Subject =
    Subject { name: "all", calls: &[], answer: all::answer, make: all::make, fixed: all::fixed };

impl Subject {
    fn named(name: &str) -> Option<Subject> {
        SUBJECTS.into_iter().chain([ALL]).find(|subject| subject.name == name)
    }

    fn has_call(&self, word: &[u8]) -> bool {
        self.calls.iter().any(|call| call.as_bytes() == word)
    }

    /// Puts the answer to `line` at the end of `text`.
    fn answer_line(&self, line: &[u8], text: &mut Vec<u8>) {
        let mut answer = Line::at_end_of(text);
        if (self.answer)(&mut Words::of(line), &mut answer).is_none() {
            answer.clear().word("bad line");
        }
    }
}

fn main() -> ExitCode {
    panics::silence_caught();
    let words: Vec<String> = std::env::args().skip(1).collect();
    let work = thread::Builder::new().stack_size(STACK).spawn(move || run(&words));
    match work.expect("a thread").join() {
        Ok(Ok(code)) => code,
        Ok(Err(error)) if error.kind() == io::ErrorKind::BrokenPipe => ExitCode::SUCCESS,
        Ok(Err(error)) => {
            eprintln!("oracle: {error}");
            ExitCode::from(2)
        }
        // The panic has said what it is.
        Err(_) => ExitCode::from(2),
    }
}

fn run(words: &[String]) -> io::Result<ExitCode> {
    let words: Vec<&str> = words.iter().map(String::as_str).collect();
    let usage = || io::Error::new(io::ErrorKind::InvalidInput, USAGE);
    let number = |word: &str| word.parse::<u64>().map_err(|_| usage());
    match words[..] {
        ["survey"] => return answer_file(survey::text),
        ["bank_sizes"] => return answer_file(bank_sizes::text),
        ["cases", "bank_sizes"] => {
            io::stdout().lock().write_all(&bank_sizes::sheet::sheet())?;
            return Ok(ExitCode::SUCCESS);
        }
        ["told", "bank_sizes", sheet, report] => {
            told::told_sheet(sheet, report)?;
            return Ok(ExitCode::SUCCESS);
        }
        ["compare", "survey", count, seed, ref ours @ ..] if !ours.is_empty() => {
            return survey::compare::compare(number(count)?, number(seed)?, ours);
        }
        ["compare", "bank_sizes", count, seed, ref ours @ ..] if !ours.is_empty() => {
            return bank_sizes::compare::compare(number(count)?, number(seed)?, ours);
        }
        _ => {}
    }
    let (&command, rest) = words.split_first().ok_or_else(usage)?;
    let (&name, rest) = rest.split_first().ok_or_else(usage)?;
    let subject = Subject::named(name).ok_or_else(usage)?;
    match (command, rest) {
        ("answer", []) => answer_all(subject)?,
        ("make", [count, seed]) => make_all(subject, number(count)?, number(seed)?)?,
        ("cases", []) => {
            let mut cases = Cases::default();
            (subject.fixed)(&mut cases);
            io::stdout().lock().write_all(&cases.text)?;
        }
        ("told", [cases, answers]) => told::told(subject, cases, answers)?,
        ("compare", [count, seed, ours @ ..]) if !ours.is_empty() => {
            return compare::compare(subject, number(count)?, number(seed)?, ours);
        }
        _ => return Err(usage()),
    }
    Ok(ExitCode::SUCCESS)
}

fn answer_all(subject: Subject) -> io::Result<()> {
    let mut input = io::stdin().lock();
    let mut output = io::BufWriter::with_capacity(1 << 16, io::stdout().lock());
    let (mut line, mut answer) = (Vec::new(), Vec::new());
    while input.read_until(b'\n', &mut line)? > 0 {
        subject.answer_line(line.strip_suffix(b"\n").unwrap_or(&line), &mut answer);
        answer.push(b'\n');
        output.write_all(&answer)?;
        line.clear();
        answer.clear();
    }
    output.flush()
}

/// What a program answers that reads all of its input first.
fn answer_file(text: fn(&[u8]) -> String) -> io::Result<ExitCode> {
    let mut file = Vec::new();
    io::stdin().lock().read_to_end(&mut file)?;
    io::stdout().lock().write_all(text(&file).as_bytes())?;
    Ok(ExitCode::SUCCESS)
}

fn make_all(subject: Subject, count: u64, seed: u64) -> io::Result<()> {
    compare::feed(subject, count, seed, io::stdout().lock())
}
