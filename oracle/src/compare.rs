//! Runs our program beside the oracle on the same generated cases.
//!
//! The cases are made twice, once for each side, so that none has to wait: our program may read all
//! of its input before it writes a line, and still nothing piles up here.

use crate::random::Random;
use crate::text::Line;
use crate::{areas, pbm, smooth};
use crate::{Subject, STACK};
use std::io::{self, BufRead, BufReader, BufWriter, Write};
use std::process::{Command, ExitCode, Stdio};
use std::thread;

/// Writes generated cases, one a line.
pub fn feed(subject: Subject, count: u64, seed: u64, to: impl Write) -> io::Result<()> {
    let mut to = BufWriter::with_capacity(1 << 16, to);
    let mut random = Random::new(seed);
    let mut case = Vec::new();
    for index in 0..count {
        case.clear();
        (subject.make)(&mut random, index, &mut Line::at_end_of(&mut case));
        case.push(b'\n');
        to.write_all(&case)?;
    }
    to.flush()
}

/// A case on which the two sides differ.
struct Difference {
    case: Vec<u8>,
    rust: Vec<u8>,
    ours: Vec<u8>,
}

/// How many cases differ, and the shortest of them.
#[derive(Default)]
pub struct Differences {
    pub count: u64,
    smallest: Option<Difference>,
}

impl Differences {
    pub fn note(&mut self, case: &[u8], rust: &[u8], ours: &[u8]) {
        self.count += 1;
        let shorter = |than: &Difference| case.len() < than.case.len();
        if self.smallest.as_ref().is_none_or(shorter) {
            let (case, rust, ours) = (case.to_vec(), rust.to_vec(), ours.to_vec());
            self.smallest = Some(Difference { case, rust, ours });
        }
    }
}

pub fn compare(subject: Subject, count: u64, seed: u64, ours: &[&str]) -> io::Result<ExitCode> {
    let mut program = Command::new(ours[0]);
    program.args(&ours[1..]).stdin(Stdio::piped()).stdout(Stdio::piped());
    let mut program = program
        .spawn()
        .map_err(|error| io::Error::new(error.kind(), format!("{}: {error}", ours[0])))?;
    let input = program.stdin.take().expect("a pipe");
    let output = BufReader::with_capacity(1 << 16, program.stdout.take().expect("a pipe"));
    let feeder = thread::Builder::new().stack_size(STACK);
    // A program that ends early breaks the pipe: the lines that it did not write tell of it.
    let feeder = feeder.spawn(move || feed(subject, count, seed, input).ok())?;

    let (differences, rest) = read_answers(subject, count, seed, output)?;
    feeder.join().expect("the maker of cases does not panic");
    let status = program.wait()?;
    if !status.success() {
        println!("our program ended with {status}");
    }
    if rest {
        println!("our program wrote more lines than there are cases");
    }
    match subject.name {
        "smooth" => println!("{}", smooth::held()),
        "pbm" => println!("{}", pbm::netpbm::held()),
        "areas" => println!("{}", areas::held()),
        _ => {}
    }
    report(&differences, count)?;
    let agreed = differences.count == 0 && !rest && status.success() && pbm::netpbm::all_named();
    Ok(if agreed { ExitCode::SUCCESS } else { ExitCode::FAILURE })
}

/// Holds each line of our program against the oracle's. Also answers whether lines are left over.
fn read_answers(
    subject: Subject,
    count: u64,
    seed: u64,
    mut output: impl BufRead,
) -> io::Result<(Differences, bool)> {
    let mut random = Random::new(seed);
    let mut differences = Differences::default();
    let (mut case, mut rust, mut ours) = (Vec::new(), Vec::new(), Vec::new());
    for index in 0..count {
        case.clear();
        rust.clear();
        ours.clear();
        (subject.make)(&mut random, index, &mut Line::at_end_of(&mut case));
        subject.answer_line(&case, &mut rust);
        if output.read_until(b'\n', &mut ours)? == 0 {
            println!("our program wrote {index} lines and ended");
            differences.note(&case, &rust, b"(nothing)");
            differences.count = count - index + differences.count - 1;
            break;
        }
        let ours = ours.strip_suffix(b"\n").unwrap_or(&ours);
        if ours != rust {
            differences.note(&case, &rust, ours);
        }
    }
    let rest = output.read(&mut [0])? > 0;
    Ok((differences, rest))
}

pub fn report(differences: &Differences, count: u64) -> io::Result<()> {
    let mut out = io::stdout().lock();
    writeln!(out, "agreed {} of {count}", count - differences.count)?;
    if let Some(smallest) = &differences.smallest {
        writeln!(out, "{} disagreed; the smallest:", differences.count)?;
        for (who, text) in
            [("case", &smallest.case), ("rust", &smallest.rust), ("ours", &smallest.ours)]
        {
            writeln!(out, "{who}: {}", String::from_utf8_lossy(text))?;
        }
    }
    Ok(())
}
