//! Runs our program `survey` on generated pictures, one after the other.

use crate::chart::{draw, Chart};
use crate::compare::{report, Differences};
use crate::pbm::make::{any, plain, raw};
use crate::random::Random;
use crate::text::Line;
use std::collections::BTreeMap;
use std::io::{self, Read, Write};
use std::process::{Command, ExitCode, Stdio};
use std::thread;

pub fn compare(count: u64, seed: u64, ours: &[&str]) -> io::Result<ExitCode> {
    let mut random = Random::new(seed);
    let mut differences = Differences::default();
    let mut kinds: BTreeMap<String, u64> = BTreeMap::new();
    for _ in 0..count {
        let file = picture(&mut random);
        let expected = super::text(&file);
        let kind: Vec<&str> = expected.lines().map(|line| &line[..4]).collect();
        *kinds.entry(kind.join(" ")).or_default() += 1;
        let answered = run(ours, &file)?;
        if answered != expected.as_bytes() {
            let mut case = Vec::new();
            Line::at_end_of(&mut case).bytes(&file);
            differences.note(&case, expected.as_bytes(), &answered);
        }
    }
    let kinds: Vec<String> = kinds.iter().map(|(kind, n)| format!("{kind} {n} times")).collect();
    println!("lines that begin with {}", kinds.join(", "));
    report(&differences, count)?;
    Ok(if differences.count == 0 { ExitCode::SUCCESS } else { ExitCode::FAILURE })
}

/// What our program writes for a file. It may have ended before it has read it all.
pub fn run(ours: &[&str], file: &[u8]) -> io::Result<Vec<u8>> {
    let mut program = Command::new(ours[0]);
    program.args(&ours[1..]).stdin(Stdio::piped()).stdout(Stdio::piped());
    let mut program = program.spawn()?;
    let mut input = program.stdin.take().expect("a pipe");
    let mut output = program.stdout.take().expect("a pipe");
    let mut text = Vec::new();
    thread::scope(|scope| {
        scope.spawn(move || _ = input.write_all(file));
        output.read_to_end(&mut text)
    })?;
    program.wait()?;
    Ok(text)
}

/// Small ones mostly, some as long as the program reads, and some damaged.
fn picture(random: &mut Random) -> Vec<u8> {
    let (width, height) = (random.within(1, 64) as usize, random.within(1, 64) as usize);
    let chart = match random.below(16) {
        0 | 1 => return any(random),
        2 => draw::about_long(random),
        3 => draw::thin(random),
        4 => draw::noise(random, width, height),
        7 if random.once_in(2) => rakes(random),
        5 if random.once_in(4) => draw::noise(random, 512, 512),
        6 if random.once_in(4) => draw::blobs(random, 512, 512),
        _ => draw::blobs(random, width, height),
    };
    let mut file = match random.below(4) {
        0 => plain(&chart, random.pick(&["", " ", "\n", "  ", "\r\n"])),
        _ => raw(&chart),
    };
    if random.once_in(8) {
        file.extend(b"P4 1 1 \x80");
    }
    file
}

/// Some rows with teeth on both their sides, too wide to be simplified away, joined at the left: thousands of points.
fn rakes(random: &mut Random) -> Chart {
    let (width, height) = (random.within(480, 512) as usize, 10 * random.within(1, 4) as usize);
    Chart::of_rule(width, height, |x, y| match y % 10 {
        4 | 5 => true,
        0 | 9 => x < 2,
        _ => x % 4 < 2,
    })
}
