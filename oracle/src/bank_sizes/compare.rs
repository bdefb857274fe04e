//! Runs our program `bank_sizes` on generated sheets, one after the other.

use super::make::file;
use crate::compare::{report, Differences};
use crate::random::Random;
use crate::survey::compare::run;
use std::collections::BTreeMap;
use std::io;
use std::process::ExitCode;

pub fn compare(count: u64, seed: u64, ours: &[&str]) -> io::Result<ExitCode> {
    let mut random = Random::new(seed);
    let mut differences = Differences::default();
    let mut kinds: BTreeMap<String, u64> = BTreeMap::new();
    for _ in 0..count {
        let file = file(&mut random);
        let expected = super::text(&file);
        for line in expected.lines() {
            let kind = if line.contains(' ') { "sizes" } else { line };
            *kinds.entry(kind.to_string()).or_default() += 1;
        }
        let answered = run(ours, &file)?;
        if answered != expected.as_bytes() {
            let [file, expected, answered] =
                [&file, expected.as_bytes(), &answered].map(|text| text.escape_ascii().to_string());
            differences.note(file.as_bytes(), expected.as_bytes(), answered.as_bytes());
        }
    }
    let kinds: Vec<String> = kinds.iter().map(|(kind, n)| format!("{kind} {n} times")).collect();
    println!("lines of {}", kinds.join(", "));
    report(&differences, count)?;
    Ok(if differences.count == 0 { ExitCode::SUCCESS } else { ExitCode::FAILURE })
}
