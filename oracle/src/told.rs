//! Which fixed cases tell that a rule was changed: those that are answered otherwise than they should be.

use crate::text::Line;
use crate::{bank_sizes, held, panics, Subject};
use std::collections::BTreeMap;
use std::io;

/// Prints for each call of a subject how many of its cases tell, and ends. A panic tells too. Lines of other subjects may
/// stand between them.
pub fn told(subject: Subject, cases: &str, answers: &str) -> io::Result<()> {
    held::let_go();
    let (cases, answers) = (std::fs::read(cases)?, std::fs::read(answers)?);
    let cases = cases.strip_suffix(b"\n").unwrap_or(&cases);
    let answers = answers.strip_suffix(b"\n").unwrap_or(&answers);
    let mut told: BTreeMap<String, u64> = BTreeMap::new();
    let mut text = Vec::new();
    for (case, expected) in cases.split(is_end).zip(answers.split(is_end)) {
        if !subject.calls.is_empty() && !subject.has_call(first_word(case)) {
            continue;
        }
        text.clear();
        let answered = panics::caught(|| subject.answer_line(case, &mut text));
        if answered.is_err() {
            Line::at_end_of(&mut text).word("panic");
        }
        if text != expected {
            *told.entry(call(subject, case)).or_default() += 1;
        }
    }
    for (call, count) in told {
        println!("{call} {count}");
    }
    Ok(())
}

/// Prints how many lines of the report on a sheet are others than they should be, and ends.
pub fn told_sheet(sheet: &str, report: &str) -> io::Result<()> {
    held::let_go();
    let (sheet, expected) = (std::fs::read(sheet)?, std::fs::read_to_string(report)?);
    let report = panics::caught(|| bank_sizes::text(&sheet)).unwrap_or_default();
    let (lines, others) = (report.lines().count(), expected.lines().count());
    let beside = report.lines().zip(expected.lines()).filter(|(line, other)| line != other);
    let told = beside.count() + lines.abs_diff(others);
    if told > 0 {
        println!("bank_sizes {told}");
    }
    Ok(())
}

fn is_end(b: &u8) -> bool {
    *b == b'\n'
}

fn first_word(case: &[u8]) -> &[u8] {
    case.split(|&b| b == b' ').next().unwrap_or(case)
}

/// The first word; of a frame its kind.
fn call(subject: Subject, case: &[u8]) -> String {
    let word = first_word(case);
    let word = if subject.name == "frames" { &word[..word.len().min(2)] } else { word };
    String::from_utf8_lossy(word).into_owned()
}
