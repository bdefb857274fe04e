//! All subjects whose cases begin with a call, as one subject: our program `cases` answers them all.

use crate::random::Random;
use crate::text::{Cases, Line, Words};
use crate::{Subject, SUBJECTS};

fn subjects() -> impl Iterator<Item = Subject> {
    SUBJECTS.into_iter().filter(|subject| !subject.calls.is_empty())
}

/// Answers a case of the subject that has its call.
pub fn answer(words: &mut Words, answer: &mut Line) -> Option<()> {
    let call = words.clone().word()?;
    let subject = subjects().find(|subject| subject.has_call(call))?;
    (subject.answer)(words, answer)
}

/// A case of each subject in turn.
pub fn make(random: &mut Random, index: u64, case: &mut Line) {
    let subjects: Vec<Subject> = subjects().collect();
    let count = subjects.len() as u64;
    (subjects[(index % count) as usize].make)(random, index / count, case)
}

/// The fixed lists, one behind the other.
pub fn fixed(cases: &mut Cases) {
    for subject in subjects() {
        (subject.fixed)(cases);
    }
}

#[cfg(test)]
mod tests {
    use super::*;

    /// The subject that a call leads to is the only one that answers it.
    #[test]
    fn one_subject_has_a_call() {
        for subject in subjects() {
            for call in subject.calls {
                let has = |other: &Subject| other.has_call(call.as_bytes());
                assert_eq!(subjects().filter(has).count(), 1, "{call}");
            }
        }
    }
}
