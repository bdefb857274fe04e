//! The table, in Markdown.

use crate::results::{Measured, Part};

/// Both sides beside each other.
pub fn both_sides(cases: &[Measured]) -> String {
    let head = "call | list | points | ours, instructions | the Rust's | ratio | ours, µs | the Rust's | ratio \
                | distances | roots | ours, stack | the Rust's";
    table(head, cases.iter().map(both_sides_of))
}

fn both_sides_of(case: &Measured) -> Vec<String> {
    let Measured { call, list, points, ours, rust } = case;
    let rust = rust.as_ref();
    let count =
        |of: fn(&Part) -> Option<u64>| [of(ours), rust.and_then(of)].map(|n| cell(n, grouped));
    let [our_instructions, rust_instructions] = count(|part| part.instructions);
    let [our_stack, rust_stack] = count(|part| Some(part.stack));
    let ratio = |of: fn(&Part) -> Option<f64>| {
        let two = of(ours).zip(rust.and_then(of));
        cell(two, |(ours, rust)| format!("{:.2}", ours / rust))
    };
    // One count where the two are the same.
    let two = |of: fn(&Part) -> Option<u64>| match count(of) {
        [ours, rust] if rust == "-" || rust == ours => ours,
        [ours, rust] => format!("{ours} / {rust}"),
    };
    vec![
        call.clone(),
        list.clone(),
        grouped(*points),
        our_instructions,
        rust_instructions,
        ratio(|part| part.instructions.map(|count| count as f64)),
        decimal(ours.seconds * 1e6),
        cell(rust, |part| decimal(part.seconds * 1e6)),
        ratio(|part| Some(part.seconds)),
        two(|part| part.counts.as_ref().map(|counts| counts.distances)),
        two(|part| part.counts.as_ref().map(|counts| counts.roots)),
        our_stack,
        rust_stack,
    ]
}

/// A table with a head of words and rows of cells: names, and from the third column on numbers.
fn table(head: &str, rows: impl Iterator<Item = Vec<String>>) -> String {
    let numbers = "---:|".repeat(head.split('|').count() - 2);
    let rows = rows.map(|cells| format!("| {} |\n", cells.join(" | ")));
    format!("| {head} |\n|---|---|{numbers}\n{}", rows.collect::<String>())
}

fn cell<T>(value: Option<T>, text: impl Fn(T) -> String) -> String {
    value.map_or("-".to_string(), text)
}

/// With one digit behind the point where there are few before it.
fn decimal(value: f64) -> String {
    if value < 100.0 {
        format!("{value:.1}")
    } else {
        grouped(value.round() as u64)
    }
}

/// With a comma for each thousand.
pub fn grouped(value: u64) -> String {
    if value < 1000 {
        value.to_string()
    } else {
        format!("{},{:03}", grouped(value / 1000), value % 1000)
    }
}
