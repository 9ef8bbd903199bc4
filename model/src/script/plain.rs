//! Scripts in the plain form, which a board's program reads: numbers only, a call on each line.

use super::{run, Call, Difference, Model, Script};
use std::fmt::Write;

/// The lengths of parts that may be repeated: a word, an output's cycle, a record.
const PARTS: [usize; 3] = [1, 3, 7];

/// The least numbers that a repetition is worth.
const WORTH: usize = 8;

/// The number of a call.
fn number(call: &Call) -> u32 {
    match call {
        Call::List { .. } => 1,
        Call::Report { .. } => 2,
        Call::Cycle { .. } => 3,
        Call::Device { .. } => 4,
        Call::Log { .. } => 5,
        Call::Copy { .. } => 6,
        Call::Like { .. } => 7,
        Call::State { .. } => 8,
        Call::Put { .. } => 9,
        Call::Ask { .. } => 10,
        Call::Commit { .. } => 11,
    }
}

/// Scripts in the plain form. The reports of channels are stated as the model makes them.
pub fn plain(scripts: &[Script]) -> Result<String, Difference> {
    let mut text = String::new();
    for script in scripts {
        let _ = writeln!(text, "# {}", script.name);
        for (step, done) in script.steps.iter().zip(run::<Model>(script)?) {
            let _ = write!(text, "{:x} {:x}", step.line, number(&step.call));
            put(&mut text, &done.given);
            text.push_str(" =");
            put(&mut text, &step.answer);
            text.push('\n');
        }
    }
    Ok(text)
}

/// Numbers; `*N M` stands for the last M of them N times more.
fn put(text: &mut String, mut numbers: &[u32]) {
    while let Some(&first) = numbers.first() {
        let again = |part: usize| {
            let alike = |at: &usize| numbers[*at] == numbers[at - part];
            (part..numbers.len()).take_while(alike).count() / part
        };
        let parts = PARTS.iter().map(|&part| (part, again(part)));
        let worth = parts.max_by_key(|(part, again)| part * again);
        let (part, again) = worth
            .filter(|(part, again)| part * again >= WORTH)
            .unwrap_or((1, 0));
        if again == 0 {
            let _ = write!(text, " {first:x}");
        } else {
            for number in &numbers[..part] {
                let _ = write!(text, " {number:x}");
            }
            let _ = write!(text, " *{again:x} {part:x}");
        }
        numbers = &numbers[part * (again + 1)..];
    }
}
