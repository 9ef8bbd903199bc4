//! A kit's run as a timing picture: SVG, for paper.

mod draw;
mod lanes;
mod svg;
mod trace;

use crate::conformance;
use crate::kit::{self, Fault};
use crate::listing;
use crate::machine_data::number;
use draw::Head;
use std::path::Path;
use trace::Seen;

/// How many cycles are drawn if no range is stated.
const USUAL: usize = 60;

/// The cycles to draw, from 1 on and both included.
#[derive(Clone, Copy, Debug, PartialEq, Eq)]
pub struct Range {
    from: usize,
    to: usize,
}

impl Range {
    /// The range, if it is one.
    pub fn new(from: usize, to: usize) -> Option<Range> {
        (1 <= from && from <= to).then_some(Range { from, to })
    }
}

impl Default for Range {
    fn default() -> Range {
        Range { from: 1, to: USUAL }
    }
}

/// The picture of a file: a kit's text if its name ends in `.txt`, else a kit's bytes.
pub fn file(file: &str, bytes: &[u8], range: Range) -> Result<String, Fault> {
    let path = Path::new(file);
    let title = path.file_stem().unwrap_or_default().to_string_lossy();
    if path.extension().is_none_or(|extension| extension != "txt") {
        return Ok(picture(&title, "", bytes, range));
    }
    let text = kit::text(bytes)?;
    let kit = kit::assemble(text)?;
    Ok(picture(&title, plain_words(text), &kit, range))
}

/// The first comment of a kit's text that quotes nothing.
fn plain_words(text: &str) -> &str {
    let mut comments = text.lines().take_while(|line| line.starts_with('#'));
    let plain = comments.find(|line| !conformance::is_quote(line));
    plain.map_or("", |line| line[1..].trim())
}

/// The picture of a kit, with a title and some plain words.
pub fn picture(title: &str, plain: &str, kit: &[u8], range: Range) -> String {
    let head = |told: &str| Head {
        title: cut(title),
        lines: [plain, told].into_iter().flat_map(wrapped).collect(),
    };
    let Ok(seen) = trace::of(kit) else {
        return draw::words(&head(&refusal(kit)));
    };
    let Range { from, to } = range;
    match seen.get(from - 1..to.min(seen.len())) {
        Some(shown @ [first, ..]) => {
            let told = told(from, shown.len(), seen.len(), first);
            draw::picture(&head(&told), from, shown.len(), &lanes::of(shown))
        }
        _ if seen.is_empty() => draw::words(&head("Accepted, 0 cycles.")),
        _ => draw::words(&head(&format!(
            "Accepted, {}: none from {from} on.",
            counted(seen.len())
        ))),
    }
}

/// The line of a kit that is refused, and what it means.
fn refusal(kit: &[u8]) -> String {
    let line = listing::list(kit);
    let number = line
        .split(' ')
        .nth(1)
        .and_then(|number| number.parse().ok());
    let meaning = number.and_then(|number: usize| REFUSALS.get(number.checked_sub(1)?));
    format!("{}: {}.", line.trim_end(), meaning.unwrap_or(&"refused"))
}

/// The causes of a refusal, from number 1 on.
const REFUSALS: [&str; 6] = [
    "list word missing, of wrong kind, number or bits",
    "datum open",
    "float stands for no whole number",
    "datum out of range",
    "SE minus not below its plus",
    "log over 16,384 words, a word missing or wrong, or the kit's size",
];

/// Which cycles are shown, of how many, and T.
fn told(from: usize, shown: usize, all: usize, first: &Seen) -> String {
    let cycles = match shown == all {
        true => counted(all),
        false => format!("Cycles {from} to {} of {all}", from + shown - 1),
    };
    let t = [&first.a, &first.b].map(|side| side.after.data().get(number::T));
    match t {
        [a, b] if a == b => format!("{cycles}, T = {a} ms."),
        [a, b] => format!("{cycles}, T = {a} ms in A, {b} ms in B."),
    }
}

/// `1 cycle`, `8 cycles`
fn counted(cycles: usize) -> String {
    match cycles {
        1 => "1 cycle".into(),
        _ => format!("{cycles} cycles"),
    }
}

/// A text in lines that have room in a picture, a few of them at most.
fn wrapped(text: &str) -> Vec<String> {
    const MOST: usize = 4;
    let letters = |text: &str| text.chars().count();
    let mut lines: Vec<String> = Vec::new();
    for word in text.split_whitespace() {
        match lines.last_mut() {
            Some(line) if letters(line) + letters(word) < svg::LINE_OF_TEXT => {
                line.push(' ');
                line.push_str(word);
            }
            _ => lines.push(cut(word)),
        }
    }
    if lines.len() > MOST {
        lines.truncate(MOST);
        lines.push("..".into());
    }
    lines
}

/// A word as far as a line of letters of any size has room for it.
fn cut(word: &str) -> String {
    const MOST: usize = 70;
    match word.char_indices().nth(MOST) {
        Some((end, _)) => format!("{}..", &word[..end]),
        None => word.into(),
    }
}
