//! What of a source is no program: attributes, tests, `use` lines, and all that is of deviations only.

use crate::tokens::Source;
use std::ops::Range;

/// A comment that holds this: the item, the statement or the fields below are passed over.
const MARK: &str = "Of deviations only";
/// A comment that holds this: the rest of the file is.
const REST: &str = "What follows is of deviations only";

/// For each token whether it is passed over.
pub fn skipped(source: &Source) -> Vec<bool> {
    let mut skipped = vec![false; source.tokens.len()];
    let mut skip = |tokens: Range<usize>| {
        for token in tokens {
            skipped[token] = true;
        }
    };
    for token in 0..source.tokens.len() {
        match source.at(token) {
            "#" if source.is(token + 1, "[") => skip(token..attribute(source, token)),
            "#" => skip(token..source.behind(token + 2)),
            "use" => skip(token..source.find(token, &[";"]) + 1),
            "paper" if source.is(token + 1, "!") => wrong_arms(source, token + 2)
                .into_iter()
                .for_each(&mut skip),
            _ => (),
        }
    }
    for comment in &source.comments {
        let text = &source.text[comment.clone()];
        let below = source.tokens.partition_point(|t| t.at.start < comment.end);
        if text.contains(REST) {
            skip(below..source.tokens.len());
        } else if text.contains(MARK) {
            marked(source, below).into_iter().for_each(&mut skip);
        }
    }
    skipped
}

/// The token behind an attribute, and behind the item below it if that is a test.
fn attribute(source: &Source, token: usize) -> usize {
    let behind = source.behind(token + 1);
    let test = source.is(token + 2, "cfg") && source.is(token + 4, "test");
    if test {
        item_end(source, behind)
    } else {
        behind
    }
}

/// `paper!(r, right, Deviation => wrong, ..)`: all but the right part.
fn wrong_arms(source: &Source, open: usize) -> Vec<Range<usize>> {
    let close = source.partner(open);
    let right = source.find(open + 1, &[","]) + 1;
    let mut end = right;
    while end < close && !(source.is(end, ",") && source.is(end + 2, "=>")) {
        end = source.behind(end);
    }
    vec![open + 1..right, end..close]
}

/// What a mark is about: the fields from here on up to the next comment, wherever they stand,
/// or one item or statement.
fn marked(source: &Source, below: usize) -> Vec<Range<usize>> {
    if !source.is(below + 1, ":") {
        return std::iter::once(below..item_end(source, below)).collect();
    }
    let mut names = Vec::new();
    let mut field = below;
    while source.is(field + 1, ":") && (field == below || !comment_before(source, field)) {
        names.push(source.at(field).to_owned());
        field = source.find(field, &[",", "}"]) + 1;
    }
    let all = 0..source.tokens.len();
    let fields = all.filter(|&token| {
        source.is(token + 1, ":") && names.iter().any(|name| source.is(token, name))
    });
    fields
        .map(|field| field..source.find(field, &[",", "}", ")"]))
        .collect()
}

fn comment_before(source: &Source, token: usize) -> bool {
    let from = source.tokens[token - 1].at.end;
    let to = source.tokens[token].at.start;
    source.text[from..to].contains("//")
}

/// The token behind an item or a statement.
fn item_end(source: &Source, from: usize) -> usize {
    let mut from = from;
    while source.is(from, "#") {
        from = source.behind(from + 1);
    }
    source.behind(source.find(from, &[";", "{"]))
}
