//! The vectors of the proved list reader, by the model: both come to the same answers.

use std::fmt::Write;

use model::list::read;
use model::Refusal;

const VECTORS: &str = include_str!("../../crates/list_vectors/stdin");
const ANSWERS: &str = include_str!("../../crates/list_vectors/stdout");

/// The numbers of a line, in hexadecimal.
fn numbers(text: &str) -> Vec<u32> {
    text.split_whitespace()
        .map(|word| u32::from_str_radix(word, 16).expect("a hexadecimal number"))
        .collect()
}

/// The base with a line's edit: the place, how many words go, and those that come.
fn edited(base: &[u32], line: &[u32]) -> Vec<u32> {
    let place = (line[0] as usize).min(base.len());
    let behind = (line[0] as usize + line[1] as usize).min(base.len());
    [&base[..place], &line[2..], &base[behind..]].concat()
}

fn refused(kind: &str, refusal: Refusal) -> String {
    format!("refused{kind} {} {}", refusal.number, refusal.place)
}

/// A list alone: its words, and the data that differ from the base list's.
fn alone(base: &[u32], words: &[u32]) -> String {
    let (before, _) = read(base).expect("the base list is accepted");
    match read(words) {
        Err(refusal) => refused("", refusal),
        Ok((after, used)) => {
            let mut answer = format!("accepted {used}");
            for k in 0..51 {
                if after.get(k) != before.get(k) {
                    write!(answer, " {k}={}", after.get(k)).expect("a string takes it");
                }
            }
            answer
        }
    }
}

/// Two lists, one behind the other.
fn both(words: &[u32]) -> String {
    match read(words) {
        Err(refusal) => refused(" A", refusal),
        Ok((_, a)) => match read(&words[a..]) {
            Err(refusal) => refused(" B", refusal),
            Ok((_, b)) => format!("accepted {}", a + b),
        },
    }
}

#[test]
fn the_model_gives_the_answers_of_the_vectors() {
    let mut base = Vec::new();
    let mut answers = Vec::new();
    for line in VECTORS.lines() {
        let line = line.split('#').next().unwrap_or("");
        let Some(mode) = line.chars().next() else {
            continue;
        };
        let line = numbers(&line[1..]);
        match mode {
            '=' => base = line,
            'l' => answers.push(alone(&base, &edited(&base, &line))),
            'a' => answers.push(both(&[edited(&base, &line), base.clone()].concat())),
            'b' => answers.push(both(&[base.clone(), edited(&base, &line)].concat())),
            other => panic!("no such vector: {other}"),
        }
    }
    assert_eq!(answers.len(), 900);
    for (number, (answer, wanted)) in answers.iter().zip(ANSWERS.lines()).enumerate() {
        assert_eq!(answer, wanted, "vector {}", number + 1);
    }
    assert_eq!(answers.len(), ANSWERS.lines().count());
}
