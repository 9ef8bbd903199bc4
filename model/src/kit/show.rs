//! From a kit's bytes to the text form.

use super::{assemble, input_words, Datum, Else, Stated};
use crate::machine_data::{COUNT, HEADS};
use crate::{words, Paper};
use std::fmt::Write;

/// The first line of a kit that is shown word by word.
const PLAIN: &str = "# word by word";

/// Any bytes as text that assembles to exactly those bytes.
pub fn show(kit: &[u8]) -> String {
    let text = readable(kit);
    match assemble(&text) {
        Ok(bytes) if bytes == kit => text,
        _ => plain(kit),
    }
}

/// The text in lists, records and single words.
fn readable(kit: &[u8]) -> String {
    let words: Vec<u32> = kit.chunks_exact(4).map(word).collect();
    let mut lines = Vec::new();
    let behind_lists = lists(&words, &mut lines);
    let log = log_lines(&words[behind_lists..]);
    let tail = kit.chunks_exact(4).remainder();
    if behind_lists > 0 && !(log.is_empty() && tail.is_empty()) {
        lines.push("log".into());
    }
    lines.extend(log);
    lines.extend(tail.iter().map(|byte| format!("byte 0x{byte:02x}")));
    text(lines)
}

/// The text word by word.
fn plain(kit: &[u8]) -> String {
    let words = kit
        .chunks_exact(4)
        .map(|bytes| format!("word 0x{:08x}", word(bytes)));
    let tail = kit.chunks_exact(4).remainder();
    let tail = tail.iter().map(|byte| format!("byte 0x{byte:02x}"));
    text([PLAIN.into()].into_iter().chain(words).chain(tail))
}

fn word(bytes: &[u8]) -> u32 {
    bytes
        .iter()
        .fold(0, |word, &byte| word << 8 | u32::from(byte))
}

fn text(lines: impl IntoIterator<Item = String>) -> String {
    let mut text = String::new();
    for line in lines {
        text.push_str(&line);
        text.push('\n');
    }
    text
}

/// A list as it was found.
struct Found {
    /// Its lines without the first.
    lines: Vec<String>,
    /// ` of 67 data`, if it has as many and this is not said otherwise.
    of: String,
    /// `head ..` or `no head`, if it has another head.
    head: String,
    data: Stated,
    behind: usize,
    /// Whether all its data are there.
    complete: bool,
}

/// The lists at the front of some words, and the place behind them.
fn lists(words: &[u32], lines: &mut Vec<String>) -> usize {
    let Some(a) = list_at(words, 0, Else::Lowest, &Stated::default()) else {
        return 0;
    };
    let at_b = a.behind;
    let head = words.get(at_b).and_then(|&word| head_of(word));
    let b = match a.complete || head.is_some() {
        true => list_at(words, at_b, Else::Lowest, &a.data),
        false => None,
    };
    let Some(b) = b else {
        push_list("list A", "else lowest", &a, lines);
        return at_b;
    };
    if words[..at_b] == words[at_b..b.behind] {
        push_list("lists A and B", "else lowest", &a, lines);
        return b.behind;
    }
    push_list("list A", "else lowest", &a, lines);
    let as_a = list_at(words, at_b, Else::AsA, &a.data);
    match as_a.filter(|as_a| as_a.behind == b.behind && as_a.lines.len() < b.lines.len()) {
        Some(as_a) => push_list("list B", "else as A", &as_a, lines),
        None => push_list("list B", "else lowest", &b, lines),
    }
    b.behind
}

fn push_list(name: &str, otherwise: &str, list: &Found, lines: &mut Vec<String>) {
    lines.push(format!("{name}{}, {otherwise}{}", list.of, list.head));
    lines.extend(list.lines.iter().map(|line| format!("  {line}")));
}

/// How many data a right head says.
fn head_of(word: u32) -> Option<usize> {
    words::head_of(Paper, word)
}

/// The list at a place, if its head or its first datum is there.
fn list_at(words: &[u32], place: usize, otherwise: Else, before: &Stated) -> Option<Found> {
    let first = *words.get(place)?;
    let second = words.get(place + 1..).unwrap_or(&[]);
    let (head, place) = if head_of(first).is_some() {
        (Some(first), place + 1)
    } else if Datum::read(&words[place..], 0).is_some() {
        (None, place)
    } else if Datum::read(second, 0).is_some() {
        (Some(first), place + 1)
    } else {
        return None;
    };
    let says = head.and_then(head_of);
    let mut heads = HEADS.into_iter();
    let last = last_datum(words, place);
    let count = heads.find(|&head| last < head).unwrap_or(COUNT);
    let count = count.max(says.unwrap_or(0));
    let mut list = Found {
        lines: Vec::new(),
        of: match otherwise.count(before) == count {
            true => String::new(),
            false => format!(" of {count} data"),
        },
        head: match head {
            None => ", no head".into(),
            Some(_) if says == Some(count) => String::new(),
            Some(word) => format!(", head 0x{word:08x}"),
        },
        data: Stated {
            count,
            ..Stated::default()
        },
        behind: place,
        complete: false,
    };
    list.read(words, otherwise, before);
    Some(list)
}

/// The number of the last of the data from a place on; 0 if there is none.
fn last_datum(words: &[u32], place: usize) -> usize {
    let rest = words.get(place..).unwrap_or(&[]);
    let of_list = |word: &&u32| [words::DATUM, words::PIECE].contains(&words::kind(**word));
    let data = rest.iter().take_while(of_list);
    let last = data
        .filter(|&&word| words::kind(word) == words::DATUM)
        .last();
    last.map_or(0, |&word| (word >> 16 & 0xff) as usize)
}

impl Found {
    /// Reads data in number order, with what is damaged between them word by word.
    fn read(&mut self, words: &[u32], otherwise: Else, before: &Stated) {
        let mut unstated = None;
        let mut number = 0;
        while number < self.data.count {
            let rest = &words[self.behind..];
            if let Some((datum, length)) = Datum::read(rest, number) {
                let usual = otherwise.datum(self.data.count, number, before) == datum;
                if !usual {
                    self.lines.push(datum_line(number, datum));
                }
                unstated = usual.then_some((number, datum));
                self.data.data[number] = datum;
                self.behind += length;
                number += 1;
                continue;
            }
            if let Some((number, datum)) = unstated.take() {
                self.lines.push(datum_line(number, datum));
            }
            let Some((damaged, found)) = next_datum(rest, number, self.data.count) else {
                self.lines.push("cut".into());
                return;
            };
            push_words(&rest[..damaged], &mut self.lines);
            if found == number + 1 {
                self.lines.push(format!("skip {number}"));
            } else if found > number {
                self.lines.push(format!("skip {number}..{}", found - 1));
            }
            self.behind += damaged;
            number = found;
        }
        self.complete = true;
    }
}

/// How far the next datum of at least this number lies, and its number, in a list of so many.
fn next_datum(words: &[u32], number: usize, count: usize) -> Option<(usize, usize)> {
    for (place, &word) in words.iter().enumerate() {
        if words::kind(word) == words::HEAD || words::kind(word) == words::POSITION {
            return None;
        }
        let found = (word >> 16 & 0xff) as usize;
        if found >= number && found < count && Datum::read(&words[place..], found).is_some() {
            return Some((place, found));
        }
    }
    None
}

/// `3 = binary32 2000`
fn datum_line(number: usize, datum: Datum) -> String {
    let value = match datum {
        Datum::Whole(value) => grouped(value.into()),
        Datum::Binary32(bits) => match float(f32::from_bits(bits).into()) {
            Some(value) if value.parse().map(f32::to_bits) == Ok(bits) => {
                format!("binary32 {value}")
            }
            _ => format!("binary32 0x{bits:08x}"),
        },
        Datum::Binary64(bits) => match float(f64::from_bits(bits)) {
            Some(value) if value.parse().map(f64::to_bits) == Ok(bits) => {
                format!("binary64 {value}")
            }
            _ => format!("binary64 0x{bits:016x}"),
        },
        Datum::Open => "open".into(),
    };
    format!("{number} = {value}")
}

/// A float's value as text, if it is of handy size.
fn float(value: f64) -> Option<String> {
    let handy = value == 0.0 || (1e-6..1e12).contains(&value.abs());
    handy.then(|| format!("{value}"))
}

/// A whole number with its thousands apart if it is long.
fn grouped(number: i64) -> String {
    let digits = number.unsigned_abs().to_string();
    let mut text = String::from(if number < 0 { "-" } else { "" });
    for (place, digit) in digits.chars().enumerate() {
        if digits.len() > 5 && place > 0 && (digits.len() - place).is_multiple_of(3) {
            text.push('_');
        }
        text.push(digit);
    }
    text
}

/// The lines of a log: records, remarks, and single words.
fn log_lines(words: &[u32]) -> Vec<String> {
    let mut lines = Vec::new();
    let mut place = 0;
    let mut singles = 0;
    while place < words.len() {
        match record(&words[place..]) {
            None => {
                place += 1;
                singles += 1;
            }
            Some(first) => {
                push_words(&words[place - singles..place], &mut lines);
                singles = 0;
                place += push_records(first, &words[place..], &mut lines);
            }
        }
    }
    push_words(&words[place - singles..place], &mut lines);
    lines
}

/// A record's sides and acknowledgement.
#[derive(Clone, Copy, PartialEq, Eq)]
struct Record {
    a: (i32, u32),
    b: (i32, u32),
    acknowledged: bool,
}

impl Record {
    /// The steps from this record to another that differs in positions only.
    fn steps(&self, to: &Record) -> Option<(i64, i64)> {
        let alike = (self.a.1, self.b.1, self.acknowledged) == (to.a.1, to.b.1, to.acknowledged);
        let step = |from: i32, to: i32| i64::from(to) - i64::from(from);
        alike.then(|| (step(self.a.0, to.a.0), step(self.b.0, to.b.0)))
    }
}

fn record(words: &[u32]) -> Option<Record> {
    let seven: &[u32; 7] = words.first_chunk()?;
    let side = |words: &[u32]| {
        let lower = words::lower_of(Paper, words[1])?;
        let upper = words::upper_of(Paper, words[2])?;
        Some((words::position_of(Paper, words[0])?, upper << 16 | lower))
    };
    Some(Record {
        a: side(&seven[..3])?,
        b: side(&seven[3..6])?,
        acknowledged: words::acknowledges(Paper, seven[6])?,
    })
}

/// The line of a record and of those like it behind; how many words they are.
fn push_records(first: Record, words: &[u32], lines: &mut Vec<String>) -> usize {
    let mut steps = (0, 0);
    let mut last = first;
    let mut times = 1;
    while let Some(next) = record(&words[7 * times..]) {
        match last.steps(&next) {
            Some(found) if times == 1 || found == steps => steps = found,
            _ => break,
        }
        last = next;
        times += 1;
        if times == 65_536 {
            break;
        }
    }
    if times == 2 && steps != (0, 0) {
        (steps, times) = ((0, 0), 1);
    }
    lines.push(record_line(first, steps, times));
    7 * times
}

/// `both 0 step 100 SG1 ack times 10`
fn record_line(record: Record, steps: (i64, i64), times: usize) -> String {
    let side = |(position, inputs): (i32, u32), step: i64| {
        let step = if step == 0 {
            String::new()
        } else {
            format!(" step {}", grouped(step))
        };
        format!(
            "{}{step} {}",
            grouped(position.into()),
            input_words::show(inputs)
        )
    };
    let (a, b) = (side(record.a, steps.0), side(record.b, steps.1));
    let mut line = match a == b {
        true => format!("both {a}"),
        false => format!("A {a}, B {b}"),
    };
    if record.acknowledged {
        line.push_str(if a == b { " ack" } else { ", ack" });
    }
    if times > 1 {
        let _ = write!(line, " times {times}");
    }
    line
}

/// Lines of single words, those alike together.
fn push_words(words: &[u32], lines: &mut Vec<String>) {
    for alike in words.chunk_by(|one, other| one == other) {
        for alike in alike.chunks(65_536) {
            let times = match alike.len() {
                1 => String::new(),
                times => format!(" times {times}"),
            };
            lines.push(format!("{}{times}", word_line(alike[0])));
        }
    }
}

/// A word by its kind, or by its bits if some are where none should be.
fn word_line(word: u32) -> String {
    let bits = word & 0x0fff_ffff;
    match words::kind(word) {
        words::HEAD => format!("head {bits}"),
        words::DATUM if bits & 0x0f00_fffc == 0 => {
            format!("datum {} form {}", bits >> 16, bits & 3)
        }
        words::PIECE if bits <= 0xffff => format!("piece 0x{bits:04x}"),
        words::POSITION => format!("position {}", grouped(((word << 4) as i32 >> 4).into())),
        words::LOWER if bits <= 0xffff => format!("lower 0x{bits:04x}"),
        words::UPPER if bits <= 0xffff => format!("upper 0x{bits:04x}"),
        words::END if bits == 0 => "end".into(),
        words::END if bits == 1 => "end ack".into(),
        words::REMARK if bits == 0 => "remark".into(),
        words::REMARK => format!("remark 0x{bits:07x}"),
        _ => format!("word 0x{word:08x}"),
    }
}
