//! From the text form to a kit's bytes.

use super::input_words::InputWord;
use super::{Datum, Else, Stated};
use crate::machine_data::{range, COUNT};
use crate::words;
use std::fmt;

/// The most that one line may be repeated.
const MOST_TIMES: i64 = 65_536;

/// Why a text is no kit.
#[derive(Clone, Debug, PartialEq, Eq)]
pub struct Fault {
    /// The line, from 1.
    pub line: usize,
    pub reason: String,
}

impl fmt::Display for Fault {
    fn fmt(&self, f: &mut fmt::Formatter) -> fmt::Result {
        write!(f, "line {}: {}", self.line, self.reason)
    }
}

/// A file's bytes as text.
pub fn text(bytes: &[u8]) -> Result<&str, Fault> {
    std::str::from_utf8(bytes).map_err(|error| {
        let before = &bytes[..error.valid_up_to()];
        Fault {
            line: 1 + before.iter().filter(|&&byte| byte == b'\n').count(),
            reason: "no text".into(),
        }
    })
}

/// A kit's bytes from its text.
pub fn assemble(text: &str) -> Result<Vec<u8>, Fault> {
    Assembly::new(None).of(text).map(|assembly| assembly.kit)
}

/// A list's bytes from its text, which may say `else as A` of the data of a list before; and its data.
pub(crate) fn list(text: &str, before: Option<&Stated>) -> Result<(Vec<u8>, Stated), Fault> {
    let assembly = Assembly::new(before).of(text)?;
    Ok((assembly.kit, assembly.before))
}

/// The words of a line, from front to back.
pub(crate) type Tokens<'a> = std::iter::Peekable<std::vec::IntoIter<&'a str>>;

/// A kit being put together.
struct Assembly {
    kit: Vec<u8>,
    /// The list that is open.
    list: Option<List>,
    /// The data of the list before.
    before: Stated,
    /// How many lists were begun.
    lists: usize,
}

/// A list being put together.
struct List {
    bytes: Vec<u8>,
    /// The datum that comes next.
    next: usize,
    otherwise: Else,
    data: Stated,
    /// How many times the list stands in the kit.
    copies: usize,
}

impl Assembly {
    /// Nothing yet, or the data of a list before.
    fn new(before: Option<&Stated>) -> Assembly {
        Assembly {
            kit: Vec::new(),
            list: None,
            before: before.copied().unwrap_or_default(),
            lists: before.iter().count(),
        }
    }

    /// With all lines of a text.
    fn of(mut self, text: &str) -> Result<Assembly, Fault> {
        for (index, line) in text.lines().enumerate() {
            self.line(line).map_err(|reason| Fault {
                line: index + 1,
                reason,
            })?;
        }
        self.close();
        Ok(self)
    }

    fn line(&mut self, line: &str) -> Result<(), String> {
        let line = line.split('#').next().unwrap_or("");
        let line = line.replace('=', " = ").replace(',', " ");
        let tokens: Vec<&str> = line.split_whitespace().collect();
        let mut tokens = tokens.into_iter().peekable();
        let Some(first) = tokens.next() else {
            return Ok(());
        };
        match first {
            "list" | "lists" => self.open(first, &mut tokens)?,
            "log" => self.close(),
            "rest" if self.list.is_some() => self.close(),
            "rest" => return Err("no list is open".into()),
            "skip" => self.skip(&mut tokens)?,
            "cut" => self.cut(&mut tokens)?,
            "both" => self.record_of_both(&mut tokens)?,
            "A" => self.record(&mut tokens)?,
            "byte" => {
                let byte = integer(next(&mut tokens, "a byte")?, 0, 0xff, "a byte")?;
                self.repeat(&[byte as u8], &mut tokens)?;
            }
            _ if first.starts_with(|c: char| c.is_ascii_digit()) => {
                self.data(first, &mut tokens)?
            }
            _ => {
                let word = single_word(first, &mut tokens)?;
                self.repeat(&word.to_be_bytes(), &mut tokens)?;
            }
        }
        match tokens.next() {
            None => Ok(()),
            Some(surplus) => Err(format!("'{surplus}' is surplus")),
        }
    }

    /// Where bytes go at present.
    fn out(&mut self) -> &mut Vec<u8> {
        match &mut self.list {
            Some(list) => &mut list.bytes,
            None => &mut self.kit,
        }
    }

    /// `list A else lowest`, `lists A and B`
    fn open(&mut self, first: &str, tokens: &mut Tokens) -> Result<(), String> {
        self.close();
        let copies = match first {
            "lists" => {
                for wanted in ["A", "and", "B"] {
                    expect(tokens, wanted)?;
                }
                2
            }
            _ => 1,
        };
        let letter = tokens.next_if(|&token| copies == 1 && (token == "A" || token == "B"));
        match (letter, self.lists) {
            (Some("A"), 1..) => return Err("list A must be the first list".into()),
            (Some("B"), 2..) => return Err("there are two lists already".into()),
            (None, 1..) if copies == 2 => return Err("there is a list already".into()),
            _ => (),
        }
        let mut list = List {
            bytes: Vec::new(),
            next: 0,
            otherwise: Else::Lowest,
            data: Stated::default(),
            copies,
        };
        let (mut count, mut head) = (None, Some(None));
        while let Some(token) = tokens.next() {
            match token {
                "of" => count = Some(count_of_data(tokens)?),
                "else" => list.otherwise = self.otherwise(tokens)?,
                "head" => head = Some(Some(word(next(tokens, "the head word")?)?)),
                "no" => {
                    expect(tokens, "head")?;
                    head = None;
                }
                _ => {
                    return Err(format!(
                        "'{token}' is not known here: of, else, head or no head"
                    ))
                }
            }
        }
        list.data.count = count.unwrap_or(list.otherwise.count(&self.before));
        if let Some(head) = head {
            let head = head.unwrap_or(words::head(list.data.count));
            list.bytes.extend(head.to_be_bytes());
        }
        self.lists += copies;
        self.list = Some(list);
        Ok(())
    }

    /// `else lowest`, `else highest`, `else as A`
    fn otherwise(&self, tokens: &mut Tokens) -> Result<Else, String> {
        match next(tokens, "lowest, highest or as A")? {
            "lowest" => Ok(Else::Lowest),
            "highest" => Ok(Else::Highest),
            "as" if self.lists == 0 => Err("there is no list A before".into()),
            "as" => {
                expect(tokens, "A")?;
                Ok(Else::AsA)
            }
            token => Err(format!("'{token}' is not lowest, highest or as A")),
        }
    }

    /// Writes the rest of an open list.
    fn close(&mut self) {
        if let Some(mut list) = self.list.take() {
            list.write_to(list.data.count, &self.before);
            for _ in 0..list.copies {
                self.kit.extend_from_slice(&list.bytes);
            }
            self.before = list.data;
        }
    }

    fn open_list(&mut self) -> Result<(&mut List, &Stated), String> {
        match &mut self.list {
            Some(list) => Ok((list, &self.before)),
            None => Err("no list is open".into()),
        }
    }

    /// `3 = 2000`, `35..50 = binary32 100`
    fn data(&mut self, first: &str, tokens: &mut Tokens) -> Result<(), String> {
        let (list, before) = self.open_list()?;
        let (from, to) = numbers(first, list.data.count)?;
        expect(tokens, "=")?;
        let given: Vec<&str> = tokens.collect();
        list.go_to(from, before)?;
        for number in from..=to {
            let mut tokens = given.clone().into_iter().peekable();
            let datum = datum(list.data.count, number, &mut tokens)?;
            if let Some(surplus) = tokens.next() {
                return Err(format!("'{surplus}' is surplus"));
            }
            list.write(number, datum);
        }
        Ok(())
    }

    /// `skip 7`, `skip 7..9`
    fn skip(&mut self, tokens: &mut Tokens) -> Result<(), String> {
        let (list, before) = self.open_list()?;
        let (from, to) = numbers(next(tokens, "a datum's number")?, list.data.count)?;
        list.go_to(from, before)?;
        list.next = to + 1;
        Ok(())
    }

    /// `cut`, `cut 2 words`, `cut 1 byte`
    fn cut(&mut self, tokens: &mut Tokens) -> Result<(), String> {
        let Some(number) = tokens.next() else {
            let list = self.open_list()?.0;
            list.next = list.data.count;
            self.close();
            return Ok(());
        };
        let number = integer(number, 1, i64::from(u32::MAX), "a number")? as usize;
        let size = match next(tokens, "words or bytes")? {
            "word" | "words" => 4,
            "byte" | "bytes" => 1,
            token => return Err(format!("'{token}' is not words or bytes")),
        };
        let out = self.out();
        match out.len().checked_sub(number.saturating_mul(size)) {
            Some(length) => out.truncate(length),
            None => return Err(format!("there are only {} bytes to cut", out.len())),
        }
        Ok(())
    }

    /// `both 0 step 100 SG1 ack times 10`
    fn record_of_both(&mut self, tokens: &mut Tokens) -> Result<(), String> {
        let side = side(tokens)?;
        self.records(side, side, tokens)
    }

    /// `A 5 SG2 override 7, B 6 SBH, ack`
    fn record(&mut self, tokens: &mut Tokens) -> Result<(), String> {
        let a = side(tokens)?;
        expect(tokens, "B")?;
        let b = side(tokens)?;
        self.records(a, b, tokens)
    }

    fn records(&mut self, a: Side, b: Side, tokens: &mut Tokens) -> Result<(), String> {
        self.close();
        let acknowledged = tokens.next_if_eq(&"ack").is_some();
        for index in 0..times(tokens)? {
            let of_a = (a.position_at(index)?, a.inputs);
            let of_b = (b.position_at(index)?, b.inputs);
            for word in words::record(of_a, of_b, acknowledged) {
                self.kit.extend(word.to_be_bytes());
            }
        }
        Ok(())
    }

    /// Bytes, as often as `times` says.
    fn repeat(&mut self, bytes: &[u8], tokens: &mut Tokens) -> Result<(), String> {
        for _ in 0..times(tokens)? {
            self.out().extend_from_slice(bytes);
        }
        Ok(())
    }
}

impl List {
    /// Writes the data before this one.
    fn write_to(&mut self, number: usize, before: &Stated) {
        for number in self.next..number {
            let datum = self.otherwise.datum(self.data.count, number, before);
            self.write(number, datum);
        }
    }

    fn go_to(&mut self, number: usize, before: &Stated) -> Result<(), String> {
        if number < self.next {
            return Err(format!(
                "datum {number} comes after datum {}",
                self.next - 1
            ));
        }
        self.write_to(number, before);
        Ok(())
    }

    fn write(&mut self, number: usize, datum: Datum) {
        for word in datum.words(number) {
            self.bytes.extend(word.to_be_bytes());
        }
        self.data.data[number] = datum;
        self.next = number + 1;
    }
}

/// A channel's part of a record.
#[derive(Clone, Copy)]
struct Side {
    position: i64,
    step: i64,
    inputs: u32,
}

impl Side {
    fn position_at(self, index: i64) -> Result<i32, String> {
        let position = self.position + self.step * index;
        match i32::try_from(position) {
            Ok(position) if (-1 << 27..1 << 27).contains(&position) => Ok(position),
            _ => Err(format!("position {position} has no 28 bits")),
        }
    }
}

fn position(tokens: &mut Tokens) -> Result<i64, String> {
    integer(
        next(tokens, "a position")?,
        -1 << 27,
        (1 << 27) - 1,
        "a position of 28 bits",
    )
}

/// `5 step 100 SG2 override 7`
fn side(tokens: &mut Tokens) -> Result<Side, String> {
    let position = position(tokens)?;
    let step = match tokens.next_if_eq(&"step") {
        Some(_) => integer(next(tokens, "a step")?, -1 << 28, 1 << 28, "a step")?,
        None => 0,
    };
    let mut inputs = InputWord::default();
    while let Some(&token) = tokens.peek() {
        if matches!(token, "B" | "ack" | "times") {
            break;
        }
        tokens.next();
        if !inputs.take(token, tokens)? {
            return Err(format!("'{token}' is not known as an input"));
        }
    }
    let inputs = inputs.word()?;
    Ok(Side {
        position,
        step,
        inputs,
    })
}

/// `times 10`, else once.
fn times(tokens: &mut Tokens) -> Result<i64, String> {
    match tokens.next_if_eq(&"times") {
        Some(_) => integer(
            next(tokens, "a number of times")?,
            0,
            MOST_TIMES,
            "a number of times",
        ),
        None => Ok(1),
    }
}

/// One word by its kind, or by its bits.
fn single_word(first: &str, tokens: &mut Tokens) -> Result<u32, String> {
    match first {
        "word" => word(next(tokens, "a word")?),
        "head" => Ok(words::HEAD << 28 | bits(tokens, 28)?),
        "datum" => {
            let number = integer(
                next(tokens, "a datum's number")?,
                0,
                255,
                "a datum's number",
            )?;
            expect(tokens, "form")?;
            let form = integer(next(tokens, "a form")?, 0, 3, "a form")?;
            Ok(words::datum(number as usize, form as u32))
        }
        "piece" => Ok(words::piece(bits(tokens, 16)?)),
        "position" => Ok(words::position(position(tokens)? as i32)),
        "lower" => Ok(words::lower(bits(tokens, 16)?)),
        "upper" => Ok(words::upper(bits(tokens, 16)? << 16)),
        "end" => Ok(words::end(tokens.next_if_eq(&"ack").is_some())),
        "remark" => match tokens.peek() {
            None | Some(&"times") => Ok(words::remark(0)),
            Some(_) => Ok(words::remark(bits(tokens, 28)?)),
        },
        "B" => Err("a record begins with A or both".into()),
        _ => Err(format!("'{first}' is not known")),
    }
}

/// `of 67 data`
fn count_of_data(tokens: &mut Tokens) -> Result<usize, String> {
    let what = "a number of data";
    let count = integer(next(tokens, what)?, 1, COUNT as i64, what)?;
    expect(tokens, "data")?;
    Ok(count as usize)
}

/// `12`, `35..50`: the numbers of data of a list of so many.
fn numbers(token: &str, count: usize) -> Result<(usize, usize), String> {
    let one = |token| {
        integer(token, 0, count as i64 - 1, "a datum's number").map(|number| number as usize)
    };
    let (from, to) = match token.split_once("..") {
        Some((from, to)) => (one(from)?, one(to)?),
        None => (one(token)?, one(token)?),
    };
    if from > to {
        return Err(format!("'{token}' runs backwards"));
    }
    Ok((from, to))
}

/// `2000`, `0x000007d0`, `binary32 2000`, `binary64 0x409f400000000000`, `open`, `highest+1`
fn datum(count: usize, number: usize, tokens: &mut Tokens) -> Result<Datum, String> {
    match next(tokens, "a value")? {
        "open" => Ok(Datum::Open),
        "binary32" => {
            let value = at_end(count, number, next(tokens, "a value")?)?;
            binary32(&value).map(Datum::Binary32)
        }
        "binary64" => {
            let value = at_end(count, number, next(tokens, "a value")?)?;
            binary64(&value).map(Datum::Binary64)
        }
        token if token.starts_with("0x") => word(token).map(|bits| Datum::Whole(bits as i32)),
        token => {
            let (low, high) = (i64::from(i32::MIN), i64::from(i32::MAX));
            let value = at_end(count, number, token)?;
            integer(&value, low, high, "a 32-bit whole number")
                .map(|value| Datum::Whole(value as i32))
        }
    }
}

/// `lowest-1`, `highest` as a number's text; any other text as it is.
fn at_end(count: usize, number: usize, token: &str) -> Result<String, String> {
    let (low, high) = range(count, number);
    let lowest = token.strip_prefix("lowest").map(|offset| (low, offset));
    let highest = token.strip_prefix("highest").map(|offset| (high, offset));
    match lowest.or(highest) {
        None => Ok(token.into()),
        Some((end, "")) => Ok(end.to_string()),
        Some((end, offset)) => {
            let offset = integer(offset, -1 << 31, 1 << 31, "an offset")?;
            Ok((i64::from(end) + offset).to_string())
        }
    }
}

/// A binary32 by its bits or by its value.
fn binary32(token: &str) -> Result<u32, String> {
    if token.starts_with("0x") {
        return word(token);
    }
    let inexact = || format!("'{token}' is no binary32; give its bits");
    let value: f32 = token.replace('_', "").parse().map_err(|_| inexact())?;
    match whole_text(token) {
        Some(whole) if i128::from(whole) != value as i128 => Err(inexact()),
        None if is_digits(token) => Err(inexact()),
        _ => Ok(value.to_bits()),
    }
}

/// A binary64 by its bits or by its value.
fn binary64(token: &str) -> Result<u64, String> {
    let inexact = || format!("'{token}' is no binary64; give its bits");
    if let Some(digits) = token.strip_prefix("0x") {
        return u64::from_str_radix(&digits.replace('_', ""), 16).map_err(|_| inexact());
    }
    let value: f64 = token.replace('_', "").parse().map_err(|_| inexact())?;
    match whole_text(token) {
        Some(whole) if i128::from(whole) != value as i128 => Err(inexact()),
        None if is_digits(token) => Err(inexact()),
        _ => Ok(value.to_bits()),
    }
}

/// A whole number's text as that number.
fn whole_text(token: &str) -> Option<i64> {
    token.replace('_', "").parse().ok()
}

/// Whether a text has no point and no exponent.
fn is_digits(token: &str) -> bool {
    token
        .trim_start_matches(['-', '+'])
        .bytes()
        .all(|byte| byte.is_ascii_digit() || byte == b'_')
}

/// A whole number, decimal or with 0x.
pub(crate) fn integer(token: &str, low: i64, high: i64, what: &str) -> Result<i64, String> {
    let text = token.replace('_', "");
    let number = match text.strip_prefix("0x") {
        Some(digits) => i64::from_str_radix(digits, 16),
        None => text.parse(),
    };
    match number {
        Ok(number) if low <= number && number <= high => Ok(number),
        Ok(_) => Err(format!("'{token}' is not {what} from {low} to {high}")),
        Err(_) => Err(format!("'{token}' is not {what}")),
    }
}

/// A word of 32 bits with 0x.
pub(crate) fn word(token: &str) -> Result<u32, String> {
    let digits = token
        .strip_prefix("0x")
        .map(|digits| digits.replace('_', ""));
    let word = digits.and_then(|digits| u32::from_str_radix(&digits, 16).ok());
    word.ok_or(format!("'{token}' is not 0x and a 32-bit word"))
}

/// So many bits, decimal or with 0x.
fn bits(tokens: &mut Tokens, count: u32) -> Result<u32, String> {
    let what = format!("{count} bits");
    integer(next(tokens, &what)?, 0, (1 << count) - 1, &what).map(|bits| bits as u32)
}

pub(crate) fn next<'a>(tokens: &mut Tokens<'a>, what: &str) -> Result<&'a str, String> {
    tokens.next().ok_or(format!("{what} is missing"))
}

pub(crate) fn expect(tokens: &mut Tokens, wanted: &str) -> Result<(), String> {
    match tokens.next() {
        Some(token) if token == wanted => Ok(()),
        Some(token) => Err(format!("'{wanted}' is wanted, not '{token}'")),
        None => Err(format!("'{wanted}' is missing")),
    }
}
