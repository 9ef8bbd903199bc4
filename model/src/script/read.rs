//! From a script's text to its calls.

use super::{Call, Given, Script, Step, MARK};
use crate::channel::image;
use crate::kit::assemble::{self, expect, integer, next, word, Tokens};
use crate::kit::input_words::InputWord;
use crate::kit::{Fault, Stated};
use crate::machine_data::HEADS;
use crate::words;
use std::collections::BTreeMap;

/// The words that begin a call; a line that begins with another belongs to the call above it.
const CALLS: [&str; 12] = [
    "list", "lists", "report", "cycle", "device", "log", "ask", "commit", "copy", "like", "state",
    "put",
];

/// The most that one line may be repeated.
const MOST_TIMES: i64 = 1_000;

/// The most channels: `examples/scripts.c` has room for as many.
const MOST_CHANNELS: usize = 8;

/// The most words of an output.
const MOST_OUTPUT: i64 = 16_384;

/// A line without its comment: what is said, and the answer behind the arrow.
#[derive(Clone, Copy)]
struct Line<'a> {
    number: usize,
    said: &'a str,
    answer: Option<&'a str>,
}

/// A call's line, and those that belong to it.
struct Block<'a> {
    call: Line<'a>,
    body: Vec<Line<'a>>,
}

/// A script being read.
#[derive(Default)]
struct Reading {
    channels: Vec<String>,
    /// The data of the last accepted list of each channel that has one.
    stated: BTreeMap<usize, Stated>,
    /// Those of the last accepted list that it was asked about.
    asked: BTreeMap<usize, Stated>,
    steps: Vec<Step>,
}

/// The script of a text.
pub fn script(name: &str, text: &str) -> Result<Script, Fault> {
    let mut reading = Reading::default();
    for block in blocks(text)? {
        reading.block(&block)?;
    }
    if reading.steps.is_empty() {
        return Err(fault(1, "no call"));
    }
    Ok(Script {
        name: name.into(),
        channels: reading.channels,
        steps: reading.steps,
    })
}

fn fault(line: usize, reason: impl Into<String>) -> Fault {
    let reason = reason.into();
    Fault { line, reason }
}

/// The calls of a text.
fn blocks(text: &str) -> Result<Vec<Block<'_>>, Fault> {
    let mut blocks: Vec<Block> = Vec::new();
    for (index, line) in text.lines().enumerate() {
        let line = line.split('#').next().unwrap_or("").trim();
        let (said, answer) = match line.split_once("->") {
            Some((said, answer)) => (said.trim(), Some(answer.trim())),
            None => (line, None),
        };
        let line = Line {
            number: index + 1,
            said,
            answer,
        };
        let first = said.split([' ', '\t', ',']).next().unwrap_or("");
        match blocks.last_mut() {
            _ if said.is_empty() && answer.is_none() => (),
            _ if CALLS.contains(&first) => blocks.push(Block {
                call: line,
                body: Vec::new(),
            }),
            Some(block) => block.body.push(line),
            None => return Err(fault(line.number, format!("'{first}' is no call"))),
        }
    }
    Ok(blocks)
}

impl Block<'_> {
    /// The text of a kit with the body's lines where they stand, and this one before them.
    fn kit(&self, first: &str) -> String {
        let mut text = "\n".repeat(self.call.number - 1) + first;
        let mut at = self.call.number;
        for line in &self.body {
            text += &"\n".repeat(line.number - at);
            text += line.said;
            at = line.number;
        }
        text
    }

    /// No line may belong to the call, or none with an answer of its own.
    fn no_body(&self, answers_only: bool) -> Result<(), Fault> {
        let wrong = |line: &&Line| !answers_only || line.answer.is_some();
        match self.body.iter().find(wrong) {
            None => Ok(()),
            Some(line) if answers_only => Err(fault(line.number, "no answer stands here")),
            Some(line) => Err(fault(line.number, format!("'{}' is no call", line.said))),
        }
    }
}

impl Reading {
    fn block(&mut self, block: &Block) -> Result<(), Fault> {
        let Line {
            number,
            said,
            answer,
        } = block.call;
        let here = |reason: String| fault(number, reason);
        let said = said.replace(',', " ");
        let tokens: Vec<&str> = said.split_whitespace().collect();
        let mut tokens = tokens.into_iter().peekable();
        let first = tokens.next().unwrap_or("");
        match first {
            "list" | "lists" => {
                block.no_body(true)?;
                let (names, options) = names_of_list(first, &mut tokens).map_err(here)?;
                let answer = accepted("accepted", answer).map_err(here)?;
                return self.list(block, &names, &options, &answer);
            }
            "ask" => {
                block.no_body(true)?;
                let (call, stated) = self.ask(block, &mut tokens)?;
                let answer = asked_answer(answer).map_err(here)?;
                if let (Call::Ask { of, .. }, 0) = (&call, answer[0]) {
                    self.asked.insert(*of, stated);
                }
                self.push(number, call, answer);
            }
            "log" => {
                let (a, b, room) = self.log(&mut tokens).map_err(here)?;
                let (words, output) = log_words(block)?;
                let mut answer = accepted("ran", answer).map_err(here)?;
                whole_output(&mut answer, &output, room).map_err(here)?;
                let call = Call::Log { a, b, words, room };
                self.push(number, call, answer);
            }
            _ => {
                block.no_body(false)?;
                let (call, answer) = self.call(first, &mut tokens, answer).map_err(here)?;
                for _ in 0..times(&mut tokens).map_err(here)? {
                    self.push(number, call.clone(), answer.clone());
                }
            }
        }
        end(&mut tokens).map_err(here)
    }

    fn push(&mut self, line: usize, call: Call, answer: Vec<u32>) {
        self.steps.push(Step { line, call, answer });
    }

    /// The place of a channel that has a list.
    fn channel(&self, tokens: &mut Tokens) -> Result<usize, String> {
        let name = next(tokens, "a channel's name")?;
        let found = self.channels.iter().position(|known| known == name);
        let made = found.filter(|of| self.stated.contains_key(of));
        made.ok_or(format!("no channel '{name}' was made"))
    }

    /// The place of a channel, new or not.
    fn new_channel(&mut self, name: &str) -> Result<usize, String> {
        if !name.starts_with(|c: char| c.is_ascii_uppercase()) {
            return Err(format!("'{name}' is no name: one begins with a capital"));
        }
        let known = self.channels.iter().position(|known| known == name);
        if known.is_none() && self.channels.len() == MOST_CHANNELS {
            return Err(format!("a script has at most {MOST_CHANNELS} channels"));
        }
        Ok(known.unwrap_or_else(|| {
            self.channels.push(name.into());
            self.channels.len() - 1
        }))
    }

    /// `list X, else as Y`, with its data below.
    fn list(
        &mut self,
        block: &Block,
        names: &[&str],
        options: &str,
        answer: &[u32],
    ) -> Result<(), Fault> {
        let here = |reason: String| fault(block.call.number, reason);
        let (words, stated) = self.list_words(block, options)?;
        for name in names {
            let of = self.new_channel(name).map_err(here)?;
            let words = words.clone();
            self.push(block.call.number, Call::List { of, words }, answer.into());
            if answer[0] == 0 {
                self.stated.insert(of, stated);
            }
        }
        Ok(())
    }

    /// The words of the list that a block says, with its options, and its data.
    fn list_words(&self, block: &Block, options: &str) -> Result<(Vec<u32>, Stated), Fault> {
        let here = |reason: String| fault(block.call.number, reason);
        let (options, before) = match options.split_once("else as ") {
            None => (options.to_string(), None),
            Some((front, behind)) => {
                let (name, behind) = behind.split_once(' ').unwrap_or((behind, ""));
                let mut tokens = vec![name].into_iter().peekable();
                let of = self.channel(&mut tokens).map_err(here)?;
                (format!("{front} else as A {behind}"), self.stated.get(&of))
            }
        };
        let text = block.kit(&format!("list {options}"));
        let (bytes, stated) = assemble::list(&text, before)?;
        Ok((whole_words(&bytes).map_err(here)?, stated))
    }

    /// `X 401 SG1, report of Y, list of 67 data, else as X`, with the list's data below.
    fn ask(&self, block: &Block, tokens: &mut Tokens) -> Result<(Call, Stated), Fault> {
        let here = |reason: String| fault(block.call.number, reason);
        let of = self.channel(tokens).map_err(here)?;
        let (position, inputs) = side(tokens).map_err(here)?;
        let report = self.given(tokens, position, inputs).map_err(here)?;
        let options: Vec<&str> = match tokens.next_if_eq(&"list") {
            None => Vec::new(),
            Some(_) => tokens.collect(),
        };
        let (words, stated) = self.list_words(block, &options.join(" "))?;
        let call = Call::Ask {
            of,
            position,
            inputs,
            report,
            words,
        };
        Ok((call, stated))
    }

    /// `commit X`: its list is then the one asked about.
    fn commit(
        &mut self,
        tokens: &mut Tokens,
        answer: Option<&str>,
    ) -> Result<(Call, Vec<u32>), String> {
        let of = self.channel(tokens)?;
        let answer = accepted("committed", answer)?;
        if let (0, Some(&stated)) = (answer[0], self.asked.get(&of)) {
            self.stated.insert(of, stated);
        }
        Ok((Call::Commit { of }, answer))
    }

    /// `X Y output 6`
    fn log(&self, tokens: &mut Tokens) -> Result<(usize, usize, usize), String> {
        let (a, b) = (self.channel(tokens)?, self.channel(tokens)?);
        if a == b {
            return Err("a log runs two channels".into());
        }
        expect(tokens, "output")?;
        let words = "words of output";
        let room = integer(next(tokens, words)?, 0, MOST_OUTPUT, words)?;
        Ok((a, b, room as usize))
    }

    /// A call that is one line, and its answer.
    fn call(
        &mut self,
        first: &str,
        tokens: &mut Tokens,
        answer: Option<&str>,
    ) -> Result<(Call, Vec<u32>), String> {
        match first {
            "report" => {
                let of = self.channel(tokens)?;
                let (position, inputs) = side(tokens)?;
                let call = Call::Report {
                    of,
                    position,
                    inputs,
                };
                Ok((call, report_answer(wanted(answer)?)?))
            }
            "cycle" => Ok((self.cycle(tokens)?, cycle_answer(wanted(answer)?)?)),
            "commit" => self.commit(tokens, answer),
            "device" => {
                let a = word(next(tokens, "a channel word")?)?;
                let b = word(next(tokens, "a channel word")?)?;
                let answer = device_word(wanted(answer)?)?;
                Ok((Call::Device { a, b }, vec![answer]))
            }
            "copy" => {
                let from = self.channel(tokens)?;
                expect(tokens, "to")?;
                let to = self.new_channel(next(tokens, "a channel's name")?)?;
                for of in [&mut self.stated, &mut self.asked] {
                    if let Some(&stated) = of.get(&from) {
                        of.insert(to, stated);
                    }
                }
                no_answer(Call::Copy { from, to }, answer)
            }
            "state" => {
                let (of, word) = (self.channel(tokens)?, state_word(tokens)?);
                Ok((Call::State { of, word }, vec![value(wanted(answer)?)?]))
            }
            "put" => {
                let (of, word) = (self.channel(tokens)?, state_word(tokens)?);
                let value = value(next(tokens, WORD)?)?;
                no_answer(Call::Put { of, word, value }, answer)
            }
            _ => {
                let (one, other) = (self.channel(tokens)?, self.channel(tokens)?);
                let answer = match wanted(answer)? {
                    "yes" => 1,
                    "no" => 0,
                    text => return Err(format!("'{text}' is not yes or no")),
                };
                Ok((Call::Like { one, other }, vec![answer]))
            }
        }
    }

    /// `X 401 SG1 ack, report of Y`, `X 401 SG1, report 401 SG1 datum 12`
    fn cycle(&self, tokens: &mut Tokens) -> Result<Call, String> {
        let of = self.channel(tokens)?;
        let (position, inputs) = side(tokens)?;
        let acknowledged = match tokens.next_if_eq(&"ack") {
            None => 0,
            Some(_) => {
                match tokens.next_if(|token| token.starts_with(|c: char| c.is_ascii_digit())) {
                    None => 1,
                    Some(number) => {
                        integer(number, 0, u32::MAX.into(), "an acknowledgement word")? as u32
                    }
                }
            }
        };
        Ok(Call::Cycle {
            of,
            position,
            inputs,
            acknowledged,
            report: self.given(tokens, position, inputs)?,
        })
    }

    /// `report of Y`, `report 401 SG1 datum 12`
    fn given(&self, tokens: &mut Tokens, position: i32, inputs: u32) -> Result<Given, String> {
        expect(tokens, "report")?;
        if tokens.next_if_eq(&"of").is_none() {
            return Ok(Given::Words(report(tokens)?));
        }
        let of = self.channel(tokens)?;
        // Without a word it is at the same position with the same inputs.
        let (position, inputs) = match tokens.peek() {
            None | Some(&"times" | &"list") => (position, inputs),
            Some(_) => side(tokens)?,
        };
        Ok(Given::Of {
            of,
            position,
            inputs,
        })
    }
}

/// `X else lowest`, or `X and Y` of `lists`: the names, and what stands behind them.
fn names_of_list<'a>(
    first: &str,
    tokens: &mut Tokens<'a>,
) -> Result<(Vec<&'a str>, String), String> {
    let mut names = vec![next(tokens, "a channel's name")?];
    if first == "lists" {
        expect(tokens, "and")?;
        names.push(next(tokens, "a channel's name")?);
    }
    let options: Vec<&str> = tokens.collect();
    Ok((names, options.join(" ")))
}

/// `401 SG1 SE2 no-stop`: any position of 32 bits, and inputs.
fn side(tokens: &mut Tokens) -> Result<(i32, u32), String> {
    let ends = (i64::from(i32::MIN), i64::from(i32::MAX));
    let what = "a position of 32 bits";
    let position = integer(next(tokens, what)?, ends.0, ends.1, what)?;
    let mut inputs = InputWord::default();
    while let Some(token) =
        tokens.next_if(|token| !["ack", "report", "datum", "times", "list"].contains(token))
    {
        if !inputs.take(token, tokens)? {
            return Err(format!("'{token}' is not known as an input"));
        }
    }
    Ok((position as i32, inputs.word()?))
}

/// `401 SG1 datum 12`, `401 SG1 datum 12 head 67`: without a word the head says 51.
fn report(tokens: &mut Tokens) -> Result<[u32; 4], String> {
    let (position, inputs) = side(tokens)?;
    expect(tokens, "datum")?;
    let ends = (i64::from(i32::MIN), i64::from(i32::MAX));
    let datum = integer(next(tokens, "a datum")?, ends.0, ends.1, "a datum")?;
    let head = match tokens.next_if_eq(&"head") {
        None => HEADS[0] as i64,
        Some(_) => integer(next(tokens, "a head")?, 0, u32::MAX.into(), "a head")?,
    };
    Ok([position as u32, inputs, datum as u32, head as u32])
}

/// `NX_RUN`: a word of a state by its name in the header.
fn state_word(tokens: &mut Tokens) -> Result<usize, String> {
    let name = next(tokens, "a word of a state")?;
    let word = image::NAMES.iter().position(|known| *known == name);
    word.ok_or(format!("'{name}' is no word of a state"))
}

const WORD: &str = "a word of 32 bits";

fn value(text: &str) -> Result<u32, String> {
    integer(text, 0, u32::MAX.into(), WORD).map(|value| value as u32)
}

// ---- answers

fn no_answer(call: Call, answer: Option<&str>) -> Result<(Call, Vec<u32>), String> {
    match answer {
        None => Ok((call, vec![])),
        Some(_) => Err("this call has no answer".into()),
    }
}

fn tokens(text: &str) -> Vec<String> {
    let text = text.replace(',', " ");
    text.split_whitespace().map(String::from).collect()
}

fn end(tokens: &mut Tokens) -> Result<(), String> {
    match tokens.next() {
        None => Ok(()),
        Some(surplus) => Err(format!("'{surplus}' is surplus")),
    }
}

/// `times 10`, else once.
fn times(tokens: &mut Tokens) -> Result<i64, String> {
    match tokens.next_if_eq(&"times") {
        None => Ok(1),
        Some(_) => integer(next(tokens, "how often")?, 1, MOST_TIMES, "how often"),
    }
}

fn wanted(answer: Option<&str>) -> Result<&str, String> {
    answer.ok_or("-> and the answer are missing".into())
}

/// `accepted 154` or `ran 2`; `refused 4 10`.
fn accepted(word: &str, answer: Option<&str>) -> Result<Vec<u32>, String> {
    let text = wanted(answer)?;
    let wrong = || format!("'{text}' is not {word} N or refused NUMBER PLACE");
    let number = |text: &str| integer(text, 0, u32::MAX.into(), "a number").map(|n| n as u32);
    let tokens = tokens(text);
    match &tokens.iter().map(String::as_str).collect::<Vec<_>>()[..] {
        [first, at] if *first == word => Ok(vec![0, number(at)?]),
        ["refused", refused, at] if number(refused)? > 0 => Ok(vec![number(refused)?, number(at)?]),
        _ => Err(wrong()),
    }
}

fn report_answer(text: &str) -> Result<Vec<u32>, String> {
    let tokens = tokens(text);
    let tokens: Vec<&str> = tokens.iter().map(String::as_str).collect();
    let mut tokens = tokens.into_iter().peekable();
    let report = report(&mut tokens)?;
    end(&mut tokens)?;
    Ok(report.to_vec())
}

/// `03000081 causes 3 9`, `00000081 no cause`
fn cycle_answer(text: &str) -> Result<Vec<u32>, String> {
    let wrong = || format!("'{text}' is no channel word with its causes, or with no cause");
    let tokens = tokens(text);
    let tokens: Vec<&str> = tokens.iter().map(String::as_str).collect();
    let (word, causes) = tokens.split_first().ok_or_else(wrong)?;
    let mut answer = vec![channel_word(word)?];
    answer.extend(codes_of(causes)?.ok_or_else(wrong)?);
    Ok(answer)
}

/// `causes 3 9`, `no cause`: the codes, if it is said so.
fn codes_of(causes: &[&str]) -> Result<Option<Vec<u32>>, String> {
    match causes {
        ["no", "cause"] => Ok(Some(Vec::new())),
        ["cause" | "causes", codes @ ..] if !codes.is_empty() => {
            let code = |code: &&str| integer(code, 1, 14, "a cause code").map(|code| code as u32);
            codes.iter().map(code).collect::<Result<_, _>>().map(Some)
        }
        _ => Ok(None),
    }
}

/// `accepted 154 causes 3 9`, `accepted 154 no cause`; `refused 4 10`.
fn asked_answer(answer: Option<&str>) -> Result<Vec<u32>, String> {
    let text = wanted(answer)?;
    let wrong =
        format!("'{text}' is not accepted N with its causes or no cause, or refused NUMBER PLACE");
    let tokens = tokens(text);
    let tokens: Vec<&str> = tokens.iter().map(String::as_str).collect();
    match tokens[..] {
        ["accepted", at, ref causes @ ..] => {
            let mut answer = accepted("accepted", Some(&format!("accepted {at}")))?;
            answer.extend(codes_of(causes)?.ok_or(wrong)?);
            Ok(answer)
        }
        ["refused", ..] => accepted("accepted", answer),
        _ => Err(wrong),
    }
}

/// A channel word as the bench lists it.
fn channel_word(text: &str) -> Result<u32, String> {
    let word = u32::from_str_radix(text, 16).ok();
    word.filter(|_| text.len() == 8)
        .ok_or(format!("'{text}' is no word of 8 hexadecimal digits"))
}

/// A device word as the bench lists it.
fn device_word(text: &str) -> Result<u32, String> {
    let word = u32::from_str_radix(text, 16).ok();
    word.ok_or(format!("'{text}' is no device word"))
}

/// `03000081 03000081 7`: a cycle's words of the output.
fn three_words(text: &str) -> Result<[u32; 3], String> {
    let tokens = tokens(text);
    match &tokens[..] {
        [a, b, device] => Ok([channel_word(a)?, channel_word(b)?, device_word(device)?]),
        _ => Err(format!("'{text}' is not A's word, B's word, device word")),
    }
}

/// The words of a log, and those of the output that stand behind its records.
fn log_words(block: &Block) -> Result<(Vec<u32>, Vec<u32>), Fault> {
    let bytes = assemble::assemble(&block.kit(""))?;
    let words = whole_words(&bytes).map_err(|reason| fault(block.call.number, reason))?;
    let mut output = Vec::new();
    for line in &block.body {
        let Some(answer) = line.answer else {
            continue;
        };
        let three = three_words(answer).map_err(|reason| fault(line.number, reason))?;
        let mut said = line.said.split_whitespace().skip_while(|&t| t != "times");
        let times = said.nth(1).map(|times| times.replace('_', ""));
        let times = times.and_then(|times| times.parse().ok());
        for _ in 0..times.unwrap_or(1) {
            output.extend(three);
        }
    }
    Ok((words, output))
}

/// The whole output behind a log's answer: the cycles' words, and the rest as it was.
fn whole_output(answer: &mut Vec<u32>, output: &[u32], room: usize) -> Result<(), String> {
    let said = output.len() / 3;
    let ran = if answer[0] == 0 {
        answer[1] as usize
    } else {
        0
    };
    if ran != said {
        return Err(format!("{ran} cycles run, and words stand for {said}"));
    }
    let rest = room.checked_sub(output.len());
    let rest = rest.ok_or("the words do not go into the output")?;
    answer.extend(output);
    answer.extend(vec![MARK; rest]);
    Ok(())
}

fn whole_words(bytes: &[u8]) -> Result<Vec<u32>, String> {
    match bytes.len() % 4 {
        0 => Ok(words::of_bytes(bytes)),
        _ => Err("these are no whole words".into()),
    }
}
