//! The runner: a script's calls on the model, on the proved monitor, or on anything else.

use super::{Call, Given, Script, MARK};
use crate::channel::image::{self, Lent, WORDS};
use crate::channel::Report;
use crate::kit::input_words;
use crate::list::Refusal;
use crate::machine_data::{COUNT, HEADS};
use std::fmt;

/// What a cycle gives: the channel word, and the codes that stand with 0 behind them.
#[derive(Clone, Copy, Debug, PartialEq, Eq)]
pub struct Cycle {
    pub word: u32,
    pub codes: [u8; 13],
}

/// What an ask gives.
#[derive(Clone, Copy, Debug, PartialEq, Eq)]
pub struct Asked {
    /// The words used, or the refusal.
    pub told: Result<usize, Refusal>,
    /// The codes with 0 behind them; those of a refused one as they were.
    pub codes: [u8; 13],
}

impl Asked {
    /// What the codes are before an ask.
    pub const BEFORE: [u8; 13] = [u8::MAX; 13];
}

/// What a script is run on: the functions of `include/axis_monitor.h`.
pub trait Board {
    type Channel: Clone + PartialEq;

    /// A channel's memory before any call.
    fn none() -> Self::Channel;

    fn list(channel: &mut Self::Channel, words: &[u32]) -> Result<usize, Refusal>;

    fn report(channel: &Self::Channel, position: i32, inputs: u32) -> [u32; 4];

    fn cycle(
        channel: &mut Self::Channel,
        position: i32,
        inputs: u32,
        acknowledged: u32,
        report: &[u32; 4],
    ) -> Cycle;

    fn device(a: u32, b: u32) -> u32;

    fn log(
        a: &mut Self::Channel,
        b: &mut Self::Channel,
        words: &[u32],
        output: &mut [u32],
    ) -> Result<usize, Refusal>;

    fn ask(
        channel: &mut Self::Channel,
        words: &[u32],
        position: i32,
        inputs: u32,
        report: &[u32; 4],
    ) -> Asked;

    fn commit(channel: &mut Self::Channel) -> Result<usize, Refusal>;

    /// What an ask must leave alone: the channel with none pending and, if the list was accepted, without the array of it.
    fn but_for_pending(channel: &Self::Channel, accepted: bool) -> Self::Channel;

    /// A word of its state.
    fn state(channel: &Self::Channel, word: usize) -> u32;

    /// Such a word, written by the caller.
    fn put(channel: &mut Self::Channel, word: usize, value: u32);
}

/// The model.
pub struct Model;

impl Board for Model {
    type Channel = Lent;

    fn none() -> Lent {
        Lent::of([0; COUNT], [0; WORDS], [0; COUNT])
    }

    fn list(channel: &mut Lent, words: &[u32]) -> Result<usize, Refusal> {
        channel.read_list(words)
    }

    fn report(channel: &Lent, position: i32, inputs: u32) -> [u32; 4] {
        let report = channel.report(position, inputs);
        [
            report.position as u32,
            report.inputs,
            report.datum as u32,
            report.head as u32,
        ]
    }

    fn cycle(
        channel: &mut Lent,
        position: i32,
        inputs: u32,
        acknowledged: u32,
        report: &[u32; 4],
    ) -> Cycle {
        let cycle = channel.cycle(position, inputs, acknowledged != 0, report_of(report));
        Cycle {
            word: cycle.word,
            codes: cycle.causes.list(),
        }
    }

    fn device(a: u32, b: u32) -> u32 {
        crate::device::word(a, b)
    }

    fn log(
        a: &mut Lent,
        b: &mut Lent,
        words: &[u32],
        output: &mut [u32],
    ) -> Result<usize, Refusal> {
        image::run_log(a, b, words, output)
    }

    fn ask(
        channel: &mut Lent,
        words: &[u32],
        position: i32,
        inputs: u32,
        report: &[u32; 4],
    ) -> Asked {
        let asked = channel.ask(words, position, inputs, report_of(report));
        Asked {
            told: asked.map(|asked| asked.used),
            codes: asked.map_or(Asked::BEFORE, |asked| asked.codes),
        }
    }

    fn commit(channel: &mut Lent) -> Result<usize, Refusal> {
        channel.commit()
    }

    fn but_for_pending(channel: &Lent, accepted: bool) -> Lent {
        let mut state = *channel.state();
        state[image::word::PENDING] = 0;
        let pending = if accepted {
            [0; COUNT]
        } else {
            *channel.pending()
        };
        Lent::of(*channel.data(), state, pending)
    }

    fn state(channel: &Lent, word: usize) -> u32 {
        channel.state()[word]
    }

    fn put(channel: &mut Lent, word: usize, value: u32) {
        let mut state = *channel.state();
        state[word] = value;
        *channel = Lent::of(*channel.data(), state, *channel.pending());
    }
}

/// A report of its four words.
pub fn report_of(report: &[u32; 4]) -> Report {
    Report {
        position: report[0] as i32,
        inputs: report[1],
        datum: report[2] as i32,
        head: report[3] as usize,
    }
}

/// The proved monitor.
#[cfg(feature = "proved")]
pub struct Proved;

#[cfg(feature = "proved")]
impl Board for Proved {
    type Channel = crate::proved::Channel;

    fn none() -> Self::Channel {
        crate::proved::Channel::NONE
    }

    fn list(channel: &mut Self::Channel, words: &[u32]) -> Result<usize, Refusal> {
        channel.read_list(words)
    }

    fn report(channel: &Self::Channel, position: i32, inputs: u32) -> [u32; 4] {
        channel.report(position, inputs)
    }

    fn cycle(
        channel: &mut Self::Channel,
        position: i32,
        inputs: u32,
        acknowledged: u32,
        report: &[u32; 4],
    ) -> Cycle {
        let cycle = channel.cycle(position, inputs, acknowledged, report);
        Cycle {
            word: cycle.word,
            codes: cycle.codes,
        }
    }

    fn device(a: u32, b: u32) -> u32 {
        crate::proved::device_word(a, b)
    }

    fn log(
        a: &mut Self::Channel,
        b: &mut Self::Channel,
        words: &[u32],
        output: &mut [u32],
    ) -> Result<usize, Refusal> {
        crate::proved::run_log(a, b, words, output)
    }

    fn ask(
        channel: &mut Self::Channel,
        words: &[u32],
        position: i32,
        inputs: u32,
        report: &[u32; 4],
    ) -> Asked {
        let mut codes = Asked::BEFORE;
        let told = channel.ask(words, position, inputs, report, &mut codes);
        Asked { told, codes }
    }

    fn commit(channel: &mut Self::Channel) -> Result<usize, Refusal> {
        channel.commit()
    }

    fn but_for_pending(channel: &Self::Channel, accepted: bool) -> Self::Channel {
        let mut left = *channel;
        left.state[image::word::PENDING] = 0;
        if accepted {
            left.pending = [0; COUNT];
        }
        left
    }

    fn state(channel: &Self::Channel, word: usize) -> u32 {
        channel.state[word]
    }

    fn put(channel: &mut Self::Channel, word: usize, value: u32) {
        channel.state[word] = value;
    }
}

/// A call that was made.
pub struct Done {
    /// What it was given, in the plain form.
    pub given: Vec<u32>,
    pub answer: Vec<u32>,
    /// The channels that it may change.
    pub may_change: Vec<usize>,
}

/// Where a board answers otherwise.
#[derive(Clone, Debug, PartialEq, Eq)]
pub struct Difference {
    pub script: String,
    pub line: usize,
    pub what: String,
}

impl fmt::Display for Difference {
    fn fmt(&self, f: &mut fmt::Formatter) -> fmt::Result {
        let Difference { script, line, what } = self;
        write!(f, "{script}.txt: line {line}: {what}")
    }
}

/// Runs a script: the calls that were made, each with the answer expected.
pub fn run<B: Board>(script: &Script) -> Result<Vec<Done>, Difference> {
    let mut channels = vec![B::none(); script.channels.len()];
    let mut all = Vec::new();
    for step in &script.steps {
        let difference = |what: String| Difference {
            script: script.name.clone(),
            line: step.line,
            what,
        };
        let before = channels.clone();
        let done = make::<B>(&mut channels, &step.call);
        if done.answer != step.answer {
            let (expected, found) = told(&step.call, &step.answer, &done.answer);
            return Err(difference(format!("expected {expected}; found {found}")));
        }
        let left_alone = |of: usize| match step.call {
            Call::Ask { of: asked, .. } if asked == of => {
                let accepted = done.answer[0] == 0;
                let left = [&before[of], &channels[of]].map(|of| B::but_for_pending(of, accepted));
                left[0] == left[1]
            }
            _ => channels[of] == before[of] || done.may_change.contains(&of),
        };
        let changed = |&of: &usize| !left_alone(of);
        if let Some(of) = (0..channels.len()).find(changed) {
            let name = &script.channels[of];
            let but = match step.call {
                Call::Ask { of: asked, .. } if asked == of => " but for its pending list",
                _ => "",
            };
            return Err(difference(format!(
                "expected channel {name} as it was{but}; found it changed"
            )));
        }
        all.push(done);
    }
    Ok(all)
}

/// Makes a call.
fn make<B: Board>(channels: &mut [B::Channel], call: &Call) -> Done {
    match *call {
        Call::List { of, ref words } => {
            let read = B::list(&mut channels[of], words);
            Done {
                given: [&[of as u32], &words[..]].concat(),
                answer: numbers(read).into(),
                may_change: read.iter().map(|_| of).collect(),
            }
        }
        Call::Report {
            of,
            position,
            inputs,
        } => Done {
            given: vec![of as u32, position as u32, inputs],
            answer: B::report(&channels[of], position, inputs).into(),
            may_change: vec![],
        },
        Call::Cycle {
            of,
            position,
            inputs,
            acknowledged,
            report,
        } => {
            let report = given::<B>(channels, report);
            let cycle = B::cycle(&mut channels[of], position, inputs, acknowledged, &report);
            let given = [of as u32, position as u32, inputs, acknowledged];
            Done {
                given: [&given[..], &report].concat(),
                answer: of_cycle(&cycle),
                may_change: vec![of],
            }
        }
        Call::Device { a, b } => Done {
            given: vec![a, b],
            answer: vec![B::device(a, b)],
            may_change: vec![],
        },
        Call::Log {
            a,
            b,
            ref words,
            room,
        } => {
            let mut output = vec![MARK; room];
            let (mut of_a, mut of_b) = (channels[a].clone(), channels[b].clone());
            let ran = B::log(&mut of_a, &mut of_b, words, &mut output);
            (channels[a], channels[b]) = (of_a, of_b);
            Done {
                given: [&[a as u32, b as u32, room as u32], &words[..]].concat(),
                answer: [&numbers(ran), &output[..]].concat(),
                may_change: ran.iter().flat_map(|_| [a, b]).collect(),
            }
        }
        Call::Ask {
            of,
            position,
            inputs,
            report,
            ref words,
        } => {
            let report = given::<B>(channels, report);
            let asked = B::ask(&mut channels[of], words, position, inputs, &report);
            let given = [of as u32, position as u32, inputs];
            Done {
                given: [&given[..], &report, words].concat(),
                answer: of_ask(&asked),
                may_change: vec![of],
            }
        }
        Call::Commit { of } => {
            let committed = B::commit(&mut channels[of]);
            Done {
                given: vec![of as u32],
                answer: numbers(committed).into(),
                may_change: committed.iter().map(|_| of).collect(),
            }
        }
        Call::Copy { from, to } => {
            channels[to] = channels[from].clone();
            Done {
                given: vec![from as u32, to as u32],
                answer: vec![],
                may_change: vec![to],
            }
        }
        Call::Like { one, other } => Done {
            given: vec![one as u32, other as u32],
            answer: vec![(channels[one] == channels[other]).into()],
            may_change: vec![],
        },
        Call::State { of, word } => Done {
            given: vec![of as u32, word as u32],
            answer: vec![B::state(&channels[of], word)],
            may_change: vec![],
        },
        Call::Put { of, word, value } => {
            B::put(&mut channels[of], word, value);
            Done {
                given: vec![of as u32, word as u32, value],
                answer: vec![],
                may_change: vec![of],
            }
        }
    }
}

/// The words of a report that a call is given.
fn given<B: Board>(channels: &[B::Channel], report: Given) -> [u32; 4] {
    match report {
        Given::Words(report) => report,
        Given::Of {
            of,
            position,
            inputs,
        } => B::report(&channels[of], position, inputs),
    }
}

/// 0 and what is told of an accepted call, or a refusal's number and place.
fn numbers(answer: Result<usize, Refusal>) -> [u32; 2] {
    match answer {
        Ok(at) => [0, at as u32],
        Err(Refusal { number, place }) => [number, place as u32],
    }
}

/// A cycle's word, then its codes.
fn of_cycle(cycle: &Cycle) -> Vec<u32> {
    [&[cycle.word], &stand(&cycle.codes)[..]].concat()
}

/// What is told of a list, then the codes; of a refused one only codes that were changed.
fn of_ask(asked: &Asked) -> Vec<u32> {
    let left = asked.told.is_err() && asked.codes == Asked::BEFORE;
    let codes = if left { vec![] } else { stand(&asked.codes) };
    [&numbers(asked.told)[..], &codes].concat()
}

/// Codes as they stand, without the zeros behind them.
fn stand(codes: &[u8; 13]) -> Vec<u32> {
    let last = codes.iter().rposition(|&code| code != 0);
    let codes = &codes[..last.map_or(0, |last| last + 1)];
    codes.iter().map(|&code| u32::from(code)).collect()
}

/// Two answers as a script says them; of two outputs the first words that differ.
fn told(call: &Call, expected: &[u32], found: &[u32]) -> (String, String) {
    if matches!(call, Call::Log { .. }) && expected[..2] == found[..2] {
        let mut pairs = expected[2..].iter().zip(&found[2..]).enumerate();
        if let Some((at, (one, other))) = pairs.find(|(_, (one, other))| one != other) {
            let word = |word: &u32| format!("{word:08x} in word {at} of the output");
            return (word(one), word(other));
        }
    }
    (text(call, expected), text(call, found))
}

/// An answer as a script says it.
fn text(call: &Call, answer: &[u32]) -> String {
    let accepted = |word: &str| match answer {
        [0, at, ..] => format!("{word} {at}"),
        [number, at, ..] => format!("refused {number} {at}"),
        _ => String::new(),
    };
    match call {
        Call::List { .. } => accepted("accepted"),
        Call::Log { .. } => accepted("ran"),
        Call::Report { .. } => {
            let (position, inputs) = (answer[0] as i32, input_words::show(answer[1]));
            let head = match answer[3] as usize {
                head if head == HEADS[0] => String::new(),
                head => format!(" head {head}"),
            };
            format!("{position} {inputs} datum {}{head}", answer[2] as i32)
        }
        Call::Cycle { .. } => format!("{:08x} {}", answer[0], causes(&answer[1..])),
        Call::Ask { .. } if answer[0] == 0 => {
            format!("{} {}", accepted("accepted"), causes(&answer[2..]))
        }
        Call::Ask { .. } => accepted("accepted"),
        Call::Commit { .. } => accepted("committed"),
        Call::Device { .. } => format!("{:x}", answer[0]),
        Call::Copy { .. } | Call::Put { .. } => "nothing".into(),
        Call::State { .. } => answer[0].to_string(),
        Call::Like { .. } => match answer {
            [0] => "no".into(),
            _ => "yes".into(),
        },
    }
}

/// Codes as a script says them.
fn causes(codes: &[u32]) -> String {
    match codes {
        [] => "no cause".into(),
        codes => {
            let codes: Vec<String> = codes.iter().map(u32::to_string).collect();
            format!("causes {}", codes.join(" "))
        }
    }
}
