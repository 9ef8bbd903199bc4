//! Random lists of calls: every function of a board's loop, on channels with any past.

use crate::{Difference, Tally};
use model::channel::image::Lent;
use model::channel::Report;
use model::proved::{self, Channel};
use model::random::{self, Answer, Call, Channels, ReachedCalls, CHANNELS};
use std::fmt;

/// What was compared.
#[derive(Default)]
pub struct Calls(ReachedCalls);

impl Tally for Calls {
    const ENOUGH: u64 = 20_000;

    /// Each call of a list, then the content of every channel.
    fn compare(&mut self, seed: u64) -> Option<Difference> {
        let calls = random::calls(seed);
        self.0.count(&calls);
        let mut model = Channels::default();
        let mut proved = [Channel::NONE; CHANNELS];
        for (index, call) in calls.iter().enumerate() {
            let wanted = model.answer(call);
            let given = answer(&mut proved, call);
            let what = match (given == wanted, different(&model, &proved)) {
                (true, None) => continue,
                (true, Some(of)) => format!(
                    "channel {of} is left otherwise\n  model:  {:x?}\n  proved: {:x?}{}",
                    model.0[of].state(),
                    proved[of].state,
                    lists(&model.0[of], &proved[of])
                ),
                (false, _) => format!(
                    "the answers\n  model:  {}\n  proved: {}",
                    shown(&wanted),
                    shown(&given)
                ),
            };
            return Some(Difference {
                what: format!(
                    "the calls of seed {seed} differ at call {index}, {}: {what}",
                    shown(call)
                ),
                file: format!("differs-{seed}.calls"),
                bytes: format!("{:#?}\n", &calls[..=index]).into_bytes(),
            });
        }
        None
    }

    fn add(&mut self, other: &Calls) {
        self.0.add(&other.0);
    }

    fn scarcest(&self) -> (u64, String) {
        self.0.scarcest()
    }
}

impl fmt::Display for Calls {
    fn fmt(&self, f: &mut fmt::Formatter) -> fmt::Result {
        self.0.fmt(f)
    }
}

/// The first channel whose arrays differ.
fn different(model: &Channels, proved: &[Channel; CHANNELS]) -> Option<usize> {
    let same = |of: &usize| {
        let (model, proved) = (&model.0[*of], &proved[*of]);
        let arrays = (model.data(), model.state(), model.pending());
        arrays == (&proved.data, &proved.state, &proved.pending)
    };
    (0..CHANNELS).find(|of| !same(of))
}

/// Which of the two lists of a channel differ.
fn lists(model: &Lent, proved: &Channel) -> String {
    let differ = |name: &str, same: bool| match same {
        true => String::new(),
        false => format!("\n  the {name} differs"),
    };
    let in_force = differ("list in force", model.data() == &proved.data);
    in_force + &differ("list asked about", model.pending() == &proved.pending)
}

/// What the proved monitor gives for a call.
fn answer(channels: &mut [Channel; CHANNELS], call: &Call) -> Answer {
    match *call {
        Call::Lend {
            of,
            ref data,
            state,
            ref pending,
        } => {
            let (data, pending) = (**data, **pending);
            channels[of] = Channel {
                data,
                state,
                pending,
            };
            Answer::Nothing
        }
        Call::ReadList { of, ref words } => Answer::Read(channels[of].read_list(words)),
        Call::Report {
            of,
            position,
            inputs,
        } => {
            let [position, inputs, datum, head] = channels[of].report(position, inputs);
            Answer::Report(Report {
                position: position as i32,
                inputs,
                datum: datum as i32,
                head: head as usize,
            })
        }
        Call::Cycle {
            of,
            position,
            inputs,
            acknowledged,
            report,
        } => {
            let report = proved::lent(report);
            let proved::Cycle { word, codes } =
                channels[of].cycle(position, inputs, acknowledged, &report);
            Answer::Cycle { word, codes }
        }
        Call::DeviceWord { a, b } => Answer::DeviceWord(proved::device_word(a, b)),
        Call::RunLog {
            a,
            b,
            ref words,
            room,
        } => {
            let mut output = Call::output(room);
            let (mut of_a, mut of_b) = (channels[a], channels[b]);
            let ran = proved::run_log(&mut of_a, &mut of_b, words, &mut output);
            (channels[a], channels[b]) = (of_a, of_b);
            Answer::Ran(ran, output)
        }
        Call::Ask {
            of,
            position,
            inputs,
            report,
            ref words,
        } => {
            let (report, mut codes) = (proved::lent(report), Call::CODES);
            let asked = channels[of].ask(words, position, inputs, &report, &mut codes);
            Answer::Asked(asked, codes)
        }
        Call::Commit { of } => Answer::Committed(channels[of].commit()),
    }
}

/// A call or an answer as it is shown: its front.
fn shown(thing: &impl fmt::Debug) -> String {
    let text = format!("{thing:x?}");
    text.chars().take(400).collect()
}
