//! Lists of calls: channels with any past, reports of any kind, logs and lists that are refused, lists asked about.

mod asks;

use super::reached::{add_each, named, CODES, RANKS};
use super::{damage, drive, Parts, Xorshift};
use crate::causes;
use crate::channel::image::{self, Image, Lent, WORDS};
use crate::channel::{bit, Report};
use crate::gear::GEAR_BITS;
use crate::list::Refusal;
use crate::log::Record;
use crate::machine_data::{number, Function, COUNT, HEADS};
use crate::{device, direction, log, nx, words, Paper};
use asks::AskEvent;
use std::fmt;

/// How many channels a list of calls has.
pub const CHANNELS: usize = 3;

/// What an output holds before it is lent.
const MARK: u32 = 0xa5a5_a5a5;

/// A call, with the channels by their places.
#[derive(Clone, Debug, PartialEq, Eq)]
pub enum Call {
    /// The caller puts any content into a channel's arrays.
    Lend {
        of: usize,
        data: Box<[i32; COUNT]>,
        state: Image,
        pending: Box<[i32; COUNT]>,
    },
    ReadList {
        of: usize,
        words: Vec<u32>,
    },
    Report {
        of: usize,
        position: i32,
        inputs: u32,
    },
    Cycle {
        of: usize,
        position: i32,
        inputs: u32,
        acknowledged: u32,
        report: Report,
    },
    DeviceWord {
        a: u32,
        b: u32,
    },
    RunLog {
        a: usize,
        b: usize,
        words: Vec<u32>,
        /// The output's words.
        room: usize,
    },
    Ask {
        of: usize,
        position: i32,
        inputs: u32,
        report: Report,
        words: Vec<u32>,
    },
    Commit {
        of: usize,
    },
}

impl Call {
    /// An ask's codes as they are lent.
    pub const CODES: [u8; 13] = [u8::MAX; 13];

    /// An output as it is lent.
    pub fn output(room: usize) -> Vec<u32> {
        vec![MARK; room]
    }
}

/// What a call gives, beside the channels.
#[derive(Clone, Debug, PartialEq, Eq)]
pub enum Answer {
    Nothing,
    Read(Result<usize, Refusal>),
    Report(Report),
    /// The channel word, and the codes that stand with 0 behind them.
    Cycle {
        word: u32,
        codes: [u8; 13],
    },
    DeviceWord(u32),
    Ran(Result<usize, Refusal>, Vec<u32>),
    /// The words used, and the codes that stand with 0 behind them; those of a refused list as they were lent.
    Asked(Result<usize, Refusal>, [u8; 13]),
    Committed(Result<usize, Refusal>),
}

/// The channels of a list of calls, by the model.
#[derive(Clone, Debug)]
pub struct Channels(pub [Lent; CHANNELS]);

impl Default for Channels {
    fn default() -> Channels {
        let none = Lent::of([0; COUNT], [0; WORDS], [0; COUNT]);
        Channels([none.clone(), none.clone(), none])
    }
}

impl Channels {
    /// What a call gives.
    pub fn answer(&mut self, call: &Call) -> Answer {
        match *call {
            Call::Lend {
                of,
                ref data,
                state,
                ref pending,
            } => {
                self.0[of] = Lent::of(**data, state, **pending);
                Answer::Nothing
            }
            Call::ReadList { of, ref words } => Answer::Read(self.0[of].read_list(words)),
            Call::Report {
                of,
                position,
                inputs,
            } => Answer::Report(self.0[of].report(position, inputs)),
            Call::Cycle {
                of,
                position,
                inputs,
                acknowledged,
                report,
            } => {
                let cycle = self.0[of].cycle(position, inputs, acknowledged != 0, report);
                Answer::Cycle {
                    word: cycle.word,
                    codes: cycle.causes.list(),
                }
            }
            Call::DeviceWord { a, b } => Answer::DeviceWord(device::word(a, b)),
            Call::RunLog {
                a,
                b,
                ref words,
                room,
            } => {
                let mut output = Call::output(room);
                let (of_a, of_b) = self.two(a, b);
                let ran = image::run_log(of_a, of_b, words, &mut output);
                Answer::Ran(ran, output)
            }
            Call::Ask {
                of,
                position,
                inputs,
                report,
                ref words,
            } => {
                let asked = self.0[of].ask(words, position, inputs, report);
                let codes = asked.map_or(Call::CODES, |asked| asked.codes);
                Answer::Asked(asked.map(|asked| asked.used), codes)
            }
            Call::Commit { of } => Answer::Committed(self.0[of].commit()),
        }
    }

    /// Two channels, in this order.
    fn two(&mut self, a: usize, b: usize) -> (&mut Lent, &mut Lent) {
        let (front, back) = self.0.split_at_mut(a.max(b));
        let (first, second) = (&mut front[a.min(b)], &mut back[0]);
        match a < b {
            true => (first, second),
            false => (second, first),
        }
    }
}

/// The list of calls of a seed.
pub fn calls(seed: u64) -> Vec<Call> {
    let mut list = Calls {
        random: Xorshift::new(seed),
        channels: Channels::default(),
        calls: Vec::new(),
        last: [0; CHANNELS],
    };
    for of in 0..CHANNELS {
        list.lend(of);
    }
    list.read_lists(&[0, 1, 2]);
    for _ in 0..list.random.between(2, 14) {
        list.step();
    }
    list.calls
}

/// A list of calls as it grows.
struct Calls {
    random: Xorshift,
    channels: Channels,
    calls: Vec<Call>,
    /// The last word of each channel.
    last: [u32; CHANNELS],
}

impl Calls {
    fn call(&mut self, call: Call) -> Answer {
        let answer = self.channels.answer(&call);
        self.calls.push(call);
        answer
    }

    fn step(&mut self) {
        // Mostly the same two: they stay in step.
        let a = self.random.below(2);
        let b = self.random.pick(&[1 - a, 1 - a, 1 - a, 1 - a, 2]);
        let (a, b) = self.random.pick(&[(a, b), (b, a)]);
        match self.random.below(38) {
            0 => {
                self.lend(a);
                if self.random.percent(60) {
                    self.call(Call::Commit { of: a });
                }
            }
            1 => self.read_lists(&[a, b]),
            2 => self.report(a),
            3 => self.device_word(),
            4..=17 => self.cycles(a, b),
            30..=37 => self.new_limits(a, b),
            _ => self.run_log(a, b),
        }
    }

    /// Any content: numbers of no kind, or a channel with a few words replaced.
    fn lend(&mut self, of: usize) {
        let lent = &self.channels.0[of];
        let (mut data, mut state, mut pending) = (*lent.data(), *lent.state(), *lent.pending());
        let random = &mut self.random;
        match random.below(4) {
            0 => data = std::array::from_fn(|_| odd(random) as i32),
            1 => data[random.below(COUNT)] = odd(random) as i32,
            _ => (),
        }
        match random.below(4) {
            0 => state = std::array::from_fn(|_| odd(random)),
            1 => state = std::array::from_fn(|_| random.below(7) as u32),
            _ => {
                for _ in 0..random.pick(&[1, 1, 2, 4]) {
                    state[random.below(WORDS)] = odd(random);
                }
            }
        }
        match random.below(4) {
            0 => pending = std::array::from_fn(|_| odd(random) as i32),
            1 => pending = data,
            _ => (),
        }
        let (data, pending) = (Box::new(data), Box::new(pending));
        self.call(Call::Lend {
            of,
            data,
            state,
            pending,
        });
    }

    /// The lists of a kit, as far as they are accepted. The third list is the first again, or
    /// the kit's log.
    fn read_lists(&mut self, channels: &[usize]) {
        let seed = self.random.next();
        let kit = match self.random.below(20) {
            0 => super::bytes(seed),
            1..=6 => super::kit(seed),
            _ => super::kit_of(seed, 0),
        };
        let kit = words::of_bytes(&kit);
        let mut words = kit.clone();
        for &of in channels {
            let call = Call::ReadList {
                of,
                words: words.clone(),
            };
            let Answer::Read(Ok(used)) = self.call(call) else {
                return;
            };
            words.drain(..used);
            if words.is_empty() {
                words = kit.clone();
            }
        }
    }

    fn report(&mut self, of: usize) {
        let (position, inputs) = (odd(&mut self.random) as i32, odd(&mut self.random));
        self.call(Call::Report {
            of,
            position,
            inputs,
        });
    }

    fn device_word(&mut self) {
        let a = odd(&mut self.random);
        let b = match self.random.percent(50) {
            true => odd(&mut self.random),
            false => self.last[0],
        };
        self.call(Call::DeviceWord { a, b });
    }

    /// Single cycles: of both channels, or of the first alone, which puts k out of step.
    fn cycles(&mut self, a: usize, b: usize) {
        let alone = self.random.percent(10);
        let truth = self.random.pick(&[100, 100, 100, 100, 80, 0]);
        for record in self.records(a, b) {
            let (from_a, from_b) = {
                let [of_a, of_b] = [a, b].map(|of| &self.channels.0[of]);
                (
                    of_a.report(record.a.position, record.a.inputs),
                    of_b.report(record.b.position, record.b.inputs),
                )
            };
            self.cycle(a, record.a, record.acknowledged, from_b, truth);
            if !alone {
                self.cycle(b, record.b, record.acknowledged, from_a, truth);
            }
            let other = match self.random.percent(90) {
                true => self.last[b],
                false => odd(&mut self.random),
            };
            let word = self.last[a];
            self.call(Call::DeviceWord { a: word, b: other });
            if asks::brakes(self.channels.0[a].channel()) && self.random.percent(15) {
                self.new_limits(a, b);
            }
        }
    }

    fn cycle(
        &mut self,
        of: usize,
        side: log::Side,
        acknowledged: bool,
        report: Report,
        truth: usize,
    ) {
        let position = match self.random.percent(2) {
            true => odd(&mut self.random) as i32,
            false => side.position,
        };
        let report = match self.random.percent(truth) {
            true => report,
            false => self.other_report(report),
        };
        let acknowledged = match acknowledged {
            true => self.random.pick(&[1, 1, 2, 0x100, u32::MAX]),
            false => 0,
        };
        if self.random.percent(10) {
            self.call(Call::Report {
                of,
                position,
                inputs: side.inputs,
            });
        }
        let answer = self.call(Call::Cycle {
            of,
            position,
            inputs: side.inputs,
            acknowledged,
            report,
        });
        if let Answer::Cycle { word, .. } = answer {
            self.last[of] = word;
        }
    }

    /// A report that is not the other channel's of this cycle.
    fn other_report(&mut self, mut report: Report) -> Report {
        let of = self.random.below(CHANNELS);
        let random = &mut self.random;
        match random.below(6) {
            0 => report.position = report.position.wrapping_add(odd(random) as i32),
            1 => report.inputs ^= 1 << random.below(32),
            2 => report.datum = report.datum.wrapping_add(random.pick(&[-1, 1, 7])),
            3 => return self.channels.0[of].report(report.position, report.inputs),
            4 => report.head = other_head(random),
            _ => {
                let any = [0; 4].map(|_| odd(random));
                report.position = any[0] as i32;
                report.inputs = any[1];
                report.datum = any[2] as i32;
                report.head = any[3] as usize;
            }
        }
        report
    }

    fn run_log(&mut self, a: usize, b: usize) {
        let records = self.record_words(a, b);
        let random = &mut self.random;
        let remarks = random.pick(&[0, 0, 20, 60]);
        let mut log = Vec::new();
        for record in records {
            drive::push_remarks(random, remarks, &mut log);
            log.push(record);
        }
        drive::push_remarks(random, remarks, &mut log);
        if random.percent(15) {
            let mut parts = Parts::of_log(log);
            damage::damage_log(random, &mut parts);
            log = parts.log;
        }
        let mut words = log.concat();
        if random.percent(3) {
            let longest = random.pick(&[log::LONGEST, log::LONGEST + 1, log::LONGEST + 9]);
            words.resize(longest.max(words.len()), words::remark(0));
        }
        let wanted = log::check(&words).map_or(0, |cycles| 3 * cycles);
        let room = match random.below(10) {
            0 => wanted.saturating_sub(1),
            1 => random.below(wanted),
            2 | 3 => wanted,
            _ => wanted + 1 + random.below(16),
        };
        self.call(Call::RunLog { a, b, words, room });
    }

    /// The words of a few records.
    fn record_words(&mut self, a: usize, b: usize) -> Vec<Vec<u32>> {
        let cycles = match self.random.below(40) {
            0 | 1 => 0,
            2 => self.random.between(30, 80),
            _ => self.random.between(1, 9),
        };
        let [of_a, of_b] = [a, b].map(|of| *self.channels.0[of].channel());
        drive::records(&mut self.random, &of_a, &of_b, cycles as usize)
    }

    fn records(&mut self, a: usize, b: usize) -> Vec<Record> {
        let words = self.record_words(a, b).concat();
        log::records(&words).collect()
    }
}

/// The channel after a cycle.
fn after_cycle(before: &Lent, call: &Call) -> Option<Lent> {
    let &Call::Cycle {
        position,
        inputs,
        report,
        ..
    } = call
    else {
        return None;
    };
    let mut after = before.clone();
    after.cycle(position, inputs, false, report);
    Some(after)
}

/// What a report may say of a head: one of them, one beside them, or any word.
fn other_head(random: &mut Xorshift) -> usize {
    let any = odd(random);
    random.pick(&[0, 50, 51, 52, 66, 67, 68, 69, 70, 71, 72, 73, any]) as usize
}

/// A number of any size, often one beside an end.
fn odd(random: &mut Xorshift) -> u32 {
    let any = random.next() as u32;
    match random.below(4) {
        0 => any,
        1 => any >> random.below(32),
        2 => random.pick(&[
            0, 1, 2, 3, 5, 32, 50, 51, 63, 66, 67, 68, 69, 70, 71, 72, 73, 255, 256, 1_000, 1_001,
            1_002,
        ]),
        _ => random.pick(&[
            1 << 31,
            (1 << 31) - 1,
            u32::MAX,
            100_000_000,
            100_000_001,
            100_000_000_u32.wrapping_neg(),
            100_000_001_u32.wrapping_neg(),
        ]),
    }
}

named! {
    /// What a call comes to.
    Event {
        ListAccepted: "a list accepted",
        AcceptedOverPast: "a list accepted by a channel with a past",
        RefusedOverPast: "a list refused by a channel with a past",
        ReportOfNoDatum: "a report with a k of no datum",
        ReportOfAnyContent: "a report of a channel with any content",
        ReportInStep: "a cycle with another channel's report",
        ReportOutOfStep: "a cycle with another channel's report by another k",
        ReportOfNone: "a cycle with a report of no channel",
        Acknowledged: "a cycle acknowledged by 1",
        AcknowledgedByOther: "a cycle acknowledged by another number",
        PositionOver28Bits: "a cycle with a position over 28 bits",
        AfterLog: "a cycle after an accepted log",
        AfterRefused6: "a cycle after a log refused with 6",
        AfterRefused7: "a cycle after a log refused with 7",
        CycleOfAnyContent: "a cycle of a channel with any content",
        OtherCount: "a cycle of a list with another count",
        OtherHead: "a cycle with a report of another head",
        HeadAlone: "cause 12 by the head alone",
        FOverInactive: "no cause 13 with F's count at 0, as nothing is active",
        Cause13Later: "cause 13 by a selection that came later",
        GearOfList: "a cycle with a gear's bits and a list headed 67, 69 or 72",
        GearOfCount: "a cycle with a gear's bits and a count above 72",
        GearBelow67: "a cycle with a gear's bits and a count below 67",
        NxAnyWord: "a usable cycle with a word above 1 for n<nx",
        NxKept: "n<nx kept at 1 with no run",
        NxWithoutFunction: "n<nx goes to 1 with its function off",
        NxUnusable: "an unusable cycle with n<nx at 1 and a run",
        NxLongestRun: "a run of n<nx that stays at 1,001",
        NxRunBeyond: "a run of n<nx above 1,001",
        WatchAnyWord: "a usable cycle with a word above 1 for a watch and safe direction on",
        WatchOfShortRun: "a usable cycle with a watch whose run is no longer than its delay",
        WatchWithoutFunction: "a usable cycle with a watch and safe direction off",
        OverstepWithoutFunction: "a watch that is overstepped with safe direction off",
        WatchUnusable: "an unusable cycle with a watch",
        WatchWordLeft: "a word above 1 for a watch left as it is",
        ExtremeLeft: "an extreme without a watch left as it is",
        WatchWordInLog: "a word above 1 for a watch before an accepted log",
        DirectionLongestRun: "a direction's run that stays at 1,001",
        DirectionRunBeyond: "a direction's run above 1,001",
        DirectionBelow72: "a usable cycle with safe direction on and a count below 72",
        NoCause: "no cause",
        NotUpwards: "codes that do not stand upwards",
        SgBefore5: "code 3 before 5",
        SgBeforeSe: "code 3 before 4",
        SeBeforeSg: "code 4 before 3",
        DirectionBeforeSe: "code 14 before 4",
        DirectionBeforeRank4: "code 14 before 2, 9 or 13",
        DirectionBehindRank4: "code 14 behind 2, 9 or 13",
        DirectionBeforeRankless: "code 14 before 10, 11 or 12",
        DirectionLast: "code 14 last, behind others",
        Rank4: "two of codes 2, 9 and 13 side by side",
        ManyCodes: "eight codes or more",
        Held: "held",
        F: "F on",
        RankFalls: "a rank falls",
        PulsesOn: "a device word with pulses on",
        PulsesOff: "a device word with pulses off",
        RankAbove5: "a device word of a rank above 5",
        Bit2Alone: "a device word of bit 2 with a lower rank",
        LogOfFresh: "a log on fresh channels",
        LogOfPast: "a log on channels with a past",
        SecondLog: "a second log",
        LogOutOfStep: "a log on channels whose k differ",
        LogOfAnyContent: "a log on a channel with any content",
        LogTurned: "a log with the channels changed about",
        EmptyLog: "an empty log",
        NoRecord: "a log of remarks only",
        LongestLog: "a log of 16,384 words",
        RoomEnough: "an output just long enough",
        RoomToSpare: "an output with room to spare",
        Refused6: "a log refused with 6 for a word",
        Refused6Length: "a log refused with 6 for its length",
        Refused7: "a log refused with 7",
        RefusedOfPast: "a refused log on channels with a past",
    }
}

/// Counts over many lists of calls.
#[derive(Clone, Debug)]
pub struct ReachedCalls {
    lists: u64,
    calls: u64,
    cycles: u64,
    /// Refused lists by number, 1 first.
    refused: [u64; 5],
    causes: [u64; 14],
    /// Channel words by rank.
    ranks: [u64; 6],
    events: Vec<u64>,
    /// Asks with a refused list by number, 1 first.
    asks_refused: [u64; 5],
    asks: Vec<u64>,
}

impl Default for ReachedCalls {
    fn default() -> ReachedCalls {
        ReachedCalls {
            lists: 0,
            calls: 0,
            cycles: 0,
            refused: [0; 5],
            causes: [0; 14],
            ranks: [0; 6],
            events: vec![0; Event::NAMES.len()],
            asks_refused: [0; 5],
            asks: vec![0; AskEvent::NAMES.len()],
        }
    }
}

/// What a channel went through in a list of calls.
#[derive(Clone, Copy, Debug, Default)]
struct Past {
    /// Cycles since its list was accepted.
    cycles: usize,
    logs: usize,
    /// Its last log: 0 accepted, 6 or 7.
    log: Option<u32>,
    /// Whether its content was put there by the caller.
    any_content: bool,
    /// Whether it was B of a log.
    was_b: bool,
    /// Its k before its last cycle.
    k: usize,
    rank: u32,
    /// Whether there was a commit since its last cycle.
    committed: bool,
}

impl ReachedCalls {
    /// Counts what other lists reached as well.
    pub fn add(&mut self, other: &ReachedCalls) {
        self.lists += other.lists;
        self.calls += other.calls;
        self.cycles += other.cycles;
        add_each(&mut self.refused, &other.refused);
        add_each(&mut self.causes, &other.causes);
        add_each(&mut self.ranks, &other.ranks);
        add_each(&mut self.events, &other.events);
        add_each(&mut self.asks_refused, &other.asks_refused);
        add_each(&mut self.asks, &other.asks);
    }

    /// Counts what a list of calls reaches.
    pub fn count(&mut self, calls: &[Call]) {
        self.lists += 1;
        let mut channels = Channels::default();
        let mut pasts = [Past::default(); CHANNELS];
        for call in calls {
            self.calls += 1;
            let before = channels.clone();
            let answer = channels.answer(call);
            self.asks(call, &answer, &before.0, &mut pasts);
            self.one(call, &answer, &before, &mut pasts);
        }
    }

    fn event(&mut self, event: Event, happened: bool) {
        self.events[event as usize] += u64::from(happened);
    }

    fn one(&mut self, call: &Call, answer: &Answer, before: &Channels, pasts: &mut [Past]) {
        match (call, answer) {
            (&Call::Lend { of, .. }, _) => {
                pasts[of] = Past {
                    any_content: true,
                    ..Past::default()
                };
            }
            (&Call::ReadList { of, .. }, Answer::Read(read)) => {
                let past = pasts[of].cycles > 0;
                self.read(*read, past);
                if read.is_ok() {
                    pasts[of] = Past::default();
                }
            }
            (&Call::Report { of, .. }, _) => {
                self.event(Event::ReportOfNoDatum, before.0[of].channel().k() >= COUNT);
                self.event(Event::ReportOfAnyContent, pasts[of].any_content);
            }
            (call @ &Call::Cycle { of, report, .. }, &Answer::Cycle { word, codes }) => {
                self.given(call, before, pasts);
                let own = before.0[of].report(0, 0);
                let alone = codes.contains(&12) && own.datum == report.datum;
                self.event(Event::HeadAlone, alone);
                self.f(&before.0[of], codes);
                if let Some(after) = after_cycle(&before.0[of], call) {
                    self.nx(&before.0[of], &after, codes);
                    self.directions(&before.0[of], &after, codes);
                }
                self.cycle(word, codes, &mut pasts[of]);
                pasts[of].k = before.0[of].channel().k();
            }
            (&Call::DeviceWord { a, b }, &Answer::DeviceWord(word)) => {
                self.event(Event::PulsesOn, bit(word, 0));
                self.event(Event::PulsesOff, !bit(word, 0));
                let rank = |word: u32| word >> 24 & 7;
                let above = |word: u32| rank(word) > 5 && !bit(word, 2);
                let alone = |word: u32| rank(word) < 5 && bit(word, 2);
                self.event(Event::RankAbove5, above(a) || above(b));
                self.event(Event::Bit2Alone, alone(a) || alone(b));
            }
            (&Call::RunLog { a, b, .. }, Answer::Ran(ran, _)) => {
                self.log(call, *ran, before, [pasts[a], pasts[b]]);
                for (of, is_b) in [(a, false), (b, true)] {
                    let past = &mut pasts[of];
                    past.log = Some(ran.map_or_else(|refusal| refusal.number, |_| 0));
                    past.logs += usize::from(ran.is_ok());
                    past.cycles += ran.unwrap_or(0);
                    past.was_b = is_b;
                }
            }
            _ => (),
        }
    }

    /// What F comes to that was over before the cycle.
    fn f(&mut self, before: &Lent, codes: [u8; 13]) {
        let channel = before.channel();
        let over = channel.f().time_is_over() && !codes.contains(&1);
        let active = causes::active(Paper, channel.data(), channel.selections());
        let stands = codes.contains(&13);
        self.event(Event::FOverInactive, over && !stands);
        self.event(Event::Cause13Later, over && !active && stands);
    }

    /// What n<nx comes to.
    fn nx(&mut self, before: &Lent, after: &Lent, codes: [u8; 13]) {
        let [was, is] = [before, after].map(|lent| *lent.channel().nx());
        let usable = !codes.contains(&1);
        let on = before.channel().data().has(Paper, Function::Nx);
        let any = before.state()[image::word::NX] > 1;
        self.event(Event::NxAnyWord, usable && any);
        self.event(
            Event::NxKept,
            usable && was.value && is.value && is.run == 0,
        );
        self.event(Event::NxWithoutFunction, !on && !was.value && is.value);
        self.event(Event::NxUnusable, !usable && was.value && was.run > 0);
        let full = was.run == nx::LONGEST;
        self.event(Event::NxLongestRun, usable && full && is.run == was.run);
        self.event(Event::NxRunBeyond, usable && was.run > nx::LONGEST);
    }

    /// What safe direction comes to.
    fn directions(&mut self, before: &Lent, after: &Lent, codes: [u8; 13]) {
        let usable = !codes.contains(&1);
        let data = before.channel().data();
        let on = data.has(Paper, Function::SafeDirection);
        self.event(
            Event::DirectionBelow72,
            usable && on && data.head() < HEADS[3],
        );
        let delay = i64::from(data.get(number::DIRECTION_DELAY));
        let tolerance = i64::from(data.get(number::DIRECTION_TOLERANCE));
        let [was, is] = [before, after].map(|lent| *lent.channel().directions());
        let both = [
            (was.positive, is.positive, 1, image::word::POSITIVE_WATCH),
            (was.negative, is.negative, -1, image::word::NEGATIVE_WATCH),
        ];
        for (was, is, sign, word) in both {
            let watch = was.watch.is_some();
            let words = |lent: &Lent| (lent.state()[word], lent.state()[word + 1]);
            let any_word = words(before).0 > 1;
            self.event(Event::WatchAnyWord, usable && on && any_word);
            let short = watch && is.watch.is_some() && is.run <= delay;
            self.event(Event::WatchOfShortRun, usable && on && short);
            self.event(Event::WatchWithoutFunction, usable && watch && !on);
            let behind = was.watch.zip(after.channel().previous());
            let over = behind.is_some_and(|(extreme, position)| {
                sign * (i64::from(extreme) - i64::from(position)) > tolerance
            });
            self.event(Event::OverstepWithoutFunction, usable && !on && over);
            self.event(Event::WatchUnusable, !usable && watch);
            let left = words(before) == words(after);
            self.event(Event::WatchWordLeft, left && any_word);
            let behind_none = !watch && words(before).1 != 0;
            self.event(Event::ExtremeLeft, left && behind_none);
            let full = was.run == direction::LONGEST && is.run == was.run;
            self.event(Event::DirectionLongestRun, usable && on && full);
            let beyond = was.run > direction::LONGEST;
            self.event(Event::DirectionRunBeyond, usable && on && beyond);
        }
    }

    fn read(&mut self, read: Result<usize, Refusal>, past: bool) {
        match read {
            Ok(_) => {
                self.event(Event::ListAccepted, true);
                self.event(Event::AcceptedOverPast, past);
            }
            Err(refusal) => {
                self.refused[refusal.number as usize - 1] += 1;
                self.event(Event::RefusedOverPast, past);
            }
        }
    }

    /// What a cycle is given.
    fn given(&mut self, call: &Call, before: &Channels, pasts: &[Past]) {
        let &Call::Cycle {
            of,
            position,
            inputs,
            acknowledged,
            report,
        } = call
        else {
            return;
        };
        let (channel, past) = (&before.0[of], &pasts[of]);
        // The other channel's cycle may have been before this one.
        let others = (0..CHANNELS).filter(|&other| other != of);
        let tellers = others.flat_map(|other| {
            let k = [before.0[other].channel().k(), pasts[other].k];
            k.map(|k| (k, before.0[other].data().get(k).copied()))
        });
        let mut told_by = tellers.filter(|&(_, datum)| datum == Some(report.datum));
        let any = told_by.clone().next().is_some();
        let in_step = told_by.any(|(k, _)| k == channel.channel().k());
        self.event(Event::ReportInStep, in_step);
        self.event(Event::ReportOutOfStep, any && !in_step);
        self.event(Event::ReportOfNone, !any);
        self.event(Event::Acknowledged, acknowledged == 1);
        self.event(Event::AcknowledgedByOther, acknowledged > 1);
        self.event(
            Event::PositionOver28Bits,
            !(-1 << 27..1 << 27).contains(&position),
        );
        self.event(Event::AfterLog, past.log == Some(0));
        self.event(Event::AfterRefused6, past.log == Some(6));
        self.event(Event::AfterRefused7, past.log == Some(7));
        self.event(Event::CycleOfAnyContent, past.any_content);
        let count = channel.state()[image::word::COUNT] as usize;
        self.event(Event::OtherCount, !HEADS.contains(&count));
        self.event(Event::OtherHead, report.head != count);
        let gear = inputs & GEAR_BITS != 0;
        self.event(Event::GearOfList, gear && HEADS[1..].contains(&count));
        self.event(Event::GearOfCount, gear && count > COUNT);
        self.event(Event::GearBelow67, gear && count < HEADS[1]);
    }

    /// What a cycle gives.
    fn cycle(&mut self, word: u32, codes: [u8; 13], past: &mut Past) {
        self.cycles += 1;
        self.event(Event::NoCause, codes[0] == 0);
        self.order(codes);
        for code in codes.into_iter().filter(|&code| code != 0) {
            self.causes[usize::from(code) - 1] += 1;
        }
        let rank = word >> 24 & 7;
        self.ranks[rank as usize] += 1;
        self.event(Event::Held, bit(word, 27));
        self.event(Event::F, bit(word, 28));
        self.event(Event::RankFalls, rank < past.rank);
        past.rank = rank;
        past.cycles += 1;
        past.log = None;
    }

    /// How a cycle's codes stand.
    fn order(&mut self, codes: [u8; 13]) {
        let place = |code: u8| codes.iter().position(|&stands| stands == code);
        let before = |one: u8, other: u8| matches!((place(one), place(other)), (Some(one), Some(other)) if one < other);
        let upwards = |two: &[u8]| two[1] == 0 || two[0] < two[1];
        let of_rank_4 = |two: &[u8]| two.iter().all(|code| [2, 9, 13].contains(code));
        self.event(Event::NotUpwards, !codes.windows(2).all(upwards));
        self.event(Event::SgBefore5, before(3, 5));
        self.event(Event::SgBeforeSe, before(3, 4));
        self.event(Event::SeBeforeSg, before(4, 3));
        let rank_4 = [2, 9, 13];
        self.event(Event::DirectionBeforeSe, before(14, 4));
        let before_4 = rank_4.iter().any(|&code| before(14, code));
        self.event(Event::DirectionBeforeRank4, before_4);
        let behind_4 = rank_4.iter().any(|&code| before(code, 14));
        self.event(Event::DirectionBehindRank4, behind_4);
        let rankless = (10..=12).any(|code| before(14, code));
        self.event(Event::DirectionBeforeRankless, rankless);
        let last = codes.iter().rfind(|&&code| code != 0) == Some(&14);
        self.event(Event::DirectionLast, last && codes[1] != 0);
        self.event(Event::Rank4, codes.windows(2).any(of_rank_4));
        self.event(Event::ManyCodes, codes[7] != 0);
    }

    fn log(
        &mut self,
        call: &Call,
        ran: Result<usize, Refusal>,
        before: &Channels,
        [past_a, past_b]: [Past; 2],
    ) {
        let Call::RunLog { a, b, words, room } = call else {
            return;
        };
        let past = past_a.cycles > 0 && past_b.cycles > 0;
        let cycles = match ran {
            Ok(cycles) => cycles,
            Err(refusal) => {
                let length = words.len() > log::LONGEST;
                self.event(Event::Refused6, refusal.number == 6 && !length);
                self.event(Event::Refused6Length, length);
                self.event(Event::Refused7, refusal.number == 7);
                self.event(Event::RefusedOfPast, past);
                return;
            }
        };
        self.cycles += 2 * cycles as u64;
        let fresh = |past: &Past| past.cycles == 0 && !past.any_content;
        let k = |of: usize| before.0[of].channel().k();
        self.event(Event::LogOfFresh, fresh(&past_a) && fresh(&past_b));
        self.event(Event::LogOfPast, past);
        self.event(Event::SecondLog, past_a.logs > 0 && past_b.logs > 0);
        self.event(Event::LogOutOfStep, k(*a) != k(*b));
        self.event(
            Event::LogOfAnyContent,
            past_a.any_content || past_b.any_content,
        );
        self.event(Event::LogTurned, past_a.was_b);
        let watches = [image::word::POSITIVE_WATCH, image::word::NEGATIVE_WATCH];
        let any_word = |of: usize| watches.iter().any(|&word| before.0[of].state()[word] > 1);
        self.event(Event::WatchWordInLog, any_word(*a) || any_word(*b));
        self.event(Event::EmptyLog, words.is_empty());
        self.event(Event::NoRecord, cycles == 0 && !words.is_empty());
        self.event(Event::LongestLog, words.len() == log::LONGEST);
        self.event(Event::RoomEnough, *room == 3 * cycles);
        self.event(Event::RoomToSpare, *room > 3 * cycles);
    }

    /// How often the scarcest of all was reached, and its name.
    pub fn scarcest(&self) -> (u64, String) {
        self.named().into_iter().min().unwrap_or_default()
    }

    /// Everything that lists of calls are to reach, with its count.
    fn named(&self) -> Vec<(u64, String)> {
        let mut counts = Vec::new();
        let mut table = |group: &str, of: &[u64], names: &[&str]| {
            let named = of.iter().zip(names);
            counts.extend(named.map(|(&count, name)| (count, format!("{group}{name}"))));
        };
        table("a list refused with ", &self.refused, &CODES);
        table("cause ", &self.causes, &CODES);
        table("channel rank ", &self.ranks, &RANKS);
        table("", &self.events, Event::NAMES);
        table("an ask refused with ", &self.asks_refused, &CODES);
        table("", &self.asks, AskEvent::NAMES);
        counts
    }
}

impl fmt::Display for ReachedCalls {
    fn fmt(&self, f: &mut fmt::Formatter) -> fmt::Result {
        writeln!(f, "{:>10} lists of calls", self.lists)?;
        writeln!(f, "{:>10} calls", self.calls)?;
        writeln!(f, "{:>10} cycles of a channel", self.cycles)?;
        for (count, name) in self.named() {
            writeln!(f, "{count:>10} {name}")?;
        }
        Ok(())
    }
}
