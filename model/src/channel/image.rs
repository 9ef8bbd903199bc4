//! A channel as the library lends it: its data, its state as words, and the list asked about.
//!
//! Every content of the arrays stands for some channel. Where it is none that a list and its
//! cycles lead to, data are read at the nearer end of their range, but cams as they stand; they
//! are reported and compared by cause 12 as they stand, and k follows the count of the list. The
//! places behind a shorter list's data hold 0, so that its ratios are read as 1 to 1, and the
//! hysteresis and the filter of n<nx as 0.

use super::ask::whole_array;
use super::{Channel, Cycle, Report};
use crate::causes::{Run, F};
use crate::deviation::{paper, Reading};
use crate::direction::{Directions, Watched};
use crate::list::Refusal;
use crate::log::{self, Record, Side};
use crate::machine_data::{number, range, Function, MachineData, COUNT};
use crate::nx::Nx;
use crate::selection::{Selection, Selections};
use crate::stop::{Rank, Stop};
use crate::Paper;

/// The words of a state.
pub const WORDS: usize = 26;

/// The state of a channel: a signed number stands in two's complement.
pub type Image = [u32; WORDS];

/// The places of the words.
pub mod word {
    /// How many data the list has.
    pub const COUNT: usize = 0;
    /// The number of the datum that the next report holds, in 8 bits.
    pub const K: usize = 1;
    /// Whether there is a previous position.
    pub const HAS_PREVIOUS: usize = 2;
    /// The previous position.
    pub const PREVIOUS: usize = 3;
    /// Whether a selection was made.
    pub const SELECTED: usize = 4;
    /// What is effective: 0 nothing, 1 SG, else SBH.
    pub const EFFECTIVE: usize = 5;
    /// The effective SG's number less one, in 8 bits.
    pub const SG: usize = 6;
    /// Its override number, in 8 bits.
    pub const OVERRIDE: usize = 7;
    /// SBH's reference.
    pub const SBH_REFERENCE: usize = 8;
    /// The count of a lower selection.
    pub const DELAY: usize = 9;
    /// The run of differing input words.
    pub const RUN: usize = 10;
    /// Whether F is on.
    pub const F: usize = 11;
    /// F's count.
    pub const F_COUNT: usize = 12;
    /// The stop: 0 none, 1 braking, 2 held, else cancelled.
    pub const STOP: usize = 13;
    /// Its rank, while braking or held.
    pub const RANK: usize = 14;
    /// Its count while braking, its reference while held.
    pub const REST: usize = 15;
    /// The cam signals as bits.
    pub const CAMS: usize = 16;
    /// Whether the value of n<nx is 1.
    pub const NX: usize = 17;
    /// The run of n<nx.
    pub const NX_RUN: usize = 18;
    /// The run of the positive direction.
    pub const POSITIVE_RUN: usize = 19;
    /// Whether it has a watch.
    pub const POSITIVE_WATCH: usize = 20;
    /// The watch's extreme: the highest position since it began.
    pub const POSITIVE_EXTREME: usize = 21;
    /// The run of the negative direction.
    pub const NEGATIVE_RUN: usize = 22;
    /// Whether it has a watch.
    pub const NEGATIVE_WATCH: usize = 23;
    /// The watch's extreme: the lowest position since it began.
    pub const NEGATIVE_EXTREME: usize = 24;
    /// How many data the pending list has; 0: none is pending.
    pub const PENDING: usize = 25;
}

/// The names of the words, as the header has them behind `MONITOR_STATE_`.
pub const NAMES: [&str; WORDS] = [
    "COUNT",
    "K",
    "HAS_PREVIOUS",
    "PREVIOUS",
    "SELECTED",
    "EFFECTIVE",
    "SG",
    "OVERRIDE",
    "SBH_REFERENCE",
    "DELAY",
    "DIFFERING",
    "F",
    "F_LEFT",
    "STOP",
    "RANK",
    "REST",
    "CAMS",
    "NX",
    "NX_RUN",
    "POSITIVE_RUN",
    "POSITIVE_WATCH",
    "POSITIVE_EXTREME",
    "NEGATIVE_RUN",
    "NEGATIVE_WATCH",
    "NEGATIVE_EXTREME",
    "PENDING",
];

/// The data of the cams' edges.
const CAMS: std::ops::Range<usize> = number::CAM..number::CAM + 8;

/// The words of both directions.
const DIRECTIONS: std::ops::RangeInclusive<usize> = word::POSITIVE_RUN..=word::NEGATIVE_EXTREME;

const BRAKING: u32 = 1;
const HELD: u32 = 2;
const CANCELLED: u32 = 3;

/// A channel with the arrays that its caller keeps.
#[derive(Clone, Debug)]
pub struct Lent {
    pub(super) data: [i32; COUNT],
    pub(super) state: Image,
    /// The list asked about; it counts while the word of the state says so.
    pub(super) pending: [i32; COUNT],
    /// What data and state stand for, with its data within their ranges.
    pub(super) channel: Channel,
}

/// Two are equal whose arrays are.
impl PartialEq for Lent {
    fn eq(&self, other: &Lent) -> bool {
        let arrays = |of: &Lent| (of.data, of.state, of.pending);
        arrays(self) == arrays(other)
    }
}

impl Eq for Lent {}

impl Lent {
    /// The channel of an accepted list, with no list asked about yet.
    pub fn fresh(data: MachineData) -> Lent {
        let channel = Channel::fresh(data);
        Lent {
            data: whole_array(&data),
            state: image(&channel, data.head() as u32),
            pending: [0; COUNT],
            channel,
        }
    }

    /// The channel of an accepted list, in place of the one before: no list is pending, and the array of the one asked about is
    /// left as it is.
    pub fn renew(&mut self, data: MachineData) {
        let pending = self.pending;
        *self = Lent::fresh(data);
        self.pending = pending;
    }

    /// The channel that any content stands for.
    pub fn of(data: [i32; COUNT], state: Image, pending: [i32; COUNT]) -> Lent {
        Lent {
            data,
            state,
            pending,
            channel: channel_of(&data, &state),
        }
    }

    /// The data as they are lent.
    pub fn data(&self) -> &[i32; COUNT] {
        &self.data
    }

    /// The words of its state.
    pub fn state(&self) -> &Image {
        &self.state
    }

    /// The list asked about, as it is lent.
    pub fn pending(&self) -> &[i32; COUNT] {
        &self.pending
    }

    /// What the arrays stand for.
    pub fn channel(&self) -> &Channel {
        &self.channel
    }

    /// The datum that it reports.
    fn datum(&self) -> i32 {
        self.data.get(self.channel.k).copied().unwrap_or(0)
    }

    /// [`Channel::report`]
    pub fn report(&self, position: i32, inputs: u32) -> Report {
        Report {
            datum: self.datum(),
            ..self.channel.report(position, inputs)
        }
    }

    /// [`Channel::cycle`]
    pub fn cycle(
        &mut self,
        position: i32,
        inputs: u32,
        acknowledged: bool,
        report: Report,
    ) -> Cycle {
        self.cycle_as(Paper, position, inputs, acknowledged, report, None)
    }

    /// [`Lent::cycle`] by any reading of W7; in a log as A or B.
    pub fn cycle_as<R: Reading>(
        &mut self,
        r: R,
        position: i32,
        inputs: u32,
        acknowledged: bool,
        report: Report,
        in_log: Option<char>,
    ) -> Cycle {
        let own = self.channel.report(position, inputs).datum;
        // All that cause 12 asks of a report's datum is whether it is the own.
        let datum = if report.datum == self.datum() {
            own
        } else {
            !own
        };
        let report = Report { datum, ..report };
        let cycle = self.channel.cycle(position, inputs, acknowledged, report);
        let count = self.state[word::COUNT];
        if self.channel.k >= COUNT {
            self.channel.k = 0;
        }
        let before = self.state;
        self.state = image(&self.channel, count);
        let usable = !cycle.causes.stands(1);
        if !usable {
            // "selections, references and cams stay", bits of no cam too.
            self.state[word::CAMS] = before[word::CAMS];
        }
        let on = self.channel.data.has(Paper, Function::SafeDirection);
        if !(usable && on) {
            // Where the directions stay, their words are not written: any word of a watch, and what stands behind none.
            self.state[DIRECTIONS].copy_from_slice(&before[DIRECTIONS]);
        }
        paper!(r, (), CommitEndsDirectionsInCycle => if usable && !on {
            self.state[DIRECTIONS].fill(0);
            self.channel.directions = Directions::fresh(r);
        });
        self.dropped(r, before[word::PENDING], in_log, usable, acknowledged);
        cycle
    }

    /// The words of the state after a commit: all of them anew, with this count and none pending.
    pub(super) fn write_committed(&mut self, count: u32) {
        let before = written(&self.state);
        self.state = image(&self.channel, count);
        if self.state[word::CAMS] == before[word::CAMS] & 0xff {
            // "cams .. go on", bits of no cam too.
            self.state[word::CAMS] = before[word::CAMS];
        }
        let of_no_time = |rank: u32| Rank::of(rank as i32).time().is_none();
        if before[word::STOP] == BRAKING && of_no_time(before[word::RANK]) {
            // A stop that brakes, of a rank that has no time: its count is cut to 0.
            self.state[word::STOP] = BRAKING;
            self.state[word::RANK] = before[word::RANK];
            self.state[word::REST] = 0;
        }
    }
}

/// [`log::run`], which writes all words of both channels, without a cycle too.
pub fn run_log(a: &mut Lent, b: &mut Lent, log: &[u32], out: &mut [u32]) -> Result<usize, Refusal> {
    run_log_as(Paper, a, b, log, out)
}

/// [`run_log`] by any reading of W7.
pub fn run_log_as<R: Reading>(
    r: R,
    a: &mut Lent,
    b: &mut Lent,
    log: &[u32],
    out: &mut [u32],
) -> Result<usize, Refusal> {
    let ran = log::room(log, out);
    a.no_cycle(r, ran, 'A');
    b.no_cycle(r, ran, 'B');
    let cycles = ran?;
    a.state = written(&a.state);
    b.state = written(&b.state);
    for (record, three) in log::records(log).zip(out.chunks_exact_mut(3)) {
        let (of_a, of_b) = both_as(r, a, b, record);
        let device = crate::device::word(of_a.word, of_b.word);
        three.copy_from_slice(&[of_a.word, of_b.word, device]);
    }
    Ok(cycles)
}

/// [`log::both`]
pub fn both(a: &mut Lent, b: &mut Lent, record: Record) -> (Cycle, Cycle) {
    both_as(Paper, a, b, record)
}

/// [`both`] by any reading of W7.
fn both_as<R: Reading>(r: R, a: &mut Lent, b: &mut Lent, record: Record) -> (Cycle, Cycle) {
    let Record {
        a: of_a,
        b: of_b,
        acknowledged,
    } = record;
    let from_a = a.report(of_a.position, of_a.inputs);
    let from_b = b.report(of_b.position, of_b.inputs);
    let of = |lent: &mut Lent, side: Side, from: Report, name: char| {
        lent.cycle_as(
            r,
            side.position,
            side.inputs,
            acknowledged,
            from,
            Some(name),
        )
    };
    (of(a, of_a, from_b, 'A'), of(b, of_b, from_a, 'B'))
}

/// The words of a channel with no list pending.
fn image(channel: &Channel, count: u32) -> Image {
    let Selections {
        effective,
        any_yet,
        count: delay,
        reference,
        ..
    } = channel.selections;
    let [effective, sg, override_number] = match effective {
        Selection::Nothing => [0, 0, 0],
        Selection::Sg {
            sg,
            override_number,
        } => [1, sg.into(), override_number.into()],
        Selection::Sbh => [2, 0, 0],
    };
    let stop = channel.stop;
    let [stop, rank, rest] = match (stop.held, stop.rank) {
        (Some(reference), rank) => [HELD, rank.number(), reference as u32],
        (None, Rank::None) => [0, 0, 0],
        (None, Rank::A) => [CANCELLED, 0, 0],
        (None, rank) => [BRAKING, rank.number(), stop.count as u32],
    };
    let Directions { positive, negative } = channel.directions;
    let [positive, negative] = [positive, negative].map(|watched| {
        let watch = watched.watch;
        [
            watched.run as u32,
            watch.is_some().into(),
            watch.unwrap_or(0) as u32,
        ]
    });
    [
        count,
        channel.k as u32,
        channel.previous.is_some().into(),
        channel.previous.unwrap_or(0) as u32,
        any_yet.into(),
        effective,
        sg,
        override_number,
        reference as u32,
        delay as u32,
        channel.run.0 as u32,
        channel.f.on.into(),
        channel.f.count as u32,
        stop,
        rank,
        rest,
        channel.cams(),
        channel.nx.value.into(),
        channel.nx.run as u32,
        positive[0],
        positive[1],
        positive[2],
        negative[0],
        negative[1],
        negative[2],
        0,
    ]
}

/// The words that are written for a channel that was read from any words.
fn written(state: &Image) -> Image {
    let mut written = *state;
    written[word::K] &= 0xff;
    for flag in [word::SELECTED, word::F, word::NX] {
        written[flag] = written[flag].min(1);
    }
    for flag in [
        word::HAS_PREVIOUS,
        word::POSITIVE_WATCH,
        word::NEGATIVE_WATCH,
    ] {
        written[flag] = written[flag].min(1);
        // The position stands behind it.
        written[flag + 1] *= written[flag];
    }
    written[word::EFFECTIVE] = written[word::EFFECTIVE].min(2);
    for of_sg in [word::SG, word::OVERRIDE] {
        let is_sg = written[word::EFFECTIVE] == 1;
        written[of_sg] = if is_sg { written[of_sg] & 0xff } else { 0 };
    }
    written[word::STOP] = written[word::STOP].min(CANCELLED);
    match written[word::STOP] {
        BRAKING | HELD => written[word::RANK] = written[word::RANK].min(5),
        _ => (written[word::RANK], written[word::REST]) = (0, 0),
    }
    written
}

/// The channel that any content stands for.
fn channel_of(data: &[i32; COUNT], state: &Image) -> Channel {
    let state = written(state);
    let mut channel = Channel::fresh(machine_data(data, state[word::COUNT]));
    channel.k = state[word::K] as usize;
    if state[word::HAS_PREVIOUS] != 0 {
        channel.previous = Some(state[word::PREVIOUS] as i32);
    }
    let selections = &mut channel.selections;
    selections.any_yet = state[word::SELECTED] != 0;
    selections.effective = match state[word::EFFECTIVE] {
        0 => Selection::Nothing,
        1 => Selection::Sg {
            sg: state[word::SG] as u8,
            override_number: state[word::OVERRIDE] as u8,
        },
        _ => Selection::Sbh,
    };
    selections.reference = state[word::SBH_REFERENCE] as i32;
    selections.count = state[word::DELAY].into();
    channel.run = Run(state[word::RUN].into());
    channel.f = F {
        on: state[word::F] != 0,
        count: state[word::F_COUNT].into(),
    };
    channel.stop = stop_of(&state);
    channel.cams = std::array::from_fn(|cam| state[word::CAMS] >> cam & 1 == 1);
    channel.nx = Nx::of(state[word::NX] != 0, state[word::NX_RUN].into());
    channel.directions = Directions {
        positive: watched_of(&state, word::POSITIVE_RUN),
        negative: watched_of(&state, word::NEGATIVE_RUN),
    };
    channel
}

/// The list that any content of an array stands for, with this count.
pub(super) fn machine_data(data: &[i32; COUNT], count: u32) -> MachineData {
    let within = |number: usize| {
        if CAMS.contains(&number) {
            return data[number];
        }
        let (low, high) = range(COUNT, number);
        data[number].clamp(low, high)
    };
    MachineData::looked_through(std::array::from_fn(within), count as usize)
}

/// Run, watch and extreme of three words.
fn watched_of(state: &Image, first: usize) -> Watched {
    let watch = state[first + 1] != 0;
    Watched::of(
        state[first].into(),
        watch.then_some(state[first + 2] as i32),
    )
}

/// The stop of three words.
fn stop_of(state: &Image) -> Stop {
    let mut stop = Stop::FRESH;
    let rest = state[word::REST];
    match state[word::STOP] {
        0 => (),
        CANCELLED => stop.rank = Rank::A,
        braking_or_held => {
            stop.rank = Rank::of(state[word::RANK] as i32);
            match braking_or_held {
                BRAKING => stop.count = rest.into(),
                _ => stop.held = Some(rest as i32),
            }
        }
    }
    stop
}
