//! What random kits reach, counted.

use super::layers::Layer;
use crate::causes;
use crate::channel::{Channel, Cycle};
use crate::direction::DIRECTION_BITS;
use crate::gear::{Ratio, GEAR_BITS};
use crate::log::{self, Side};
use crate::machine_data::{number, Function, HEADS};
use crate::selection::Selection;
use crate::stop::Rank;
use crate::{list, listing, words, Paper};
use std::fmt;

/// Things that are counted, each with its name.
macro_rules! named {
    ($(#[$doc:meta])* $table:ident { $($thing:ident: $name:literal,)* }) => {
        $(#[$doc])*
        #[derive(Clone, Copy, Debug, PartialEq, Eq)]
        pub enum $table {
            $($thing,)*
        }

        impl $table {
            pub const NAMES: &'static [&'static str] = &[$($name,)*];
        }
    };
}
pub(super) use named;

named! {
    /// What happened in a channel's cycle.
    Event {
        NothingEffective: "nothing effective",
        Sg1Effective: "SG1 effective",
        Sg2Effective: "SG2 effective",
        Sg3Effective: "SG3 effective",
        Sg4Effective: "SG4 effective",
        SbhEffective: "SBH effective",
        CountSet: "a lower selection sets the count",
        CountGoesOn: "the count goes on",
        CountBinds: "the count binds the lower selection",
        CountEnds: "a selection no stricter ends the count",
        DelayZero: "a lowering binds at once, delay 0",
        OverrideEffective: "an override below 100 is effective",
        EEntered: "E entered",
        DEntered: "D entered",
        CEntered: "C entered",
        BEntered: "B entered",
        AEntered: "A entered",
        StrongerEntered: "a stronger stop is entered over a weaker",
        EHeld: "E held",
        DHeld: "D held",
        CHeld: "C held",
        HeldOnEntry: "held in the entry cycle, time 0",
        BToAByTime: "B becomes A by its time",
        BToABySpeed: "B becomes A by the shutdown speed",
        FSet: "F set",
        FCounts: "F counts",
        FToCause13: "F leads to cause 13",
        FOverInactive: "F's count is 0 and nothing is active",
        Cause13Later: "cause 13 by a selection that came later",
        BOutlivesCause13: "STOP B with F's count at 0 and nothing active any more",
        Clears: "a cycle clears",
        ClearsWithCause13: "clears with cause 13 alone",
        HeldUp: "an acknowledgement is held up by a fresh cause",
        InputsDiffer: "inputs differ, still allowed",
        Unusable: "unusable, the other usable",
        UnusableBoth: "unusable, both",
        UnusableHeld: "unusable while held",
        UnusableWaiting: "unusable while a lower selection waits",
        UnusableF: "unusable while F counts",
        CamRises: "a cam signal rises",
        CamFalls: "a cam signal falls",
        NxShows: "n<nx shows 1",
        NxSet: "n<nx goes to 1 after its filter",
        NxSetLast: "n<nx goes to 1 after a filter of 1,000",
        NxWaits: "n<nx stays 0 below nx, its run too short",
        NxKept1: "n<nx stays 1 between nx and nx plus hysteresis",
        NxKeptBelow: "n<nx stays 1 below nx, its run too short",
        NxReset: "n<nx goes to 0 at nx plus hysteresis or more",
        NxWithoutFunction: "n<nx goes to 1 with its function off",
        UnusableNx: "unusable while n<nx is 1",
        UnusableNxRun: "unusable while n<nx is 0 and its run is not",
        KWraps: "k follows 50 by 0",
        KWrapsAt66: "k follows 66 by 0",
        KWrapsAt68: "k follows 68 by 0",
        KWrapsAt71: "k follows 71 by 0",
        Ratio: "a ratio other than 1 to 1",
        RatioChanges: "another ratio than in the cycle before",
        SgByRatio: "an SG is overstepped, or not, by the ratio",
        NxByRatio: "n<nx shows, or not, by the ratio",
        ShutdownByRatio: "B becomes A, or not, by the ratio",
        HeadsDiffer: "cause 12 by the head alone",
        GearAt51: "unusable by a gear bit with a list headed 51",
        DirectionWaits: "a direction's run, its delay not over",
        WatchBegins: "a watch begins after its delay",
        WatchBeginsAtOnce: "a watch begins at once, delay 0",
        WatchBeginsLast: "a watch begins after a delay of 1,000",
        WatchEnds: "a watch ends",
        RunEnds: "a direction's run ends without a watch",
        BothWatched: "both directions have a watch",
        ExtremeMoves: "an extreme takes in a farther position",
        AtTolerance: "a position at the tolerance of safe direction",
        PositiveOverstepped: "the positive direction is overstepped",
        NegativeOverstepped: "the negative direction is overstepped",
        BothOverstepped: "both directions are overstepped",
        Cause14Alone: "cause 14 alone leads to a stop",
        ClearsWithWatch: "a cycle clears with a watch",
        UnusableWatch: "unusable with a watch",
        UnusableDirectionRun: "unusable with a direction's run and no watch",
        UnusableByDirection: "unusable by bit 13 or 14 with safe direction off",
    }
}

named! {
    /// What an accepted kit has.
    Kit {
        Binary32: "with a binary32",
        Binary64: "with a binary64",
        MinusZero: "with minus zero",
        Gears: "with a list headed 67",
        NxData: "with a list headed 69",
        DirectionData: "with a list headed 72",
        DirectionOff: "with a list headed 72 and safe direction off",
        HeadsDiffer: "with unlike heads",
        ListsDiffer: "with unlike lists",
        Remarks: "with remarks",
        EmptyLog: "with an empty log",
        RemarksOnly: "with a log of remarks only",
        LongLog: "of 1,000 cycles or more",
        Largest: "of 65,536 bytes",
    }
}

/// Counts over many kits.
#[derive(Clone, Debug)]
pub struct Reached {
    kits: u64,
    accepted: u64,
    cycles: u64,
    longest_log: u64,
    /// Refusals by part (A, B, L) and number.
    refused: [[u64; 8]; 3],
    layers: Vec<u64>,
    accepted_kits: Vec<u64>,
    /// Channel words by rank.
    ranks: [u64; 6],
    /// Device words by rank.
    device_ranks: [u64; 8],
    /// Channel words that show a cam signal, SN1+ first.
    cams: [u64; 8],
    causes: [u64; 15],
    events: Vec<u64>,
}

impl Default for Reached {
    fn default() -> Reached {
        Reached::new()
    }
}

impl Reached {
    /// Nothing reached yet.
    pub fn new() -> Reached {
        Reached {
            kits: 0,
            accepted: 0,
            cycles: 0,
            longest_log: 0,
            refused: [[0; 8]; 3],
            layers: vec![0; Layer::NAMES.len()],
            accepted_kits: vec![0; Kit::NAMES.len()],
            ranks: [0; 6],
            device_ranks: [0; 8],
            cams: [0; 8],
            causes: [0; 15],
            events: vec![0; Event::NAMES.len()],
        }
    }

    /// Counts what other kits reached as well.
    pub fn add(&mut self, other: &Reached) {
        self.kits += other.kits;
        self.accepted += other.accepted;
        self.cycles += other.cycles;
        self.longest_log = self.longest_log.max(other.longest_log);
        add_each(
            self.refused.as_flattened_mut(),
            other.refused.as_flattened(),
        );
        add_each(&mut self.layers, &other.layers);
        add_each(&mut self.accepted_kits, &other.accepted_kits);
        add_each(&mut self.ranks, &other.ranks);
        add_each(&mut self.device_ranks, &other.device_ranks);
        add_each(&mut self.cams, &other.cams);
        add_each(&mut self.causes, &other.causes);
        add_each(&mut self.events, &other.events);
    }

    /// Counts what a kit reaches.
    pub fn count(&mut self, kit: &[u8]) {
        self.kits += 1;
        let words = words::of_bytes(kit);
        match listing::outputs(kit) {
            Ok(output) => self.accepted(kit, &words, &output),
            Err(refused) => {
                let number = refused.refusal.number.min(7) as usize;
                self.refused[refused.part as usize][number] += 1;
                self.layers[Layer::of(kit, &words, refused) as usize] += 1;
            }
        }
    }

    /// Runs an accepted kit again, looking at what the channels keep.
    fn accepted(&mut self, kit: &[u8], words: &[u32], output: &[u32]) {
        self.accepted += 1;
        let cycles = output.len() as u64 / 3;
        self.cycles += cycles;
        self.longest_log = self.longest_log.max(cycles);
        for three in output.chunks_exact(3) {
            self.device_ranks[(three[2] >> 1 & 7) as usize] += 1;
        }
        let Ok((data_a, behind_a)) = list::read(words) else {
            return;
        };
        let Ok((data_b, behind_b)) = list::read(&words[behind_a..]) else {
            return;
        };
        let (lists, log) = words.split_at(behind_a + behind_b);
        self.lists(lists);
        self.kit(Kit::Gears, data_a.head() == HEADS[1]);
        self.kit(Kit::NxData, data_a.head() == HEADS[2]);
        let (longest, on) = (
            data_a.head() == HEADS[3],
            data_a.has(Paper, Function::SafeDirection),
        );
        self.kit(Kit::DirectionData, longest);
        self.kit(Kit::DirectionOff, longest && !on);
        self.kit(Kit::HeadsDiffer, data_a.head() != data_b.head());
        self.kit(Kit::ListsDiffer, data_a != data_b);
        self.kit(Kit::Remarks, log.len() as u64 > 7 * cycles);
        self.kit(Kit::EmptyLog, log.is_empty());
        self.kit(Kit::RemarksOnly, cycles == 0 && !log.is_empty());
        self.kit(Kit::LongLog, cycles >= 1_000);
        self.kit(Kit::Largest, kit.len() == listing::LARGEST);
        self.run(Channel::fresh(data_a), Channel::fresh(data_b), log);
    }

    /// The forms in which the data of both lists arrive.
    fn lists(&mut self, lists: &[u32]) {
        let single = |word: &u32| words::kind(*word) == words::DATUM && word & 3 == 1;
        let double = |word: &u32| words::kind(*word) == words::DATUM && word & 3 == 2;
        let minus_zero = |two: &[u32]| single(&two[0]) && two[1] == words::piece(0x8000);
        self.kit(Kit::Binary32, lists.iter().any(single));
        self.kit(Kit::Binary64, lists.iter().any(double));
        self.kit(Kit::MinusZero, lists.windows(2).any(minus_zero));
    }

    fn run(&mut self, mut a: Channel, mut b: Channel, log: &[u32]) {
        let mut last: Option<log::Record> = None;
        for record in log::records(log) {
            let (before_a, before_b) = (a, b);
            let (of_a, of_b) = log::both(Paper, &mut a, &mut b, record);
            self.cycle(
                &before_a,
                &a,
                &of_a,
                record.a,
                record.acknowledged,
                of_b.causes.stands(1),
            );
            self.heads(&before_a, &before_b, &of_a);
            self.ratio(&before_a, &a, &of_a, record.a, last.map(|last| last.a));
            self.cycle(
                &before_b,
                &b,
                &of_b,
                record.b,
                record.acknowledged,
                of_a.causes.stands(1),
            );
            self.heads(&before_b, &before_a, &of_b);
            self.ratio(&before_b, &b, &of_b, record.b, last.map(|last| last.b));
            last = Some(record);
        }
    }

    fn cycle(
        &mut self,
        before: &Channel,
        after: &Channel,
        cycle: &Cycle,
        side: Side,
        acknowledged: bool,
        other_unusable: bool,
    ) {
        self.ranks[after.stop().rank.number() as usize] += 1;
        for code in cycle.causes.codes() {
            self.causes[usize::from(code).min(14)] += 1;
        }
        for (bit, cam) in (8..).zip(&mut self.cams) {
            *cam += u64::from(cycle.word >> bit & 1);
        }
        let wraps = after.k() == 0;
        self.event(Event::KWraps, wraps && before.k() == 50);
        self.event(Event::KWrapsAt66, wraps && before.k() == 66);
        self.event(Event::KWrapsAt68, wraps && before.k() == 68);
        self.event(Event::KWrapsAt71, wraps && before.k() == 71);
        if cycle.causes.stands(1) {
            self.unusable(before, other_unusable);
            let gear = after.data().head() == HEADS[0] && side.inputs & GEAR_BITS != 0;
            self.event(Event::GearAt51, gear);
            let off = !after.data().has(Paper, Function::SafeDirection);
            let ways = side.inputs & DIRECTION_BITS != 0;
            self.event(Event::UnusableByDirection, off && ways);
            return;
        }
        self.selection(before, after);
        self.stop(before, after, cycle, side);
        self.f(before, after, cycle, acknowledged);
        let (was, is) = (before.cams(), after.cams());
        self.event(Event::CamRises, is & !was != 0);
        self.event(Event::CamFalls, was & !is != 0);
        self.event(Event::NxShows, cycle.word >> 21 & 1 == 1);
        self.nx(before, after);
        self.directions(before, after, side);
    }

    /// What safe direction comes to in a usable cycle.
    fn directions(&mut self, before: &Channel, after: &Channel, side: Side) {
        let (was, is) = (before.directions(), after.directions());
        let [delay, tolerance] = [number::DIRECTION_DELAY, number::DIRECTION_TOLERANCE]
            .map(|datum| i64::from(after.data().get(datum)));
        let mut over = [false; 2];
        let both = [
            (was.positive, is.positive, 1),
            (was.negative, is.negative, -1),
        ];
        for (over, (was, is, sign)) in over.iter_mut().zip(both) {
            let begins = was.watch.is_none() && is.watch.is_some();
            self.event(Event::DirectionWaits, is.run > 0 && is.watch.is_none());
            self.event(Event::WatchBegins, begins && delay > 0);
            self.event(Event::WatchBeginsAtOnce, begins && delay == 0);
            self.event(Event::WatchBeginsLast, begins && delay == 1_000);
            self.event(Event::WatchEnds, was.watch.is_some() && is.watch.is_none());
            let run_ends = was.run > 0 && was.watch.is_none() && is.run == 0;
            self.event(Event::RunEnds, run_ends);
            let Some(extreme) = is.watch else {
                continue;
            };
            let moves = was.watch.is_some_and(|was| was != extreme);
            self.event(Event::ExtremeMoves, moves);
            let behind = sign * (i64::from(extreme) - i64::from(side.position));
            self.event(Event::AtTolerance, behind == tolerance && tolerance > 0);
            *over = behind > tolerance;
        }
        let both = is.positive.watch.is_some() && is.negative.watch.is_some();
        self.event(Event::BothWatched, both);
        self.event(Event::PositiveOverstepped, over == [true, false]);
        self.event(Event::NegativeOverstepped, over == [false, true]);
        self.event(Event::BothOverstepped, over == [true, true]);
    }

    /// What n<nx comes to in a usable cycle.
    fn nx(&mut self, before: &Channel, after: &Channel) {
        let (data, was, is) = (after.data(), before.nx(), after.nx());
        let filtered = data.get(number::NX_FILTER) > 0;
        let hysteresis = data.get(number::NX_HYSTERESIS) > 0;
        let (is_1, is_0) = (was.value && is.value, !was.value && !is.value);
        let short = is.run > 0 && is.run <= data.get(number::NX_FILTER).into();
        self.event(Event::NxSet, filtered && !was.value && is.value);
        let longest = is.run == 1_001 && !was.value;
        self.event(Event::NxSetLast, longest && is.value);
        self.event(Event::NxWaits, is_0 && short);
        self.event(Event::NxKept1, is_1 && is.run == 0);
        self.event(Event::NxKeptBelow, is_1 && short);
        self.event(Event::NxReset, hysteresis && was.value && !is.value);
        let off = !data.has(Paper, Function::Nx);
        self.event(Event::NxWithoutFunction, off && !was.value && is.value);
    }

    /// What heads do, in a cycle of a channel beside another.
    fn heads(&mut self, before: &Channel, other: &Channel, cycle: &Cycle) {
        let datum = |channel: &Channel| channel.data().get(channel.k());
        let alone = cycle.causes.stands(12) && datum(before) == datum(other);
        self.event(Event::HeadsDiffer, alone);
    }

    /// What the ratio of a usable cycle does.
    fn ratio(
        &mut self,
        before: &Channel,
        after: &Channel,
        cycle: &Cycle,
        side: Side,
        last: Option<Side>,
    ) {
        if cycle.causes.stands(1) {
            return;
        }
        let data = after.data();
        let ratio = Ratio::of(Paper, data, side.inputs);
        let (step, bound) = (ratio.step(Paper, 1), ratio.bound(1));
        self.event(Event::Ratio, step != bound);
        let was = last.map(|last| Ratio::of(Paper, data, last.inputs));
        self.event(Event::RatioChanges, was.is_some_and(|was| was != ratio));
        let d = step_of(before, side).abs();
        let slower = |speed: usize| d * 60 < data.times_t(data.get(speed));
        let slower_by_ratio = |speed: usize| d * step * 60 < bound * data.times_t(data.get(speed));
        let changed = |speed: usize| slower(speed) != slower_by_ratio(speed);
        self.event(
            Event::NxByRatio,
            changed(number::NX) && data.has(Paper, Function::Nx),
        );
        let braking = after.stop().rank >= Rank::B && before.stop().rank == Rank::B;
        self.event(Event::ShutdownByRatio, changed(number::SHUTDOWN) && braking);
        if let effective @ Selection::Sg { .. } = after.selections().effective {
            let t = i64::from(data.get(number::T));
            let over = d * 6000 > effective.leeway(Paper, data) * t;
            self.event(Event::SgByRatio, over != cycle.causes.stands(3));
        }
    }

    fn event(&mut self, event: Event, happened: bool) {
        self.events[event as usize] += u64::from(happened);
    }

    fn kit(&mut self, kit: Kit, has: bool) {
        self.accepted_kits[kit as usize] += u64::from(has);
    }

    fn unusable(&mut self, before: &Channel, other_unusable: bool) {
        self.event(Event::Unusable, !other_unusable);
        self.event(Event::UnusableBoth, other_unusable);
        self.event(Event::UnusableHeld, before.stop().held.is_some());
        self.event(Event::UnusableWaiting, before.selections().count > 0);
        self.event(Event::UnusableF, before.f().on && before.f().count > 0);
        let nx = before.nx();
        self.event(Event::UnusableNx, nx.value);
        self.event(Event::UnusableNxRun, !nx.value && nx.run > 0);
        let directions = before.directions();
        for watched in [directions.positive, directions.negative] {
            let watch = watched.watch.is_some();
            self.event(Event::UnusableWatch, watch);
            self.event(Event::UnusableDirectionRun, !watch && watched.run > 0);
        }
    }

    fn selection(&mut self, before: &Channel, after: &Channel) {
        let (was, is) = (before.selections(), after.selections());
        match is.effective {
            Selection::Nothing => self.event(Event::NothingEffective, true),
            Selection::Sg {
                sg,
                override_number,
            } => {
                self.event(EFFECTIVE[usize::from(sg & 3)], true);
                let percent = Selection::percent(Paper, after.data(), sg, override_number);
                self.event(Event::OverrideEffective, percent < 100);
            }
            Selection::Sbh => self.event(Event::SbhEffective, true),
        }
        let bound = is.effective.stricter(Paper, after.data(), was.effective);
        self.event(Event::CountSet, was.count == 0 && is.count > 0);
        self.event(Event::CountGoesOn, was.count > 0 && is.count > 0);
        self.event(Event::CountBinds, was.count > 0 && is.count == 0 && bound);
        self.event(Event::CountEnds, was.count > 0 && is.count == 0 && !bound);
        self.event(
            Event::DelayZero,
            was.any_yet && was.count == 0 && is.count == 0 && bound,
        );
    }

    fn stop(&mut self, before: &Channel, after: &Channel, cycle: &Cycle, side: Side) {
        let (was, is) = (before.stop(), after.stop());
        let entered = cycle.causes.strongest();
        if is.rank > was.rank && entered > was.rank {
            self.event(ENTERED[entered.number() as usize - 1], true);
            self.event(Event::StrongerEntered, was.rank != Rank::None);
            self.event(Event::Cause14Alone, cycle.causes.codes().eq([14]));
            self.event(Event::HeldOnEntry, is.held.is_some());
        }
        if is.held.is_some() && (was.held.is_none() || is.rank > was.rank) {
            match is.rank {
                Rank::E => self.event(Event::EHeld, true),
                Rank::D => self.event(Event::DHeld, true),
                _ => self.event(Event::CHeld, true),
            }
        }
        if is.rank == Rank::A && was.rank.max(entered) == Rank::B {
            let time = after.data().get(number::TIME_B);
            let over = if was.rank == Rank::B {
                was.count <= 1
            } else {
                time == 0
            };
            let ratio = Ratio::of(Paper, after.data(), side.inputs);
            let step = ratio.step(Paper, step_of(before, side));
            let speed = after.data().times_t(after.data().get(number::SHUTDOWN));
            let slow = step.abs() * 60 < ratio.bound(speed);
            self.event(Event::BToAByTime, over);
            self.event(Event::BToABySpeed, slow && !over);
        }
    }

    fn f(&mut self, before: &Channel, after: &Channel, cycle: &Cycle, acknowledged: bool) {
        let causes = &cycle.causes;
        let differs = causes.stands(10) || causes.stands(11) || causes.stands(12);
        self.event(Event::FSet, !before.f().on && differs);
        self.event(Event::FCounts, before.f().on && after.f().count > 0);
        self.event(Event::FToCause13, causes.stands(13));
        let active =
            |channel: &Channel| causes::active(Paper, channel.data(), channel.selections());
        let idle = after.f().time_is_over() && !active(after);
        self.event(Event::FOverInactive, idle);
        let waited = before.f().time_is_over() && !active(before);
        self.event(Event::Cause13Later, waited && causes.stands(13));
        let was_b = before.stop().rank == Rank::B && after.stop().rank == Rank::B;
        self.event(Event::BOutlivesCause13, idle && was_b && active(before));
        self.event(
            Event::Clears,
            acknowledged && !causes.any_fresh() && before.stop().rank != Rank::None,
        );
        self.event(
            Event::ClearsWithCause13,
            acknowledged && !causes.any_fresh() && causes.stands(13),
        );
        let is = after.directions();
        let watched = is.positive.watch.is_some() || is.negative.watch.is_some();
        self.event(
            Event::ClearsWithWatch,
            acknowledged && !causes.any_fresh() && watched,
        );
        self.event(Event::HeldUp, acknowledged && causes.any_fresh());
        self.event(Event::InputsDiffer, after.run() > 0 && !causes.stands(11));
    }

    /// How often the scarcest of all was reached, and its name.
    pub fn scarcest(&self) -> (u64, String) {
        let scarcest = self.named().into_iter().min();
        scarcest.unwrap_or((0, String::new()))
    }

    /// Everything that kits are to reach, with its count.
    fn named(&self) -> Vec<(u64, String)> {
        let mut counts = Vec::new();
        for (part, letter) in ["A", "B", "L"].into_iter().enumerate() {
            let numbers = if letter == "L" { 6..=6 } else { 1..=5 };
            for number in numbers {
                counts.push((
                    self.refused[part][number],
                    format!("refused {number} {letter}"),
                ));
            }
        }
        let mut table = |group: &str, of: &[u64], names: &[&str]| {
            let named = of.iter().zip(names);
            counts.extend(named.map(|(&count, name)| (count, format!("{group}{name}"))));
        };
        table("refused ", &self.layers, Layer::NAMES);
        table("accepted ", &self.accepted_kits, Kit::NAMES);
        table("channel rank ", &self.ranks, &RANKS);
        table("device rank ", &self.device_ranks[..6], &RANKS);
        table("shown: ", &self.cams, &CAMS);
        table("cause ", &self.causes[1..], &CODES);
        table("", &self.events, Event::NAMES);
        counts
    }
}

pub(super) const RANKS: [&str; 6] = ["none", "E", "D", "C", "B", "A"];
const CAMS: [&str; 8] = [
    "SN1+", "SN1-", "SN2+", "SN2-", "SN3+", "SN3-", "SN4+", "SN4-",
];
pub(super) const CODES: [&str; 14] = [
    "1", "2", "3", "4", "5", "6", "7", "8", "9", "10", "11", "12", "13", "14",
];

/// The entry of a stop, by its rank's number less one.
const ENTERED: [Event; 5] = [
    Event::EEntered,
    Event::DEntered,
    Event::CEntered,
    Event::BEntered,
    Event::AEntered,
];

/// An SG effective, by its number less one.
const EFFECTIVE: [Event; 4] = [
    Event::Sg1Effective,
    Event::Sg2Effective,
    Event::Sg3Effective,
    Event::Sg4Effective,
];

/// "d = position less previous position, 0 if there is none"
fn step_of(before: &Channel, side: Side) -> i64 {
    let step = |previous| i64::from(side.position) - i64::from(previous);
    before.previous().map_or(0, step)
}

pub(super) fn add_each(counts: &mut [u64], others: &[u64]) {
    for (count, other) in counts.iter_mut().zip(others) {
        *count += other;
    }
}

impl fmt::Display for Reached {
    fn fmt(&self, f: &mut fmt::Formatter) -> fmt::Result {
        writeln!(f, "{:>10} kits", self.kits)?;
        writeln!(f, "{:>10} accepted", self.accepted)?;
        writeln!(f, "{:>10} cycles", self.cycles)?;
        writeln!(f, "{:>10} cycles in the longest log", self.longest_log)?;
        for (count, name) in self.named() {
            writeln!(f, "{count:>10} {name}")?;
        }
        Ok(())
    }
}
