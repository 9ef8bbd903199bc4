//! W7: "A commit takes the pending list": what a channel is with a new list, between two cycles.

use super::Channel;
use crate::causes::{Causes, Run, F};
use crate::deviation::{paper, Paper, Reading};
use crate::direction::{Directions, Watched};
use crate::machine_data::{number, Function, MachineData, COUNT};
use crate::nx::Nx;
use crate::selection::{Selection, Selections};
use crate::stop::{Rank, Stop};

impl Channel {
    /// "Rank, hold, F, references, cams, k and, but for what W6 ends with bit 5 off, all else that a channel keeps go on"
    pub fn commit(&mut self, list: MachineData) {
        self.commit_as(Paper, list);
    }

    /// [`Channel::commit`] by any reading.
    pub fn commit_as<R: Reading>(&mut self, r: R, list: MachineData) {
        // Of deviations only.
        let before = *self;
        self.data = list;
        self.commit_k(r, before.data.head());
        self.selections.commit(r, &list, &before.data);
        self.f.commit(r, &list);
        self.stop.commit(r, &list);
        self.directions.commit(r, &list, before.previous);
        self.data_wrongly(r, &before);
        self.kept_wrongly(r, &before);
    }

    /// "k from 0 if it is past the new last datum"
    fn commit_k<R: Reading>(&mut self, r: R, old_head: usize) {
        let head = self.data.head();
        let past = self.k >= head;
        self.k = paper!(r, if past { 0 } else { self.k },
            CommitKeepsK => self.k,
            CommitKTo0 => 0,
            CommitKTo0ByHead => if head == old_head { self.k } else { 0 },
            CommitKeepsKAtHead => if self.k > head { 0 } else { self.k },
            CommitLastKTo0 => if self.k + 1 >= head { 0 } else { self.k },
            CommitKToLast => self.k.min(head.saturating_sub(1)),
            CommitKByRest => self.k % head.max(1),
            CommitKRises => if self.k + 1 >= head { 0 } else { self.k + 1 });
    }

    /// "A commit takes the pending list, and an effective SG reads its limit and percent there.": all of it, and nothing of the
    /// list before.
    fn data_wrongly<R: Reading>(&mut self, r: R, before: &Channel) {
        let (sg, override_number) = match self.selections.effective {
            Selection::Sg {
                sg,
                override_number,
            } => (usize::from(sg & 3), usize::from(override_number & 15)),
            _ => return,
        };
        let as_before = |number: usize| with(&self.data, number, before.data.get(number));
        self.data = paper!(r, self.data,
            CommitKeepsSgLimit => as_before(number::SG_LIMIT + sg),
            CommitKeepsPercent => as_before(number::OVERRIDE + override_number),
            CommitKeepsSgStop => as_before(number::SG_STOP + sg));
    }

    /// "all else that a channel keeps go on"
    fn kept_wrongly<R: Reading>(&mut self, r: R, before: &Channel) {
        let data = self.data;
        let as_before = |number: usize| with(&data, number, before.data.get(number));
        let cut = |count: i64, number: usize| count.min(data.get(number).into());
        paper!(r, (),
        CommitMakesNew => *self = Channel::fresh(data),
        CommitKeepsT => self.data = as_before(number::T),
        CommitKeepsFunctions => self.data = as_before(number::FUNCTIONS),
        CommitForgetsPrevious => self.previous = None,
        CommitTakesPreviousAs0 => self.previous = Some(0),
        CommitPutsCamsTo0 => self.cams = [false; 8],
        CommitPutsCamsTo0ByFunction => if !data.has(r, Function::Cams) { self.cams = [false; 8] },
        CommitPutsNxTo0 => self.nx.value = false,
        CommitPutsNxTo0ByFunction => if !data.has(r, Function::Nx) { self.nx = Nx::fresh(r) },
        CommitEndsNxRun => self.nx.run = 0,
        CommitCutsNxRun => self.nx.run = cut(self.nx.run, number::NX_FILTER),
        CommitEndsRun => self.run = Run(0),
        CommitCutsRun => self.run = Run(cut(self.run.0, number::INPUT_DIFFERENCE)));
    }
}

impl Selections {
    /// "falling counts above the new datum are cut to it": that of a lower selection, if it runs. It acts in the next usable
    /// cycle at 0 as at 1, but 0 is none that runs, which a lowering would set anew.
    fn commit<R: Reading>(&mut self, r: R, list: &MachineData, old: &MachineData) {
        let delay = i64::from(list.get(number::DELAY));
        let runs = self.count > 0;
        let cut = if runs {
            self.count.min(delay.max(1))
        } else {
            0
        };
        self.count = paper!(r, cut,
            CommitKeepsDelay => self.count,
            CommitSetsDelay => if runs { delay.max(1) } else { 0 },
            CommitRaisesDelayOnly => if runs { self.count.max(delay) } else { 0 },
            CommitBeginsDelay => delay.max(1).min(self.count.max(delay)),
            CommitEndsDelay => 0,
            CommitCutsDelayTo0 => self.count.min(delay),
            CommitCutsDelayTo1More => if runs { self.count.min(delay + 1) } else { 0 },
            CommitCutsDelayTo1Less => if runs { self.count.min((delay - 1).max(1)) } else { 0 },
            CommitLessensDelay => if runs { (self.count - old_less(list, old)).max(1) } else { 0 });
        self.lost_wrongly(r, list);
    }

    /// "references .. and .. all else that a channel keeps go on": the effective selection with its override number too.
    fn lost_wrongly<R: Reading>(&mut self, r: R, list: &MachineData) {
        paper!(r, (),
        CommitEndsSelection => self.effective = Selection::Nothing,
        CommitEndsSelectionByFunction => if !list.has(r, Function::SbhSg) { self.effective = Selection::Nothing },
        CommitNextIsFirst => self.any_yet = false,
        CommitLosesOverride => if let Selection::Sg { override_number, .. } = &mut self.effective { *override_number = 0 },
        CommitLosesSbhReference => self.reference = 0);
    }
}

impl F {
    /// "F .. go on"; "falling counts above the new datum are cut to it"
    fn commit<R: Reading>(&mut self, r: R, list: &MachineData) {
        let time = i64::from(list.get(number::TIME_F));
        self.count = paper!(r, self.count.min(time),
            CommitKeepsFCount => self.count,
            CommitCutsFCountOnlyOn => if self.on { self.count.min(time) } else { self.count },
            CommitSetsFCount => if self.on { time } else { self.count.min(time) },
            CommitSetsFCountAbove0 => if self.count > 0 { time } else { 0 },
            CommitCutsFCountTo1 => self.count.min(time.max(1)),
            CommitCutsFCountTo1More => self.count.min(time + 1),
            CommitCutsFCountTo1Less => self.count.min((time - 1).max(0)),
            CommitPutsFCountTo0 => 0,
            CommitCutsFCountByB => self.count.min(list.get(number::TIME_B).into()));
        paper!(r, (),
            CommitPutsFOff => *self = F::OFF,
            CommitPutsFOn => self.on = true);
    }
}

impl Stop {
    /// "Rank, hold .. go on"; "falling counts above the new datum are cut to it": by the datum of its own rank
    fn commit<R: Reading>(&mut self, r: R, list: &MachineData) {
        let time = self.rank.time().map_or(0, |number| list.get(number).into());
        let datum = |number: usize| i64::from(list.get(number));
        let kept = |rank: Rank| {
            if self.rank == rank {
                self.count
            } else {
                self.count.min(time)
            }
        };
        self.count = paper!(r, self.count.min(time),
        CommitKeepsStopCount => self.count,
        CommitKeepsCountOfC => kept(Rank::C),
        CommitKeepsCountOfD => kept(Rank::D),
        CommitKeepsCountOfE => kept(Rank::E),
        CommitKeepsCountOfB => kept(Rank::B),
        CommitSetsStopCount => if self.held.is_none() { time } else { 0 },
        CommitSetsStopCountAbove0 => if self.count > 0 { time } else { 0 },
        CommitPutsStopCountTo0 => 0,
        CommitCutsStopCountTo1 => self.count.min(time.max(1)),
        CommitCutsStopCountTo1More => self.count.min(time + 1),
        CommitCutsStopCountTo1Less => self.count.min((time - 1).max(0)),
        CommitCutsStopCountByC => self.count.min(datum(number::TIME_C)),
        CommitCutsStopCountByB => self.count.min(datum(number::TIME_B)),
        CommitCutsTimesDAndESwapped => self.count.min(match self.rank {
            Rank::D => datum(number::TIME_E),
            Rank::E => datum(number::TIME_D),
            _ => time,
        }));
        self.altered_wrongly(r, list);
    }

    /// "A commit never lowers a stop", and a count cut to 0 acts in the next cycle.
    fn altered_wrongly<R: Reading>(&mut self, r: R, list: &MachineData) {
        let over = self.count == 0 && self.held.is_none();
        paper!(r, (),
        CommitClears => self.clear(r),
        CommitClearsBraking => if self.held.is_none() && self.rank != Rank::A { self.clear(r) },
        CommitLowersA => if self.rank == Rank::A { self.rank = Rank::B },
        CommitLowersToStopOfSg1 => if self.rank < Rank::B { self.rank = self.rank.min(Rank::of(list.get(number::SG_STOP))) },
        CommitRaisesToA => if self.rank == Rank::B && over { self.rank = Rank::A },
        CommitHoldsAt0 => if self.rank.time().is_some() && self.rank != Rank::B && over { self.held = Some(0) },
        CommitReleasesHold => if self.held.take().is_some() { self.count = self.rank.time().map_or(0, |time| list.get(time).into()) },
        CommitLosesHoldReference => self.held = self.held.map(|_| 0));
    }
}

impl Directions {
    /// "but for what W6 ends with bit 5 off": "no run or watch stands"
    fn commit<R: Reading>(&mut self, r: R, list: &MachineData, previous: Option<i32>) {
        let before = *self;
        if !list.has(r, Function::SafeDirection) {
            *self = Directions::fresh(r);
            self.not_ended_wrongly(r, list, before);
        }
        self.ended_wrongly(r, list, previous);
    }

    /// Of deviations only: something stands with bit 5 off.
    fn not_ended_wrongly<R: Reading>(&mut self, r: R, list: &MachineData, before: Directions) {
        let watches = |of: Watched| Watched::of(0, of.watch);
        let runs = |of: Watched| Watched::of(of.run, None);
        paper!(r, (),
            CommitKeepsDirections => *self = before,
            CommitEndsDirectionsInCycle => *self = before,
            CommitEndsDirectionsBelow72 => if list.head() == COUNT { *self = before },
            CommitEndsDirectionsAt72 => if list.head() < COUNT { *self = before },
            CommitKeepsWatches => *self = before.each(watches),
            CommitKeepsDirectionRuns => *self = before.each(runs),
            CommitKeepsPositive => self.positive = before.positive,
            CommitKeepsNegative => self.negative = before.negative);
    }

    /// Of deviations only: something is ended, cut or set with bit 5 on; "runs are not".
    fn ended_wrongly<R: Reading>(&mut self, r: R, list: &MachineData, previous: Option<i32>) {
        if !list.has(r, Function::SafeDirection) {
            return;
        }
        let delay = i64::from(list.get(number::DIRECTION_DELAY));
        let by_delay = |of: Watched| match of.watch {
            Some(_) if of.run <= delay => Watched::of(of.run, None),
            None if of.run > delay => Watched::of(of.run, previous),
            _ => of,
        };
        paper!(r, (),
            CommitEndsDirections => *self = Directions::fresh(r),
            CommitEndsWatches => *self = self.each(|of| Watched::of(of.run, None)),
            CommitEndsDirectionRuns => *self = self.each(|of| Watched::of(0, of.watch)),
            CommitCutsDirectionRuns => *self = self.each(|of| Watched::of(of.run.min(delay), of.watch)),
            CommitBeginsWatchesAnew => *self = self.each(by_delay),
            CommitSetsExtremes => *self = self.each(|of| Watched::of(of.run, of.watch.and(previous))));
    }

    /// Of deviations only: both directions, each changed alike.
    fn each(&self, change: impl Fn(Watched) -> Watched) -> Directions {
        Directions {
            positive: change(self.positive),
            negative: change(self.negative),
        }
    }
}

/// "the fresh causes": the codes of a cycle without 13, in W4's order, with 0 behind them.
pub(super) fn fresh_codes<R: Reading>(r: R, causes: &Causes) -> [u8; Causes::MOST] {
    let told = |code: u8| {
        paper!(r, code != 13,
            AskTells13 => true,
            AskTellsRankedOnly => !(10..=13).contains(&code),
            AskLeavesOut14 => !(13..=14).contains(&code),
            AskLeavesOut9 => code != 13 && code != 9)
    };
    let mut codes: Vec<u8> = causes.codes().filter(|&code| told(code)).collect();
    paper!(r, (),
        AskTellsByCode => codes.sort_unstable(),
        AskTellsWeakestFirst => codes.reverse(),
        AskTellsStrongestOnly => codes.truncate(1));
    std::array::from_fn(|place| codes.get(place).copied().unwrap_or(0))
}

/// Of deviations only: these data with another value of one.
fn with(data: &MachineData, number: usize, value: i32) -> MachineData {
    let all = std::array::from_fn(|each| {
        if each == number {
            value
        } else {
            data.get(each)
        }
    });
    MachineData::looked_through(all, data.head())
}

/// Of deviations only: by how much datum 27 is less than before.
fn old_less(list: &MachineData, old: &MachineData) -> i64 {
    let less = old.get(number::DELAY) - list.get(number::DELAY);
    i64::from(less.max(0))
}
