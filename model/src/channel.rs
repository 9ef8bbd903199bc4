//! Safe inputs, reports, and one cycle of a channel.

use crate::causes::{self, Causes, Run, F};
use crate::deviation::{paper, Deviant, Deviation, Paper, Reading};
use crate::direction::{Directions, DIRECTION_BITS};
use crate::gear::{Ratio, GEAR_BITS};
use crate::machine_data::{number, Function, MachineData, COUNT, HEADS};
use crate::nx::Nx;
use crate::selection::{Selection, Selections};
use crate::stop::{Rank, Stop};

pub mod ask;

pub mod commit;

pub mod image;

/// The input bits that have a meaning in every list: "Every other bit must be 0."
pub const INPUT_BITS: u32 = 0xf03c_101b;

/// "outside ±100,000,000"
pub const FARTHEST: u32 = 100_000_000;

/// Whether a bit of a word is 1.
#[inline]
pub fn bit(word: u32, number: u32) -> bool {
    word >> (number & 31) & 1 == 1
}

/// "Inputs are unusable if one is not, or if the position lies outside ±100,000,000."
#[inline]
pub fn usable<R: Reading>(r: R, data: &MachineData, position: i32, inputs: u32) -> bool {
    let bits = free_bits(r, data);
    let bits = paper!(r, bits,
        OtherBitsIgnored => u32::MAX,
        Bit2Ignored => bits | 1 << 2,
        Bits5To11Ignored => bits | 0x7f << 5,
        Bits13To17Ignored => bits | 0x1f << 13,
        Bits22To27Ignored => bits | 0x3f << 22);
    let inside = paper!(r, position.unsigned_abs() <= FARTHEST,
        Position100000001Usable => position.unsigned_abs() <= FARTHEST + 1,
        Position100000000Unusable => position.unsigned_abs() < FARTHEST,
        NegativePositionsUsable => position <= FARTHEST as i32,
        PositionsUsable => true);
    inputs & !bits == 0 && inside
}

/// "Every other bit must be 0."; W1: "Input bits 8 to 10 pick one of eight ratios", and with a list headed 51
/// "bits 8 to 10 being 0 as before"; W6: of bits 13 and 14 "With bit 5 off both must be 0"
#[inline]
fn free_bits<R: Reading>(r: R, data: &MachineData) -> u32 {
    let gears = data.head() >= HEADS[1];
    let gears = paper!(r, gears,
        GearBitsUsableAt51 => true,
        GearBitsUnusableAt67 => false,
        GearBitsUnusableAt69 => gears && data.head() != 69,
        GearBitsUnusableAt72 => gears && data.head() != 72,
        GearNeedsSbhSg => gears && data.has(r, Function::SbhSg));
    let bits = paper!(r, GEAR_BITS,
        GearBitsOneLower => GEAR_BITS >> 1,
        GearBitsOneHigher => GEAR_BITS << 1,
        FourRatios => 0x300,
        Bit7Free => GEAR_BITS | 1 << 7,
        Bit11Free => GEAR_BITS | 1 << 11);
    let directions = paper!(r, data.has(r, Function::SafeDirection),
        DirectionBitsFreeAt72 => data.head() >= 72,
        DirectionBitsFree => true,
        DirectionBitsUnusable => false);
    let direction_bits = paper!(r, DIRECTION_BITS,
        DirectionBit13Unusable => 1 << 14,
        DirectionBit14Unusable => 1 << 13,
        DirectionBitsOneLower => DIRECTION_BITS >> 1,
        DirectionBitsOneHigher => DIRECTION_BITS << 1,
        DirectionBit15Free => DIRECTION_BITS | 1 << 15);
    INPUT_BITS | (if gears { bits } else { 0 }) | (if directions { direction_bits } else { 0 })
}

/// "A channel's report in a cycle is that cycle's position and whole input word and its datum k."; W1: "The report
/// carries the head too"
#[derive(Clone, Copy, Debug, PartialEq, Eq)]
pub struct Report {
    pub position: i32,
    pub inputs: u32,
    pub datum: i32,
    /// How many data the list has.
    pub head: usize,
}

/// What a cycle gives: the channel word and the causes that stood.
#[derive(Clone, Copy, Debug, PartialEq, Eq)]
pub struct Cycle {
    pub word: u32,
    pub causes: Causes,
}

/// What a usable cycle has to go by.
#[derive(Clone, Copy, Debug)]
pub struct Moment {
    pub position: i32,
    /// "d = position less previous position"
    pub d: i64,
    /// By which its speeds are compared.
    pub ratio: Ratio,
    pub inputs: u32,
    pub selected: Selection,
    pub report: Report,
    pub k: usize,
}

/// A channel: its machine data, and what it keeps from cycle to cycle.
#[derive(Clone, Copy, Debug, PartialEq, Eq)]
pub struct Channel {
    data: MachineData,
    k: usize,
    previous: Option<i32>,
    selections: Selections,
    stop: Stop,
    f: F,
    run: Run,
    cams: [bool; 8],
    nx: Nx,
    directions: Directions,
    /// Of deviations only: the word to echo, and the ratio of a cycle before.
    echo: Option<u32>,
    earlier: Option<Ratio>,
}

impl Channel {
    /// "A fresh channel has rank 0, nothing effective, F off, no previous position, and all counts and runs 0."
    pub fn fresh(data: MachineData) -> Channel {
        Channel::fresh_as(Paper, data)
    }

    /// [`Channel::fresh`] by any reading.
    pub fn fresh_as<R: Reading>(r: R, data: MachineData) -> Channel {
        Channel {
            data,
            k: paper!(r, 0, KRisesFirst => 1),
            previous: None,
            selections: Selections::FRESH,
            stop: Stop::FRESH,
            f: F::OFF,
            run: Run(0),
            cams: paper!(r, [false; 8], CamsStartAt1 => [true; 8]),
            nx: Nx::fresh(r),
            directions: Directions::fresh(r),
            echo: None,
            earlier: None,
        }
    }

    /// "One cycle of a channel". A function of its own, as the library's is: what asks for a cycle elsewhere leaves its code as it is.
    #[inline(never)]
    pub fn cycle(
        &mut self,
        position: i32,
        inputs: u32,
        acknowledged: bool,
        report: Report,
    ) -> Cycle {
        self.cycle_as(Paper, position, inputs, acknowledged, report)
    }

    /// [`Channel::cycle`] by any reading.
    #[inline(always)]
    pub fn cycle_as<R: Reading>(
        &mut self,
        r: R,
        position: i32,
        inputs: u32,
        acknowledged: bool,
        report: Report,
    ) -> Cycle {
        let before = paper!(r, None, IdleStep => Some(*self));
        let usable = usable(r, &self.data, position, inputs);
        let cycle = if usable {
            self.usable_cycle(r, position, inputs, acknowledged, report)
        } else {
            self.unusable_cycle(r, position, inputs, acknowledged, report)
        };
        self.count_k(r, usable);
        self.wrong_program(r, cycle, before)
    }

    /// "A channel's report in a cycle is that cycle's position and whole input word and its datum k."; W1: "The report
    /// carries the head too"
    #[inline]
    pub fn report(&self, position: i32, inputs: u32) -> Report {
        Report {
            position,
            inputs,
            datum: self.data.get(self.k),
            head: self.data.head(),
        }
    }

    /// "1. Unusable: cause 1, rank 5, not held. .. steps 2 to 5 are skipped."
    #[inline]
    fn unusable_cycle<R: Reading>(
        &mut self,
        r: R,
        position: i32,
        inputs: u32,
        acknowledged: bool,
        report: Report,
    ) -> Cycle {
        let before = self.stop;
        self.stop.unusable(r);
        self.previous = paper!(r, None,
            UnusableKeepsPrevious => self.previous,
            UnusableBecomesPrevious => Some(position));
        self.selections.unusable(r);
        paper!(r, (),
        UnusableAcknowledged => if acknowledged { self.stop.clear(r) },
        UnusableFOff => self.f = F::OFF,
        UnusableDatumSetsF => if self.data.get(self.k) != report.datum { self.f.on = true },
        UnusableRunEnds => self.run = Run(0),
        UnusableRunCounts => if inputs != report.inputs { self.run.0 += 1 },
        UnusableCamsOff => self.cams = [false; 8],
        UnusableCamsWorkedOut => self.move_cams(r, position),
        UnusableNxTo0 => self.nx.value = false,
        UnusableNxTo1 => self.nx.value = true,
        UnusableAcknowledgedNxTo0 => if acknowledged { self.nx.value = false },
        UnusableNxAsFresh => self.nx = Nx::fresh(r),
        UnusableNxRunEnds => self.nx.run = 0,
        UnusableNxRunCounts => self.nx.run += 1,
        UnusableNxRunFalls => self.nx.run = (self.nx.run - 1).max(0),
        UnusableNxWorkedOut => {
            self.nx.run += 1;
            self.nx.value |= self.nx.run > i64::from(self.data.get(number::NX_FILTER));
        });
        // Of deviations only: runs, watches and extremes stay.
        self.directions_unusable(r, position, inputs, acknowledged);
        let word = self.word(r, Selection::of(r, &self.data, inputs), inputs, None);
        paper!(r, (), UnusableIsPassing => self.stop = before);
        Cycle {
            word,
            causes: Causes::UNUSABLE,
        }
    }

    /// Steps 2 to 6 of a usable cycle.
    #[inline(always)]
    fn usable_cycle<R: Reading>(
        &mut self,
        r: R,
        position: i32,
        inputs: u32,
        acknowledged: bool,
        report: Report,
    ) -> Cycle {
        let (d, ratio) = self.step(r, position, inputs, report);
        let moment = Moment {
            position,
            d,
            ratio,
            inputs,
            selected: Selection::of(r, &self.data, inputs),
            report,
            k: self.k,
        };
        let reference = paper!(r, position, SbhReferenceIsReport => report.position);
        paper!(r, (),
            OrderScaled => self.selections.ratio = ratio,
            RatioWaits => self.selections.ratio = ratio,
            ActiveNeedsPrevious => self.selections.has_previous = self.previous.is_some());
        // Of deviations only.
        let was_active = paper!(r, true, FCountAnewActive => self.active(r));
        self.selections
            .advance(r, &self.data, moment.selected, reference);
        paper!(r, (), FCountAnewActive => {
            if self.f.on && !was_active && self.active(r) {
                // It falls by one yet in this cycle.
                self.f.count = i64::from(self.data.get(number::TIME_F)) + 1;
            }
        });
        self.advance_directions(r, &moment, acknowledged);
        let causes = causes::of_cycle(
            r,
            &self.data,
            &moment,
            &self.selections,
            &self.directions,
            &self.stop,
            &mut self.run,
            &mut self.f,
        );
        self.advance_stop(r, &causes, acknowledged, &moment);
        paper!(r, (), RankFallsInactive => {
            if self.f.time_is_over() && !self.active(r) { self.stop.clear(r) }
        });
        paper!(r, self.move_cams(r, position),
            CamsScaled => self.move_cams(r, ratio.of_number(position.into()) as i32));
        self.advance_nx(r, &moment);
        paper!(r, (),
            ClearPutsNxTo0 => if self.clears(r, acknowledged, &causes) { self.nx.value = false },
            ClearEndsNxRun => if self.clears(r, acknowledged, &causes) { self.nx.run = 0 });
        // Of deviations only: neither clearing nor cause 14 resets a watch.
        self.directions_cleared(r, &moment, acknowledged, &causes);
        let word = self.word(r, moment.selected, inputs, Some(&moment));
        self.previous = Some(position);
        paper!(r, (), ClearForgetsPrevious => {
            if self.clears(r, acknowledged, &causes) { self.previous = None }
        });
        Cycle { word, causes }
    }

    /// "2. d = position less previous position, 0 if there is none.", and the ratio by which it is compared.
    #[inline]
    fn step<R: Reading>(
        &mut self,
        r: R,
        position: i32,
        inputs: u32,
        report: Report,
    ) -> (i64, Ratio) {
        let d = match self.previous {
            Some(previous) => i64::from(position) - i64::from(previous),
            None => paper!(r, 0, FirstStepFromZero => position.into()),
        };
        let ratio = Ratio::of(r, &self.data, inputs);
        paper!(r, (d, ratio),
        RatioOfReport => (d, Ratio::of(r, &self.data, report.inputs)),
        RatioOfCycleBefore => (d, self.earlier.replace(ratio).unwrap_or(ratio)),
        RatioOfFirstCycle => (d, *self.earlier.get_or_insert(ratio)),
        RatioTakenAtRest => {
            if d == 0 || self.earlier.is_none() { self.earlier = Some(ratio) }
            (d, self.earlier.unwrap_or(ratio))
        },
        StepOfScaledPositions => {
            let before = self.earlier.replace(ratio).unwrap_or(ratio);
            let scaled = |previous: i32| ratio.of_number(position.into()) - before.of_number(previous.into());
            (self.previous.map_or(0, scaled), Ratio::ONE)
        })
    }

    /// "5. Acknowledged and no fresh cause: rank 0, not held, F off. Else .."
    #[inline]
    fn advance_stop<R: Reading>(
        &mut self,
        r: R,
        causes: &Causes,
        acknowledged: bool,
        moment: &Moment,
    ) {
        if self.clears(r, acknowledged, causes) {
            self.stop.clear(r);
            self.f = paper!(r, F::OFF,
                ClearKeepsF => self.f,
                ClearKeepsFInactive => if self.active(r) { F::OFF } else { self.f });
            self.selections.cleared(r, moment.position);
            paper!(r, (),
                ClearEndsRun => self.run = Run(0),
                ClearSetsK => self.k = COUNT);
        } else {
            let strongest = causes.strongest();
            paper!(r, (), BWaitsInactive => {
                if self.stop.rank == Rank::B && !self.active(r) { self.stop.count += 1 }
            });
            let d = paper!(r, moment.d,
                ShutdownNeedsPrevious => self.previous.map_or(i32::MAX.into(), |_| moment.d));
            self.stop
                .advance(r, &self.data, strongest, moment.position, d, moment.ratio);
        }
    }

    /// "Acknowledged and no fresh cause"
    #[inline]
    fn clears<R: Reading>(&self, r: R, acknowledged: bool, causes: &Causes) -> bool {
        paper!(r, acknowledged && !causes.any_fresh(),
            AcknowledgementWins => acknowledged,
            AcknowledgementIgnored => false,
            ClearNeedsNoAcknowledgement => !causes.any_fresh())
    }

    /// "6. Cam signal 1 above edge + datum 24, 0 below edge, else as before; fresh 0."
    #[inline]
    fn move_cams<R: Reading>(&mut self, r: R, position: i32) {
        for cam in 0..8 {
            let edge = self.data.get(number::CAM + cam);
            let above = self.above_cam(r, edge, position);
            let below = self.below_cam(r, edge, position);
            let before = paper!(r, self.cams[cam],
                CamBetweenIs0 => false,
                CamBetweenIs1 => true);
            self.cams[cam] = above | before & !below;
        }
    }

    /// "1 above edge + datum 24"
    #[inline]
    fn above_cam<R: Reading>(&self, r: R, edge: i32, position: i32) -> bool {
        let tolerance = self.data.get(number::CAM_TOLERANCE);
        // Not added to the edge, which may lie anywhere in a channel of any content.
        paper!(r, position.saturating_sub(tolerance) > edge,
            CamAtUpper => position >= edge + tolerance,
            CamToleranceBelow => position > edge)
    }

    /// "0 below edge"
    #[inline]
    fn below_cam<R: Reading>(&self, r: R, edge: i32, position: i32) -> bool {
        let tolerance = self.data.get(number::CAM_TOLERANCE);
        paper!(r, position < edge,
            CamAtEdge => position <= edge,
            CamToleranceBelow => position < edge - tolerance,
            CamToleranceBothSides => position < edge - tolerance)
    }

    /// W3: "Value and run are worked out while the function is off too.", and in whatever stop.
    #[inline]
    fn advance_nx<R: Reading>(&mut self, r: R, moment: &Moment) {
        let before = self.nx;
        self.nx.advance(r, &self.data, moment);
        paper!(r, (),
        NxWaitsForPrevious => if self.previous.is_none() { self.nx = before },
        NxWaitsInStopA => if self.stop.rank == Rank::A { self.nx = before },
        NxWaitsInStop => if self.stop.rank != Rank::None { self.nx = before },
        StopAPutsNxTo0 => if self.stop.rank == Rank::A { self.nx.value = false },
        StopEndsNxRun => if self.stop.rank != Rank::None { self.nx.run = 0 },
        NxWaitsInStopB => if self.stop.rank == Rank::B { self.nx = before },
        NxNotTo1InStopE => if self.stop.rank == Rank::E { self.nx.value &= before.value },
        NxNotTo0InStopD => if self.stop.rank == Rank::D { self.nx.value |= before.value },
        NxRunNotEndedInStopC => if self.stop.rank == Rank::C {
            self.nx = self.nx_by(Deviation::NxRunEndedAboveOnly, before, moment)
        },
        NxHysteresisIgnoredHeld => if self.stop.held.is_some() {
            self.nx = self.nx_by(Deviation::NxHysteresisIgnored, before, moment)
        },
        NxFilterIgnoredEffective => if self.selections.effective != Selection::Nothing {
            self.nx = self.nx_by(Deviation::NxFilterIgnored, before, moment)
        },
        NxFilterIgnoredInDelay => if self.selections.count > 0 {
            self.nx = self.nx_by(Deviation::NxFilterIgnored, before, moment)
        },
        NxShortRunIs0AtSe2 => if moment.inputs >> 12 & 1 == 1 {
            self.nx = self.nx_by(Deviation::NxShortRunIs0, before, moment)
        },
        NxShortRunIs0Minus => if moment.d < 0 {
            self.nx = self.nx_by(Deviation::NxShortRunIs0, before, moment)
        },
        NxNotTo0Apart => if moment.position != moment.report.position {
            self.nx.value |= before.value
        },
        NxRunNotEndedUnlike => if moment.inputs != moment.report.inputs {
            self.nx = self.nx_by(Deviation::NxRunEndedAboveOnly, before, moment)
        },
        NxFilterIgnoredByHeads => if moment.report.head != self.data.head() {
            self.nx = self.nx_by(Deviation::NxFilterIgnored, before, moment)
        },
        FPutsNxTo0 => if self.f.on { self.nx.value = false },
        NxRunEndsWithRatio => if self.earlier.replace(moment.ratio).is_some_and(|was| was != moment.ratio) {
            self.nx = before;
            self.nx.run = 0
        });
    }

    /// W6: the runs and watches of a usable cycle, in whatever stop.
    #[inline]
    fn advance_directions<R: Reading>(&mut self, r: R, moment: &Moment, acknowledged: bool) {
        // Of deviations only.
        let before = self.directions;
        self.directions.advance(r, &self.data, moment);
        paper!(r, (),
        DirectionWaitsForPrevious => if self.previous.is_none() { self.directions = before },
        DirectionWaitsInStopA => if self.stop.rank == Rank::A { self.directions = before },
        DirectionWaitsInStopB => if self.stop.rank == Rank::B { self.directions = before },
        DirectionWaitsInStop => if self.stop.rank != Rank::None { self.directions = before },
        StopEndsDirectionRun => if self.stop.rank != Rank::None { self.directions.end_runs() },
        StopEndsWatch => if self.stop.rank != Rank::None { self.directions.end_watches() },
        DirectionNotBegunInStopE => if self.stop.rank == Rank::E { self.directions.not_begun(before) },
        DirectionExtremeStaysInStopD => if self.stop.rank == Rank::D { self.directions.extremes_of(before) },
        DirectionNotEndedInStopC => if self.stop.rank == Rank::C { self.directions.not_ended(before) },
        DirectionExtremeStaysHeld => if self.stop.held.is_some() { self.directions.extremes_of(before) },
        DirectionNotBegunEffective => if self.selections.effective != Selection::Nothing { self.directions.not_begun(before) },
        DirectionNotBegunInDelay => if self.selections.count > 0 { self.directions.not_begun(before) },
        DirectionExtremeStaysUnderSbh => if self.selections.effective == Selection::Sbh { self.directions.extremes_of(before) },
        DirectionExtremeStaysAtSe2 => if bit(moment.inputs, 12) { self.directions.extremes_of(before) },
        DirectionExtremeStaysApart => if moment.position != moment.report.position { self.directions.extremes_of(before) },
        DirectionNotEndedUnlike => if moment.inputs != moment.report.inputs { self.directions.not_ended(before) },
        DirectionNotBegunByHeads => if moment.report.head != self.data.head() { self.directions.not_begun(before) },
        FEndsWatch => if self.f.on { self.directions.end_watches() },
        DirectionExtremeStaysWithF => if self.f.on { self.directions.extremes_of(before) },
        DirectionWaitsAtK0 => if self.k == 0 { self.directions = before },
        AcknowledgementEndsWatch => if acknowledged { self.directions.end_watches() },
        AcknowledgementSetsExtreme => if acknowledged { self.directions.extremes_at(moment.position) });
    }

    /// Of deviations only: an unusable cycle that changes something of the directions, against "counts, runs, .. stay".
    #[inline]
    fn directions_unusable<R: Reading>(
        &mut self,
        r: R,
        position: i32,
        inputs: u32,
        acknowledged: bool,
    ) {
        let directions = &mut self.directions;
        paper!(r, (),
            UnusableEndsDirectionRun => directions.end_runs(),
            UnusableCountsInDirectionRun => directions.longer_runs(1),
            UnusableTakesFromDirectionRun => directions.longer_runs(-1),
            UnusableEndsWatch => directions.end_watches(),
            UnusableEndsWatchByBit => directions.end_where(inputs),
            UnusableDirectionAsFresh => *directions = Directions::fresh(r),
            UnusableLosesExtreme => directions.lose_extremes(),
            UnusableTakenIntoExtreme => directions.take_in(position),
            UnusableAcknowledgedEndsWatch => if acknowledged { directions.end_watches() });
    }

    /// Of deviations only: a cycle that clears, or has cause 14, and changes something of the directions by it.
    #[inline]
    fn directions_cleared<R: Reading>(
        &mut self,
        r: R,
        moment: &Moment,
        acknowledged: bool,
        causes: &Causes,
    ) {
        let clears = self.clears(r, acknowledged, causes);
        let directions = &mut self.directions;
        paper!(r, (),
            ClearEndsDirectionRun => if clears { directions.end_runs() },
            ClearEndsWatch => if clears { directions.end_watches() },
            ClearSetsExtreme => if clears { directions.extremes_at(moment.position) },
            Cause14EndsWatch => if causes.stands(14) { directions.end_watches() },
            Cause14SetsExtreme => if causes.stands(14) { directions.extremes_at(moment.position) });
    }

    /// W3: "An unusable cycle shows 0", whatever is kept.
    #[inline]
    fn shown_nx<R: Reading>(&self, r: R, moment: Option<&Moment>) -> bool {
        paper!(r, moment.is_some() && self.nx.value,
            UnusableNxShown => moment.is_none() || self.nx.value,
            UnusableNxValueShown => self.nx.value,
            NxNeedsPrevious => self.previous.is_some() && moment.is_some() && self.nx.value)
    }

    /// "k starts at 0, rises by one each cycle, and follows 50 by 0."; W1: "k runs over as many data as the list has."
    #[inline]
    fn count_k<R: Reading>(&mut self, r: R, usable: bool) {
        let rises = self.k + 1 < self.data.head();
        let next = if rises { self.k + 1 } else { 0 };
        self.k = paper!(r, next,
            KStaysUnusable => if usable { next } else { self.k },
            KStays => 0,
            KOnlyTo49 => next % 50,
            KStopsAt50 => (self.k + 1).min(50),
            KFromDatum1 => next.max(1),
            KOnlyTo50 => next % 51,
            KAlwaysTo66 => if self.data.head() == 51 { (self.k + 1) % 67 } else { next },
            KOnlyTo65 => next % 66,
            KStopsAt66 => if self.k == 66 { 66 } else { next },
            KOnlyTo66 => next % 67,
            KOnlyTo67 => next % 68,
            KAlwaysTo68 => if self.data.head() < 69 { (self.k + 1) % 69 } else { next },
            KStopsAt68 => if self.k == 68 { 68 } else { next },
            KOnlyTo68 => next % 69,
            KOnlyTo70 => next % 71,
            KAlwaysTo71 => (self.k + 1) % 72,
            KStopsAt71 => if self.k == 71 { 71 } else { next });
    }

    /// "Channel word: bit 0 SBH or SG effective, 2 pulses cancelled (rank 5), 7 always 1; .."
    #[inline]
    fn word<R: Reading>(
        &self,
        r: R,
        selected: Selection,
        inputs: u32,
        moment: Option<&Moment>,
    ) -> u32 {
        let bit_7 = paper!(r, 1 << 7, Bit7Zero => 0);
        self.selection_bits(r, selected, inputs)
            | bit_7
            | self.signal_bits(r, moment)
            | self.stop_bits(r, moment)
    }

    /// "bit 0 SBH or SG effective", "19-20 effective SG less one, else 0"
    #[inline]
    fn selection_bits<R: Reading>(&self, r: R, selected: Selection, inputs: u32) -> u32 {
        let effective = self.selections.effective;
        let any = paper!(r, effective != Selection::Nothing,
            Bit0OnlySbh => effective == Selection::Sbh,
            Bit0OnlySg => matches!(effective, Selection::Sg { .. }),
            Bit0Selected => selected != Selection::Nothing);
        let shown = paper!(r, effective,
            SgBitsSelected => selected);
        let sg = match shown {
            Selection::Sg { sg, .. } => paper!(r, u32::from(sg & 3),
                SgBitsNotLessOne => (u32::from(sg) + 1) & 3),
            Selection::Sbh => paper!(r, 0,
                SgBitsUnderSbh => inputs >> 3 & 3),
            Selection::Nothing => 0,
        };
        u32::from(any) | sg << paper!(r, 19, SgBitsMoved => 18)
    }

    /// "8-15 cams in data order", "21 n<nx", "Cams and n<nx show 0 while their function is off"
    #[inline]
    fn signal_bits<R: Reading>(&self, r: R, moment: Option<&Moment>) -> u32 {
        let cams_on = paper!(r, self.data.has(r, Function::Cams),
            CamFunctionIgnored => true,
            UnusableCamsShow0 => self.data.has(r, Function::Cams) && moment.is_some());
        let nx_on = paper!(r, self.data.has(r, Function::Nx),
            NxFunctionIgnored => true);
        let cams = if cams_on {
            shown_cams(r, self.cams())
        } else {
            0
        };
        let nx = nx_on && self.shown_nx(r, moment);
        cams << paper!(r, 8, CamBitsMoved => 9) | u32::from(nx) << paper!(r, 21, NxBitMoved => 22)
    }

    /// "2 pulses cancelled (rank 5)", "24-26 rank, 27 held, 28 F"
    #[inline]
    fn stop_bits<R: Reading>(&self, r: R, moment: Option<&Moment>) -> u32 {
        let rank = self.stop.rank;
        let cancelled = paper!(r, rank == Rank::A,
            Bit2AlsoB => rank >= Rank::B,
            Bit2Never => false);
        let held = paper!(r, self.stop.held.is_some(),
            HeldBitAtRest => self.stop.held.is_some() && moment.is_some_and(|moment| moment.d == 0));
        let f = paper!(r, self.f.on,
            FBitUntilOver => self.f.on && !self.f.time_is_over(),
            FBitOnlyActive => self.f.on && self.active(r),
            FBitOverOnlyActive => self.f.on && (!self.f.time_is_over() || self.active(r)));
        let (held_bit, f_bit) = paper!(r, (27, 28),
            HeldBitMoved => (29, 28),
            HeldAndFSwapped => (28, 27));
        u32::from(cancelled) << 2
            | rank.number() << paper!(r, 24, RankBitsMoved => 25)
            | u32::from(held) << held_bit
            | u32::from(f) << f_bit
    }

    /// Of deviations only: value and run of n<nx by another reading.
    fn nx_by(&self, deviation: Deviation, before: Nx, moment: &Moment) -> Nx {
        let mut nx = before;
        nx.advance(Deviant(deviation), &self.data, moment);
        nx
    }

    /// Of deviations only: looks at what is active in the other channel.
    pub(crate) fn look_at(&mut self, other: &Channel) {
        self.selections.other_active = other.active(Paper);
    }

    /// Of deviations only: [`causes::active`] in this channel.
    fn active<R: Reading>(&self, r: R) -> bool {
        causes::active(r, &self.data, &self.selections)
    }

    /// Of deviations only: the wrong programs that look at no rule.
    #[inline]
    fn wrong_program<R: Reading>(&mut self, r: R, cycle: Cycle, before: Option<Channel>) -> Cycle {
        let Cycle { word, causes } = cycle;
        paper!(r, cycle,
        RestsInStopA => Cycle { word: word & 0xf0ff_ffff | 5 << 24 | 1 << 2, causes },
        OneFixedWord => Cycle { word: 0x0000_0081, causes },
        IdleStep => {
            *self = before.unwrap_or(*self);
            let word = self.word(r, Selection::Nothing, 0, None);
            Cycle { word, causes }
        },
        EchoesFirstCycle => {
            let word = *self.echo.get_or_insert(word);
            Cycle { word, causes }
        })
    }
}

/// "8-15 cams in data order"
#[inline]
fn shown_cams<R: Reading>(r: R, cams: u32) -> u32 {
    paper!(r, cams,
        CamMinusTurned => cams ^ 0xaa,
        CamPairsSwapped => cams >> 1 & 0x55 | cams << 1 & 0xaa,
        CamsReversed => cams.reverse_bits() >> 24,
        CamLastIgnored => cams & 0x7f)
}

/// What a channel keeps, for a look from outside.
impl Channel {
    /// Its machine data.
    pub fn data(&self) -> &MachineData {
        &self.data
    }

    /// The number of the datum that its next report holds.
    pub fn k(&self) -> usize {
        self.k
    }

    /// The previous position, if there is one.
    pub fn previous(&self) -> Option<i32> {
        self.previous
    }

    /// Its selections.
    pub fn selections(&self) -> &Selections {
        &self.selections
    }

    /// Its stop.
    pub fn stop(&self) -> &Stop {
        &self.stop
    }

    /// F and its count.
    pub fn f(&self) -> &F {
        &self.f
    }

    /// The run of differing input words.
    pub fn run(&self) -> i64 {
        self.run.0
    }

    /// The value of n<nx and its run, worked out with the function off too.
    pub fn nx(&self) -> &Nx {
        &self.nx
    }

    /// The runs and watches of safe direction.
    pub fn directions(&self) -> &Directions {
        &self.directions
    }

    /// The cam signals, SN1+ in bit 0, worked out with the function off too.
    pub fn cams(&self) -> u32 {
        let bits = self.cams.iter().rev();
        bits.fold(0, |bits, &signal| bits << 1 | u32::from(signal))
    }
}
