//! Request W6: safe direction, the ways that the axis may not go and how far it goes all the same.

use crate::channel::{bit, Moment};
use crate::deviation::{paper, Reading};
use crate::machine_data::{number, Function, MachineData};
use crate::selection::Selection;

/// "input bits 13 and 14"
pub const DIRECTION_BITS: u32 = 3 << 13;

/// A run is not counted past this: "more than the delay", and datum 70 is at most 1,000.
pub const LONGEST: i64 = 1_001;

/// The way that is left: "when 0, allow only positive and only negative travel, both 0 neither".
#[derive(Clone, Copy, Debug, PartialEq, Eq)]
pub enum Direction {
    Positive = 1,
    Negative = -1,
}

impl Direction {
    /// "the negative is its mirror": one rule, with this sign.
    #[inline]
    fn sign<R: Reading>(self, r: R) -> i64 {
        paper!(r, self as i64,
            DirectionNegativeAsPositive => 1)
    }

    /// How far a position lies behind the extreme, on the forbidden side: "below the highest", and the mirror.
    #[inline]
    fn behind<R: Reading>(self, r: R, extreme: i32, position: i32) -> i64 {
        let distance = self.sign(r) * (i64::from(extreme) - i64::from(position));
        paper!(r, distance,
            DirectionDistanceOf28Bits => distance << 36 >> 36)
    }

    /// The farther of two positions in the allowed way: "the highest", and the mirror.
    #[inline]
    fn farther<R: Reading>(self, r: R, one: i32, other: i32) -> i32 {
        if self.behind(r, one, other) < 0 {
            other
        } else {
            one
        }
    }

    /// Whether the direction's bit is 1: "input bits 13 and 14, when 0, allow only positive and only negative travel".
    #[inline]
    fn is_free<R: Reading>(self, r: R, moment: &Moment) -> bool {
        let number = match self {
            Direction::Positive => 13,
            Direction::Negative => 14,
        };
        let number = paper!(r, number,
            DirectionsSwapped => 27 - number,
            DirectionBitsOneLower => number - 1,
            DirectionBitsOneHigher => number + 1);
        // Of deviations only.
        let neither = moment.inputs & DIRECTION_BITS == 0;
        paper!(r, bit(moment.inputs, number),
            DirectionForbiddenBy1 => !bit(moment.inputs, number),
            DirectionOfReport => bit(moment.report.inputs, number),
            DirectionBit13Ignored => self == Direction::Positive || bit(moment.inputs, number),
            DirectionBit14Ignored => self == Direction::Negative || bit(moment.inputs, number),
            DirectionNeitherIsPositive => bit(moment.inputs, number) || neither && self == Direction::Negative,
            DirectionNeitherIsNegative => bit(moment.inputs, number) || neither && self == Direction::Positive,
            DirectionNeitherIsFree => bit(moment.inputs, number) || neither,
            DirectionNeitherOnly => !neither,
            DirectionEitherForbidsBoth => moment.inputs & DIRECTION_BITS == DIRECTION_BITS)
    }
}

/// What a channel keeps of a direction.
#[derive(Clone, Copy, Debug, PartialEq, Eq)]
pub struct Watched {
    /// For how many "usable cycles running" "its bit has been 0".
    pub run: i64,
    /// The extreme of its watch, while one stands: "the highest in the usable cycles since the watch began", or the lowest.
    pub watch: Option<i32>,
    /// Of deviations only: an extreme from before the watch, and for how many cycles running the bit has been 1.
    earlier: Option<i32>,
    free: i64,
}

impl Watched {
    /// "A fresh channel has .. all counts and runs 0."
    const FRESH: Watched = Watched {
        run: 0,
        watch: None,
        earlier: None,
        free: 0,
    };

    /// A run and a watch as they were kept.
    pub fn of(run: i64, watch: Option<i32>) -> Watched {
        Watched {
            run,
            watch,
            ..Watched::FRESH
        }
    }

    /// A direction in a usable cycle: "A direction starts its watch when its bit has been 0 for more than the delay in usable
    /// cycles running, and ends it in a usable cycle where it is 1."
    #[inline]
    fn advance<R: Reading>(
        &mut self,
        r: R,
        direction: Direction,
        data: &MachineData,
        moment: &Moment,
    ) {
        let position = paper!(r, moment.position,
            DirectionExtremeOfReport => moment.report.position);
        // Of deviations only.
        self.remember(r, direction, moment);
        if direction.is_free(r, moment) {
            self.end(r);
            return;
        }
        let longer = (self.run + 1).min(LONGEST);
        self.run = paper!(r, longer,
            DirectionRunStopsAt1000 => longer.min(1_000),
            DirectionRunStopsAtDelay => longer.min(delay(r, data)));
        self.watch = match self.watch {
            Some(extreme) => Some(paper!(r, direction.farther(r, extreme, position),
                DirectionExtremeStays => extreme,
                DirectionLowestStays => if direction == Direction::Positive { extreme.max(position) } else { extreme })),
            None if starts(r, self.run, data) => Some(paper!(r, position,
                DirectionExtremeOfAllTime => self.earlier.unwrap_or(position),
                DirectionExtremeFromBit0 => self.earlier.unwrap_or(position),
                DirectionExtremeFromCycleBefore => previous(moment),
                DirectionExtremeFrom0 => direction.farther(r, 0, position))),
            None => None,
        };
    }

    /// "and ends it in a usable cycle where it is 1"
    #[inline]
    fn end<R: Reading>(&mut self, r: R) {
        self.run = paper!(r, 0,
            DirectionRunNotEnded => self.run,
            DirectionRunFalls => (self.run - 1).max(0),
            DirectionEndsInTwo => if self.free < 2 { self.run } else { 0 });
        self.watch = paper!(r, None,
            DirectionWatchNotEnded => self.watch,
            DirectionEndsInTwo => if self.free < 2 { self.watch } else { None });
    }

    /// "Positive-only is overstepped where the position is more than the tolerance below the highest .., and the negative is
    /// its mirror"
    #[inline]
    fn is_overstepped<R: Reading>(
        &self,
        r: R,
        direction: Direction,
        data: &MachineData,
        moment: &Moment,
    ) -> bool {
        let Some(extreme) = self.watch else {
            return false;
        };
        let extreme = paper!(r, extreme,
            DirectionByStep => previous(moment));
        let behind = direction.behind(r, extreme, moment.position);
        let tolerance = tolerance(r, data);
        let over = paper!(r, behind > tolerance,
            DirectionAtTolerance => behind >= tolerance,
            DirectionToleranceOneMore => behind > tolerance + 1,
            DirectionDistanceScaled => moment.ratio.step(r, behind) > moment.ratio.bound(tolerance));
        paper!(r, over,
            DirectionOnlyMoving => over && moment.d != 0,
            DirectionOnlyForbiddenWay => over && direction.sign(r) * moment.d < 0,
            DirectionNeedsNothingSelected => over && moment.selected == Selection::Nothing)
    }

    /// Of deviations only: what an extreme would be that did not begin with its watch.
    #[inline]
    fn remember<R: Reading>(&mut self, r: R, direction: Direction, moment: &Moment) {
        let free = direction.is_free(r, moment);
        let earlier = self.earlier.unwrap_or(moment.position);
        let earlier = Some(direction.farther(r, earlier, moment.position));
        paper!(r, (),
            DirectionExtremeOfAllTime => self.earlier = earlier,
            DirectionExtremeFromBit0 => self.earlier = if free { None } else { earlier },
            DirectionEndsInTwo => self.free = if free { self.free + 1 } else { 0 });
    }
}

/// Both directions of a channel.
#[derive(Clone, Copy, Debug, PartialEq, Eq)]
pub struct Directions {
    pub positive: Watched,
    pub negative: Watched,
}

impl Directions {
    /// "A fresh channel has .. all counts and runs 0."
    pub fn fresh<R: Reading>(r: R) -> Directions {
        let fresh = paper!(r, Watched::FRESH,
            DirectionRunFresh1 => Watched::of(1, None));
        Directions {
            positive: fresh,
            negative: fresh,
        }
    }

    /// Both directions in a usable cycle. With bit 5 off they stay: none begins, so in a channel that was fresh "no run or
    /// watch stands".
    #[inline]
    pub fn advance<R: Reading>(&mut self, r: R, data: &MachineData, moment: &Moment) {
        if !is_on(r, data) {
            return;
        }
        self.positive.advance(r, Direction::Positive, data, moment);
        self.negative.advance(r, Direction::Negative, data, moment);
        paper!(r, (),
            DirectionRunShared => self.share_runs(data, moment),
            DirectionWatchShared => self.share_watches(moment),
            DirectionExtremeShared => self.share_extremes(moment));
    }

    /// Whether a direction is overstepped, "this is cause 14": one code for both. With bit 5 off none is, whatever the caller put
    /// into the channel's arrays.
    #[inline]
    pub fn are_overstepped<R: Reading>(&self, r: R, data: &MachineData, moment: &Moment) -> bool {
        let on = is_on(r, data);
        let positive = self
            .positive
            .is_overstepped(r, Direction::Positive, data, moment);
        let negative = self
            .negative
            .is_overstepped(r, Direction::Negative, data, moment);
        paper!(r, on && (positive || negative),
            DirectionBothOverstepped => on && positive && negative)
    }
}

/// "Function bit 5 enables it"
#[inline]
fn is_on<R: Reading>(r: R, data: &MachineData) -> bool {
    paper!(r, data.has(r, Function::SafeDirection),
        DirectionFunctionIgnored => data.head() >= 72)
}

/// "when its bit has been 0 for more than the delay": this cycle counts.
#[inline]
fn starts<R: Reading>(r: R, run: i64, data: &MachineData) -> bool {
    let delay = delay(r, data);
    paper!(r, run > delay,
        DirectionDelayAtLeast => run >= delay,
        DirectionDelayOneMore => run > delay + 1,
        DirectionDelayIgnored => true,
        DirectionDelayAtLeast1 => run > delay.max(1),
        DirectionDelayInMs => run * i64::from(data.get(number::T)) > delay)
}

/// "tolerance (0 to 100,000)": datum 69
#[inline]
fn tolerance<R: Reading>(r: R, data: &MachineData) -> i64 {
    let tolerance = data.get(paper!(r, number::DIRECTION_TOLERANCE,
        DirectionDataSwapped => number::DIRECTION_DELAY,
        DirectionToleranceOfStandstill => number::STANDSTILL,
        DirectionToleranceOfCams => number::CAM_TOLERANCE,
        DirectionToleranceOfDifference => number::POSITION_DIFFERENCE));
    paper!(r, tolerance.into(),
        DirectionToleranceIgnored => 0,
        DirectionToleranceHalved => i64::from(tolerance / 2),
        DirectionToleranceEven => i64::from(tolerance & !1),
        DirectionToleranceOf16Bits => i64::from(tolerance & 0xffff))
}

/// "delay (0 to 1,000)": datum 70
#[inline]
fn delay<R: Reading>(r: R, data: &MachineData) -> i64 {
    let delay = paper!(r, number::DIRECTION_DELAY,
        DirectionDataSwapped => number::DIRECTION_TOLERANCE,
        DirectionDelayOfSelection => number::DELAY,
        DirectionDelayOfFilter => number::NX_FILTER);
    data.get(delay).into()
}

// What follows is of deviations only.

/// The previous position, or the present one if there is none.
fn previous(moment: &Moment) -> i32 {
    (i64::from(moment.position) - moment.d) as i32
}

/// Directions that are treated otherwise in some state of a channel.
impl Directions {
    fn both(&mut self) -> [&mut Watched; 2] {
        [&mut self.positive, &mut self.negative]
    }

    fn with(&mut self, before: Directions) -> [(&mut Watched, Watched); 2] {
        let Directions { positive, negative } = self;
        [(positive, before.positive), (negative, before.negative)]
    }

    pub fn end_runs(&mut self) {
        for watched in self.both() {
            watched.run = 0;
        }
    }

    /// Ends the watches that stand, with their runs.
    pub fn end_watches(&mut self) {
        for watched in self.both() {
            if watched.watch.is_some() {
                *watched = Watched::FRESH;
            }
        }
    }

    /// Counts more or less, where a run stands.
    pub fn longer_runs(&mut self, by: i64) {
        for watched in self.both() {
            watched.run = if watched.run > 0 { watched.run + by } else { 0 };
        }
    }

    pub fn end_where(&mut self, inputs: u32) {
        for (watched, number) in self.both().into_iter().zip([13, 14]) {
            if bit(inputs, number) {
                *watched = Watched::FRESH;
            }
        }
    }

    /// The watch goes on, with the next position as its extreme.
    pub fn lose_extremes(&mut self) {
        let farthest = [i32::MIN, i32::MAX];
        for (watched, extreme) in self.both().into_iter().zip(farthest) {
            watched.watch = watched.watch.map(|_| extreme);
        }
    }

    pub fn take_in(&mut self, position: i32) {
        let Directions { positive, negative } = self;
        positive.watch = positive.watch.map(|extreme| extreme.max(position));
        negative.watch = negative.watch.map(|extreme| extreme.min(position));
    }

    pub fn extremes_at(&mut self, position: i32) {
        for watched in self.both() {
            watched.watch = watched.watch.map(|_| position);
        }
    }

    /// No watch that was not there before.
    pub fn not_begun(&mut self, before: Directions) {
        for (watched, before) in self.with(before) {
            watched.watch = watched.watch.filter(|_| before.watch.is_some());
        }
    }

    /// Each watch that was there before.
    pub fn not_ended(&mut self, before: Directions) {
        for (watched, before) in self.with(before) {
            watched.watch = watched.watch.or(before.watch);
        }
    }

    /// The extremes from before, where a watch goes on.
    pub fn extremes_of(&mut self, before: Directions) {
        for (watched, before) in self.with(before) {
            watched.watch = watched.watch.map(|extreme| before.watch.unwrap_or(extreme));
        }
    }

    /// One run for both: it goes on while either bit is 0.
    fn share_runs(&mut self, data: &MachineData, moment: &Moment) {
        let run = self.positive.run.max(self.negative.run);
        let [positive, negative] = [13, 14].map(|number| bit(moment.inputs, number));
        for (watched, free) in [
            (&mut self.positive, positive),
            (&mut self.negative, negative),
        ] {
            watched.run = run;
            if !free && starts(crate::Paper, run, data) {
                watched.watch = watched.watch.or(Some(moment.position));
            }
        }
    }

    /// One watch for both: it stands where either does.
    fn share_watches(&mut self, moment: &Moment) {
        if self.positive.watch.is_some() || self.negative.watch.is_some() {
            for watched in [&mut self.positive, &mut self.negative] {
                watched.watch = watched.watch.or(Some(moment.position));
            }
        }
    }

    /// One extreme for both: the one that took in the position last.
    fn share_extremes(&mut self, moment: &Moment) {
        if let (Some(highest), Some(lowest)) = (&mut self.positive.watch, &mut self.negative.watch)
        {
            if *highest == moment.position {
                *lowest = *highest;
            } else {
                *highest = *lowest;
            }
        }
    }
}
