//! Request W3: the signal n<nx, with its hysteresis and its filter.

use crate::channel::Moment;
use crate::deviation::{paper, Reading};
use crate::gear::Ratio;
use crate::machine_data::{number, MachineData};

/// The run is not counted past this: "more than datum 68 usable cycles", and datum 68 is at most 1,000.
pub const LONGEST: i64 = 1_001;

/// What a channel keeps of the signal: "An unusable cycle shows 0 and leaves value and run as they were."
#[derive(Clone, Copy, Debug, PartialEq, Eq)]
pub struct Nx {
    /// "In between it keeps its value, fresh 0."
    pub value: bool,
    /// For how many "usable cycles running" "the speed has been below nx".
    pub run: i64,
    /// Of deviations only: for how many it has been nx plus hysteresis or more, and for how many neither.
    above: i64,
    between: i64,
}

impl Nx {
    /// "fresh 0"
    pub fn fresh<R: Reading>(r: R) -> Nx {
        Nx {
            value: paper!(r, false, NxFresh1 => true),
            run: paper!(r, 0, NxRunFresh1 => 1),
            above: 0,
            between: 0,
        }
    }

    /// A value and a run as they were kept.
    pub fn of(value: bool, run: i64) -> Nx {
        Nx {
            value,
            run,
            above: 0,
            between: 0,
        }
    }

    /// The value and the run of a usable cycle: "Value and run are worked out while the function is off too."
    #[inline]
    pub fn advance<R: Reading>(&mut self, r: R, data: &MachineData, moment: &Moment) {
        let before = self.run;
        let above = is_above(r, data, moment);
        self.count(r, data, moment, above);
        let run = paper!(r, self.run, NxThisCycleNotCounted => before);
        let filter = filter(r, data);
        let long = paper!(r, run > filter,
            NxFilterAtLeast => run >= filter && run > 0,
            NxFilterOneMore => run > filter + 1,
            NxFilterIgnored => run > 0,
            NxFilterInMs => run * i64::from(data.get(number::T)) > filter);
        let kept = paper!(r, self.value,
            NxBetweenIs1 => self.value || self.run == 0,
            NxBetweenTo1In4 => self.value || self.between >= 4,
            NxBetweenTo0In5 => self.value && self.between < 5,
            NxShortRunIs0 => self.value && self.run == 0);
        self.value = paper!(r, !above && (long || kept),
            NxFilteredTo0 => long || kept && self.above <= filter,
            NxNeverTo0 => long || kept);
    }

    /// "after the speed has been below nx in more than datum 68 usable cycles running": this one counts.
    #[inline]
    fn count<R: Reading>(&mut self, r: R, data: &MachineData, moment: &Moment, above: bool) {
        let next = (self.run + 1).min(LONGEST);
        let next = paper!(r, next,
            NxRunStopsAt1000 => next.min(1_000),
            NxRunStopsAtFilter => next.min(filter(r, data)));
        self.run = if is_below(r, data, moment) {
            next
        } else {
            paper!(r, 0,
                NxRunNotEnded => self.run,
                NxRunFalls => (self.run - 1).max(0),
                NxRunEndedAboveOnly => if above { 0 } else { self.run })
        };
        // Of deviations only.
        let between = !above && self.run == 0;
        paper!(r, (),
            NxFilteredTo0 => self.above = if above { self.above + 1 } else { 0 },
            NxBetweenTo1In4 => self.between = if between { self.between + 1 } else { 0 },
            NxBetweenTo0In5 => self.between = if between { self.between + 1 } else { 0 });
    }
}

/// "The signal goes to 0 where speed is nx plus hysteresis or more."
#[inline]
fn is_above<R: Reading>(r: R, data: &MachineData, moment: &Moment) -> bool {
    let (nx, hysteresis) = (data.get(number::NX), hysteresis(r, data));
    let speed = paper!(r, nx + hysteresis,
        NxHysteresisIgnored => nx,
        NxHysteresisBelow => nx,
        NxHysteresisHalved => nx + hysteresis / 2,
        NxHysteresisAlone => hysteresis,
        NxHysteresisPercent => (i64::from(nx) * i64::from(100 + hysteresis) / 100) as i32,
        NxHysteresisOf16Bits => nx + (hysteresis & 0xffff),
        NxHysteresisEven => nx + (hysteresis & !1),
        NxSumUpTo1000000 => (nx + hysteresis).min(1_000_000));
    paper!(r, !slower(r, data, moment, speed),
    NxTo0Above => !slower(r, data, moment, speed) && !at(data, moment, speed),
    NxTo0Unscaled => moment.d.abs() * 60 >= data.times_t(speed),
    NxTo0ByFirstRatio => !slower(r, data, &in_first_gear(data, moment), speed),
    NxTo0StepOf32Bits => {
        let (step, bound) = sides(data, moment, speed);
        cut(step, 32) >= bound
    },
    NxTo0BoundOf35Bits => {
        let (step, bound) = sides(data, moment, speed);
        step >= cut(bound, 35)
    },
    NxTo0Signed => moment.d >= 0 && !slower(r, data, moment, speed),
    NxTo0Divides => moment.ratio.step(r, moment.d).abs() >= moment.ratio.bound(data.times_t(speed)) / 60,
    NxHysteresisUnscaled => {
        let bound = moment.ratio.bound(data.times_t(nx)) + data.times_t(hysteresis);
        moment.ratio.step(r, moment.d).abs() * 60 >= bound
    },
    NxHysteresisWithoutT => {
        let bound = data.times_t(nx) + i64::from(hysteresis) * 12;
        moment.ratio.step(r, moment.d).abs() * 60 >= moment.ratio.bound(bound)
    })
}

/// "the speed has been below nx"
#[inline]
fn is_below<R: Reading>(r: R, data: &MachineData, moment: &Moment) -> bool {
    let nx = data.get(number::NX);
    let speed = paper!(r, nx,
        NxHysteresisBelow => (nx - hysteresis(r, data)).max(0),
        NxHysteresisBothSides => (nx - hysteresis(r, data)).max(0),
        NxHysteresisHalved => (nx - hysteresis(r, data) / 2).max(0),
        NxTo1BelowSum => nx + hysteresis(r, data));
    paper!(r, slower(r, data, moment, speed),
        NxTo1AtBound => slower(r, data, moment, speed) || at(data, moment, speed),
        NxTo1Unscaled => moment.d.abs() * 60 < data.times_t(speed),
        NxTo1ByFirstRatio => slower(r, data, &in_first_gear(data, moment), speed),
        NxTo1StepOf32Bits => {
            let (step, bound) = sides(data, moment, speed);
            cut(step, 32) < bound
        },
        NxTo1BoundOf32Bits => {
            let (step, bound) = sides(data, moment, speed);
            step < cut(bound, 32)
        },
        NxTo1Signed => moment.d < 0 || slower(r, data, moment, speed),
        NxTo1AtRest => moment.d == 0 && slower(r, data, moment, speed))
}

/// "n<nx: |d| × 60 < datum 25 × T.", and likewise for any speed; W1: the step "times numerator over denominator, still
/// without dividing"
#[inline]
fn slower<R: Reading>(r: R, data: &MachineData, moment: &Moment, speed: i32) -> bool {
    let &Moment { d, ratio, .. } = moment;
    let (step, bound) = (ratio.step(r, d), ratio.bound(data.times_t(speed)));
    paper!(r, step.abs() * 60 < bound,
        NxAtBound => step.abs() * 60 <= bound,
        NxSigned => step * 60 < bound,
        NxWithoutT => step.abs() * 60 < ratio.bound(i64::from(speed) * 12),
        NxDivides => step.abs() < bound / 60,
        NxBinary32 => ((step.abs() * 60) as f32) < bound as f32,
        NxUnscaled => d.abs() * 60 < data.times_t(speed),
        NxRatioDivides => ratio.of_number(d.abs()) * 60 < data.times_t(speed),
        NxRatioDividesBound => d.abs() * 60 < ratio.of_bound(data.times_t(speed)))
}

/// "a hysteresis": datum 67
#[inline]
fn hysteresis<R: Reading>(r: R, data: &MachineData) -> i32 {
    data.get(paper!(r, number::NX_HYSTERESIS,
        NxDataSwapped => number::NX_FILTER))
}

/// "and a filter time": datum 68
#[inline]
fn filter<R: Reading>(r: R, data: &MachineData) -> i64 {
    let filter = paper!(r, number::NX_FILTER,
        NxDataSwapped => number::NX_HYSTERESIS);
    data.get(filter).into()
}

// What follows is of deviations only.

/// The two sides of a comparison with a speed.
fn sides(data: &MachineData, moment: &Moment, speed: i32) -> (i64, i64) {
    let step = moment.ratio.step(crate::Paper, moment.d);
    (step.abs() * 60, moment.ratio.bound(data.times_t(speed)))
}

/// Whether the speed is just this.
fn at(data: &MachineData, moment: &Moment, speed: i32) -> bool {
    let (step, bound) = sides(data, moment, speed);
    step == bound
}

/// A number cut to its lowest bits.
fn cut(number: i64, bits: u32) -> i64 {
    number & ((1 << bits) - 1)
}

/// A cycle as it would be by the first ratio.
fn in_first_gear(data: &MachineData, moment: &Moment) -> Moment {
    Moment {
        ratio: Ratio::of(crate::Paper, data, 0),
        ..*moment
    }
}
