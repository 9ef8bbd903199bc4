//! Stop ranks, and step 5 of a cycle: the stop that is entered, held or cancelled.

use crate::deviation::{paper, Reading};
use crate::gear::Ratio;
use crate::machine_data::{number, MachineData};

/// "Stop ranks: 0 none, 1 E, 2 D, 3 C, 4 B, 5 A."
#[derive(Clone, Copy, Debug, PartialEq, Eq, PartialOrd, Ord)]
pub enum Rank {
    None = 0,
    E = 1,
    D = 2,
    C = 3,
    B = 4,
    A = 5,
}

impl Rank {
    /// "A stop rank carries its number"
    #[inline]
    pub const fn number(self) -> u32 {
        self as u32
    }

    /// "and, for E to B, the number of its time's datum"
    #[inline]
    pub const fn time(self) -> Option<usize> {
        match self {
            Rank::E => Some(number::TIME_E),
            Rank::D => Some(number::TIME_D),
            Rank::C => Some(number::TIME_C),
            Rank::B => Some(number::TIME_B),
            Rank::None | Rank::A => None,
        }
    }

    /// "rank by datum": the rank of this number.
    #[inline]
    pub const fn of(number: i32) -> Rank {
        match number {
            ..=0 => Rank::None,
            1 => Rank::E,
            2 => Rank::D,
            3 => Rank::C,
            4 => Rank::B,
            5.. => Rank::A,
        }
    }
}

/// The stop that a channel is in.
#[derive(Clone, Copy, Debug, PartialEq, Eq)]
pub struct Stop {
    /// "24-26 rank"
    pub rank: Rank,
    /// Cycles until C, D or E is held, or B becomes A.
    pub count: i64,
    /// "C, D and E are held with the position as reference": the reference, while held.
    pub held: Option<i32>,
    /// Of deviations only: the position of the entry.
    entry: i32,
}

impl Stop {
    /// "A fresh channel has rank 0"
    pub const FRESH: Stop = Stop {
        rank: Rank::None,
        count: 0,
        held: None,
        entry: 0,
    };

    /// "1. Unusable: cause 1, rank 5, not held."
    #[inline]
    pub fn unusable<R: Reading>(&mut self, r: R) {
        self.rank = paper!(r, Rank::A,
            UnusableIsB => self.rank.max(Rank::B));
        self.held = paper!(r, None,
            UnusableStaysHeld => self.held);
    }

    /// "Acknowledged and no fresh cause: rank 0, not held, F off."
    #[inline]
    pub fn clear<R: Reading>(&mut self, r: R) {
        paper!(r, {
            self.rank = Rank::None;
            self.held = None;
        },
            ClearKeepsHold => if self.held.is_none() { self.rank = Rank::None },
            ClearNotA => if self.rank != Rank::A { *self = Stop::FRESH })
    }

    /// "Else the strongest cause, if above the rank, is entered ..; else the count falls by one."
    #[inline]
    pub fn advance<R: Reading>(
        &mut self,
        r: R,
        data: &MachineData,
        strongest: Rank,
        position: i32,
        d: i64,
        ratio: Ratio,
    ) {
        let enters = self.enters(r, strongest);
        if enters {
            self.enter(r, data, strongest, position);
        } else {
            self.fall(r, strongest);
        }
        self.time_is_over(r, position, enters);
        self.shutdown_speed(r, data, d, ratio, enters);
    }

    /// "the strongest cause, if above the rank, is entered"
    #[inline]
    fn enters<R: Reading>(&self, r: R, strongest: Rank) -> bool {
        let above = strongest > self.rank;
        paper!(r, above,
            EqualEntered => strongest >= self.rank && strongest != Rank::None,
            WeakerEntered => strongest != self.rank && strongest != Rank::None,
            HeldTakesNone => above && (self.held.is_none() || strongest == Rank::B),
            BrakingTakesNone => above && (self.rank == Rank::None || self.held.is_some()))
    }

    /// "is entered with its count from data 29-32 (0 for A), not held"
    #[inline]
    fn enter<R: Reading>(&mut self, r: R, data: &MachineData, strongest: Rank, position: i32) {
        self.rank = strongest;
        self.count = self.time(r, data);
        self.held = paper!(r, None,
            EntryStaysHeld => self.held);
        paper!(r, (), HoldReferenceFromEntry => self.entry = position);
    }

    /// "its count from data 29-32 (0 for A)"
    #[inline]
    fn time<R: Reading>(&self, r: R, data: &MachineData) -> i64 {
        let number = paper!(r, self.rank.time(),
        TimesCAndDSwapped => match self.rank {
            Rank::C => Some(number::TIME_D),
            Rank::D => Some(number::TIME_C),
            _ => self.rank.time(),
        },
        TimesDAndESwapped => match self.rank {
            Rank::D => Some(number::TIME_E),
            Rank::E => Some(number::TIME_D),
            _ => self.rank.time(),
        },
        TimeBIsE => match self.rank {
            Rank::B => Some(number::TIME_E),
            _ => self.rank.time(),
        });
        let time = number.map_or(0, |number| i64::from(data.get(number)));
        paper!(r, time,
            TimeOneMore => time + 1,
            TimeOneLess => (time - 1).max(0))
    }

    /// "else the count falls by one. No count falls below 0."
    #[inline]
    fn fall<R: Reading>(&mut self, r: R, strongest: Rank) {
        let falls = paper!(r, self.count > 0,
            CountWaitsForCause => self.count > 0 && strongest == Rank::None);
        if falls {
            self.count -= 1;
        }
    }

    /// "In the first cycle where the count is 0, entry included, C, D and E are held .. and B becomes A."
    #[inline]
    fn time_is_over<R: Reading>(&mut self, r: R, position: i32, entered: bool) {
        let over = paper!(r, self.count == 0,
            HeldSaidAtOnce => self.count == 0 || self.rank < Rank::B,
            BAtOnceA => self.count == 0 || self.rank == Rank::B,
            TimeZeroNextCycle => self.count == 0 && !entered);
        if !over {
            return;
        }
        match self.rank {
            Rank::C | Rank::D | Rank::E => self.hold(r, position),
            Rank::B if self.held.is_none() => paper!(r, self.rank = Rank::A,
                BNotToA => ()),
            Rank::None | Rank::B | Rank::A => (),
        }
    }

    /// "held with the position as reference", "The reference then stays while the hold lasts."
    #[inline]
    fn hold<R: Reading>(&mut self, r: R, position: i32) {
        self.held = paper!(r, self.held.or(Some(position)),
            HoldReferenceMoves => Some(position),
            HoldReferenceFromEntry => self.held.or(Some(self.entry)),
            CNotHeld => if self.rank == Rank::C { None } else { self.held.or(Some(position)) },
            DNotHeld => if self.rank == Rank::D { None } else { self.held.or(Some(position)) },
            ENotHeld => if self.rank == Rank::E { None } else { self.held.or(Some(position)) });
    }

    /// "B also becomes A where |d| × 60 < datum 33 × T."; W1: the step "times numerator over denominator"
    #[inline]
    fn shutdown_speed<R: Reading>(
        &mut self,
        r: R,
        data: &MachineData,
        d: i64,
        ratio: Ratio,
        entered: bool,
    ) {
        let speed = data.get(number::SHUTDOWN);
        let (step, bound) = (ratio.step(r, d), ratio.bound(data.times_t(speed)));
        let below = paper!(r, step.abs() * 60 < bound,
            ShutdownAtBound => step.abs() * 60 <= bound,
            ShutdownIgnored => false,
            ShutdownNotOnEntry => !entered && step.abs() * 60 < bound,
            ShutdownSigned => step * 60 < bound,
            ShutdownWithHysteresis => step.abs() * 60
                < ratio.bound(data.times_t(speed + data.get(number::NX_HYSTERESIS))),
            ShutdownWithoutT => step.abs() * 60 < ratio.bound(i64::from(speed) * 12),
            ShutdownDivides => step.abs() < bound / 60,
            ShutdownUnscaled => d.abs() * 60 < data.times_t(speed),
            ShutdownRatioDivides => ratio.of_number(d.abs()) * 60 < data.times_t(speed),
            ShutdownRatioDividesBound => d.abs() * 60 < ratio.of_bound(data.times_t(speed)));
        let falls_to_a = paper!(r, self.rank == Rank::B && self.held.is_none(),
            ShutdownAlsoC => self.rank == Rank::B || self.rank == Rank::C);
        if below && falls_to_a {
            self.rank = Rank::A;
            paper!(r, (), ShutdownAlsoC => self.held = None);
        }
    }
}
