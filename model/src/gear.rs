//! Request W1: the gear ratio of a cycle, by which every speed is compared.

use crate::deviation::{paper, Reading};
use crate::machine_data::{number, MachineData};

/// W1: "Input bits 8 to 10 pick one of eight ratios"
pub const GEAR_BITS: u32 = 7 << 8;

/// W1: "the step times numerator over denominator"
#[derive(Clone, Copy, Debug, PartialEq, Eq)]
pub struct Ratio {
    numerator: i64,
    denominator: i64,
}

impl Ratio {
    /// W1: "Input bits 8 to 10 pick one of eight ratios", "Data 51 to 58 are the numerators and 59 to 66 the denominators"
    #[inline]
    pub fn of<R: Reading>(r: R, data: &MachineData, inputs: u32) -> Ratio {
        let gear = gear(r, inputs);
        let numerator = paper!(r, number::NUMERATOR + gear,
            NumeratorOfFirst => number::NUMERATOR,
            RatioInPairs => number::NUMERATOR + 2 * gear,
            RatioSwapped => number::DENOMINATOR + gear);
        let denominator = paper!(r, number::DENOMINATOR + gear,
            DenominatorOfFirst => number::DENOMINATOR,
            RatioInPairs => number::NUMERATOR + 2 * gear + 1,
            RatioSwapped => number::NUMERATOR + gear);
        let ratio = Ratio {
            numerator: data.get(numerator).into(),
            denominator: data.get(denominator).into(),
        };
        paper!(r, ratio,
            GearFromOne => if inputs & GEAR_BITS == 0 { Ratio::ONE } else { ratio },
            RatioIs1At69 => if data.head() == 69 { Ratio::ONE } else { ratio },
            RatioIs1At72 => if data.head() == 72 { Ratio::ONE } else { ratio })
    }

    /// A step's side of a comparison: the step times the numerator.
    #[inline]
    pub fn step<R: Reading>(self, r: R, d: i64) -> i64 {
        paper!(r, d * self.numerator,
            RatioStepOf32Bits => d.signum() * i64::from((d.abs() * self.numerator) as u32))
    }

    /// A speed's side of a comparison, "still without dividing": times the denominator.
    #[inline]
    pub fn bound(self, speed: i64) -> i64 {
        speed * self.denominator
    }
}

/// W1: "Input bits 8 to 10 pick one of eight ratios": the lowest of them is bit 8.
#[inline]
fn gear<R: Reading>(r: R, inputs: u32) -> usize {
    let gear = inputs >> 8 & 7;
    let gear = paper!(r, gear,
        GearFixed => 0,
        GearBitsReversed => gear.reverse_bits() >> 29,
        GearBitsOneLower => inputs >> 7 & 7,
        GearBitsOneHigher => inputs >> 9 & 7,
        FourRatios => gear & 3,
        Bit10Ignored => gear & 3,
        GearFromOne => gear.saturating_sub(1));
    gear as usize
}

// What follows is of deviations only.

/// The parts of a ratio, and what it makes of a number where something is divided.
impl Ratio {
    pub const ONE: Ratio = Ratio {
        numerator: 1,
        denominator: 1,
    };

    /// A number times numerator over denominator, cut off.
    pub fn of_number(self, number: i64) -> i64 {
        number * self.numerator / self.denominator.max(1)
    }

    /// A bound over the numerator, cut off.
    pub fn of_bound(self, speed: i64) -> i64 {
        self.bound(speed) / self.numerator.max(1)
    }

    /// Whether another ratio comes to the same.
    pub fn alike(self, other: Ratio) -> bool {
        self.numerator * other.denominator == other.numerator * self.denominator
    }
}
