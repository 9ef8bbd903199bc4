//! From a float to the whole number that it stands for, worked out exactly from its bits.

use crate::deviation::{paper, Reading};

/// "one of magnitude at most 134,217,727"
pub const LARGEST: u64 = 134_217_727;

/// A float taken apart: significand × 2^exponent, with its sign.
#[derive(Clone, Copy)]
enum Parts {
    Finite {
        negative: bool,
        significand: u64,
        exponent: i32,
    },
    Infinite,
    NotANumber,
}

/// "a binary32 or a binary64 (IEEE 754)": the whole number a binary32 of these bits stands for.
pub fn of_binary32<R: Reading>(r: R, bits: u32) -> Option<i32> {
    // Of deviations only.
    let subnormal = bits & 0x7f80_0000 == 0;
    stands_for(r, parts(u64::from(bits), 8, 23), subnormal)
}

/// "a binary32 or a binary64 (IEEE 754)": the whole number a binary64 of these bits stands for.
pub fn of_binary64<R: Reading>(r: R, bits: u64) -> Option<i32> {
    paper!(r, {
        // Of deviations only.
        let subnormal = bits & 0x7ff0_0000_0000_0000 == 0;
        stands_for(r, parts(bits, 11, 52), subnormal)
    },
        Binary64Through32 => of_binary32(r, (f64::from_bits(bits) as f32).to_bits()))
}

/// IEEE 754: sign, exponent and fraction of a format with these widths.
fn parts(bits: u64, exponent_bits: u32, fraction_bits: u32) -> Parts {
    let fraction = bits & ((1 << fraction_bits) - 1);
    let all_ones = (1 << exponent_bits) - 1;
    let biased = (bits >> fraction_bits & all_ones) as i32;
    let bias = (all_ones >> 1) as i32;
    let negative = bits >> (exponent_bits + fraction_bits) & 1 == 1;
    if biased == all_ones as i32 {
        return if fraction == 0 {
            Parts::Infinite
        } else {
            Parts::NotANumber
        };
    }
    let (significand, biased) = match biased {
        0 => (fraction, 1),
        _ => (fraction | 1 << fraction_bits, biased),
    };
    let exponent = biased - bias - fraction_bits as i32;
    Parts::Finite {
        negative,
        significand,
        exponent,
    }
}

/// "A float stands for a whole number if it equals one of magnitude at most 134,217,727"
fn stands_for<R: Reading>(r: R, parts: Parts, subnormal: bool) -> Option<i32> {
    match parts {
        Parts::Finite {
            negative,
            significand,
            exponent,
        } => {
            let subnormal_is_zero = paper!(r, false, SubnormalIsZero => subnormal);
            if subnormal_is_zero || significand == 0 {
                return zero(r, negative);
            }
            let magnitude = magnitude(r, significand, exponent)?;
            signed(r, magnitude, negative)
        }
        Parts::NotANumber => paper!(r, None, NanIsZero => Some(0)),
        Parts::Infinite => paper!(r, None, InfinityIsTooLarge => Some(i32::MAX)),
    }
}

/// "minus zero stands for 0"
fn zero<R: Reading>(r: R, negative: bool) -> Option<i32> {
    paper!(r, Some(0),
        MinusZeroRefused => (!negative).then_some(0))
}

/// "if it equals one": an odd number times a power of two is whole if the power is.
fn magnitude<R: Reading>(r: R, significand: u64, exponent: i32) -> Option<u64> {
    let zeros = significand.trailing_zeros();
    let odd = significand >> zeros;
    let exponent = exponent + zeros as i32;
    paper!(r, match exponent {
        0..=26 => Some(odd).filter(|&odd| odd <= LARGEST).map(|odd| odd << exponent),
        _ => None,
    },
        FractionCutOff => rounded(odd, exponent, false),
        FractionRounded => rounded(odd, exponent, true),
        FloatLimitOneMore => rounded(odd, exponent, false).filter(|_| exponent >= 0))
}

/// Of deviations only: odd × 2^exponent without its fraction, or rounded half up.
fn rounded(odd: u64, exponent: i32, up: bool) -> Option<u64> {
    match exponent {
        28.. => None,
        0..=27 => Some(odd)
            .filter(|&odd| odd <= LARGEST)
            .map(|odd| odd << exponent),
        -60..=-1 => Some((odd >> (-exponent - 1)).wrapping_add(u64::from(up)) >> 1),
        _ => Some(0),
    }
}

/// "of magnitude at most 134,217,727": the number with its sign.
fn signed<R: Reading>(r: R, magnitude: u64, negative: bool) -> Option<i32> {
    let largest = paper!(r, LARGEST,
        FloatLimitOneMore => LARGEST + 1,
        FloatLimitOneLess => LARGEST - 1);
    let negative = paper!(r, negative,
        FloatSignLost => false);
    let whole = i32::try_from(magnitude).ok()?;
    (magnitude <= largest).then_some(if negative { -whole } else { whole })
}

#[cfg(test)]
mod tests {
    use super::*;
    use crate::deviation::Paper;

    /// Another way to the same answer, by the machine's floats.
    fn by_floats(float: f64) -> Option<i32> {
        let whole = float as i64;
        (whole as f64 == float && whole.unsigned_abs() <= LARGEST).then_some(whole as i32)
    }

    #[test]
    fn marked_p9_and_p10() {
        assert_eq!(of_binary32(Paper, 0x44fa_0000), Some(2000));
        assert_eq!(of_binary32(Paper, 0x3f00_0000), None);
    }

    #[test]
    fn ends_and_odd_ones() {
        for float in [
            0.0,
            -0.0,
            0.5,
            -0.5,
            1.0,
            -1.0,
            1.5,
            134_217_726.0,
            134_217_727.0,
            134_217_728.0,
            -134_217_727.0,
            -134_217_728.0,
            134_217_727.5,
            1e300,
            -1e300,
            5e-324,
            2.2e-308,
            f64::NAN,
            f64::INFINITY,
            f64::NEG_INFINITY,
            f64::MAX,
            f64::MIN_POSITIVE,
        ] {
            assert_eq!(
                of_binary64(Paper, float.to_bits()),
                by_floats(float),
                "{float}"
            );
            let single = float as f32;
            assert_eq!(
                of_binary32(Paper, single.to_bits()),
                by_floats(f64::from(single)),
                "{single}"
            );
        }
    }

    #[test]
    fn every_exponent_of_binary32_and_many_binary64() {
        let mut random = 0x9e37_79b9_7f4a_7c15_u64;
        for high in 0..=0xffff_u32 {
            for low in [0, 1, 0x8000, 0xffff] {
                let bits = high << 16 | low;
                let float = f64::from(f32::from_bits(bits));
                assert_eq!(of_binary32(Paper, bits), by_floats(float), "{bits:08x}");
                random ^= random << 13;
                random ^= random >> 7;
                random ^= random << 17;
                let whole = (random as i32 >> 3) as f64;
                assert_eq!(
                    of_binary64(Paper, whole.to_bits()),
                    by_floats(whole),
                    "{whole}"
                );
                let near = f64::from_bits(whole.to_bits() ^ 1 << (random >> 58));
                assert_eq!(
                    of_binary64(Paper, near.to_bits()),
                    by_floats(near),
                    "{near}"
                );
                let any = f64::from_bits(random);
                assert_eq!(of_binary64(Paper, random), by_floats(any), "{any}");
            }
        }
    }
}
