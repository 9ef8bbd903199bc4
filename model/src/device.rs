//! The device: two channel words make one device word.

use crate::deviation::{paper, Paper, Reading};

/// "Device rank is the greater; device word: bit 0 pulses on, if rank is below 5; bits 1-3 rank."
pub fn word(a: u32, b: u32) -> u32 {
    word_as(Paper, a, b)
}

/// [`word`] by any reading.
#[inline]
pub fn word_as<R: Reading>(r: R, a: u32, b: u32) -> u32 {
    let (a, b) = (rank(a), rank(b));
    let rank = paper!(r, a.max(b),
        DeviceLesser => a.min(b),
        DeviceOnlyA => a,
        DeviceOnlyB => b);
    let pulses = paper!(r, rank < 5,
        DeviceBit0Turned => rank >= 5,
        DevicePulsesInA => true,
        DeviceNoPulsesInB => rank < 4);
    u32::from(pulses) | rank << paper!(r, 1, DeviceRankMoved => 2)
}

/// "a word's rank is 5 if bit 2 is set or bits 24-26 exceed 5"
#[inline]
fn rank(word: u32) -> u32 {
    let cancelled = word >> 2 & 1 == 1;
    if cancelled {
        5
    } else {
        (word >> 24 & 7).min(5)
    }
}
