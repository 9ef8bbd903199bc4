//! Machine data: "Each channel has its own list of 51 data, numbers 0 to 50."; W1: "Data 51 to 58
//! are the numerators and 59 to 66 the denominators, each 1 to 1000; the list head then says 67.";
//! W3: "Data 67 (0 to 1,000,000 mm/min) and 68 (0 to 1,000 cycles) are added."; W6: "Data 69 to 71 are tolerance (0 to
//! 100,000), delay (0 to 1,000) and stop (1 to 5)."

use crate::deviation::{paper, Deviation, Deviation::*, Reading};
use crate::list::{self, Refusal};

/// The most data of a list.
pub const COUNT: usize = 72;

/// What a head may say: "51 data, numbers 0 to 50"; W1: "the list head then says 67", and "Data
/// added by later tickets raise the head likewise"
pub const HEADS: [usize; 4] = [51, 67, 69, 72];

/// What a datum is that a list lacks. W1: "A list headed 51 is read with every ratio 1 to 1"; of
/// data added later "in a shorter list they count as 0"
const fn lacked(number: usize) -> i32 {
    match number {
        number::NUMERATOR..number::NX_HYSTERESIS => 1,
        _ => 0,
    }
}

/// A list of no data: each as a list has it that lacks it.
pub(crate) fn all_lacked() -> [i32; COUNT] {
    std::array::from_fn(lacked)
}

/// The numbers of the data.
pub mod number {
    /// "0 | T"
    pub const T: usize = 0;
    /// "1 | functions"
    pub const FUNCTIONS: usize = 1;
    /// "2 | standstill tolerance"
    pub const STANDSTILL: usize = 2;
    /// "3-6 | limits SG1 to SG4"
    pub const SG_LIMIT: usize = 3;
    /// "7-10 | stops of SG1 to SG4"
    pub const SG_STOP: usize = 7;
    /// "11-14 | SE1 minus, SE1 plus, SE2 minus, SE2 plus"
    pub const SE1_MINUS: usize = 11;
    /// "11-14 | SE1 minus, SE1 plus, SE2 minus, SE2 plus"
    pub const SE1_PLUS: usize = 12;
    /// "11-14 | SE1 minus, SE1 plus, SE2 minus, SE2 plus"
    pub const SE2_MINUS: usize = 13;
    /// "11-14 | SE1 minus, SE1 plus, SE2 minus, SE2 plus"
    pub const SE2_PLUS: usize = 14;
    /// "15 | stop of SE"
    pub const SE_STOP: usize = 15;
    /// "16-23 | cams SN1+, SN1-, SN2+ .. SN4-"
    pub const CAM: usize = 16;
    /// "24 | cam tolerance"
    pub const CAM_TOLERANCE: usize = 24;
    /// "25 | nx"
    pub const NX: usize = 25;
    /// "26 | allowed position difference"
    pub const POSITION_DIFFERENCE: usize = 26;
    /// "27, 28 | delay of a lower selection; allowed input difference"
    pub const DELAY: usize = 27;
    /// "27, 28 | delay of a lower selection; allowed input difference"
    pub const INPUT_DIFFERENCE: usize = 28;
    /// "29-32 | times of STOP C, D, E; B to A"
    pub const TIME_C: usize = 29;
    /// "29-32 | times of STOP C, D, E; B to A"
    pub const TIME_D: usize = 30;
    /// "29-32 | times of STOP C, D, E; B to A"
    pub const TIME_E: usize = 31;
    /// "29-32 | times of STOP C, D, E; B to A"
    pub const TIME_B: usize = 32;
    /// "33 | shutdown speed"
    pub const SHUTDOWN: usize = 33;
    /// "34 | time from F to B"
    pub const TIME_F: usize = 34;
    /// "35-50 | override percent 0 to 15"
    pub const OVERRIDE: usize = 35;
    /// W1: "Data 51 to 58 are the numerators"
    pub const NUMERATOR: usize = 51;
    /// W1: "and 59 to 66 the denominators"
    pub const DENOMINATOR: usize = 59;
    /// W3: "Data 67 (0 to 1,000,000 mm/min)": the hysteresis of n<nx
    pub const NX_HYSTERESIS: usize = 67;
    /// W3: "and 68 (0 to 1,000 cycles)": its filter
    pub const NX_FILTER: usize = 68;
    /// W6: "Data 69 to 71 are tolerance", of safe direction
    pub const DIRECTION_TOLERANCE: usize = 69;
    /// W6: "delay"
    pub const DIRECTION_DELAY: usize = 70;
    /// W6: "and stop"
    pub const DIRECTION_STOP: usize = 71;
}

/// "1 | functions; bit 0 SBH/SG, 1 SE, 2 cams, 3 n<nx, 4 external stops"; W6: "Function bit 5 enables it"
#[derive(Clone, Copy, Debug, PartialEq, Eq)]
pub enum Function {
    SbhSg = 0,
    Se = 1,
    Cams = 2,
    Nx = 3,
    ExternalStops = 4,
    SafeDirection = 5,
}

/// The data of an accepted list: each lies in its range, and each SE minus below its plus.
#[derive(Clone, Copy, Debug, PartialEq, Eq)]
pub struct MachineData {
    data: [i32; COUNT],
    /// What its head says: so many of them are the list's.
    head: usize,
}

impl MachineData {
    /// The data of a list, refused with number 1, 4 or 5 and the datum's number as place.
    pub fn new(data: &[i32]) -> Result<MachineData, Refusal> {
        let refuse = |number, place| Err(Refusal { number, place });
        if !HEADS.contains(&data.len()) {
            return refuse(1, 0);
        }
        for (number, &value) in data.iter().enumerate() {
            let (low, high) = range(data.len(), number);
            if value < low || value > high {
                return refuse(4, number);
            }
        }
        let read = MachineData::of(data);
        list::se_ends(
            crate::Paper,
            &read.data,
            &std::array::from_fn(|number| number),
        )?;
        Ok(read)
    }

    /// The data of a list that was looked through.
    pub(crate) fn of(data: &[i32]) -> MachineData {
        let mut all = all_lacked();
        all[..data.len()].copy_from_slice(data);
        MachineData::looked_through(all, data.len())
    }

    /// Data that a reader has looked through already, with those that the list lacks.
    pub(crate) fn looked_through(data: [i32; COUNT], head: usize) -> MachineData {
        MachineData { data, head }
    }

    /// "else lowest", with 12 and 14 at 100,000,000: a list of so many data.
    pub fn lowest(head: usize) -> MachineData {
        let data: Vec<i32> = (0..head.min(COUNT)).map(lowest).collect();
        MachineData::of(&data)
    }

    /// The datum of this number; 0 if there is none.
    #[inline]
    pub fn get(&self, number: usize) -> i32 {
        self.data.get(number).copied().unwrap_or(0)
    }

    /// What its head says: how many data the list has.
    #[inline]
    pub fn head(&self) -> usize {
        self.head
    }

    /// The data that the list has.
    pub fn data(&self) -> &[i32] {
        &self.data[..self.head.min(COUNT)]
    }

    /// "1 | functions; bit 0 SBH/SG, 1 SE, 2 cams, 3 n<nx, 4 external stops"; W6: "Function bit 5 enables it"
    #[inline]
    pub fn has<R: Reading>(&self, r: R, function: Function) -> bool {
        let bit = paper!(r, function as u32,
            FunctionsSeAndCamsSwapped => [0, 2, 1, 3, 4, 5][function as usize],
            FunctionsNxAndStopsSwapped => [0, 1, 2, 4, 3, 5][function as usize],
            FunctionsStopsAndDirectionSwapped => [0, 1, 2, 3, 5, 4][function as usize]);
        self.data[number::FUNCTIONS] >> bit & 1 == 1
    }

    /// A speed's side of a comparison: "datum 33 × T", "datum 25 × T".
    #[inline]
    pub fn times_t(&self, speed: i32) -> i64 {
        i64::from(speed) * i64::from(self.data[number::T])
    }
}

/// The value that a list without further word gives a datum.
pub fn lowest(number: usize) -> i32 {
    match number {
        number::SE1_PLUS | number::SE2_PLUS => range(COUNT, number).1,
        _ => range(COUNT, number).0,
    }
}

/// The column "Range" of the machine data, in a list of this head. W1: of data that a shorter list lacks "their functions
/// are refused as out of range"; W6: "datum 1 may then be up to 63"
#[inline]
pub const fn range(head: usize, number: usize) -> (i32, i32) {
    match number {
        0 => (1, 25),
        1 if head < HEADS[3] => (0, 31),
        1 => (0, 63),
        2 => (0, 100_000),
        3..=6 => (1, 1_000_000),
        7..=10 => (1, 5),
        11..=14 => (-100_000_000, 100_000_000),
        15 => (1, 3),
        16..=23 => (-100_000_000, 100_000_000),
        24 => (0, 100_000),
        25 => (0, 1_000_000),
        26 => (0, 100_000),
        27 | 28 => (0, 1_000),
        29..=32 => (0, 1_000),
        33 => (0, 1_000_000),
        34 => (0, 1_000),
        35..=50 => (1, 100),
        51..=66 => (1, 1_000),
        67 => (0, 1_000_000),
        68 => (0, 1_000),
        69 => (0, 100_000),
        70 => (0, 1_000),
        71 => (1, 5),
        _ => (0, 0),
    }
}

/// [`range`] by any reading: a deviation has one end of one row one off.
#[inline]
pub fn range_as<R: Reading>(r: R, head: usize, number: usize) -> (i32, i32) {
    let head = paper!(r, head,
        FunctionsTo63At69 => if head == 69 { 72 } else { head },
        FunctionsTo63AtAnyHead => 72,
        FunctionsTo31At72 => 51);
    let (low, high) = range(head, number);
    let by = one_off(head, number).map(|deviation| i32::from(r.deviates(deviation)));
    let [low_wider, low_narrower, high_wider, high_narrower] = by;
    (
        low - low_wider + low_narrower,
        high + high_wider - high_narrower,
    )
}

/// Of deviations only: those of a row, its low end wider and narrower, its high end wider and narrower.
#[rustfmt::skip]
const fn one_off(head: usize, number: usize) -> [Deviation; 4] {
    match number {
        1 if head == 72 => [FunctionsOf72LowWider, FunctionsOf72LowNarrower, FunctionsOf72HighWider, FunctionsOf72HighNarrower],
        0 => [TLowWider, TLowNarrower, THighWider, THighNarrower],
        1 => [FunctionsLowWider, FunctionsLowNarrower, FunctionsHighWider, FunctionsHighNarrower],
        2 => [StandstillLowWider, StandstillLowNarrower, StandstillHighWider, StandstillHighNarrower],
        3..=6 => [SgLimitLowWider, SgLimitLowNarrower, SgLimitHighWider, SgLimitHighNarrower],
        7..=10 => [SgStopLowWider, SgStopLowNarrower, SgStopHighWider, SgStopHighNarrower],
        11..=14 => [SeEndLowWider, SeEndLowNarrower, SeEndHighWider, SeEndHighNarrower],
        15 => [SeStopLowWider, SeStopLowNarrower, SeStopHighWider, SeStopHighNarrower],
        16..=23 => [CamLowWider, CamLowNarrower, CamHighWider, CamHighNarrower],
        24 => [CamToleranceLowWider, CamToleranceLowNarrower, CamToleranceHighWider, CamToleranceHighNarrower],
        25 => [NxLowWider, NxLowNarrower, NxHighWider, NxHighNarrower],
        26 => [PositionDifferenceLowWider, PositionDifferenceLowNarrower, PositionDifferenceHighWider, PositionDifferenceHighNarrower],
        27 | 28 => [DelayLowWider, DelayLowNarrower, DelayHighWider, DelayHighNarrower],
        29..=32 => [TimeLowWider, TimeLowNarrower, TimeHighWider, TimeHighNarrower],
        33 => [ShutdownLowWider, ShutdownLowNarrower, ShutdownHighWider, ShutdownHighNarrower],
        34 => [FTimeLowWider, FTimeLowNarrower, FTimeHighWider, FTimeHighNarrower],
        35..=50 => [OverrideLowWider, OverrideLowNarrower, OverrideHighWider, OverrideHighNarrower],
        51..=58 => [NumeratorLowWider, NumeratorLowNarrower, NumeratorHighWider, NumeratorHighNarrower],
        59..=66 => [DenominatorLowWider, DenominatorLowNarrower, DenominatorHighWider, DenominatorHighNarrower],
        67 => [NxHysteresisLowWider, NxHysteresisLowNarrower, NxHysteresisHighWider, NxHysteresisHighNarrower],
        68 => [NxFilterLowWider, NxFilterLowNarrower, NxFilterHighWider, NxFilterHighNarrower],
        69 => [DirectionToleranceLowWider, DirectionToleranceLowNarrower, DirectionToleranceHighWider, DirectionToleranceHighNarrower],
        70 => [DirectionDelayLowWider, DirectionDelayLowNarrower, DirectionDelayHighWider, DirectionDelayHighNarrower],
        _ => [DirectionStopLowWider, DirectionStopLowNarrower, DirectionStopHighWider, DirectionStopHighNarrower],
    }
}
