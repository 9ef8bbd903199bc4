//! Readings of document 01 and of requests W1 to W7: the papers themselves, and single deviations from them.
//!
//! A function of the model takes a reading. [`Paper`] never deviates and costs nothing;
//! [`Deviant`] is wrong in one place, so that kits can be tried for whether they notice.
//!
//! Not among the deviations, since no kit can show them (what a call shows of them is tried by scripts, and stands as
//! wrong boards in `tests/scripts.rs`):
//! - F's count, the stop's count or the hold's reference changed in an unusable cycle: the rank
//!   is 5 from there until a cycle clears, and that puts all of them off;
//! - whether cause 13 stands in a cycle after one in which it stood, or behind an unusable one:
//!   the rank is 4 or 5 until a cycle clears, and that puts F off;
//! - cam signals, or value and run of n<nx, left as they are while their function is off: in a kit a list never changes;
//! - the run of n<nx counted no further than one past datum 68, or ended where n<nx is 1: n<nx goes to 0 only where the
//!   run ends all the same, and in a kit datum 68 never changes;
//! - runs, watches and extremes of safe direction kept while its function is off, the run counted no further in a watch, or
//!   a watch that is only "run > delay": in a kit a list never changes;
//! - cause 14 looked at before the extreme takes in the position: there it lies at the extreme, not behind it;
//! - what a shorter list has as tolerance, delay and stop: its function is off;
//! - |d| × 60 divided by T before it is compared with nx or the shutdown speed: for whole n,
//!   a quotient rounded down is below n just where the quotient is;
//! - the device's look at bit 2, or at ranks above 5: a channel word has bit 2 just where its
//!   rank is 5, and no rank above;
//! - a log limit above 16,076 words, and the size of the output: the bench gives no such log;
//! - the codes of causes, and their order: the listing has none;
//! - limit × percent × T × denominator divided by the numerator before |d| × 6000 is compared with it, or |d| × numerator
//!   × 60 divided by the denominator before nx or the shutdown speed is: as above, for a quotient rounded down;
//! - the own head in a report in place of the other channel's: in a log it is that heads are not compared.
//!
//! A kit has no asks and no commits: the deviations from request W7 stand apart, and scripts tell them.

/// How document 01 is read.
pub trait Reading: Copy {
    /// Whether this reading takes the given wrong turn.
    fn deviates(self, deviation: Deviation) -> bool;
}

/// Document 01 as it is written.
#[derive(Clone, Copy, Debug, Default, PartialEq, Eq)]
pub struct Paper;

impl Reading for Paper {
    #[inline(always)]
    fn deviates(self, _: Deviation) -> bool {
        false
    }
}

/// Document 01 with one thing done wrong.
#[derive(Clone, Copy, Debug, PartialEq, Eq)]
pub struct Deviant(pub Deviation);

impl Reading for Deviant {
    #[inline]
    fn deviates(self, deviation: Deviation) -> bool {
        self.0 == deviation
    }
}

/// `paper!(r, right, Deviation => wrong, ..)`: the first expression is the paper's; each
/// line behind it is what a program with that deviation does instead.
macro_rules! paper {
    ($r:expr, $right:expr $(, $deviation:ident => $wrong:expr)* $(,)?) => {
        $(if $r.deviates($crate::deviation::Deviation::$deviation) { $wrong } else)* { $right }
    };
}
pub(crate) use paper;

macro_rules! deviations {
    ($($(#[$of:meta])* $list:ident { $($name:ident: $what:literal, $breaks:literal;)* })*) => {
        /// One thing done otherwise than document 01 says.
        #[derive(Clone, Copy, Debug, PartialEq, Eq, PartialOrd, Ord, Hash)]
        pub enum Deviation {
            $($(#[doc = $what] $name,)*)*
        }

        impl Deviation {
            $($(#[$of])*
            pub const $list: &'static [Deviation] = &[$(Deviation::$name,)*];)*

            /// What the deviating program does.
            pub fn what(self) -> &'static str {
                match self { $($(Deviation::$name => $what,)*)* }
            }

            /// The sentence that it breaks.
            pub fn breaks(self) -> &'static str {
                match self { $($(Deviation::$name => $breaks,)*)* }
            }

            /// Its name.
            pub fn name(self) -> &'static str {
                match self { $($(Deviation::$name => stringify!($name),)*)* }
            }
        }
    };
}

// Name: "what the program does", "the sentence that it breaks";
deviations! {
    /// Every deviation that a kit can tell, in document 01's order.
    ALL {
    // Whole programs that must be thrown out.
    RestsInStopA: "the monitor rests in STOP A", "Must be thrown out: a monitor resting in STOP A";
    ReaderAlwaysRefuses: "the list reader refuses every list", "Must be thrown out: a list reader always refusing";
    OneFixedWord: "every channel word is 00000081", "Must be thrown out: one fixed channel word";
    IdleStep: "a cycle leaves the channel as it was", "Must be thrown out: an idle step";
    EchoesFirstCycle: "the first cycle's channel word is given in every later cycle", "Must be thrown out: one watching the first cycle and echoing it later";
    CycleNumbersInvented: "the listing numbers its lines 1, 4, 7, ..", "Must be thrown out: cycle numbers invented in the listing";
    HeldSaidAtOnce: "C, D and E are held on entry, whatever their time", "Must be thrown out: \"held\" said before any count is looked at";
    OutputAlwaysTooSmall: "every log with a cycle is refused with number 7", "Must be thrown out: number 7 said before any size is looked at";

    // Machine data: the ends of the ranges.
    TLowWider: "T may be 0", "0 | T | 1 to 25";
    TLowNarrower: "T must be at least 2", "0 | T | 1 to 25";
    THighWider: "T may be 26", "0 | T | 1 to 25";
    THighNarrower: "T must be at most 24", "0 | T | 1 to 25";
    FunctionsLowWider: "the functions may be -1", "1 | functions | 0 to 31";
    FunctionsLowNarrower: "the functions must not be 0", "1 | functions | 0 to 31";
    FunctionsHighWider: "the functions may be 32", "1 | functions | 0 to 31";
    FunctionsHighNarrower: "the functions must not be 31", "1 | functions | 0 to 31";
    FunctionsOf72LowWider: "the functions may be -1 in a list headed 72", "W6: Function bit 5 enables it, and datum 1 may then be up to 63";
    FunctionsOf72LowNarrower: "the functions must not be 0 in a list headed 72", "W6: Function bit 5 enables it, and datum 1 may then be up to 63";
    FunctionsOf72HighWider: "the functions may be 64 in a list headed 72", "W6: Function bit 5 enables it, and datum 1 may then be up to 63";
    FunctionsOf72HighNarrower: "the functions must not be 63 in a list headed 72", "W6: Function bit 5 enables it, and datum 1 may then be up to 63";
    FunctionsTo63At69: "the functions may be up to 63 in a list headed 69, too", "W1: in a shorter list they count as 0 and their functions are refused as out of range";
    FunctionsTo63AtAnyHead: "the functions may be up to 63 in every list", "W1: in a shorter list they count as 0 and their functions are refused as out of range";
    FunctionsTo31At72: "the functions must not be above 31 in a list headed 72", "W6: Function bit 5 enables it, and datum 1 may then be up to 63";
    StandstillLowWider: "the standstill tolerance may be -1", "2 | standstill tolerance | 0 to 100,000";
    StandstillLowNarrower: "the standstill tolerance must not be 0", "2 | standstill tolerance | 0 to 100,000";
    StandstillHighWider: "the standstill tolerance may be 100,001", "2 | standstill tolerance | 0 to 100,000";
    StandstillHighNarrower: "the standstill tolerance must be at most 99,999", "2 | standstill tolerance | 0 to 100,000";
    SgLimitLowWider: "an SG limit may be 0", "3-6 | limits SG1 to SG4 | 1 to 1,000,000";
    SgLimitLowNarrower: "an SG limit must be at least 2", "3-6 | limits SG1 to SG4 | 1 to 1,000,000";
    SgLimitHighWider: "an SG limit may be 1,000,001", "3-6 | limits SG1 to SG4 | 1 to 1,000,000";
    SgLimitHighNarrower: "an SG limit must be at most 999,999", "3-6 | limits SG1 to SG4 | 1 to 1,000,000";
    SgStopLowWider: "the stop of an SG may be 0", "7-10 | stops of SG1 to SG4 | 1 to 5";
    SgStopLowNarrower: "the stop of an SG must not be E", "7-10 | stops of SG1 to SG4 | 1 to 5";
    SgStopHighWider: "the stop of an SG may be 6", "7-10 | stops of SG1 to SG4 | 1 to 5";
    SgStopHighNarrower: "the stop of an SG must not be A", "7-10 | stops of SG1 to SG4 | 1 to 5";
    SeEndLowWider: "an SE end may be -100,000,001", "11-14 | SE1 minus, SE1 plus, SE2 minus, SE2 plus | ±100,000,000";
    SeEndLowNarrower: "an SE end must be at least -99,999,999", "11-14 | SE1 minus, SE1 plus, SE2 minus, SE2 plus | ±100,000,000";
    SeEndHighWider: "an SE end may be 100,000,001", "11-14 | SE1 minus, SE1 plus, SE2 minus, SE2 plus | ±100,000,000";
    SeEndHighNarrower: "an SE end must be at most 99,999,999", "11-14 | SE1 minus, SE1 plus, SE2 minus, SE2 plus | ±100,000,000";
    SeStopLowWider: "the stop of SE may be 0", "15 | stop of SE | 1 to 3";
    SeStopLowNarrower: "the stop of SE must not be E", "15 | stop of SE | 1 to 3";
    SeStopHighWider: "the stop of SE may be B", "15 | stop of SE | 1 to 3";
    SeStopHighNarrower: "the stop of SE must not be C", "15 | stop of SE | 1 to 3";
    CamLowWider: "a cam may lie at -100,000,001", "16-23 | cams SN1+, SN1-, SN2+ .. SN4- | ±100,000,000";
    CamLowNarrower: "a cam must lie at -99,999,999 or above", "16-23 | cams SN1+, SN1-, SN2+ .. SN4- | ±100,000,000";
    CamHighWider: "a cam may lie at 100,000,001", "16-23 | cams SN1+, SN1-, SN2+ .. SN4- | ±100,000,000";
    CamHighNarrower: "a cam must lie at 99,999,999 or below", "16-23 | cams SN1+, SN1-, SN2+ .. SN4- | ±100,000,000";
    CamToleranceLowWider: "the cam tolerance may be -1", "24 | cam tolerance | 0 to 100,000";
    CamToleranceLowNarrower: "the cam tolerance must not be 0", "24 | cam tolerance | 0 to 100,000";
    CamToleranceHighWider: "the cam tolerance may be 100,001", "24 | cam tolerance | 0 to 100,000";
    CamToleranceHighNarrower: "the cam tolerance must be at most 99,999", "24 | cam tolerance | 0 to 100,000";
    NxLowWider: "nx may be -1", "25 | nx | 0 to 1,000,000";
    NxLowNarrower: "nx must not be 0", "25 | nx | 0 to 1,000,000";
    NxHighWider: "nx may be 1,000,001", "25 | nx | 0 to 1,000,000";
    NxHighNarrower: "nx must be at most 999,999", "25 | nx | 0 to 1,000,000";
    PositionDifferenceLowWider: "the allowed position difference may be -1", "26 | allowed position difference | 0 to 100,000";
    PositionDifferenceLowNarrower: "the allowed position difference must not be 0", "26 | allowed position difference | 0 to 100,000";
    PositionDifferenceHighWider: "the allowed position difference may be 100,001", "26 | allowed position difference | 0 to 100,000";
    PositionDifferenceHighNarrower: "the allowed position difference must be at most 99,999", "26 | allowed position difference | 0 to 100,000";
    DelayLowWider: "data 27 and 28 may be -1", "27, 28 | delay of a lower selection; allowed input difference | 0 to 1,000";
    DelayLowNarrower: "data 27 and 28 must not be 0", "27, 28 | delay of a lower selection; allowed input difference | 0 to 1,000";
    DelayHighWider: "data 27 and 28 may be 1,001", "27, 28 | delay of a lower selection; allowed input difference | 0 to 1,000";
    DelayHighNarrower: "data 27 and 28 must be at most 999", "27, 28 | delay of a lower selection; allowed input difference | 0 to 1,000";
    TimeLowWider: "a stop's time may be -1", "29-32 | times of STOP C, D, E; B to A | 0 to 1,000";
    TimeLowNarrower: "a stop's time must not be 0", "29-32 | times of STOP C, D, E; B to A | 0 to 1,000";
    TimeHighWider: "a stop's time may be 1,001", "29-32 | times of STOP C, D, E; B to A | 0 to 1,000";
    TimeHighNarrower: "a stop's time must be at most 999", "29-32 | times of STOP C, D, E; B to A | 0 to 1,000";
    ShutdownLowWider: "the shutdown speed may be -1", "33 | shutdown speed | 0 to 1,000,000";
    ShutdownLowNarrower: "the shutdown speed must not be 0", "33 | shutdown speed | 0 to 1,000,000";
    ShutdownHighWider: "the shutdown speed may be 1,000,001", "33 | shutdown speed | 0 to 1,000,000";
    ShutdownHighNarrower: "the shutdown speed must be at most 999,999", "33 | shutdown speed | 0 to 1,000,000";
    FTimeLowWider: "the time from F to B may be -1", "34 | time from F to B | 0 to 1,000";
    FTimeLowNarrower: "the time from F to B must not be 0", "34 | time from F to B | 0 to 1,000";
    FTimeHighWider: "the time from F to B may be 1,001", "34 | time from F to B | 0 to 1,000";
    FTimeHighNarrower: "the time from F to B must be at most 999", "34 | time from F to B | 0 to 1,000";
    OverrideLowWider: "an override may be 0 percent", "35-50 | override percent 0 to 15 | 1 to 100";
    OverrideLowNarrower: "an override must be at least 2 percent", "35-50 | override percent 0 to 15 | 1 to 100";
    OverrideHighWider: "an override may be 101 percent", "35-50 | override percent 0 to 15 | 1 to 100";
    OverrideHighNarrower: "an override must be at most 99 percent", "35-50 | override percent 0 to 15 | 1 to 100";
    NumeratorLowWider: "a numerator may be 0", "W1: Data 51 to 58 are the numerators .., each 1 to 1000";
    NumeratorLowNarrower: "a numerator must be at least 2", "W1: Data 51 to 58 are the numerators .., each 1 to 1000";
    NumeratorHighWider: "a numerator may be 1,001", "W1: Data 51 to 58 are the numerators .., each 1 to 1000";
    NumeratorHighNarrower: "a numerator must be at most 999", "W1: Data 51 to 58 are the numerators .., each 1 to 1000";
    DenominatorLowWider: "a denominator may be 0", "W1: 59 to 66 the denominators, each 1 to 1000";
    DenominatorLowNarrower: "a denominator must be at least 2", "W1: 59 to 66 the denominators, each 1 to 1000";
    DenominatorHighWider: "a denominator may be 1,001", "W1: 59 to 66 the denominators, each 1 to 1000";
    DenominatorHighNarrower: "a denominator must be at most 999", "W1: 59 to 66 the denominators, each 1 to 1000";
    NxHysteresisLowWider: "the hysteresis of n<nx may be -1", "W3: Data 67 (0 to 1,000,000 mm/min) and 68 (0 to 1,000 cycles) are added.";
    NxHysteresisLowNarrower: "the hysteresis of n<nx must not be 0", "W3: Data 67 (0 to 1,000,000 mm/min) and 68 (0 to 1,000 cycles) are added.";
    NxHysteresisHighWider: "the hysteresis of n<nx may be 1,000,001", "W3: Data 67 (0 to 1,000,000 mm/min) and 68 (0 to 1,000 cycles) are added.";
    NxHysteresisHighNarrower: "the hysteresis of n<nx must be at most 999,999", "W3: Data 67 (0 to 1,000,000 mm/min) and 68 (0 to 1,000 cycles) are added.";
    NxFilterLowWider: "the filter of n<nx may be -1", "W3: Data 67 (0 to 1,000,000 mm/min) and 68 (0 to 1,000 cycles) are added.";
    NxFilterLowNarrower: "the filter of n<nx must not be 0", "W3: Data 67 (0 to 1,000,000 mm/min) and 68 (0 to 1,000 cycles) are added.";
    NxFilterHighWider: "the filter of n<nx may be 1,001", "W3: Data 67 (0 to 1,000,000 mm/min) and 68 (0 to 1,000 cycles) are added.";
    NxFilterHighNarrower: "the filter of n<nx must be at most 999", "W3: Data 67 (0 to 1,000,000 mm/min) and 68 (0 to 1,000 cycles) are added.";
    DirectionToleranceLowWider: "the tolerance of safe direction may be -1", "W6: Data 69 to 71 are tolerance (0 to 100,000), delay (0 to 1,000) and stop (1 to 5).";
    DirectionToleranceLowNarrower: "the tolerance of safe direction must not be 0", "W6: Data 69 to 71 are tolerance (0 to 100,000), delay (0 to 1,000) and stop (1 to 5).";
    DirectionToleranceHighWider: "the tolerance of safe direction may be 100,001", "W6: Data 69 to 71 are tolerance (0 to 100,000), delay (0 to 1,000) and stop (1 to 5).";
    DirectionToleranceHighNarrower: "the tolerance of safe direction must be at most 99,999", "W6: Data 69 to 71 are tolerance (0 to 100,000), delay (0 to 1,000) and stop (1 to 5).";
    DirectionDelayLowWider: "the delay of safe direction may be -1", "W6: Data 69 to 71 are tolerance (0 to 100,000), delay (0 to 1,000) and stop (1 to 5).";
    DirectionDelayLowNarrower: "the delay of safe direction must not be 0", "W6: Data 69 to 71 are tolerance (0 to 100,000), delay (0 to 1,000) and stop (1 to 5).";
    DirectionDelayHighWider: "the delay of safe direction may be 1,001", "W6: Data 69 to 71 are tolerance (0 to 100,000), delay (0 to 1,000) and stop (1 to 5).";
    DirectionDelayHighNarrower: "the delay of safe direction must be at most 999", "W6: Data 69 to 71 are tolerance (0 to 100,000), delay (0 to 1,000) and stop (1 to 5).";
    DirectionStopLowWider: "the stop of safe direction may be 0", "W6: Data 69 to 71 are tolerance (0 to 100,000), delay (0 to 1,000) and stop (1 to 5).";
    DirectionStopLowNarrower: "the stop of safe direction must not be E", "W6: Data 69 to 71 are tolerance (0 to 100,000), delay (0 to 1,000) and stop (1 to 5).";
    DirectionStopHighWider: "the stop of safe direction may be 6", "W6: Data 69 to 71 are tolerance (0 to 100,000), delay (0 to 1,000) and stop (1 to 5).";
    DirectionStopHighNarrower: "the stop of safe direction must not be A", "W6: Data 69 to 71 are tolerance (0 to 100,000), delay (0 to 1,000) and stop (1 to 5).";
    FunctionsSeAndCamsSwapped: "function bit 1 is the cams and bit 2 is SE", "1 | functions; bit 0 SBH/SG, 1 SE, 2 cams, 3 n<nx, 4 external stops";
    FunctionsNxAndStopsSwapped: "function bit 3 is the external stops and bit 4 is n<nx", "1 | functions; bit 0 SBH/SG, 1 SE, 2 cams, 3 n<nx, 4 external stops";
    FunctionsStopsAndDirectionSwapped: "function bit 4 is safe direction and bit 5 is the external stops", "W6: Function bit 5 enables it";

    // Words.
    PiecesLeastFirst: "the first piece is the least significant", "Kind 3: piece, 16 bits, most significant first.";
    PositionUnsigned: "a position is read without its sign", "Kind 4: position, 28 bits two's complement.";
    InputHalvesSwapped: "kind 5 holds the upper half of the input word", "Kinds 5 and 6: lower and upper 16 bits of the input word.";
    AcknowledgedByZero: "bit 0 of kind 7 acknowledges when it is 0", "Kind 7: cycle end, bit 0 acknowledges.";
    AcknowledgesOnlyA: "an acknowledgement in a log reaches channel A only", "Kind 7: cycle end, bit 0 acknowledges.";
    AcknowledgesOnlyB: "an acknowledgement in a log reaches channel B only", "Kind 7: cycle end, bit 0 acknowledges.";
    RemarkBitsMustBeZero: "a remark with a bit set is refused", "Kind 15: remark, 28 free bits.";

    // Whole numbers.
    WholeSignAndMagnitude: "form 0 is read as sign and magnitude", "forms 0 (two's complement), 1, 2 with 2, 2, 4 pieces";
    WholeBeyondIs3: "form 0 beyond ±134,217,727 is refused with number 3", "A float stands for a whole number if it equals one of magnitude at most 134,217,727 (form 0 beyond it: number 4)";
    FractionCutOff: "a float's fraction is cut off", "A float stands for a whole number if it equals one";
    FractionRounded: "a float is rounded to the nearest whole number", "A float stands for a whole number if it equals one";
    FloatLimitOneMore: "134,217,728 is still a whole number", "of magnitude at most 134,217,727";
    FloatLimitOneLess: "134,217,727 is no whole number", "of magnitude at most 134,217,727";
    FloatSignLost: "a float is read without its sign", "A float stands for a whole number if it equals one";
    MinusZeroRefused: "minus zero is refused with number 3", "minus zero stands for 0";
    NanIsZero: "not-a-number stands for 0", "float stands for no whole number | 3";
    InfinityIsTooLarge: "an infinity is refused with number 4", "float stands for no whole number | 3";
    SubnormalIsZero: "a subnormal float stands for 0", "A float stands for a whole number if it equals one";
    Binary64Through32: "a binary64 is rounded to a binary32 first", "A datum arrives as a 32-bit whole number, a binary32 or a binary64 (IEEE 754)";

    // The list and its refusals.
    HeadValueIgnored: "a head of any other value is taken for one of 51", "Kind 1: list head, value 51.";
    HeadInEightBits: "only the lowest 8 bits of a head's value are looked at", "the top 4 bits are the kind, unused bits 0";
    HeadsBetweenTaken: "a head between 51 and 67 is taken, with as many data", "W1: the list head then says 67";
    Head66Taken: "a head of 66 is taken, with as many data", "W1: the list head then says 67";
    Head67Refused: "a head of 67 is refused", "W1: the list head then says 67";
    Head67Of51Data: "a list headed 67 is read as one of 51 data", "W1: the list head then says 67";
    Head68Taken: "a head of 68 is taken, with as many data", "W1: Data added by later tickets raise the head likewise";
    HeadsAboveTaken: "a head above 72 is taken for one of 72", "W1: Data added by later tickets raise the head likewise";
    Head69Refused: "a head of 69 is refused", "W1: Data added by later tickets raise the head likewise";
    Head69Of67Data: "a list headed 69 is read as one of 67 data", "W1: Data added by later tickets raise the head likewise";
    Head69Of51Data: "a list headed 69 is read as one of 51 data", "W1: Data added by later tickets raise the head likewise";
    Heads70And71Taken: "a head of 70 or 71 is taken, with as many data", "W1: Data added by later tickets raise the head likewise";
    Head72Refused: "a head of 72 is refused", "W1: Data added by later tickets raise the head likewise";
    Head72Of69Data: "a list headed 72 is read as one of 69 data", "W1: Data added by later tickets raise the head likewise";
    Head72Of67Data: "a list headed 72 is read as one of 67 data", "W1: Data added by later tickets raise the head likewise";
    Head72Of51Data: "a list headed 72 is read as one of 51 data", "W1: Data added by later tickets raise the head likewise";
    DataBehindHeadTaken: "a list headed 51 takes data 51 to 66 where they follow", "W1: the list head then says 67";
    DataBehind67Taken: "a list headed 67 takes data 67 and 68 where they follow", "W1: Data added by later tickets raise the head likewise";
    DataBehind69Taken: "a list headed 69 takes data 69 to 71 where they follow", "W1: Data added by later tickets raise the head likewise";
    ListMayEndAt51: "a list headed 67 may end behind datum 50", "W1: the list head then says 67";
    ListMayEndAt67: "a list headed 69 may end behind datum 66", "W1: Data added by later tickets raise the head likewise";
    ListMayEndAt69: "a list headed 72 may end behind datum 68", "W1: Data added by later tickets raise the head likewise";
    LackedNumeratorsAre0: "in a list headed 51 the numerators are 0", "W1: A list headed 51 is read with every ratio 1 to 1";
    LackedDenominatorsAre0: "in a list headed 51 the denominators are 0", "W1: A list headed 51 is read with every ratio 1 to 1";
    LackedHysteresisIs1: "in a shorter list the hysteresis of n<nx is 1", "W1: in a shorter list they count as 0";
    LackedFilterIs1: "in a shorter list the filter of n<nx is 1", "W1: in a shorter list they count as 0";
    OpenRatioIs1: "an open numerator or denominator is 1", "datum open | 2";
    OpenNxDatumIs0: "an open hysteresis or filter of n<nx is 0", "datum open | 2";
    OpenDirectionDatumIsLowest: "an open tolerance, delay or stop of safe direction is its lowest", "datum open | 2";
    SeEndsBeforeRatios: "number 5 is told before data 51 to 66 are looked at", "per datum 1, 2, 3, 4; then 5";
    SeEndsBeforeNxData: "number 5 is told before data 67 and 68 are looked at", "per datum 1, 2, 3, 4; then 5";
    SeEndsBeforeDirectionData: "number 5 is told before data 69 to 71 are looked at", "per datum 1, 2, 3, 4; then 5";
    UnlikeHeadsRefused: "a list B with another head than list A's is refused", "W1: cause 12 also stands where heads differ";
    DatumNumberIgnored: "a datum word of any number is taken", "A list is a head and the data in number order.";
    DatumBitsIgnored: "unused bits of a datum word are ignored", "the top 4 bits are the kind, unused bits 0";
    PieceKindIgnored: "a piece may be of any kind", "list word missing, of wrong kind, number or bits | 1";
    PieceBitsIgnored: "unused bits of a piece are ignored", "the top 4 bits are the kind, unused bits 0";
    RemarkInListPassedOver: "a remark between two data of a list is passed over", "A word between records that is a remark is passed over";
    OpenIsLowest: "an open datum is its range's lowest value", "datum open | 2";
    OpenGoesLast: "an open datum is told only if the list has no other fault", "The first faulty datum gives the answer";
    OpenBeforeBits: "an open datum of wrong number or bits is refused with number 2", "per datum 1, 2, 3, 4";
    RangeBeforeWhole: "a float that is no whole number and out of range is refused with number 4", "per datum 1, 2, 3, 4";
    StructureFirst: "the structure of the whole list is looked at before any value", "The first faulty datum gives the answer";
    LastFaultAnswers: "the last datum out of range gives the answer", "The first faulty datum gives the answer";
    SurplusPieceIsOwnFault: "a surplus piece is a fault 1 of the datum before it", "per datum 1, 2, 3, 4 (a surplus piece is the next datum's wrong first word)";
    PiecesBehindOpenAreOwnFault: "pieces behind an open datum are its own fault 1", "Form 3 is open: entered later, no pieces.";
    SeEndsAtOnce: "number 5 is told as soon as the plus end is read", "per datum 1, 2, 3, 4; then 5";
    Se2EndsFirst: "the ends of SE2 are looked at before those of SE1", "then 5, SE1 first";
    SeEndsMayBeEqual: "an SE minus equal to its plus is taken", "SE minus not below its plus | 5";
    SeEndsOnlyWithFunction: "number 5 is looked at only with function SE on", "SE minus not below its plus | 5 | place of the minus datum";
    Se1EndsNotChecked: "the ends of SE1 may stand in any order", "SE minus not below its plus | 5";
    Se2EndsNotChecked: "the ends of SE2 may stand in any order", "SE minus not below its plus | 5";
    SeEndsPlaceOfPlus: "number 5 comes with the place of the plus datum", "5 | place of the minus datum";
    OpenPlaceBehind: "number 2 comes with the place behind the datum word", "datum open | 2 | place of its kind 2 word";
    FractionPlaceOfPiece: "number 3 comes with the place of the first piece", "float stands for no whole number | 3 | same";
    RangePlaceOfPiece: "number 4 comes with the place of the first piece", "datum out of range | 4 | same";
    PlaceOfDatumWord: "number 1 comes with the place of the datum's kind 2 word", "list word missing, of wrong kind, number or bits | 1 | place";
    MissingPlaceIsLast: "a missing list word has the place of the last word", "a missing word has the place behind the last one";
    PlacesFromOne: "places in a list count from 1", "Places count from 0 in the part given";
    PlacesOfBFromKit: "places in list B count from the kit's front", "Places count from 0 in the part given";
    PlacesOfLogFromKit: "places in the log count from the kit's front", "Places count from 0 in the part given";
    ListBIsListA: "channel B takes the data of list A", "Each channel has its own list of 51 data";

    // The log and its refusals.
    LogLimitHalved: "a log over 8,192 words is refused", "log over 16,384 words";
    RemarkInRecordPassedOver: "a remark inside a record is passed over", "A word between records that is a remark is passed over";
    RemarkBeforeFirstRefused: "a remark before the first record is refused", "A word between records that is a remark is passed over, also before the first and after the last.";
    RemarkAfterLastRefused: "a remark after the last record is refused", "A word between records that is a remark is passed over, also before the first and after the last.";
    RemarkBetweenRefused: "a remark between two records is refused", "A word between records that is a remark is passed over";
    RemarksOnlyRefused: "a log of remarks only is refused", "An empty log is accepted. (a log of remarks only: 0 cycles)";
    RemarksNotCounted: "places in the log do not count remarks", "Places count from 0 in the part given";
    EmptyLogRefused: "an empty log is refused", "An empty log is accepted.";
    LowerBitsIgnored: "unused bits of kind 5 are ignored", "the top 4 bits are the kind, unused bits 0";
    UpperBitsIgnored: "unused bits of kind 6 are ignored", "the top 4 bits are the kind, unused bits 0";
    EndBitsIgnored: "unused bits of kind 7 are ignored", "the top 4 bits are the kind, unused bits 0";
    BStandsFirst: "a record holds B's words before A's", "A log is cycle records: kinds 4, 5, 6 of A, the same of B, then 7.";
    CutRecordDropped: "a last record that is cut off is left out", "a word missing or wrong | 6";
    PlaceOfRecord: "number 6 comes with the place of the record's first word", "log over 16,384 words, or a word missing or wrong | 6 | 16,384, or place";
    LogMissingPlaceIsLast: "a missing log word has the place of the last word", "a missing word has the place behind the last one";
    LinesBeforeRefusal: "the cycles before a wrong log word are run and listed", "6 | Left as it was: output, channels";
    BSeesNewK: "channel B's report from A uses A's k of the next cycle", "datum k by the data and k of the channel given (both k from before the cycle)";
    ReportsItself: "each channel gets its own position and inputs as report", "In a log the report is the other channel's";

    // Safe inputs and reports.
    Position100000001Usable: "±100,000,001 is usable", "or if the position lies outside ±100,000,000";
    Position100000000Unusable: "±100,000,000 is unusable", "or if the position lies outside ±100,000,000";
    NegativePositionsUsable: "every negative position is usable", "or if the position lies outside ±100,000,000";
    PositionsUsable: "every position is usable", "or if the position lies outside ±100,000,000";
    OtherBitsIgnored: "the input bits without a meaning are ignored", "Every other bit must be 0.";
    Bit2Ignored: "input bit 2 may be 1", "Every other bit must be 0.";
    Bits5To11Ignored: "input bits 5 to 11 may be 1", "Every other bit must be 0.";
    Bits13To17Ignored: "input bits 13 to 17 may be 1", "Every other bit must be 0.";
    Bits22To27Ignored: "input bits 22 to 27 may be 1", "Every other bit must be 0.";
    GearBitsUsableAt51: "with a list headed 51 input bits 8 to 10 may be 1, and the ratio stays 1 to 1", "W1: its logs keep their words, bits 8 to 10 being 0 as before";
    GearBitsUnusableAt67: "input bits 8 to 10 must be 0 with a list headed 67 too", "W1: Input bits 8 to 10 pick one of eight ratios";
    GearBitsUnusableAt69: "input bits 8 to 10 must be 0 with a list headed 69", "W1: Input bits 8 to 10 pick one of eight ratios";
    GearBitsUnusableAt72: "input bits 8 to 10 must be 0 with a list headed 72", "W1: Input bits 8 to 10 pick one of eight ratios";
    GearNeedsSbhSg: "input bits 8 to 10 may be 1 only with function 0 on", "W1: Input bits 8 to 10 pick one of eight ratios";
    Bit7Free: "input bit 7 may be 1 with a list headed 67", "Every other bit must be 0.";
    Bit11Free: "input bit 11 may be 1 with a list headed 67", "Every other bit must be 0.";
    DirectionBitsFreeAt72: "with function 5 off input bits 13 and 14 may be 1 with a list headed 72", "W6: With bit 5 off both must be 0 and no run or watch stands.";
    DirectionBitsFree: "input bits 13 and 14 may be 1 with every list", "W6: With bit 5 off both must be 0 and no run or watch stands.";
    DirectionBitsUnusable: "input bits 13 and 14 must be 0 with function 5 on too", "W6: input bits 13 and 14, when 0, allow only positive and only negative travel, both 0 neither";
    DirectionBit13Unusable: "input bit 13 must be 0 with function 5 on too", "W6: input bits 13 and 14, when 0, allow only positive and only negative travel, both 0 neither";
    DirectionBit14Unusable: "input bit 14 must be 0 with function 5 on too", "W6: input bits 13 and 14, when 0, allow only positive and only negative travel, both 0 neither";
    DirectionBit15Free: "input bit 15 may be 1 with function 5 on", "Every other bit must be 0.";
    GearBitsReversed: "input bit 8 is the highest of the ratio's number", "W1: Input bits 8 to 10 pick one of eight ratios";
    GearBitsOneLower: "input bits 7 to 9 pick the ratio", "W1: Input bits 8 to 10 pick one of eight ratios";
    GearBitsOneHigher: "input bits 9 to 11 pick the ratio", "W1: Input bits 8 to 10 pick one of eight ratios";
    GearFixed: "the first ratio always applies", "W1: Input bits 8 to 10 pick one of eight ratios";
    GearFromOne: "number 0 is 1 to 1, and number 1 picks the first ratio", "W1: Input bits 8 to 10 pick one of eight ratios";
    FourRatios: "input bits 8 and 9 pick one of four ratios, and bit 10 must be 0", "W1: Input bits 8 to 10 pick one of eight ratios";
    Bit10Ignored: "input bits 8 and 9 pick one of four ratios, whatever bit 10 is", "W1: Input bits 8 to 10 pick one of eight ratios";
    NumeratorOfFirst: "the numerator is always datum 51", "W1: Data 51 to 58 are the numerators and 59 to 66 the denominators";
    DenominatorOfFirst: "the denominator is always datum 59", "W1: Data 51 to 58 are the numerators and 59 to 66 the denominators";
    RatioInPairs: "data 51, 53, .. are the numerators and 52, 54, .. the denominators", "W1: Data 51 to 58 are the numerators and 59 to 66 the denominators";
    RatioSwapped: "data 51 to 58 are the denominators and 59 to 66 the numerators", "W1: Data 51 to 58 are the numerators and 59 to 66 the denominators";
    RatioIs1At69: "with a list headed 69 every ratio is 1 to 1", "W1: Input bits 8 to 10 pick one of eight ratios";
    RatioIs1At72: "with a list headed 72 every ratio is 1 to 1", "W1: Input bits 8 to 10 pick one of eight ratios";
    RatioOfReport: "the other channel's input bits pick the ratio", "W1: Input bits 8 to 10 pick one of eight ratios";
    RatioOfCycleBefore: "the ratio is that of the cycle before", "W1: Input bits 8 to 10 pick one of eight ratios (those of the present cycle)";
    RatioOfFirstCycle: "the ratio is that of the first usable cycle", "W1: Input bits 8 to 10 pick one of eight ratios (those of the present cycle)";
    RatioTakenAtRest: "another ratio is taken only where d is 0", "W1: Input bits 8 to 10 pick one of eight ratios (those of the present cycle)";
    RatioWaits: "SG takes another ratio together with its selection, after the delay", "W1: Input bits 8 to 10 pick one of eight ratios (those of the present cycle)";
    KRisesFirst: "k rises before the comparison", "k starts at 0, rises by one each cycle";
    KStaysUnusable: "k stays in an unusable cycle", "k starts at 0, rises by one each cycle";
    KStays: "k is always 0", "k starts at 0, rises by one each cycle";
    KOnlyTo49: "k follows 49 by 0", "and follows 50 by 0";
    KStopsAt50: "k stays at 50", "and follows 50 by 0";
    KFromDatum1: "k follows the last datum's number by 1", "and follows 50 by 0";
    KOnlyTo50: "k follows 50 by 0 with a list headed 67 too", "W1: k runs over as many data as the list has";
    KAlwaysTo66: "k follows 66 by 0 with a list headed 51 too", "W1: k runs over as many data as the list has";
    KOnlyTo65: "k follows 65 by 0", "W1: k runs over as many data as the list has";
    KStopsAt66: "k stays at 66", "W1: k runs over as many data as the list has";
    KOnlyTo66: "k follows 66 by 0 with a list headed 69 too", "W1: k runs over as many data as the list has";
    KOnlyTo67: "k follows 67 by 0", "W1: k runs over as many data as the list has";
    KAlwaysTo68: "k follows 68 by 0 with shorter lists too", "W1: k runs over as many data as the list has";
    KStopsAt68: "k stays at 68", "W1: k runs over as many data as the list has";
    KOnlyTo68: "k follows 68 by 0 with a list headed 72 too", "W1: k runs over as many data as the list has";
    KOnlyTo70: "k follows 70 by 0", "W1: k runs over as many data as the list has";
    KAlwaysTo71: "k follows 71 by 0 with shorter lists too", "W1: k runs over as many data as the list has";
    KStopsAt71: "k stays at 71", "W1: k runs over as many data as the list has";

    // Step 1.
    UnusableIsB: "an unusable cycle enters STOP B", "1. Unusable: cause 1, rank 5, not held.";
    UnusableStaysHeld: "a held stop stays held in an unusable cycle", "1. Unusable: cause 1, rank 5, not held.";
    UnusableIsPassing: "the rank of an unusable cycle lasts for that cycle only", "1. Unusable: cause 1, rank 5, not held.";
    UnusableAcknowledged: "an acknowledgement in an unusable cycle clears", "steps 2 to 5 are skipped";
    UnusableKeepsPrevious: "the previous position is kept over an unusable cycle", "The previous position is forgotten";
    UnusableBecomesPrevious: "an unusable position becomes the previous one", "The previous position is forgotten";
    UnusableDelayFalls: "the delay's count falls in an unusable cycle", "counts, runs, F, selections, references and cams stay";
    UnusableDelayEnds: "an unusable cycle ends the delay's count", "counts, runs, F, selections, references and cams stay";
    UnusableRunEnds: "an unusable cycle ends the run of differing inputs", "counts, runs, F, selections, references and cams stay";
    UnusableRunCounts: "an unusable cycle counts in the run of differing inputs", "11 input words differ in more than datum 28 usable cycles running";
    UnusableFOff: "an unusable cycle puts F off", "counts, runs, F, selections, references and cams stay";
    UnusableDatumSetsF: "a datum that differs in an unusable cycle sets F", "steps 2 to 5 are skipped";
    UnusableSelectionLost: "nothing is effective from an unusable cycle on", "counts, runs, F, selections, references and cams stay";
    UnusableNextIsFirst: "the first selection after an unusable cycle is effective at once", "counts, runs, F, selections, references and cams stay";
    UnusableReferenceAnew: "the SBH reference is taken anew after an unusable cycle", "counts, runs, F, selections, references and cams stay";
    UnusableCamsOff: "an unusable cycle puts the cam signals to 0", "counts, runs, F, selections, references and cams stay";
    UnusableCamsShow0: "the cams show 0 in an unusable cycle", "counts, runs, F, selections, references and cams stay";
    UnusableCamsWorkedOut: "the cams are worked out in an unusable cycle too", "counts, runs, F, selections, references and cams stay";
    UnusableNxShown: "n<nx shows 1 in an unusable cycle", "n<nx shows 0 in an unusable cycle";
    UnusableNxValueShown: "n<nx shows its kept value in an unusable cycle", "W3: An unusable cycle shows 0 and leaves value and run as they were.";
    UnusableNxTo0: "an unusable cycle puts the value of n<nx to 0", "W3: An unusable cycle shows 0 and leaves value and run as they were.";
    UnusableNxTo1: "an unusable cycle puts the value of n<nx to 1", "W3: An unusable cycle shows 0 and leaves value and run as they were.";
    UnusableAcknowledgedNxTo0: "an acknowledged unusable cycle puts the value of n<nx to 0", "W3: An unusable cycle shows 0 and leaves value and run as they were.";
    UnusableNxAsFresh: "an unusable cycle puts value and run of n<nx to 0", "W3: An unusable cycle shows 0 and leaves value and run as they were.";
    UnusableNxRunEnds: "an unusable cycle ends the run of n<nx", "W3: An unusable cycle shows 0 and leaves value and run as they were.";
    UnusableNxRunCounts: "an unusable cycle counts in the run of n<nx", "W3: An unusable cycle shows 0 and leaves value and run as they were.";
    UnusableNxRunFalls: "an unusable cycle takes one from the run of n<nx", "W3: An unusable cycle shows 0 and leaves value and run as they were.";
    UnusableNxWorkedOut: "in an unusable cycle n<nx is worked out as at rest", "W3: An unusable cycle shows 0 and leaves value and run as they were.";
    UnusableEndsDirectionRun: "an unusable cycle begins the delay of safe direction anew", "counts, runs, F, selections, references and cams stay";
    UnusableCountsInDirectionRun: "an unusable cycle counts in the runs of safe direction", "W6: A direction starts its watch when its bit has been 0 for more than the delay in usable cycles running, and ends it in a usable cycle where it is 1.";
    UnusableTakesFromDirectionRun: "an unusable cycle takes one from the runs of safe direction", "counts, runs, F, selections, references and cams stay";
    UnusableEndsWatch: "an unusable cycle ends the watches", "W6: A direction starts its watch when its bit has been 0 for more than the delay in usable cycles running, and ends it in a usable cycle where it is 1.";
    UnusableEndsWatchByBit: "an unusable cycle ends run and watch of a direction whose bit is 1", "W6: A direction starts its watch when its bit has been 0 for more than the delay in usable cycles running, and ends it in a usable cycle where it is 1.";
    UnusableDirectionAsFresh: "an unusable cycle ends runs and watches", "counts, runs, F, selections, references and cams stay";
    UnusableLosesExtreme: "behind an unusable cycle a watch takes its extreme anew", "W6: Positive-only is overstepped where the position is more than the tolerance below the highest in the usable cycles since the watch began, and the negative is its mirror; this is cause 14, fresh.";
    UnusableTakenIntoExtreme: "an extreme takes in the position of an unusable cycle", "W6: Positive-only is overstepped where the position is more than the tolerance below the highest in the usable cycles since the watch began, and the negative is its mirror; this is cause 14, fresh.";
    UnusableAcknowledgedEndsWatch: "an acknowledged unusable cycle ends the watches", "W6: A direction starts its watch when its bit has been 0 for more than the delay in usable cycles running, and ends it in a usable cycle where it is 1.";

    // Step 2.
    StepOfScaledPositions: "d is the difference of two positions, each times its cycle's ratio", "W1: Positions aren't scaled.";
    FirstStepFromZero: "without a previous position d is the position", "2. d = position less previous position, 0 if there is none.";

    // Step 3.
    SelectionFunctionIgnored: "SBH and SG are selected with function 0 off too", "3. Selected: nothing if function 0 is off or input bit 0 is 1";
    Bit0Ignored: "input bit 0 is ignored", "3. Selected: nothing if function 0 is off or input bit 0 is 1";
    Bit0Turned: "input bit 0 de-selects by 0", "3. Selected: nothing if function 0 is off or input bit 0 is 1";
    Bit1Turned: "input bit 1 selects SBH by 1", "else SBH if bit 1 is 0";
    SbhBeforeBit0: "SBH is selected by bit 1 even if bit 0 is 1", "nothing if function 0 is off or input bit 0 is 1; else SBH if bit 1 is 0";
    SgBitsSwapped: "bit 3 is the upper bit of the SG number", "3-4 SG number less one";
    SbhLeastStrict: "SBH is less strict than every SG", "Order: nothing, SG by limit × percent, SBH strictest.";
    NothingStrictest: "selecting nothing is stricter than SBH", "Order: nothing, SG by limit × percent, SBH strictest.";
    OrderByLimit: "SGs are ordered by their limit alone", "Order: nothing, SG by limit × percent, SBH strictest.";
    OrderByNumber: "the SG of greater number is stricter", "Order: nothing, SG by limit × percent, SBH strictest.";
    OverrideOnSg1: "the override applies to SG1 too", "The override applies to SG2 and SG4 only; others have 100.";
    OverrideOnSg3: "the override applies to SG3 too", "Not so: scaling SG3";
    NoOverrideOnSg2: "the override does not apply to SG2", "The override applies to SG2 and SG4 only; others have 100.";
    NoOverrideOnSg4: "the override does not apply to SG4", "The override applies to SG2 and SG4 only; others have 100.";
    OverrideBitsTurned: "the override number is counted from 15 down", "28-31 override";
    FirstDelayed: "the first selection is delayed", "The first usable selection becomes effective immediately";
    FirstIsNotNothing: "the first SG or SBH is effective at once, nothing before it does not count", "The first usable selection becomes effective immediately";
    LooserDelayed: "a less strict selection is delayed too", "as does a later one that is no stricter";
    EqualIsLowering: "another SG of equal limit × percent counts as a lowering", "as does a later one that is no stricter";
    StricterAtOnce: "a stricter selection is effective at once", "A stricter one sets a count to datum 27";
    SbhAtOnce: "SBH is effective at once", "A stricter one sets a count to datum 27";
    DelaySetAnew: "each further lowering sets the delay anew", "Not so: restarting the delay at each lowering";
    DelayOneMore: "a delay is one cycle longer", "A stricter one sets a count to datum 27; the count falls in later usable cycles";
    DelayOneLess: "a delay is one cycle shorter", "A stricter one sets a count to datum 27; the count falls in later usable cycles";
    DelayZeroNextCycle: "with datum 27 at 0 a lowering binds in the next cycle", "at 0 the present selection becomes effective (datum 27 at 0: in the same cycle)";
    FirstLoweringBinds: "the selection that set the count becomes effective at 0", "at 0 the present selection becomes effective";
    PartWayUpEndsCount: "a selection no stricter than the waiting one ends the count", "A selection no stricter ends the count. (than the effective one)";
    LooserKeepsCount: "a selection no stricter leaves the count as it is", "A selection no stricter ends the count.";
    OverrideAtOnce: "the present override applies to the effective SG", "A selection of an SG is its number with its override number.";
    SbhReferenceMoves: "the SBH reference is each cycle's previous position", "its reference is the position, kept while SBH is effective";
    SbhReferenceFromSelection: "the SBH reference is the position where SBH was selected", "When SBH becomes effective and was not so before, its reference is the position";
    SbhReferenceForever: "the SBH reference is taken once and never again", "When SBH becomes effective and was not so before, its reference is the position";
    SbhReferenceIsReport: "the SBH reference is the other channel's position", "When SBH becomes effective and was not so before, its reference is the position";

    OrderScaled: "SGs are ordered by limit × percent over the ratio of their cycle", "Order: nothing, SG by limit × percent, SBH strictest.";

    // Step 4.
    StandstillScaled: "the distance from SBH's reference is scaled by the ratio", "W1: Positions aren't scaled.";
    SbhAtTolerance: "cause 2 stands at the tolerance itself", "2 SBH, distance from reference over datum 2, rank 4";
    SbhPlusSideOnly: "cause 2 looks at the plus side only", "2 SBH, distance from reference over datum 2, rank 4";
    SbhMinusSideOnly: "cause 2 looks at the minus side only", "2 SBH, distance from reference over datum 2, rank 4";
    SbhRankA: "cause 2 has rank 5", "2 SBH, distance from reference over datum 2, rank 4";
    SbhRankC: "cause 2 has rank 3", "2 SBH, distance from reference over datum 2, rank 4";
    SbhBySelected: "cause 2 goes by the present selection", "4. Causes (2 and 3 by the effective selection)";
    SgAtLimit: "cause 3 stands at the limit itself", "3 SG, |d| × 6000 > limit × percent × T";
    SgDivides: "|d| × 60 is divided by T before it is compared with the limit", "Not so: dividing before comparing a speed";
    SgPlusDirectionOnly: "cause 3 looks at the plus direction only", "3 SG, |d| × 6000 > limit × percent × T";
    SgMinusDirectionOnly: "cause 3 looks at the minus direction only", "3 SG, |d| × 6000 > limit × percent × T";
    SgWithoutT: "cause 3 takes T as 12", "3 SG, |d| × 6000 > limit × percent × T";
    SgOnePercentMore: "cause 3 takes the percent one more", "3 SG, |d| × 6000 > limit × percent × T";
    SgUnscaled: "SG is compared without the ratio", "W1: Every speed comparison, for SG, nx and shutdown, takes the step times numerator over denominator, still without dividing.";
    SgWithHysteresis: "cause 3 stands above the limit plus the hysteresis of n<nx", "3 SG, |d| × 6000 > limit × percent × T";
    SgRatioDivides: "|d| × numerator is divided by the denominator before SG is compared with it", "W1: Every speed comparison, for SG, nx and shutdown, takes the step times numerator over denominator, still without dividing.";
    SgRatioDividesLate: "|d| × 6000 × numerator is divided by the denominator before SG is compared with it", "W1: Every speed comparison, for SG, nx and shutdown, takes the step times numerator over denominator, still without dividing.";
    RatioStepOf32Bits: "|d| × numerator is cut to 32 bits", "W1: Every speed comparison, for SG, nx and shutdown, takes the step times numerator over denominator, still without dividing.";
    SgBySelected: "cause 3 goes by the present selection", "4. Causes (2 and 3 by the effective selection)";
    SgNotWhileSbhWaits: "cause 3 is not watched while SBH is selected and waits", "4. Causes (2 and 3 by the effective selection)";
    SgRankOfSg1: "cause 3 has the stop of SG1 for every SG", "3 SG, .. rank by datum";
    SgRankOfSelected: "cause 3 has the stop of the SG number in the present inputs", "4. Causes (2 and 3 by the effective selection)";
    SgRankC: "cause 3 always has rank 3", "3 SG, .. rank by datum";
    SeAtMinus: "cause 4 stands at the minus end itself", "position below its minus or above its plus";
    SeAtPlus: "cause 4 stands at the plus end itself", "position below its minus or above its plus";
    SeMinusIgnored: "cause 4 looks at the plus end only", "position below its minus or above its plus";
    SePlusIgnored: "cause 4 looks at the minus end only", "position below its minus or above its plus";
    SeScaled: "SE looks at the position times the ratio", "W1: Positions aren't scaled.";
    SeBitTurned: "bit 12 chooses SE1 by 1", "12 SE2 instead of SE1";
    SeAlways1: "bit 12 is ignored, SE1 is watched", "4 SE as chosen by bit 12";
    SeBothWatched: "both SE1 and SE2 are watched", "4 SE as chosen by bit 12";
    SeRankC: "cause 4 always has rank 3", "rank by datum 15";
    SeFunctionIgnored: "cause 4 stands with function SE off too", "4 to 8 need their function on.";
    StopsSetBy1: "external stops are asked for by 1", "Not so: reading external stops as set by 1";
    StopBitsReversed: "bits 18-21 are external E, D, C, A", "18-21 external STOP A, C, D, E de-selected";
    StopAIgnored: "the external STOP A is ignored", "5, 6, 7, 8 external A, C, D, E, its input bit 0, rank its own.";
    StopCIgnored: "the external STOP C is ignored", "5, 6, 7, 8 external A, C, D, E, its input bit 0, rank its own.";
    StopDIgnored: "the external STOP D is ignored", "5, 6, 7, 8 external A, C, D, E, its input bit 0, rank its own.";
    StopEIgnored: "the external STOP E is ignored", "5, 6, 7, 8 external A, C, D, E, its input bit 0, rank its own.";
    StopAIsB: "the external STOP A has rank 4", "5, 6, 7, 8 external A, C, D, E, its input bit 0, rank its own.";
    StopFunctionIgnored: "external stops count with function 4 off too", "4 to 8 need their function on.";
    HoldAtTolerance: "cause 9 stands at the tolerance itself", "9 held, distance from the hold's reference over datum 2, rank 4";
    HoldNotWatched: "a held stop is not watched", "9 held, distance from the hold's reference over datum 2, rank 4";
    HoldPlusSideOnly: "cause 9 looks at the plus side only", "9 held, distance from the hold's reference over datum 2, rank 4";
    HoldMinusSideOnly: "cause 9 looks at the minus side only", "9 held, distance from the hold's reference over datum 2, rank 4";
    HoldByDatum26: "cause 9 takes the allowed position difference as tolerance", "9 held, distance from the hold's reference over datum 2, rank 4";
    HoldScaled: "the distance from a hold's reference is scaled by the ratio", "W1: Positions aren't scaled.";
    HoldRankA: "cause 9 has rank 5", "9 held, distance from the hold's reference over datum 2, rank 4";
    HoldRankC: "cause 9 has rank 3", "9 held, distance from the hold's reference over datum 2, rank 4";
    DirectionFunctionIgnored: "safe direction is watched with function 5 off too, in a list headed 72", "W6: With bit 5 off both must be 0 and no run or watch stands.";
    DirectionsSwapped: "input bit 13 at 0 allows only negative travel and bit 14 only positive", "W6: input bits 13 and 14, when 0, allow only positive and only negative travel, both 0 neither";
    DirectionBitsOneLower: "input bits 12 and 13 are those of safe direction", "W6: input bits 13 and 14, when 0, allow only positive and only negative travel, both 0 neither";
    DirectionBitsOneHigher: "input bits 14 and 15 are those of safe direction", "W6: input bits 13 and 14, when 0, allow only positive and only negative travel, both 0 neither";
    DirectionForbiddenBy1: "input bits 13 and 14 restrict the travel by 1", "W6: input bits 13 and 14, when 0, allow only positive and only negative travel, both 0 neither";
    DirectionOfReport: "the other channel's bits 13 and 14 count", "W6: input bits 13 and 14, when 0, allow only positive and only negative travel, both 0 neither";
    DirectionBit13Ignored: "input bit 13 is ignored", "W6: input bits 13 and 14, when 0, allow only positive and only negative travel, both 0 neither";
    DirectionBit14Ignored: "input bit 14 is ignored", "W6: input bits 13 and 14, when 0, allow only positive and only negative travel, both 0 neither";
    DirectionNeitherIsPositive: "with both bits at 0 only positive travel is allowed", "W6: input bits 13 and 14, when 0, allow only positive and only negative travel, both 0 neither";
    DirectionNeitherIsNegative: "with both bits at 0 only negative travel is allowed", "W6: input bits 13 and 14, when 0, allow only positive and only negative travel, both 0 neither";
    DirectionNeitherIsFree: "with both bits at 0 both ways are free", "W6: input bits 13 and 14, when 0, allow only positive and only negative travel, both 0 neither";
    DirectionNeitherOnly: "a direction is watched only while both bits are 0", "W6: input bits 13 and 14, when 0, allow only positive and only negative travel, both 0 neither";
    DirectionEitherForbidsBoth: "either bit at 0 forbids both ways", "W6: input bits 13 and 14, when 0, allow only positive and only negative travel, both 0 neither";
    DirectionRunFresh1: "the fresh runs of safe direction are 1", "A fresh channel has .. all counts and runs 0";
    DirectionDelayAtLeast: "a watch starts in as many cycles as the delay says", "W6: A direction starts its watch when its bit has been 0 for more than the delay in usable cycles running, and ends it in a usable cycle where it is 1.";
    DirectionDelayOneMore: "a watch starts one cycle later", "W6: A direction starts its watch when its bit has been 0 for more than the delay in usable cycles running, and ends it in a usable cycle where it is 1.";
    DirectionDelayIgnored: "a watch starts in the first cycle with its bit at 0", "W6: A direction starts its watch when its bit has been 0 for more than the delay in usable cycles running, and ends it in a usable cycle where it is 1.";
    DirectionDelayAtLeast1: "a delay of 0 is taken as 1", "W6: A direction starts its watch when its bit has been 0 for more than the delay in usable cycles running, and ends it in a usable cycle where it is 1.";
    DirectionDelayInMs: "the delay of safe direction is taken in milliseconds", "W6: Data 69 to 71 are tolerance (0 to 100,000), delay (0 to 1,000) and stop (1 to 5).";
    DirectionDelayOfSelection: "the delay of safe direction is datum 27", "W6: Data 69 to 71 are tolerance (0 to 100,000), delay (0 to 1,000) and stop (1 to 5).";
    DirectionDelayOfFilter: "the delay of safe direction is datum 68", "W6: Data 69 to 71 are tolerance (0 to 100,000), delay (0 to 1,000) and stop (1 to 5).";
    DirectionDataSwapped: "datum 69 is the delay of safe direction and datum 70 its tolerance", "W6: Data 69 to 71 are tolerance (0 to 100,000), delay (0 to 1,000) and stop (1 to 5).";
    DirectionRunStopsAt1000: "the runs of safe direction are not counted past 1,000", "W6: A direction starts its watch when its bit has been 0 for more than the delay in usable cycles running, and ends it in a usable cycle where it is 1.";
    DirectionRunStopsAtDelay: "the runs of safe direction are not counted past the delay", "W6: A direction starts its watch when its bit has been 0 for more than the delay in usable cycles running, and ends it in a usable cycle where it is 1.";
    DirectionRunNotEnded: "a bit at 1 ends the watch and leaves the run", "W6: A direction starts its watch when its bit has been 0 for more than the delay in usable cycles running, and ends it in a usable cycle where it is 1.";
    DirectionRunFalls: "a bit at 1 takes one from the run", "W6: A direction starts its watch when its bit has been 0 for more than the delay in usable cycles running, and ends it in a usable cycle where it is 1.";
    DirectionRunShared: "both directions have one run, which goes on while either bit is 0", "W6: A direction starts its watch when its bit has been 0 for more than the delay in usable cycles running, and ends it in a usable cycle where it is 1.";
    DirectionWatchNotEnded: "a bit at 1 does not end the watch", "W6: A direction starts its watch when its bit has been 0 for more than the delay in usable cycles running, and ends it in a usable cycle where it is 1.";
    DirectionEndsInTwo: "run and watch end only where the bit is 1 for two cycles running", "W6: A direction starts its watch when its bit has been 0 for more than the delay in usable cycles running, and ends it in a usable cycle where it is 1.";
    DirectionWatchShared: "the watch of one direction begins that of the other", "W6: A direction starts its watch when its bit has been 0 for more than the delay in usable cycles running, and ends it in a usable cycle where it is 1.";
    DirectionExtremeStays: "the extreme is the position where the watch began", "W6: Positive-only is overstepped where the position is more than the tolerance below the highest in the usable cycles since the watch began, and the negative is its mirror; this is cause 14, fresh.";
    DirectionLowestStays: "the lowest position of the negative direction is the one where the watch began", "W6: Positive-only is overstepped where the position is more than the tolerance below the highest in the usable cycles since the watch began, and the negative is its mirror; this is cause 14, fresh.";
    DirectionExtremeOfAllTime: "the extreme is that of all usable cycles", "W6: Positive-only is overstepped where the position is more than the tolerance below the highest in the usable cycles since the watch began, and the negative is its mirror; this is cause 14, fresh.";
    DirectionExtremeFromBit0: "the extreme is that of all cycles since the bit is 0", "W6: Positive-only is overstepped where the position is more than the tolerance below the highest in the usable cycles since the watch began, and the negative is its mirror; this is cause 14, fresh.";
    DirectionExtremeFromCycleBefore: "a watch begins with the previous position as its extreme", "W6: Positive-only is overstepped where the position is more than the tolerance below the highest in the usable cycles since the watch began, and the negative is its mirror; this is cause 14, fresh.";
    DirectionExtremeFrom0: "the extreme begins with position 0", "W6: Positive-only is overstepped where the position is more than the tolerance below the highest in the usable cycles since the watch began, and the negative is its mirror; this is cause 14, fresh.";
    DirectionExtremeOfReport: "the extreme is that of the other channel's positions", "W6: Positive-only is overstepped where the position is more than the tolerance below the highest in the usable cycles since the watch began, and the negative is its mirror; this is cause 14, fresh.";
    DirectionExtremeShared: "both directions have one extreme", "W6: Positive-only is overstepped where the position is more than the tolerance below the highest in the usable cycles since the watch began, and the negative is its mirror; this is cause 14, fresh.";
    DirectionByStep: "the position is compared with the previous one, not with the extreme", "W6: Positive-only is overstepped where the position is more than the tolerance below the highest in the usable cycles since the watch began, and the negative is its mirror; this is cause 14, fresh.";
    DirectionNegativeAsPositive: "the negative direction forbids what the positive one does", "W6: Positive-only is overstepped where the position is more than the tolerance below the highest in the usable cycles since the watch began, and the negative is its mirror; this is cause 14, fresh.";
    DirectionDistanceOf28Bits: "the distance from the extreme is cut to 28 bits", "W6: Positive-only is overstepped where the position is more than the tolerance below the highest in the usable cycles since the watch began, and the negative is its mirror; this is cause 14, fresh.";
    DirectionAtTolerance: "cause 14 stands at the tolerance itself", "W6: Positive-only is overstepped where the position is more than the tolerance below the highest in the usable cycles since the watch began, and the negative is its mirror; this is cause 14, fresh.";
    DirectionToleranceOneMore: "cause 14 stands one beyond the tolerance only", "W6: Positive-only is overstepped where the position is more than the tolerance below the highest in the usable cycles since the watch began, and the negative is its mirror; this is cause 14, fresh.";
    DirectionDistanceScaled: "the distance from the extreme is scaled by the ratio", "W1: Positions aren't scaled.";
    DirectionToleranceOfStandstill: "the tolerance of safe direction is datum 2", "W6: Data 69 to 71 are tolerance (0 to 100,000), delay (0 to 1,000) and stop (1 to 5).";
    DirectionToleranceOfCams: "the tolerance of safe direction is datum 24", "W6: Data 69 to 71 are tolerance (0 to 100,000), delay (0 to 1,000) and stop (1 to 5).";
    DirectionToleranceOfDifference: "the tolerance of safe direction is datum 26", "W6: Data 69 to 71 are tolerance (0 to 100,000), delay (0 to 1,000) and stop (1 to 5).";
    DirectionToleranceIgnored: "the tolerance of safe direction is 0", "W6: Positive-only is overstepped where the position is more than the tolerance below the highest in the usable cycles since the watch began, and the negative is its mirror; this is cause 14, fresh.";
    DirectionToleranceHalved: "half of the tolerance lies on either side of the extreme", "W6: Positive-only is overstepped where the position is more than the tolerance below the highest in the usable cycles since the watch began, and the negative is its mirror; this is cause 14, fresh.";
    DirectionToleranceEven: "the tolerance of safe direction is taken without its lowest bit", "W6: Positive-only is overstepped where the position is more than the tolerance below the highest in the usable cycles since the watch began, and the negative is its mirror; this is cause 14, fresh.";
    DirectionToleranceOf16Bits: "the tolerance of safe direction is cut to 16 bits", "W6: Positive-only is overstepped where the position is more than the tolerance below the highest in the usable cycles since the watch began, and the negative is its mirror; this is cause 14, fresh.";
    DirectionOnlyMoving: "cause 14 stands only where the axis moves", "W6: Positive-only is overstepped where the position is more than the tolerance below the highest in the usable cycles since the watch began, and the negative is its mirror; this is cause 14, fresh.";
    DirectionOnlyForbiddenWay: "cause 14 stands only where the step goes the forbidden way", "W6: Positive-only is overstepped where the position is more than the tolerance below the highest in the usable cycles since the watch began, and the negative is its mirror; this is cause 14, fresh.";
    DirectionNeedsNothingSelected: "cause 14 stands only while neither SBH nor an SG is selected", "W6: Positive-only is overstepped where the position is more than the tolerance below the highest in the usable cycles since the watch began, and the negative is its mirror; this is cause 14, fresh.";
    DirectionBothOverstepped: "cause 14 stands only where both directions are overstepped", "W6: Positive-only is overstepped where the position is more than the tolerance below the highest in the usable cycles since the watch began, and the negative is its mirror; this is cause 14, fresh.";
    DirectionRankC: "cause 14 always has rank 3", "W6: Cause 14 has the rank of datum 71";
    DirectionRankB: "cause 14 always has rank 4", "W6: Cause 14 has the rank of datum 71";
    DirectionRankOfSg1: "cause 14 has the stop of SG1", "W6: Cause 14 has the rank of datum 71";
    DirectionRankOfSe: "cause 14 has the stop of SE", "W6: Cause 14 has the rank of datum 71";
    DirectionWithoutRank: "cause 14 has no rank", "W6: Cause 14 has the rank of datum 71";
    DirectionRankAtMostC: "cause 14 has rank 3 at most", "W6: Cause 14 has the rank of datum 71";
    DirectionRankAtLeastC: "cause 14 has rank 3 at least", "W6: Cause 14 has the rank of datum 71";
    Cause14NotInStop: "cause 14 stands only while there is no stop", "W6: Positive-only is overstepped where the position is more than the tolerance below the highest in the usable cycles since the watch began, and the negative is its mirror; this is cause 14, fresh.";
    Cause14NotHeld: "cause 14 does not stand while a stop is held", "W6: Positive-only is overstepped where the position is more than the tolerance below the highest in the usable cycles since the watch began, and the negative is its mirror; this is cause 14, fresh.";
    Cause14NotUnderSbh: "cause 14 does not stand while SBH is effective", "W6: Positive-only is overstepped where the position is more than the tolerance below the highest in the usable cycles since the watch began, and the negative is its mirror; this is cause 14, fresh.";
    Cause14NotInDelay: "cause 14 does not stand while a selection waits", "W6: Positive-only is overstepped where the position is more than the tolerance below the highest in the usable cycles since the watch began, and the negative is its mirror; this is cause 14, fresh.";
    Cause14NotOutsideSe: "cause 14 does not stand beside cause 4", "W6: Positive-only is overstepped where the position is more than the tolerance below the highest in the usable cycles since the watch began, and the negative is its mirror; this is cause 14, fresh.";
    Cause14NotApart: "cause 14 does not stand where the positions differ", "W6: Positive-only is overstepped where the position is more than the tolerance below the highest in the usable cycles since the watch began, and the negative is its mirror; this is cause 14, fresh.";
    Cause14NotAtSe2: "cause 14 does not stand while SE2 is chosen", "W6: Positive-only is overstepped where the position is more than the tolerance below the highest in the usable cycles since the watch began, and the negative is its mirror; this is cause 14, fresh.";
    DirectionWaitsForPrevious: "runs and watches stay in a cycle without a previous position", "W6: A direction starts its watch when its bit has been 0 for more than the delay in usable cycles running, and ends it in a usable cycle where it is 1.";
    DirectionWaitsInStopA: "runs and watches stay in STOP A", "W6: A direction starts its watch when its bit has been 0 for more than the delay in usable cycles running, and ends it in a usable cycle where it is 1.";
    DirectionWaitsInStopB: "runs and watches stay in STOP B", "W6: A direction starts its watch when its bit has been 0 for more than the delay in usable cycles running, and ends it in a usable cycle where it is 1.";
    DirectionWaitsInStop: "runs and watches stay in every stop", "W6: A direction starts its watch when its bit has been 0 for more than the delay in usable cycles running, and ends it in a usable cycle where it is 1.";
    StopEndsDirectionRun: "a stop ends the runs of safe direction", "W6: A direction starts its watch when its bit has been 0 for more than the delay in usable cycles running, and ends it in a usable cycle where it is 1.";
    StopEndsWatch: "a stop ends the watches", "W6: A direction starts its watch when its bit has been 0 for more than the delay in usable cycles running, and ends it in a usable cycle where it is 1.";
    DirectionNotBegunInStopE: "no watch begins in STOP E", "W6: A direction starts its watch when its bit has been 0 for more than the delay in usable cycles running, and ends it in a usable cycle where it is 1.";
    DirectionExtremeStaysInStopD: "the extreme stays in STOP D", "W6: Positive-only is overstepped where the position is more than the tolerance below the highest in the usable cycles since the watch began, and the negative is its mirror; this is cause 14, fresh.";
    DirectionNotEndedInStopC: "a bit at 1 does not end the watch in STOP C", "W6: A direction starts its watch when its bit has been 0 for more than the delay in usable cycles running, and ends it in a usable cycle where it is 1.";
    DirectionExtremeStaysHeld: "the extreme stays while a stop is held", "W6: Positive-only is overstepped where the position is more than the tolerance below the highest in the usable cycles since the watch began, and the negative is its mirror; this is cause 14, fresh.";
    DirectionNotBegunEffective: "no watch begins while SBH or SG is effective", "W6: A direction starts its watch when its bit has been 0 for more than the delay in usable cycles running, and ends it in a usable cycle where it is 1.";
    DirectionNotBegunInDelay: "no watch begins while a selection waits", "W6: A direction starts its watch when its bit has been 0 for more than the delay in usable cycles running, and ends it in a usable cycle where it is 1.";
    DirectionExtremeStaysUnderSbh: "the extreme stays while SBH is effective", "W6: Positive-only is overstepped where the position is more than the tolerance below the highest in the usable cycles since the watch began, and the negative is its mirror; this is cause 14, fresh.";
    DirectionExtremeStaysAtSe2: "the extreme stays while SE2 is chosen", "W6: Positive-only is overstepped where the position is more than the tolerance below the highest in the usable cycles since the watch began, and the negative is its mirror; this is cause 14, fresh.";
    DirectionExtremeStaysApart: "the extreme stays while the positions differ", "W6: Positive-only is overstepped where the position is more than the tolerance below the highest in the usable cycles since the watch began, and the negative is its mirror; this is cause 14, fresh.";
    DirectionNotEndedUnlike: "a bit at 1 does not end the watch while the inputs differ", "W6: A direction starts its watch when its bit has been 0 for more than the delay in usable cycles running, and ends it in a usable cycle where it is 1.";
    DirectionNotBegunByHeads: "no watch begins while the heads differ", "W6: A direction starts its watch when its bit has been 0 for more than the delay in usable cycles running, and ends it in a usable cycle where it is 1.";
    FEndsWatch: "F ends the watches", "W6: A direction starts its watch when its bit has been 0 for more than the delay in usable cycles running, and ends it in a usable cycle where it is 1.";
    DirectionExtremeStaysWithF: "the extreme stays while F is on", "W6: Positive-only is overstepped where the position is more than the tolerance below the highest in the usable cycles since the watch began, and the negative is its mirror; this is cause 14, fresh.";
    DirectionWaitsAtK0: "runs and watches stay where k is 0", "W6: A direction starts its watch when its bit has been 0 for more than the delay in usable cycles running, and ends it in a usable cycle where it is 1.";
    AcknowledgementEndsWatch: "an acknowledgement ends the watches", "5. Acknowledged and no fresh cause: rank 0, not held, F off. (nothing else)";
    AcknowledgementSetsExtreme: "an acknowledgement takes the extremes anew", "5. Acknowledged and no fresh cause: rank 0, not held, F off. (nothing else)";
    ClearEndsDirectionRun: "clearing ends the runs of safe direction", "5. Acknowledged and no fresh cause: rank 0, not held, F off. (nothing else)";
    ClearEndsWatch: "clearing ends the watches", "5. Acknowledged and no fresh cause: rank 0, not held, F off. (nothing else)";
    ClearSetsExtreme: "clearing takes the extremes anew", "5. Acknowledged and no fresh cause: rank 0, not held, F off. (nothing else)";
    Cause14EndsWatch: "cause 14 ends the watches", "W6: A direction starts its watch when its bit has been 0 for more than the delay in usable cycles running, and ends it in a usable cycle where it is 1.";
    Cause14SetsExtreme: "cause 14 takes the extremes anew", "W6: Positive-only is overstepped where the position is more than the tolerance below the highest in the usable cycles since the watch began, and the negative is its mirror; this is cause 14, fresh.";
    DifferenceAtBound: "cause 10 stands at the allowed difference itself", "10 position differs from the report by more than datum 26";
    DifferenceOneSided: "cause 10 looks only at a position above the report", "10 position differs from the report by more than datum 26";
    DifferenceScaled: "the difference from the report's position is scaled by the ratio", "W1: Positions aren't scaled.";
    DifferenceIgnored: "cause 10 never stands", "10 position differs from the report by more than datum 26";
    InputsAtBound: "cause 11 stands in the allowed number of cycles already", "11 input words differ in more than datum 28 usable cycles running";
    InputsOneLater: "cause 11 stands one cycle later", "11 input words differ in more than datum 28 usable cycles running";
    InputsInAll: "cause 11 counts differing cycles that are not running", "11 input words differ in more than datum 28 usable cycles running";
    InputsUsableForBoth: "cause 11 counts only cycles usable for both channels", "usable cycles running (usable for this channel)";
    InputsLowerHalf: "cause 11 compares the lower halves only", "that cycle's position and whole input word and its datum k";
    GearNotCompared: "cause 11 leaves input bits 8 to 10 out", "that cycle's position and whole input word and its datum k";
    GearComparedByRatio: "cause 11 takes two numbers of the same ratio as alike", "that cycle's position and whole input word and its datum k";
    InputsIgnored: "cause 11 never stands", "11 input words differ in more than datum 28 usable cycles running";
    DatumIgnored: "cause 12 never stands", "12 datum k differs";
    DatumOneOffAllowed: "cause 12 lets a difference of one pass", "12 datum k differs";
    DatumLowerHalf: "cause 12 compares the lower 16 bits only", "12 datum k differs";
    DatumWithoutSign: "cause 12 compares magnitudes", "12 datum k differs";
    DatumOfUnusableLeftOut: "cause 12 leaves out an unusable report", "12 datum k differs (the other's unusable report: compared as it is)";
    HeadNotCompared: "cause 12 does not look at heads", "W1: The report carries the head too, and cause 12 also stands where heads differ.";
    HeadAtK0Only: "heads are compared only where k is 0", "W1: The report carries the head too, and cause 12 also stands where heads differ.";
    HeadOfLongerOnly: "only the channel with the longer list notes another head", "W1: The report carries the head too, and cause 12 also stands where heads differ.";
    HeadOfShorterOnly: "only the channel with the shorter list notes another head", "W1: The report carries the head too, and cause 12 also stands where heads differ.";
    HeadWithoutF: "cause 12 does not set F where heads alone differ", "W1: The report carries the head too, and cause 12 also stands where heads differ.";
    Heads67And69Alike: "cause 12 takes the heads 67 and 69 as alike", "W1: The report carries the head too, and cause 12 also stands where heads differ.";
    Heads69And72Alike: "cause 12 takes the heads 69 and 72 as alike", "W1: The report carries the head too, and cause 12 also stands where heads differ.";
    OtherUnusableLeftOut: "causes 10 and 11 leave out an unusable report", "10 position differs from the report (the other's unusable report: compared as it is)";
    FTimeSetAnew: "each of 10, 11, 12 sets the count from F to B anew", "10, 11, 12 set F and, if F is new, its count to datum 34";
    FTimeSetAnewAt0: "a difference sets F's count anew once it is 0", "10, 11, 12 set F and, if F is new, its count to datum 34";
    FTimeOneMore: "the time from F to B is one cycle longer", "its count to datum 34; the count falls in later usable cycles";
    FTimeOneLess: "the time from F to B is one cycle shorter", "its count to datum 34; the count falls in later usable cycles";
    FTimeZeroNextCycle: "with datum 34 at 0 cause 13 stands in the next cycle", "at 0, with F on, stands cause 13 (datum 34 at 0: in the same cycle)";
    FWithoutB: "F never leads to STOP B", "at 0, with F on, stands cause 13, rank 4";
    FNotSetInactive: "F is not set while nothing is active", "W2: F is shown, and STOP B follows only if SBH, SG, SE or cams are active.";
    FOffWhenOver: "F goes off where its count is 0 and nothing is active", "W2: F is shown, and STOP B follows only if SBH, SG, SE or cams are active.";
    FCountWaitsInactive: "F's count does not fall while nothing is active", "W2: F's count runs on meanwhile.";
    FCountAnewActive: "F's count is set anew where something becomes active", "W2: F's count runs on meanwhile.";
    ActiveNotAsked: "cause 13 stands whether something is active or not", "W2: From now on cause 13 stands only in cycles where SBH or SG is effective, or SE or cams are enabled.";
    ActiveByCycleBefore: "cause 13 goes by the effective selection of the cycle before", "W2: in cycles where SBH or SG is effective";
    ActiveBySelected: "a selection counts as active while it waits in its delay", "W2: in cycles where SBH or SG is effective";
    ActiveByFunction0: "function SBH/SG counts as active with nothing effective too", "W2: in cycles where SBH or SG is effective";
    ActiveWithoutSbh: "SBH does not count as active", "W2: in cycles where SBH or SG is effective";
    ActiveWithoutSg: "an SG does not count as active", "W2: in cycles where SBH or SG is effective";
    ActiveWithoutSg1: "SG1, whose number less one is 0, does not count as active", "W2: in cycles where SBH or SG is effective";
    ActiveNeedsPrevious: "SBH and SG count as active only where there is a previous position", "W2: in cycles where SBH or SG is effective";
    ActiveSelectionOf51: "SBH and SG count as active only in a list of 51 data", "W2: in cycles where SBH or SG is effective";
    ActiveSelectionNotBesideNx: "SBH and SG do not count as active while n<nx is on", "W2: in cycles where SBH or SG is effective";
    ActiveSelectionNotBesideStops: "SBH and SG do not count as active while the external stops are on", "W2: in cycles where SBH or SG is effective";
    ActiveSelectionNotBesideDirection: "SBH and SG do not count as active while safe direction is on", "W2: in cycles where SBH or SG is effective";
    ActiveWithoutSe: "SE does not count as active", "W2: or SE or cams are enabled";
    ActiveSe2Only: "SE counts as active only while SE2 is chosen", "W2: or SE or cams are enabled";
    ActiveSeOutside: "SE counts as active only where the position is outside", "W2: or SE or cams are enabled";
    ActiveSeNotBesideNx: "SE does not count as active while n<nx is on", "W2: or SE or cams are enabled";
    ActiveSeNotBesideStops: "SE does not count as active while the external stops are on", "W2: or SE or cams are enabled";
    ActiveSeNotBesideDirection: "SE does not count as active while safe direction is on", "W2: or SE or cams are enabled";
    ActiveWithoutCams: "the cams do not count as active", "W2: or SE or cams are enabled";
    ActiveCamsAbove: "the cams count as active only above one of them", "W2: or SE or cams are enabled";
    ActiveCamsBelow: "the cams count as active only above none of them", "W2: or SE or cams are enabled";
    ActiveCamsNotBesideNx: "the cams do not count as active while n<nx is on", "W2: or SE or cams are enabled";
    ActiveCamsNotBesideStops: "the cams do not count as active while the external stops are on", "W2: or SE or cams are enabled";
    ActiveCamsNotBesideDirection: "the cams do not count as active while safe direction is on", "W2: or SE or cams are enabled";
    ActiveByNx: "n<nx counts as active", "W2: A grinding shop enables n<nx alone";
    ActiveByExternalStops: "the external stops count as active", "W2: From now on cause 13 stands only in cycles where SBH or SG is effective, or SE or cams are enabled.";
    ActiveByDirection: "safe direction counts as active", "W2: From now on cause 13 stands only in cycles where SBH or SG is effective, or SE or cams are enabled.";
    ActiveByStop: "a standing stop counts as active", "W2: From now on cause 13 stands only in cycles where SBH or SG is effective, or SE or cams are enabled.";
    ActiveInEither: "what is active in the other channel counts too", "W2: From now on cause 13 stands only in cycles where SBH or SG is effective, or SE or cams are enabled. (in this channel)";
    ActiveByReport: "cause 13 goes by what the report's input word selects", "W2: in cycles where SBH or SG is effective";
    Cause13Once: "cause 13 stands only in the first cycle where F's count is 0", "W2: From now on cause 13 stands only in cycles where SBH or SG is effective, or SE or cams are enabled. (in each of them)";
    Cause13OnlyAlone: "cause 13 stands only where no other cause does", "at 0, with F on, stands cause 13, rank 4 (beside other causes too)";
    Cause13OnlyWithoutF: "cause 13 stands only where none of 10, 11, 12 does", "at 0, with F on, stands cause 13, rank 4 (beside other causes too)";
    Cause13RankA: "cause 13 has rank 5", "stands cause 13, rank 4";
    Cause13RankC: "cause 13 has rank 3", "stands cause 13, rank 4";
    Cause2NotFresh: "cause 2 is not fresh", "All but 13 are fresh.";
    Cause3NotFresh: "cause 3 is not fresh", "All but 13 are fresh.";
    Cause4NotFresh: "cause 4 is not fresh", "All but 13 are fresh.";
    StopsNotFresh: "causes 5 to 8 are not fresh", "All but 13 are fresh.";
    Cause9NotFresh: "cause 9 is not fresh", "All but 13 are fresh.";
    Cause10NotFresh: "cause 10 is not fresh", "All but 13 are fresh.";
    Cause11NotFresh: "cause 11 is not fresh", "All but 13 are fresh.";
    Cause12NotFresh: "cause 12 is not fresh", "All but 13 are fresh.";
    Cause14NotFresh: "cause 14 is not fresh", "W6: this is cause 14, fresh";
    Cause13Fresh: "cause 13 is fresh and holds an acknowledgement up", "All but 13 are fresh.";

    // Step 5.
    AcknowledgementWins: "an acknowledgement wins over a fresh cause", "Not so: letting an acknowledgement win over a fresh cause";
    AcknowledgementIgnored: "an acknowledgement never clears", "5. Acknowledged and no fresh cause: rank 0, not held, F off.";
    ClearNeedsNoAcknowledgement: "a cycle without a fresh cause clears", "5. Acknowledged and no fresh cause: rank 0, not held, F off.";
    ClearKeepsHold: "clearing leaves a held stop", "5. Acknowledged and no fresh cause: rank 0, not held, F off.";
    ClearKeepsF: "clearing leaves F on", "5. Acknowledged and no fresh cause: rank 0, not held, F off.";
    ClearKeepsFInactive: "clearing leaves F on while nothing is active", "5. Acknowledged and no fresh cause: rank 0, not held, F off.";
    ClearNotA: "STOP A is never cleared", "5. Acknowledged and no fresh cause: rank 0, not held, F off.";
    ClearEndsRun: "clearing ends the run of differing inputs", "5. Acknowledged and no fresh cause: rank 0, not held, F off. (nothing else)";
    ClearEndsDelay: "clearing ends the delay's count", "5. Acknowledged and no fresh cause: rank 0, not held, F off. (nothing else)";
    ClearSetsK: "clearing puts k to 0", "5. Acknowledged and no fresh cause: rank 0, not held, F off. (nothing else)";
    ClearForgetsPrevious: "clearing forgets the previous position", "5. Acknowledged and no fresh cause: rank 0, not held, F off. (nothing else)";
    ClearSetsReference: "clearing takes the SBH reference anew", "5. Acknowledged and no fresh cause: rank 0, not held, F off. (nothing else)";
    WeakestEntered: "the weakest cause is entered", "Else the strongest cause, if above the rank, is entered";
    FirstEntered: "the cause of lowest code is entered", "Else the strongest cause, if above the rank, is entered";
    EqualEntered: "a cause equal to the rank is entered again", "Else the strongest cause, if above the rank, is entered";
    WeakerEntered: "a weaker cause takes the rank down", "Else the strongest cause, if above the rank, is entered";
    HeldTakesNone: "a held stop takes no stronger one but by cause 9", "Else the strongest cause, if above the rank, is entered";
    BrakingTakesNone: "a stop that is not yet held takes no stronger one", "Else the strongest cause, if above the rank, is entered";
    EntryStaysHeld: "a stronger stop stays held", "is entered with its count from data 29-32 (0 for A), not held";
    TimesCAndDSwapped: "STOP C takes datum 30 and D datum 29", "29-32 | times of STOP C, D, E; B to A";
    TimesDAndESwapped: "STOP D takes datum 31 and E datum 30", "29-32 | times of STOP C, D, E; B to A";
    TimeBIsE: "STOP B takes datum 31", "29-32 | times of STOP C, D, E; B to A";
    TimeOneMore: "each stop's time is one cycle longer", "is entered with its count from data 29-32";
    TimeOneLess: "each stop's time is one cycle shorter", "is entered with its count from data 29-32";
    TimeZeroNextCycle: "with a time of 0 a stop is held, or B becomes A, in the next cycle", "In the first cycle where the count is 0, entry included";
    CountWaitsForCause: "the count falls only in cycles without a cause", "else the count falls by one";
    CNotHeld: "STOP C is never held", "C, D and E are held with the position as reference";
    DNotHeld: "STOP D is never held", "C, D and E are held with the position as reference";
    ENotHeld: "STOP E is never held", "C, D and E are held with the position as reference";
    BNotToA: "STOP B never becomes A by its time", "and B becomes A";
    BWaitsInactive: "STOP B's count does not fall while nothing is active", "else the count falls by one";
    RankFallsInactive: "a stop falls where F's count is 0 and nothing is active", "5. Acknowledged and no fresh cause: rank 0, not held, F off. (a stop falls in no other cycle)";
    BAtOnceA: "STOP B becomes A on entry", "and B becomes A";
    HoldReferenceMoves: "the hold's reference follows the position", "The reference then stays while the hold lasts.";
    HoldReferenceFromEntry: "the hold's reference is the position of the stop's entry", "C, D and E are held with the position as reference";
    ShutdownAtBound: "B becomes A at the shutdown speed itself", "B also becomes A where |d| × 60 < datum 33 × T.";
    ShutdownIgnored: "the shutdown speed is ignored", "B also becomes A where |d| × 60 < datum 33 × T.";
    ShutdownNotOnEntry: "the shutdown speed is looked at only after the entry cycle", "B also becomes A where |d| × 60 < datum 33 × T. (the entry cycle too)";
    ShutdownNeedsPrevious: "B stays B without a previous position", "2. d = position less previous position, 0 if there is none.";
    ShutdownAlsoC: "C becomes A below the shutdown speed too", "B also becomes A where |d| × 60 < datum 33 × T.";
    ShutdownSigned: "the shutdown speed is compared with d, not |d|", "B also becomes A where |d| × 60 < datum 33 × T.";
    ShutdownWithoutT: "the shutdown speed takes T as 12", "B also becomes A where |d| × 60 < datum 33 × T.";
    ShutdownWithHysteresis: "B becomes A below the shutdown speed plus the hysteresis of n<nx", "B also becomes A where |d| × 60 < datum 33 × T.";
    ShutdownDivides: "datum 33 × T is divided by 60 before |d| is compared with it", "Not so: dividing before comparing a speed";
    ShutdownUnscaled: "the shutdown speed is compared without the ratio", "W1: Every speed comparison, for SG, nx and shutdown, takes the step times numerator over denominator, still without dividing.";
    ShutdownRatioDivides: "|d| × numerator is divided by the denominator before the shutdown speed is compared with it", "W1: Every speed comparison, for SG, nx and shutdown, takes the step times numerator over denominator, still without dividing.";
    ShutdownRatioDividesBound: "datum 33 × T × denominator is divided by the numerator before |d| × 60 is compared with it", "W1: Every speed comparison, for SG, nx and shutdown, takes the step times numerator over denominator, still without dividing.";

    // Step 6.
    CamAtUpper: "a cam signal is 1 at edge + datum 24 already", "6. Cam signal 1 above edge + datum 24, 0 below edge, else as before; fresh 0.";
    CamAtEdge: "a cam signal is 0 at the edge already", "6. Cam signal 1 above edge + datum 24, 0 below edge, else as before; fresh 0.";
    CamBetweenIs0: "between edge and edge + datum 24 a cam signal is 0", "6. Cam signal 1 above edge + datum 24, 0 below edge, else as before; fresh 0.";
    CamBetweenIs1: "between edge and edge + datum 24 a cam signal is 1", "6. Cam signal 1 above edge + datum 24, 0 below edge, else as before; fresh 0.";
    CamsStartAt1: "fresh cam signals are 1", "6. Cam signal 1 above edge + datum 24, 0 below edge, else as before; fresh 0.";
    CamToleranceBelow: "the cam tolerance lies below the edge", "6. Cam signal 1 above edge + datum 24, 0 below edge, else as before; fresh 0.";
    CamToleranceBothSides: "the cam tolerance lies on both sides of the edge", "6. Cam signal 1 above edge + datum 24, 0 below edge, else as before; fresh 0.";
    CamMinusTurned: "the minus cams show 1 below their edge", "8-15 cams in data order";
    CamPairsSwapped: "plus and minus cams change places", "8-15 cams in data order";
    CamsReversed: "the cams stand in reverse order", "8-15 cams in data order";
    CamLastIgnored: "SN4- always shows 0", "16-23 | cams SN1+, SN1-, SN2+ .. SN4-";
    CamFunctionIgnored: "cams show with their function off", "Cams and n<nx show 0 while their function is off";
    CamsScaled: "the cams look at the position times the ratio", "W1: Positions aren't scaled.";
    NxAtBound: "n<nx shows 1 at nx itself", "n<nx: |d| × 60 < datum 25 × T.";
    NxSigned: "n<nx goes by d, not |d|", "n<nx: |d| × 60 < datum 25 × T.";
    NxWithoutT: "n<nx takes T as 12", "n<nx: |d| × 60 < datum 25 × T.";
    NxDivides: "datum 25 × T is divided by 60 before |d| is compared with it", "Not so: dividing before comparing a speed";
    NxBinary32: "n<nx is compared in binary32", "n<nx: |d| × 60 < datum 25 × T.";
    NxUnscaled: "n<nx is compared without the ratio", "W1: Every speed comparison, for SG, nx and shutdown, takes the step times numerator over denominator, still without dividing.";
    NxRatioDivides: "|d| × numerator is divided by the denominator before nx is compared with it", "W1: Every speed comparison, for SG, nx and shutdown, takes the step times numerator over denominator, still without dividing.";
    NxRatioDividesBound: "datum 25 × T × denominator is divided by the numerator before |d| × 60 is compared with it", "W1: Every speed comparison, for SG, nx and shutdown, takes the step times numerator over denominator, still without dividing.";
    NxNeedsPrevious: "n<nx shows 0 without a previous position", "2. d = position less previous position, 0 if there is none.";
    NxFunctionIgnored: "n<nx shows with its function off", "Cams and n<nx show 0 while their function is off";
    NxFresh1: "the fresh value of n<nx is 1", "W3: In between it keeps its value, fresh 0.";
    NxRunFresh1: "the fresh run of n<nx is 1", "A fresh channel has .. all counts and runs 0";
    NxThisCycleNotCounted: "the present cycle does not count yet in the run of n<nx", "W3: It goes to 1 after the speed has been below nx in more than datum 68 usable cycles running.";
    NxFilterAtLeast: "n<nx goes to 1 in as many cycles as datum 68 says", "W3: It goes to 1 after the speed has been below nx in more than datum 68 usable cycles running.";
    NxFilterOneMore: "n<nx goes to 1 one cycle later", "W3: It goes to 1 after the speed has been below nx in more than datum 68 usable cycles running.";
    NxFilterIgnored: "n<nx goes to 1 in the first cycle below nx", "W3: It goes to 1 after the speed has been below nx in more than datum 68 usable cycles running.";
    NxFilterInMs: "datum 68 is taken in milliseconds", "W3: Data 67 (0 to 1,000,000 mm/min) and 68 (0 to 1,000 cycles) are added.";
    NxFilteredTo0: "the filter holds up going to 0 as well", "W3: The signal goes to 0 where speed is nx plus hysteresis or more.";
    NxNeverTo0: "n<nx never goes back to 0", "W3: The signal goes to 0 where speed is nx plus hysteresis or more.";
    NxBetweenIs1: "between nx and nx plus hysteresis n<nx is 1", "W3: In between it keeps its value, fresh 0.";
    NxBetweenTo1In4: "n<nx goes to 1 in the fourth cycle running between nx and nx plus hysteresis", "W3: In between it keeps its value, fresh 0.";
    NxBetweenTo0In5: "n<nx goes to 0 in the fifth cycle running between nx and nx plus hysteresis", "W3: In between it keeps its value, fresh 0.";
    NxShortRunIs0: "below nx with too short a run n<nx is 0", "W3: In between it keeps its value, fresh 0.";
    NxRunStopsAt1000: "the run of n<nx is not counted past 1,000", "W3: It goes to 1 after the speed has been below nx in more than datum 68 usable cycles running.";
    NxRunStopsAtFilter: "the run of n<nx is not counted past datum 68", "W3: It goes to 1 after the speed has been below nx in more than datum 68 usable cycles running.";
    NxRunNotEnded: "the run of n<nx is never ended", "W3: It goes to 1 after the speed has been below nx in more than datum 68 usable cycles running.";
    NxRunFalls: "the run of n<nx falls by one where the speed is not below nx", "W3: It goes to 1 after the speed has been below nx in more than datum 68 usable cycles running.";
    NxRunEndedAboveOnly: "the run of n<nx ends only at nx plus hysteresis", "W3: It goes to 1 after the speed has been below nx in more than datum 68 usable cycles running.";
    NxRunEndsWithRatio: "another ratio begins the run of n<nx anew", "W3: It goes to 1 after the speed has been below nx in more than datum 68 usable cycles running.";
    NxWaitsForPrevious: "value and run of n<nx stay in a cycle without a previous position", "2. d = position less previous position, 0 if there is none.";
    NxWaitsInStopA: "value and run of n<nx stay in STOP A", "W3: It goes to 1 after the speed has been below nx in more than datum 68 usable cycles running.";
    NxWaitsInStop: "value and run of n<nx stay in every stop", "W3: It goes to 1 after the speed has been below nx in more than datum 68 usable cycles running.";
    StopAPutsNxTo0: "STOP A puts the value of n<nx to 0", "W3: In between it keeps its value, fresh 0.";
    StopEndsNxRun: "a stop ends the run of n<nx", "W3: It goes to 1 after the speed has been below nx in more than datum 68 usable cycles running.";
    NxWaitsInStopB: "value and run of n<nx stay in STOP B", "W3: It goes to 1 after the speed has been below nx in more than datum 68 usable cycles running.";
    NxNotTo1InStopE: "n<nx does not go to 1 in STOP E", "W3: It goes to 1 after the speed has been below nx in more than datum 68 usable cycles running.";
    NxNotTo0InStopD: "n<nx does not go to 0 in STOP D", "W3: The signal goes to 0 where speed is nx plus hysteresis or more.";
    NxRunNotEndedInStopC: "the run of n<nx ends only at nx plus hysteresis in STOP C", "W3: It goes to 1 after the speed has been below nx in more than datum 68 usable cycles running.";
    NxHysteresisIgnoredHeld: "n<nx goes to 0 at nx while a stop is held", "W3: The signal goes to 0 where speed is nx plus hysteresis or more.";
    NxFilterIgnoredEffective: "n<nx goes to 1 in the first cycle below nx while SBH or SG is effective", "W3: It goes to 1 after the speed has been below nx in more than datum 68 usable cycles running.";
    NxFilterIgnoredInDelay: "n<nx goes to 1 in the first cycle below nx while a selection waits", "W3: It goes to 1 after the speed has been below nx in more than datum 68 usable cycles running.";
    NxShortRunIs0AtSe2: "below nx with too short a run n<nx is 0 while SE2 is chosen", "W3: In between it keeps its value, fresh 0.";
    NxShortRunIs0Minus: "below nx with too short a run n<nx is 0 where d is below 0", "W3: In between it keeps its value, fresh 0.";
    NxNotTo0Apart: "n<nx does not go to 0 while the positions differ", "W3: The signal goes to 0 where speed is nx plus hysteresis or more.";
    NxRunNotEndedUnlike: "the run of n<nx ends only at nx plus hysteresis while the inputs differ", "W3: It goes to 1 after the speed has been below nx in more than datum 68 usable cycles running.";
    NxFilterIgnoredByHeads: "n<nx goes to 1 in the first cycle below nx while the heads differ", "W3: It goes to 1 after the speed has been below nx in more than datum 68 usable cycles running.";
    FPutsNxTo0: "F puts the value of n<nx to 0", "W3: In between it keeps its value, fresh 0.";
    ClearPutsNxTo0: "clearing puts the value of n<nx to 0", "5. Acknowledged and no fresh cause: rank 0, not held, F off. (nothing else)";
    ClearEndsNxRun: "clearing ends the run of n<nx", "5. Acknowledged and no fresh cause: rank 0, not held, F off. (nothing else)";
    NxDataSwapped: "datum 67 is the filter of n<nx and datum 68 its hysteresis", "W3: Data 67 (0 to 1,000,000 mm/min) and 68 (0 to 1,000 cycles) are added.";
    NxHysteresisIgnored: "n<nx goes to 0 at nx", "W3: The signal goes to 0 where speed is nx plus hysteresis or more.";
    NxHysteresisAlone: "n<nx goes to 0 at the hysteresis itself", "W3: The signal goes to 0 where speed is nx plus hysteresis or more.";
    NxHysteresisBelow: "the hysteresis lies below nx", "W3: The signal goes to 0 where speed is nx plus hysteresis or more.";
    NxHysteresisBothSides: "the hysteresis lies on both sides of nx", "W3: The signal goes to 0 where speed is nx plus hysteresis or more.";
    NxHysteresisHalved: "half of the hysteresis lies on either side of nx", "W3: The signal goes to 0 where speed is nx plus hysteresis or more.";
    NxHysteresisPercent: "the hysteresis is taken in percent of nx", "W3: Data 67 (0 to 1,000,000 mm/min) and 68 (0 to 1,000 cycles) are added.";
    NxHysteresisOf16Bits: "the hysteresis is cut to 16 bits", "W3: The signal goes to 0 where speed is nx plus hysteresis or more.";
    NxHysteresisEven: "the hysteresis is taken without its lowest bit", "W3: The signal goes to 0 where speed is nx plus hysteresis or more.";
    NxHysteresisWithoutT: "the hysteresis takes T as 12", "W3: The signal goes to 0 where speed is nx plus hysteresis or more.";
    NxHysteresisUnscaled: "the hysteresis is taken without the ratio", "W1: Every speed comparison, for SG, nx and shutdown, takes the step times numerator over denominator, still without dividing.";
    NxSumUpTo1000000: "nx plus hysteresis is taken as 1,000,000 at most", "W3: The signal goes to 0 where speed is nx plus hysteresis or more.";
    NxTo0Above: "n<nx goes to 0 only above nx plus hysteresis", "W3: The signal goes to 0 where speed is nx plus hysteresis or more.";
    NxTo0StepOf32Bits: "|d| × numerator × 60 is cut to 32 bits before nx plus hysteresis is compared with it", "W3: The signal goes to 0 where speed is nx plus hysteresis or more.";
    NxTo0BoundOf35Bits: "(datum 25 + datum 67) × T × denominator is cut to 35 bits", "W3: The signal goes to 0 where speed is nx plus hysteresis or more.";
    NxTo0Signed: "n<nx goes to 0 by d, not by |d|", "W3: The signal goes to 0 where speed is nx plus hysteresis or more.";
    NxTo0Divides: "(datum 25 + datum 67) × T is divided by 60 before |d| is compared with it", "Not so: dividing before comparing a speed";
    NxTo0Unscaled: "nx plus hysteresis is compared without the ratio", "W1: Every speed comparison, for SG, nx and shutdown, takes the step times numerator over denominator, still without dividing.";
    NxTo0ByFirstRatio: "nx plus hysteresis is compared by the first ratio", "W1: Every speed comparison, for SG, nx and shutdown, takes the step times numerator over denominator, still without dividing.";
    NxTo1AtBound: "the run of n<nx counts cycles at nx itself", "W3: It goes to 1 after the speed has been below nx in more than datum 68 usable cycles running.";
    NxTo1StepOf32Bits: "|d| × numerator × 60 is cut to 32 bits before the run of n<nx compares nx with it", "W3: It goes to 1 after the speed has been below nx in more than datum 68 usable cycles running.";
    NxTo1BoundOf32Bits: "datum 25 × T × denominator is cut to 32 bits for the run of n<nx", "W3: It goes to 1 after the speed has been below nx in more than datum 68 usable cycles running.";
    NxTo1Signed: "the run of n<nx counts by d, not by |d|", "W3: It goes to 1 after the speed has been below nx in more than datum 68 usable cycles running.";
    NxTo1AtRest: "the run of n<nx counts cycles at rest only", "W3: It goes to 1 after the speed has been below nx in more than datum 68 usable cycles running.";
    NxTo1BelowSum: "the run of n<nx counts cycles below nx plus hysteresis", "W3: It goes to 1 after the speed has been below nx in more than datum 68 usable cycles running.";
    NxTo1Unscaled: "the run of n<nx compares nx without the ratio", "W1: Every speed comparison, for SG, nx and shutdown, takes the step times numerator over denominator, still without dividing.";
    NxTo1ByFirstRatio: "the run of n<nx compares nx by the first ratio", "W1: Every speed comparison, for SG, nx and shutdown, takes the step times numerator over denominator, still without dividing.";

    // The channel word.
    Bit0OnlySbh: "bit 0 shows SBH only", "bit 0 SBH or SG effective";
    Bit0OnlySg: "bit 0 shows SG only", "bit 0 SBH or SG effective";
    Bit0Selected: "bit 0 shows the present selection", "bit 0 SBH or SG effective";
    Bit2AlsoB: "bit 2 is set in STOP B too", "2 pulses cancelled (rank 5)";
    Bit2Never: "bit 2 is never set", "2 pulses cancelled (rank 5)";
    Bit7Zero: "bit 7 is 0", "7 always 1";
    CamBitsMoved: "the cams stand in bits 9-16", "8-15 cams in data order";
    SgBitsMoved: "the effective SG stands in bits 18-19", "19-20 effective SG less one, else 0";
    SgBitsNotLessOne: "bits 19-20 hold the SG number itself", "19-20 effective SG less one, else 0";
    SgBitsSelected: "bits 19-20 hold the selected SG", "19-20 effective SG less one, else 0";
    SgBitsUnderSbh: "bits 19-20 show the input's SG number under SBH too", "19-20 effective SG less one, else 0";
    NxBitMoved: "n<nx stands in bit 22", "21 n<nx";
    RankBitsMoved: "the rank stands in bits 25-27", "24-26 rank";
    HeldBitMoved: "held stands in bit 29", "27 held";
    HeldAndFSwapped: "held stands in bit 28 and F in bit 27", "27 held, 28 F";
    FBitUntilOver: "the F bit is 0 once F's count is 0", "28 F";
    FBitOnlyActive: "the F bit is 0 while nothing is active", "W2: F is shown, and STOP B follows only if SBH, SG, SE or cams are active.";
    FBitOverOnlyActive: "the F bit is 0 where F's count is 0 and nothing is active", "W2: F is shown, and STOP B follows only if SBH, SG, SE or cams are active.";
    HeldBitAtRest: "the held bit is set only where the axis stands still", "27 held";

    // The device.
    DeviceLesser: "the device rank is the lesser", "Device rank is the greater";
    DeviceOnlyA: "the device rank is channel A's", "Device rank is the greater";
    DeviceOnlyB: "the device rank is channel B's", "Device rank is the greater";
    DeviceBit0Turned: "bit 0 of the device word is pulses off", "device word: bit 0 pulses on, if rank is below 5";
    DevicePulsesInA: "pulses stay on at rank 5", "device word: bit 0 pulses on, if rank is below 5";
    DeviceNoPulsesInB: "pulses are off at rank 4 already", "device word: bit 0 pulses on, if rank is below 5";
    DeviceRankMoved: "the device rank stands in bits 2-4", "bits 1-3 rank";

    // The bench program.
    KitOneWordLess: "a kit of 65,536 bytes is refused", "at most 65,536 bytes in whole words, else number 6, place 0, L";
    KitOneWordMore: "a kit of 65,540 bytes is taken", "at most 65,536 bytes in whole words, else number 6, place 0, L";
    KitSizeAfterLists: "the kit's size is looked at after the lists", "at most 65,536 bytes in whole words, else number 6, place 0, L";
    KitPartWordLeftOut: "bytes behind the last whole word are left out", "at most 65,536 bytes in whole words, else number 6, place 0, L";
    KitPartWordFilled: "a last word that is cut off is filled with zeros", "at most 65,536 bytes in whole words, else number 6, place 0, L";
    KitSizePlaceIsLength: "a kit of wrong size is refused with its length in words", "else number 6, place 0, L";
    KitSizeIsA: "a kit of wrong size is refused with A", "else number 6, place 0, L";
    LeastByteFirst: "words stand least significant byte first", "words most significant byte first";
    CycleFromZero: "cycles count from 0", "A line is the cycle from 1";
    CycleHexadecimal: "the cycle stands in hexadecimal", "cycle decimal";
    ChannelWordsShort: "channel words stand without leading zeros", "channel words 8 digits";
    DeviceWordTwoDigits: "the device word has two digits", "device word without leading zeros";
    DeviceWordDecimal: "the device word stands in decimal", "in hexadecimal";
    WordsOfBFirst: "B's word stands before A's", "A line is the cycle from 1, A's word, B's word, the device word";
    UpperCase: "hexadecimal is upper case", "hexadecimal is lower case";
    TwoSpaces: "fields stand two spaces apart", "Fields stand one space apart";
    LastLineFeedLost: "the last line has no line feed", "a line feed ends each line";
    CarriageReturns: "a carriage return stands before each line feed", "a line feed ends each line";
    EmptyListingLineFeed: "a listing without cycles is a line feed", "a line feed ends each line";
    RefusalPlaceHexadecimal: "a refusal's place stands in hexadecimal", "`refused`, number, place (both decimal) and A, B or L";
    RefusalFieldsSwapped: "a refusal gives the place before the number", "`refused`, number, place (both decimal) and A, B or L";
    RefusalOfBSaysA: "a refusal of list B says A", "`refused`, number, place (both decimal) and A, B or L";
    RefusalOfLogSaysB: "a refusal of the log says B", "`refused`, number, place (both decimal) and A, B or L";
    RefusalCapital: "a refusal begins with a capital", "`refused`, number, place (both decimal) and A, B or L";
    RefusalLineFeedLost: "a refusal has no line feed", "a line feed ends each line";
    }

    /// Every deviation from request W7, in the order of its sentences: scripts of calls tell them.
    OF_CALLS {
    // Asking.
    AskRefusesWordsBehind: "an ask refuses words behind the list", "The words behind list A are handed on as list B";
    AskCountsWordsBehind: "an ask counts the words behind the list among those used", "The words behind list A are handed on as list B";
    AskRefusesOtherHead: "an ask refuses every head but 51", "W7: the channel tells the refusal, or the fresh causes that a cycle with a given position, inputs and report would have straight after its commit, and keeps the list pending";
    AskByListInForce: "an ask tells the causes by the list in force", "W7: the channel tells the refusal, or the fresh causes that a cycle with a given position, inputs and report would have straight after its commit, and keeps the list pending";
    AskByNewChannel: "an ask tells the causes of a fresh channel with the list", "W7: the channel tells the refusal, or the fresh causes that a cycle with a given position, inputs and report would have straight after its commit, and keeps the list pending";
    AskWithoutCommit: "an ask takes the data alone, without what a commit does besides", "W7: the channel tells the refusal, or the fresh causes that a cycle with a given position, inputs and report would have straight after its commit, and keeps the list pending";
    AskWithoutCuts: "an ask tells the causes with the counts uncut", "W7: the channel tells the refusal, or the fresh causes that a cycle with a given position, inputs and report would have straight after its commit, and keeps the list pending";
    AskByOldK: "an ask tells the causes by the k before the commit", "W7: the channel tells the refusal, or the fresh causes that a cycle with a given position, inputs and report would have straight after its commit, and keeps the list pending";
    AskUsableByListInForce: "an ask takes the inputs as unusable by the list in force too", "W7: the channel tells the refusal, or the fresh causes that a cycle with a given position, inputs and report would have straight after its commit, and keeps the list pending";
    AskComparesOldHead: "an ask compares the report with the head in force", "W7: the channel tells the refusal, or the fresh causes that a cycle with a given position, inputs and report would have straight after its commit, and keeps the list pending";
    AskComparesNoHead: "an ask compares no heads", "W7: the channel tells the refusal, or the fresh causes that a cycle with a given position, inputs and report would have straight after its commit, and keeps the list pending";
    AskComparesOldDatum: "an ask compares the report with the datum in force", "W7: the channel tells the refusal, or the fresh causes that a cycle with a given position, inputs and report would have straight after its commit, and keeps the list pending";
    AskComparesNoDatum: "an ask compares no datum", "W7: the channel tells the refusal, or the fresh causes that a cycle with a given position, inputs and report would have straight after its commit, and keeps the list pending";
    AskComparesNoPosition: "an ask compares no positions", "W7: the channel tells the refusal, or the fresh causes that a cycle with a given position, inputs and report would have straight after its commit, and keeps the list pending";
    AskComparesNoInputs: "an ask compares no inputs", "W7: the channel tells the refusal, or the fresh causes that a cycle with a given position, inputs and report would have straight after its commit, and keeps the list pending";
    AskTells13: "an ask tells 13 too", "W7: the channel tells the refusal, or the fresh causes that a cycle with a given position, inputs and report would have straight after its commit, and keeps the list pending";
    AskTellsRankedOnly: "an ask tells no cause without a rank", "W7: the channel tells the refusal, or the fresh causes that a cycle with a given position, inputs and report would have straight after its commit, and keeps the list pending";
    AskLeavesOut14: "an ask does not tell 14", "W7: the channel tells the refusal, or the fresh causes that a cycle with a given position, inputs and report would have straight after its commit, and keeps the list pending";
    AskLeavesOut9: "an ask does not tell 9", "W7: the channel tells the refusal, or the fresh causes that a cycle with a given position, inputs and report would have straight after its commit, and keeps the list pending";
    AskTellsByCode: "an ask tells the codes by their numbers", "W4: Within a cycle the codes now stand strongest rank first, those without a rank last, and equal ranks by code.";
    AskTellsWeakestFirst: "an ask tells the codes the other way about", "W4: Within a cycle the codes now stand strongest rank first, those without a rank last, and equal ranks by code.";
    AskTellsStrongestOnly: "an ask tells one code", "W7: the channel tells the refusal, or the fresh causes that a cycle with a given position, inputs and report would have straight after its commit, and keeps the list pending";
    AskKeepsNone: "an ask keeps no list", "W7: the channel tells the refusal, or the fresh causes that a cycle with a given position, inputs and report would have straight after its commit, and keeps the list pending";
    AskKeepsFirstList: "a second ask does not take the place of the first", "W7: the channel tells the refusal, or the fresh causes that a cycle with a given position, inputs and report would have straight after its commit, and keeps the list pending";
    AskKeepsNoneWithCauses: "an ask keeps no list that would find a cause", "W7: the channel tells the refusal, or the fresh causes that a cycle with a given position, inputs and report would have straight after its commit, and keeps the list pending";
    AskKeepsNoneUnusable: "an ask keeps no list by which the inputs are unusable", "W7: the channel tells the refusal, or the fresh causes that a cycle with a given position, inputs and report would have straight after its commit, and keeps the list pending";
    AskLeavesDataBehind: "an ask leaves what stands behind the data of a shorter list", "W1: in a shorter list they count as 0";
    AskCounts51: "an ask counts 51 data of every list", "W7: the channel tells the refusal, or the fresh causes that a cycle with a given position, inputs and report would have straight after its commit, and keeps the list pending";
    AskCountsMost: "an ask counts 72 data of every list", "W7: the channel tells the refusal, or the fresh causes that a cycle with a given position, inputs and report would have straight after its commit, and keeps the list pending";
    AskCommits: "an ask commits the list", "W7: the channel tells the refusal, or the fresh causes that a cycle with a given position, inputs and report would have straight after its commit, and keeps the list pending";
    AskRunsCycle: "an ask runs the cycle", "W7: the channel tells the refusal, or the fresh causes that a cycle with a given position, inputs and report would have straight after its commit, and keeps the list pending";
    AskCountsK: "an ask is a cycle for k", "W7: the channel tells the refusal, or the fresh causes that a cycle with a given position, inputs and report would have straight after its commit, and keeps the list pending";
    AskTakesPrevious: "an ask takes the position as the previous one", "W7: the channel tells the refusal, or the fresh causes that a cycle with a given position, inputs and report would have straight after its commit, and keeps the list pending";
    AskSetsF: "an ask sets F", "W7: the channel tells the refusal, or the fresh causes that a cycle with a given position, inputs and report would have straight after its commit, and keeps the list pending";
    AskEndsRun: "an ask ends the run of differing inputs", "W7: the channel tells the refusal, or the fresh causes that a cycle with a given position, inputs and report would have straight after its commit, and keeps the list pending";
    RefusedAskKeepsPending: "a refused ask leaves the list before it pending", "W7: a refused list leaves none pending, all else unaltered";
    RefusedAskClearsArray: "a refused ask clears the array of the list asked about", "W7: a refused list leaves none pending, all else unaltered";
    RefusedAskCountsK: "a refused ask is a cycle for k", "W7: a refused list leaves none pending, all else unaltered";
    RefusedAskForgetsPrevious: "a refused ask forgets the previous position", "W7: a refused list leaves none pending, all else unaltered";
    RefusedAskEndsDelay: "a refused ask ends the count of a lower selection", "W7: a refused list leaves none pending, all else unaltered";
    // Dropping.
    PendingOutlivesSingle: "a single usable cycle leaves the list pending", "W7: Any cycle in between drops it.";
    PendingOutlivesUnusable: "an unusable cycle leaves the list pending", "W7: Any cycle in between drops it.";
    PendingOutlivesSingleUnusable: "a single unusable cycle leaves the list pending", "W7: Any cycle in between drops it.";
    PendingOutlivesAcknowledged: "an acknowledged cycle leaves the list pending", "W7: Any cycle in between drops it.";
    PendingOutlivesLog: "the cycles of a log leave the list pending", "W7: Any cycle in between drops it.";
    PendingOutlivesLogOfA: "the cycles of a log leave the list of A pending", "W7: Any cycle in between drops it.";
    PendingOutlivesLogOfB: "the cycles of a log leave the list of B pending", "W7: Any cycle in between drops it.";
    PendingOutlivesUnusableInLog: "the unusable cycles of a log leave the list pending", "W7: Any cycle in between drops it.";
    PendingOutlivesCycles: "no cycle drops the list", "W7: Any cycle in between drops it.";
    PendingOutlivesList: "an accepted list leaves the one asked about before it pending", "W7: Any cycle in between drops it.";
    PendingDroppedByRefusedList: "a refused list of a new channel drops the one asked about", "list word missing, of wrong kind, number or bits | 1 | place | everything";
    PendingDroppedByEmptyLog: "a log without a cycle drops the list", "W7: Any cycle in between drops it.";
    PendingDroppedByEmptyLogAsB: "a log without a cycle drops the list of B", "W7: Any cycle in between drops it.";
    PendingDroppedBy6: "a log refused with 6 drops the list", "W7: Any cycle in between drops it.";
    PendingDroppedBy7: "a log refused with 7 drops the list", "W7: Any cycle in between drops it.";
    PendingDroppedByRefusedAsB: "a refused log drops the list of B", "W7: Any cycle in between drops it.";
    // Committing: the list.
    CommitStaysPending: "a commit leaves the list pending", "W7: A commit takes the pending list, and an effective SG reads its limit and percent there.";
    CommitTells0: "a commit tells no number of data", "W7: A commit takes the pending list, and an effective SG reads its limit and percent there.";
    CommitLeavesDataBehind: "a commit leaves the data behind those of a shorter list", "W1: in a shorter list they count as 0";
    CommitKeepsCount: "a commit makes a list of 51 data of every one", "W7: A commit takes the pending list, and an effective SG reads its limit and percent there.";
    CommitKeepsSgLimit: "an effective SG keeps its limit", "W7: A commit takes the pending list, and an effective SG reads its limit and percent there.";
    CommitKeepsPercent: "an effective SG keeps its percent", "W7: A commit takes the pending list, and an effective SG reads its limit and percent there.";
    CommitKeepsSgStop: "an effective SG keeps its stop", "W7: A commit takes the pending list, and an effective SG reads its limit and percent there.";
    CommitKeepsT: "a commit leaves T", "W7: A commit takes the pending list, and an effective SG reads its limit and percent there.";
    CommitKeepsFunctions: "a commit leaves the functions", "W7: A commit takes the pending list, and an effective SG reads its limit and percent there.";
    EmptyCommitAccepted: "a commit with nothing pending is accepted", "W7: 8, place 0: commit with nothing pending; the channel is unaltered.";
    EmptyCommitIs7: "a commit with nothing pending is refused with 7", "W7: 8, place 0: commit with nothing pending; the channel is unaltered.";
    EmptyCommitIs1: "a commit with nothing pending is refused with 1", "W7: 8, place 0: commit with nothing pending; the channel is unaltered.";
    EmptyCommitAtCount: "a commit with nothing pending is refused with the number of data as its place", "W7: 8, place 0: commit with nothing pending; the channel is unaltered.";
    EmptyCommitTakesArray: "a commit with nothing pending takes the list asked about last", "W7: 8, place 0: commit with nothing pending; the channel is unaltered.";
    EmptyCommitForgetsPrevious: "a commit with nothing pending forgets the previous position", "W7: 8, place 0: commit with nothing pending; the channel is unaltered.";
    EmptyCommitEndsDelay: "a commit with nothing pending ends the count of a lower selection", "W7: 8, place 0: commit with nothing pending; the channel is unaltered.";
    EmptyCommitKTo0: "a commit with nothing pending puts k to 0", "W7: 8, place 0: commit with nothing pending; the channel is unaltered.";
    // Committing: what goes on.
    CommitMakesNew: "a commit makes a fresh channel", "W7: Rank, hold, F, references, cams, k and, but for what W6 ends with bit 5 off, all else that a channel keeps go on, k from 0 if it is past the new last datum";
    CommitKeepsK: "a commit leaves k past the new last datum", "W7: Rank, hold, F, references, cams, k and, but for what W6 ends with bit 5 off, all else that a channel keeps go on, k from 0 if it is past the new last datum";
    CommitKTo0: "every commit puts k to 0", "W7: Rank, hold, F, references, cams, k and, but for what W6 ends with bit 5 off, all else that a channel keeps go on, k from 0 if it is past the new last datum";
    CommitKTo0ByHead: "a commit of another head puts k to 0", "W7: Rank, hold, F, references, cams, k and, but for what W6 ends with bit 5 off, all else that a channel keeps go on, k from 0 if it is past the new last datum";
    CommitKeepsKAtHead: "a commit leaves k one past the new last datum", "W7: Rank, hold, F, references, cams, k and, but for what W6 ends with bit 5 off, all else that a channel keeps go on, k from 0 if it is past the new last datum";
    CommitLastKTo0: "a commit puts k to 0 at the new last datum", "W7: Rank, hold, F, references, cams, k and, but for what W6 ends with bit 5 off, all else that a channel keeps go on, k from 0 if it is past the new last datum";
    CommitKToLast: "a commit puts k to the new last datum", "W7: Rank, hold, F, references, cams, k and, but for what W6 ends with bit 5 off, all else that a channel keeps go on, k from 0 if it is past the new last datum";
    CommitKByRest: "a commit puts k to what is left of it by the new head", "W7: Rank, hold, F, references, cams, k and, but for what W6 ends with bit 5 off, all else that a channel keeps go on, k from 0 if it is past the new last datum";
    CommitKRises: "a commit is a cycle for k", "W7: Rank, hold, F, references, cams, k and, but for what W6 ends with bit 5 off, all else that a channel keeps go on, k from 0 if it is past the new last datum";
    CommitForgetsPrevious: "a commit forgets the previous position", "W7: Rank, hold, F, references, cams, k and, but for what W6 ends with bit 5 off, all else that a channel keeps go on, k from 0 if it is past the new last datum";
    CommitTakesPreviousAs0: "a commit puts the previous position to 0", "W7: Rank, hold, F, references, cams, k and, but for what W6 ends with bit 5 off, all else that a channel keeps go on, k from 0 if it is past the new last datum";
    CommitPutsCamsTo0: "a commit puts the cams to 0", "W7: Rank, hold, F, references, cams, k and, but for what W6 ends with bit 5 off, all else that a channel keeps go on, k from 0 if it is past the new last datum";
    CommitPutsCamsTo0ByFunction: "a commit without function 2 puts the cams to 0", "W7: Rank, hold, F, references, cams, k and, but for what W6 ends with bit 5 off, all else that a channel keeps go on, k from 0 if it is past the new last datum";
    CommitPutsNxTo0: "a commit puts the value of n<nx to 0", "W7: Rank, hold, F, references, cams, k and, but for what W6 ends with bit 5 off, all else that a channel keeps go on, k from 0 if it is past the new last datum";
    CommitPutsNxTo0ByFunction: "a commit without function 3 puts value and run of n<nx to 0", "W7: Rank, hold, F, references, cams, k and, but for what W6 ends with bit 5 off, all else that a channel keeps go on, k from 0 if it is past the new last datum";
    CommitEndsSelection: "a commit ends the effective selection", "W7: Rank, hold, F, references, cams, k and, but for what W6 ends with bit 5 off, all else that a channel keeps go on, k from 0 if it is past the new last datum";
    CommitEndsSelectionByFunction: "a commit without function 0 ends the effective selection at once", "W7: Rank, hold, F, references, cams, k and, but for what W6 ends with bit 5 off, all else that a channel keeps go on, k from 0 if it is past the new last datum";
    CommitNextIsFirst: "the first selection after a commit becomes effective at once", "W7: Rank, hold, F, references, cams, k and, but for what W6 ends with bit 5 off, all else that a channel keeps go on, k from 0 if it is past the new last datum";
    CommitLosesOverride: "a commit takes the override number as 0", "W7: Rank, hold, F, references, cams, k and, but for what W6 ends with bit 5 off, all else that a channel keeps go on, k from 0 if it is past the new last datum";
    CommitLosesSbhReference: "a commit puts the reference of SBH to 0", "W7: Rank, hold, F, references, cams, k and, but for what W6 ends with bit 5 off, all else that a channel keeps go on, k from 0 if it is past the new last datum";
    CommitPutsFOff: "a commit puts F off", "W7: Rank, hold, F, references, cams, k and, but for what W6 ends with bit 5 off, all else that a channel keeps go on, k from 0 if it is past the new last datum";
    CommitPutsFOn: "a commit puts F on", "W7: Rank, hold, F, references, cams, k and, but for what W6 ends with bit 5 off, all else that a channel keeps go on, k from 0 if it is past the new last datum";
    CommitClears: "a commit clears the stop", "W7: A commit never lowers a stop";
    CommitClearsBraking: "a commit clears a stop that is not held", "W7: A commit never lowers a stop";
    CommitLowersA: "a commit makes STOP B of STOP A", "W7: A commit never lowers a stop";
    CommitLowersToStopOfSg1: "a commit lowers the rank to the stop of SG1", "W7: A commit never lowers a stop";
    CommitReleasesHold: "a commit begins the time of a held stop anew", "W7: Rank, hold, F, references, cams, k and, but for what W6 ends with bit 5 off, all else that a channel keeps go on, k from 0 if it is past the new last datum";
    CommitLosesHoldReference: "a commit puts the hold's reference to 0", "W7: Rank, hold, F, references, cams, k and, but for what W6 ends with bit 5 off, all else that a channel keeps go on, k from 0 if it is past the new last datum";
    CommitKeepsDirections: "a commit without function 5 leaves runs and watches", "W7: Rank, hold, F, references, cams, k and, but for what W6 ends with bit 5 off, all else that a channel keeps go on, k from 0 if it is past the new last datum";
    CommitEndsDirectionsInCycle: "a commit without function 5 leaves runs and watches to the next cycle", "W7: Rank, hold, F, references, cams, k and, but for what W6 ends with bit 5 off, all else that a channel keeps go on, k from 0 if it is past the new last datum";
    CommitEndsDirectionsBelow72: "a commit without function 5 ends runs and watches in a shorter list only", "W7: Rank, hold, F, references, cams, k and, but for what W6 ends with bit 5 off, all else that a channel keeps go on, k from 0 if it is past the new last datum";
    CommitEndsDirectionsAt72: "a commit without function 5 ends runs and watches in a list of 72 data only", "W7: Rank, hold, F, references, cams, k and, but for what W6 ends with bit 5 off, all else that a channel keeps go on, k from 0 if it is past the new last datum";
    CommitKeepsWatches: "a commit without function 5 ends the runs alone", "W7: Rank, hold, F, references, cams, k and, but for what W6 ends with bit 5 off, all else that a channel keeps go on, k from 0 if it is past the new last datum";
    CommitKeepsDirectionRuns: "a commit without function 5 ends the watches alone", "W7: Rank, hold, F, references, cams, k and, but for what W6 ends with bit 5 off, all else that a channel keeps go on, k from 0 if it is past the new last datum";
    CommitKeepsPositive: "a commit without function 5 ends run and watch of the negative direction alone", "W7: Rank, hold, F, references, cams, k and, but for what W6 ends with bit 5 off, all else that a channel keeps go on, k from 0 if it is past the new last datum";
    CommitKeepsNegative: "a commit without function 5 ends run and watch of the positive direction alone", "W7: Rank, hold, F, references, cams, k and, but for what W6 ends with bit 5 off, all else that a channel keeps go on, k from 0 if it is past the new last datum";
    CommitEndsDirections: "every commit ends runs and watches of safe direction", "W7: Rank, hold, F, references, cams, k and, but for what W6 ends with bit 5 off, all else that a channel keeps go on, k from 0 if it is past the new last datum";
    CommitEndsWatches: "every commit ends the watches of safe direction", "W7: Rank, hold, F, references, cams, k and, but for what W6 ends with bit 5 off, all else that a channel keeps go on, k from 0 if it is past the new last datum";
    CommitEndsDirectionRuns: "every commit ends the runs of safe direction", "W7: Rank, hold, F, references, cams, k and, but for what W6 ends with bit 5 off, all else that a channel keeps go on, k from 0 if it is past the new last datum";
    CommitBeginsWatchesAnew: "a commit begins and ends watches by the new delay", "W7: Rank, hold, F, references, cams, k and, but for what W6 ends with bit 5 off, all else that a channel keeps go on, k from 0 if it is past the new last datum";
    CommitSetsExtremes: "a commit puts the extremes to the previous position", "W7: Rank, hold, F, references, cams, k and, but for what W6 ends with bit 5 off, all else that a channel keeps go on, k from 0 if it is past the new last datum";
    // Committing: what is cut.
    CommitEndsRun: "a commit ends the run of differing inputs", "W7: falling counts above the new datum are cut to it, runs are not";
    CommitCutsRun: "a commit cuts the run of differing inputs to datum 28", "W7: falling counts above the new datum are cut to it, runs are not";
    CommitEndsNxRun: "a commit ends the run of n<nx", "W7: falling counts above the new datum are cut to it, runs are not";
    CommitCutsNxRun: "a commit cuts the run of n<nx to datum 68", "W7: falling counts above the new datum are cut to it, runs are not";
    CommitCutsDirectionRuns: "a commit cuts the runs of safe direction to datum 70", "W7: falling counts above the new datum are cut to it, runs are not";
    CommitKeepsDelay: "a commit leaves the count of a lower selection", "W7: falling counts above the new datum are cut to it, runs are not";
    CommitSetsDelay: "a commit sets the count of a lower selection anew", "W7: falling counts above the new datum are cut to it, runs are not";
    CommitRaisesDelayOnly: "a commit raises the count of a lower selection to datum 27", "W7: falling counts above the new datum are cut to it, runs are not";
    CommitBeginsDelay: "a commit begins a count of a lower selection where none runs", "W7: falling counts above the new datum are cut to it, runs are not";
    CommitEndsDelay: "a commit ends the count of a lower selection", "W7: falling counts above the new datum are cut to it, runs are not";
    CommitCutsDelayTo0: "a commit cuts the count of a lower selection to 0, from where it is set anew", "W7: falling counts above the new datum are cut to it, runs are not";
    CommitCutsDelayTo1More: "a commit cuts the count of a lower selection to one more than datum 27", "W7: falling counts above the new datum are cut to it, runs are not";
    CommitCutsDelayTo1Less: "a commit cuts the count of a lower selection to one less than datum 27", "W7: falling counts above the new datum are cut to it, runs are not";
    CommitLessensDelay: "a commit takes from the count of a lower selection what datum 27 is less", "W7: falling counts above the new datum are cut to it, runs are not";
    CommitKeepsFCount: "a commit leaves F's count", "W7: falling counts above the new datum are cut to it, runs are not";
    CommitCutsFCountOnlyOn: "a commit cuts F's count only while F is on", "W7: falling counts above the new datum are cut to it, runs are not";
    CommitSetsFCount: "a commit sets F's count anew", "W7: falling counts above the new datum are cut to it, runs are not";
    CommitSetsFCountAbove0: "a commit sets F's count anew while it runs", "W7: falling counts above the new datum are cut to it, runs are not";
    CommitCutsFCountTo1: "a commit cuts F's count to 1 at least", "W7: falling counts above the new datum are cut to it, runs are not";
    CommitCutsFCountTo1More: "a commit cuts F's count to one more than datum 34", "W7: falling counts above the new datum are cut to it, runs are not";
    CommitCutsFCountTo1Less: "a commit cuts F's count to one less than datum 34", "W7: falling counts above the new datum are cut to it, runs are not";
    CommitPutsFCountTo0: "a commit puts F's count to 0", "W7: falling counts above the new datum are cut to it, runs are not";
    CommitCutsFCountByB: "a commit cuts F's count to datum 32", "W7: falling counts above the new datum are cut to it, runs are not";
    CommitKeepsStopCount: "a commit leaves a stop's count", "W7: falling counts above the new datum are cut to it, runs are not";
    CommitKeepsCountOfC: "a commit leaves the count of STOP C", "W7: falling counts above the new datum are cut to it, runs are not";
    CommitKeepsCountOfD: "a commit leaves the count of STOP D", "W7: falling counts above the new datum are cut to it, runs are not";
    CommitKeepsCountOfE: "a commit leaves the count of STOP E", "W7: falling counts above the new datum are cut to it, runs are not";
    CommitKeepsCountOfB: "a commit leaves the count of STOP B", "W7: falling counts above the new datum are cut to it, runs are not";
    CommitSetsStopCount: "a commit sets a stop's count anew", "W7: falling counts above the new datum are cut to it, runs are not";
    CommitSetsStopCountAbove0: "a commit sets a stop's count anew while it runs", "W7: falling counts above the new datum are cut to it, runs are not";
    CommitPutsStopCountTo0: "a commit puts a stop's count to 0", "W7: falling counts above the new datum are cut to it, runs are not";
    CommitCutsStopCountTo1: "a commit cuts a stop's count to 1 at least", "W7: falling counts above the new datum are cut to it, runs are not";
    CommitCutsStopCountTo1More: "a commit cuts a stop's count to one more than its datum", "W7: falling counts above the new datum are cut to it, runs are not";
    CommitCutsStopCountTo1Less: "a commit cuts a stop's count to one less than its datum", "W7: falling counts above the new datum are cut to it, runs are not";
    CommitCutsStopCountByC: "a commit cuts a stop's count to the time of C", "W7: falling counts above the new datum are cut to it, runs are not";
    CommitCutsStopCountByB: "a commit cuts a stop's count to the time of B", "W7: falling counts above the new datum are cut to it, runs are not";
    CommitCutsTimesDAndESwapped: "a commit cuts the count of D to the time of E, and that of E to the time of D", "W7: falling counts above the new datum are cut to it, runs are not";
    CommitRaisesToA: "STOP B becomes A at the commit that cuts its count to 0", "In the first cycle where the count is 0, entry included, C, D and E are held with the position as reference, and B becomes A.";
    CommitHoldsAt0: "C, D and E are held at the commit that cuts their count to 0", "In the first cycle where the count is 0, entry included, C, D and E are held with the position as reference, and B becomes A.";
    }
}
