//! The proved monitor, linked as a static library: its functions for other programs.

use crate::channel::image::{Image, WORDS};
use crate::channel::Report;
use crate::list::Refusal;
use crate::listing::{self, Part};
use crate::machine_data::COUNT;

/// The monitor's own functions, as `include/axis_monitor.h` declares them. Each is proved for any
/// memory that is lent to it whole, which a slice or an array is, and written memory to it alone.
pub mod archive {
    use super::{Image, COUNT};

    extern "C" {
        pub fn monitor_interface() -> u32;
        pub fn monitor_read_list(
            words: *const u32,
            words_len: usize,
            data: *mut [i32; COUNT],
            state: *mut Image,
            at: *mut usize,
        ) -> u32;
        pub fn monitor_report(
            data: *const [i32; COUNT],
            state: *const Image,
            position: i32,
            inputs: u32,
            report: *mut [u32; 4],
        );
        pub fn monitor_cycle(
            data: *const [i32; COUNT],
            state: *mut Image,
            position: i32,
            inputs: u32,
            acknowledged: u32,
            report: *const [u32; 4],
            causes: *mut [u8; 13],
        ) -> u32;
        pub fn monitor_device_word(a: u32, b: u32) -> u32;
        pub fn monitor_ask(
            words: *const u32,
            words_len: usize,
            state: *mut Image,
            pending: *mut [i32; COUNT],
            position: i32,
            inputs: u32,
            report: *const [u32; 4],
            causes: *mut [u8; 13],
            at: *mut usize,
        ) -> u32;
        pub fn monitor_commit(
            data: *mut [i32; COUNT],
            state: *mut Image,
            pending: *const [i32; COUNT],
            at: *mut usize,
        ) -> u32;
        pub fn monitor_run_log(
            data_a: *const [i32; COUNT],
            state_a: *mut Image,
            data_b: *const [i32; COUNT],
            state_b: *mut Image,
            words: *const u32,
            words_len: usize,
            out: *mut u32,
            out_len: usize,
            at: *mut usize,
        ) -> u32;
        pub fn monitor_list_kit(
            kit: *const u8,
            kit_len: usize,
            out: *mut u8,
            out_len: usize,
        ) -> usize;
        pub fn monitor_run_kit(
            words: *const u32,
            words_len: usize,
            out: *mut u32,
            out_len: usize,
            told: *mut [u64; 3],
        ) -> usize;
    }
}

/// The number of the interface.
pub fn interface() -> u32 {
    // SAFETY: nothing is lent.
    unsafe { archive::monitor_interface() }
}

/// The device word of two channel words.
#[inline]
pub fn device_word(a: u32, b: u32) -> u32 {
    // SAFETY: nothing is lent.
    unsafe { archive::monitor_device_word(a, b) }
}

/// A channel as its caller keeps it.
#[derive(Clone, Copy, Debug, PartialEq, Eq)]
pub struct Channel {
    pub data: [i32; COUNT],
    pub state: Image,
    /// The list asked about.
    pub pending: [i32; COUNT],
}

/// What a cycle gives: the channel word, and the codes that stand with 0 behind them.
#[derive(Clone, Copy, Debug, PartialEq, Eq)]
pub struct Cycle {
    pub word: u32,
    pub codes: [u8; 13],
}

impl Channel {
    /// No list.
    pub const NONE: Channel = Channel {
        data: [0; COUNT],
        state: [0; WORDS],
        pending: [0; COUNT],
    };

    /// The channel of a list, and how many words it has. A refused one leaves it as it was.
    #[inline]
    pub fn read_list(&mut self, words: &[u32]) -> Result<usize, Refusal> {
        let mut at = usize::MAX;
        // SAFETY: all are lent for the call, and what is written to nobody else.
        let number = unsafe {
            archive::monitor_read_list(
                words.as_ptr(),
                words.len(),
                &mut self.data,
                &mut self.state,
                &mut at,
            )
        };
        answer(number, at)
    }

    /// Its report of a cycle.
    #[inline]
    pub fn report(&self, position: i32, inputs: u32) -> [u32; 4] {
        let mut report = [u32::MAX; 4];
        // SAFETY: all are lent for the call, and what is written to nobody else.
        unsafe {
            archive::monitor_report(&self.data, &self.state, position, inputs, &mut report);
        }
        report
    }

    /// A cycle; any number but 0 acknowledges.
    #[inline]
    pub fn cycle(
        &mut self,
        position: i32,
        inputs: u32,
        acknowledged: u32,
        report: &[u32; 4],
    ) -> Cycle {
        let mut codes = [u8::MAX; 13];
        // SAFETY: all are lent for the call, and what is written to nobody else.
        let word = unsafe {
            archive::monitor_cycle(
                &self.data,
                &mut self.state,
                position,
                inputs,
                acknowledged,
                report,
                &mut codes,
            )
        };
        Cycle { word, codes }
    }

    /// How many words a list has that is asked about; the codes of the fresh causes are then those of a cycle straight after its
    /// commit. A refused one leaves none pending, and the codes as they were.
    pub fn ask(
        &mut self,
        words: &[u32],
        position: i32,
        inputs: u32,
        report: &[u32; 4],
        codes: &mut [u8; 13],
    ) -> Result<usize, Refusal> {
        let mut at = usize::MAX;
        // SAFETY: all are lent for the call, and what is written to nobody else.
        let number = unsafe {
            archive::monitor_ask(
                words.as_ptr(),
                words.len(),
                &mut self.state,
                &mut self.pending,
                position,
                inputs,
                report,
                codes,
                &mut at,
            )
        };
        answer(number, at)
    }

    /// How many data the list has that was pending and is in force now. With none pending it leaves the channel as it was.
    pub fn commit(&mut self) -> Result<usize, Refusal> {
        let mut at = usize::MAX;
        // SAFETY: all are lent for the call, and what is written to nobody else.
        let number = unsafe {
            archive::monitor_commit(&mut self.data, &mut self.state, &self.pending, &mut at)
        };
        answer(number, at)
    }
}

/// The number of cycles of a log, 3 words each at the front of the output. A refused one leaves
/// the output and both channels as they were.
#[inline]
pub fn run_log(
    a: &mut Channel,
    b: &mut Channel,
    words: &[u32],
    output: &mut [u32],
) -> Result<usize, Refusal> {
    let mut at = usize::MAX;
    // SAFETY: all are lent for the call, and what is written to nobody else.
    let number = unsafe {
        archive::monitor_run_log(
            &a.data,
            &mut a.state,
            &b.data,
            &mut b.state,
            words.as_ptr(),
            words.len(),
            output.as_mut_ptr(),
            output.len(),
            &mut at,
        )
    };
    answer(number, at)
}

/// A refusal's number and place, or with 0 what else is told.
fn answer(number: u32, at: usize) -> Result<usize, Refusal> {
    match number {
        0 => Ok(at),
        _ => Err(Refusal { number, place: at }),
    }
}

/// A report as it is lent.
pub fn lent(report: Report) -> [u32; 4] {
    let Report {
        position,
        inputs,
        datum,
        head,
    } = report;
    [position as u32, inputs, datum as u32, head as u32]
}

/// The length of a kit's text. It stands at the front of the buffer if there is room, else
/// the buffer is left as it was.
#[inline]
pub fn list_kit(kit: &[u8], buffer: &mut [u8]) -> usize {
    // SAFETY: both slices are lent for the call, and the buffer to nobody else.
    unsafe { archive::monitor_list_kit(kit.as_ptr(), kit.len(), buffer.as_mut_ptr(), buffer.len()) }
}

/// The number of cycles of a kit's log, 3 words each at the front of the output. A kit that is
/// refused, also for an output that is too short, leaves the output as it was.
#[inline]
pub fn run_kit(words: &[u32], output: &mut [u32]) -> Result<usize, Refused> {
    let mut told = [0; 3];
    // SAFETY: all three are lent for the call, and what is written to nobody else.
    let cycles = unsafe {
        archive::monitor_run_kit(
            words.as_ptr(),
            words.len(),
            output.as_mut_ptr(),
            output.len(),
            &mut told,
        )
    };
    match told {
        [0, 0, 0] => Ok(cycles),
        [number, place, letter] => Err(Refused {
            number,
            place,
            letter,
        }),
    }
}

/// A refusal as the monitor tells it.
#[derive(Clone, Copy, Debug, PartialEq, Eq)]
pub struct Refused {
    pub number: u64,
    pub place: u64,
    pub letter: u64,
}

impl From<listing::Refused> for Refused {
    fn from(refused: listing::Refused) -> Refused {
        let letter = match refused.part {
            Part::A => b'A',
            Part::B => b'B',
            Part::L => b'L',
        };
        Refused {
            number: refused.refusal.number.into(),
            place: refused.refusal.place as u64,
            letter: letter.into(),
        }
    }
}

/// Room for every text: a line takes 25 bytes at most, and its record 28 bytes of the kit.
const LONGEST_TEXT: usize = crate::listing::LARGEST;

/// A kit's text.
pub fn text(kit: &[u8]) -> Vec<u8> {
    let mut text = vec![0; LONGEST_TEXT];
    let length = list_kit(kit, &mut text);
    text.truncate(length);
    text
}
