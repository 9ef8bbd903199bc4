//! The proved monitor's libraries as they are linked: those of now and, with the feature `before`, earlier ones beside them.

use model::channel::image::Image;
use model::log::Side;
use model::machine_data::COUNT;
use model::proved::{self, archive, Channel};

type RunKit = unsafe extern "C" fn(*const u32, usize, *mut u32, usize, *mut [u64; 3]) -> usize;

type Cycle = unsafe extern "C" fn(
    *const [i32; COUNT],
    *mut Image,
    i32,
    u32,
    u32,
    *const [u32; 4],
    *mut [u8; 13],
) -> u32;

/// What is timed of the archives.
#[derive(Clone, Copy)]
pub struct Library {
    run_kit: RunKit,
    cycle: Cycle,
}

/// The libraries of now.
pub const NOW: Library = Library {
    run_kit: archive::monitor_run_kit,
    cycle: archive::monitor_cycle,
};

/// The earlier ones, if they are linked.
#[cfg(not(feature = "before"))]
pub fn before() -> Result<Option<Library>, String> {
    Ok(None)
}

/// The first interface whose arrays begin all later ones': what is lent to a library of today can be lent to it, too.
#[cfg(feature = "before")]
const BEGINS_LATER_ONES: u32 = 5;

/// The earlier ones.
#[cfg(feature = "before")]
pub fn before() -> Result<Option<Library>, String> {
    // SAFETY: nothing is lent.
    let interface = unsafe { earlier::before_monitor_interface() };
    match (BEGINS_LATER_ONES..=proved::interface()).contains(&interface) {
        true => Ok(Some(Library {
            run_kit: earlier::before_monitor_run_kit,
            cycle: earlier::before_monitor_cycle,
        })),
        false => Err(format!("the libraries before have interface {interface}")),
    }
}

/// The earlier functions under the names that `build.rs` gives them.
#[cfg(feature = "before")]
mod earlier {
    use super::{Image, COUNT};

    extern "C" {
        pub fn before_monitor_interface() -> u32;
        pub fn before_monitor_run_kit(
            words: *const u32,
            words_len: usize,
            out: *mut u32,
            out_len: usize,
            told: *mut [u64; 3],
        ) -> usize;
        pub fn before_monitor_cycle(
            data: *const [i32; COUNT],
            state: *mut Image,
            position: i32,
            inputs: u32,
            acknowledged: u32,
            report: *const [u32; 4],
            causes: *mut [u8; 13],
        ) -> u32;
    }
}

impl Library {
    /// The number of cycles of a kit's log, 0 of one that is refused.
    pub fn run_kit(&self, words: &[u32], output: &mut [u32]) -> usize {
        let mut told = [0; 3];
        let (out, room) = (output.as_mut_ptr(), output.len());
        // SAFETY: all three are lent for the call, and what is written to nobody else.
        unsafe { (self.run_kit)(words.as_ptr(), words.len(), out, room, &mut told) }
    }

    /// A channel's cycle.
    pub fn cycle(
        &self,
        channel: &mut Channel,
        given: Side,
        acknowledged: bool,
        report: &[u32; 4],
    ) -> proved::Cycle {
        let Channel { data, state, .. } = channel;
        let Side { position, inputs } = given;
        let acknowledged = acknowledged.into();
        let mut codes = [0; 13];
        // SAFETY: all are lent for the call, and what is written to nobody else.
        let word = unsafe {
            (self.cycle)(
                data,
                state,
                position,
                inputs,
                acknowledged,
                report,
                &mut codes,
            )
        };
        proved::Cycle { word, codes }
    }
}
