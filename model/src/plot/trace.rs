//! A kit's run, cycle by cycle: what the lanes of a picture are made of.

use crate::causes::Causes;
use crate::channel::{Channel, Cycle};
use crate::gear::{Ratio, GEAR_BITS};
use crate::listing::{self, Refused};
use crate::log::{self, Side};
use crate::machine_data::MachineData;
use crate::selection::Selection;
use crate::{device, Paper};

/// One cycle of the device.
#[derive(Clone, Debug)]
pub struct Seen {
    pub a: Channelled,
    pub b: Channelled,
    pub acknowledged: bool,
    /// The device word.
    pub device: u32,
}

/// One cycle of a channel.
#[derive(Clone, Debug)]
pub struct Channelled {
    pub position: i32,
    /// "d = position less previous position", in a usable cycle.
    pub d: Option<i64>,
    /// The gear that the inputs pick, in a usable cycle.
    pub gear: Option<Gear>,
    /// What the inputs select, in a usable cycle.
    pub selected: Option<Selection>,
    /// The channel before the cycle and after it.
    pub before: Channel,
    pub after: Channel,
    pub causes: Causes,
    /// The channel word.
    pub word: u32,
    /// Acknowledged without a fresh cause.
    pub clears: bool,
}

/// A gear: its number, and its ratio.
#[derive(Clone, Copy, Debug, PartialEq, Eq, PartialOrd, Ord)]
pub struct Gear {
    pub number: u32,
    pub numerator: i64,
    pub denominator: i64,
}

impl Gear {
    fn of(data: &MachineData, inputs: u32) -> Gear {
        let ratio = Ratio::of(Paper, data, inputs);
        Gear {
            number: (inputs & GEAR_BITS) >> 8,
            numerator: ratio.step(Paper, 1),
            denominator: ratio.bound(1),
        }
    }
}

/// All cycles of a kit, if it is accepted.
pub fn of(kit: &[u8]) -> Result<Vec<Seen>, Refused> {
    let listing::Accepted {
        mut a,
        mut b,
        records,
    } = listing::accept(kit)?;
    let seen = records.into_iter().map(|record| {
        let before = (a, b);
        let (of_a, of_b) = log::both(Paper, &mut a, &mut b, record);
        let acknowledged = record.acknowledged;
        Seen {
            a: Channelled::new(before.0, a, record.a, of_a, acknowledged),
            b: Channelled::new(before.1, b, record.b, of_b, acknowledged),
            acknowledged,
            device: device::word(of_a.word, of_b.word),
        }
    });
    Ok(seen.collect())
}

impl Channelled {
    fn new(before: Channel, after: Channel, side: Side, cycle: Cycle, acknowledged: bool) -> Self {
        let Cycle { word, causes } = cycle;
        let usable = !causes.stands(1);
        let step = |previous| i64::from(side.position) - i64::from(previous);
        Channelled {
            position: side.position,
            d: usable.then(|| before.previous().map_or(0, step)),
            gear: usable.then(|| Gear::of(after.data(), side.inputs)),
            selected: usable.then(|| Selection::of(Paper, after.data(), side.inputs)),
            before,
            after,
            causes,
            word,
            clears: acknowledged && !causes.any_fresh(),
        }
    }

    /// The selection that is effective in this cycle.
    pub fn effective(&self) -> Selection {
        self.after.selections().effective
    }
}
