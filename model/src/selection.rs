//! Step 3 of a cycle: what is selected, and which selection is effective.

use crate::channel::bit;
use crate::deviation::{paper, Reading};
use crate::gear::Ratio;
use crate::machine_data::{number, Function, MachineData};

/// What the safe inputs select.
#[derive(Clone, Copy, Debug, PartialEq, Eq)]
pub enum Selection {
    /// Neither SBH nor SG.
    Nothing,
    /// "A selection of an SG is its number with its override number."
    Sg {
        /// The SG's number less one, 0 to 3.
        sg: u8,
        /// The override number, 0 to 15.
        override_number: u8,
    },
    /// Safe standstill.
    Sbh,
}

impl Selection {
    /// "Selected: nothing if function 0 is off or input bit 0 is 1; else SBH if bit 1 is 0; else that SG."
    #[inline]
    pub fn of<R: Reading>(r: R, data: &MachineData, inputs: u32) -> Selection {
        let off = paper!(r, !data.has(r, Function::SbhSg),
            SelectionFunctionIgnored => false);
        let nothing = paper!(r, bit(inputs, 0),
            Bit0Ignored => false,
            Bit0Turned => !bit(inputs, 0),
            SbhBeforeBit0 => bit(inputs, 0) && bit(inputs, 1));
        let sbh = paper!(r, !bit(inputs, 1),
            Bit1Turned => bit(inputs, 1));
        if off || nothing {
            Selection::Nothing
        } else if sbh {
            Selection::Sbh
        } else {
            Selection::sg_of(r, inputs)
        }
    }

    /// "3-4 SG number less one", "28-31 override"
    #[inline]
    fn sg_of<R: Reading>(r: R, inputs: u32) -> Selection {
        let sg = (inputs >> 3 & 3) as u8;
        let override_number = (inputs >> 28) as u8;
        Selection::Sg {
            sg: paper!(r, sg, SgBitsSwapped => sg >> 1 | (sg & 1) << 1),
            override_number: paper!(r, override_number, OverrideBitsTurned => 15 - override_number),
        }
    }

    /// "The override applies to SG2 and SG4 only; others have 100."
    #[inline]
    pub fn percent<R: Reading>(r: R, data: &MachineData, sg: u8, override_number: u8) -> i32 {
        let applies = paper!(r, sg & 1 == 1,
            OverrideOnSg1 => sg != 2,
            OverrideOnSg3 => sg != 0,
            NoOverrideOnSg2 => sg == 3,
            NoOverrideOnSg4 => sg == 1);
        if applies {
            data.get(number::OVERRIDE + usize::from(override_number & 15))
        } else {
            100
        }
    }

    /// "SG by limit × percent"
    #[inline]
    pub fn limit_percent<R: Reading>(r: R, data: &MachineData, sg: u8, override_number: u8) -> i64 {
        let limit = data.get(number::SG_LIMIT + usize::from(sg & 3));
        i64::from(limit) * i64::from(Selection::percent(r, data, sg, override_number))
    }

    /// "Order: nothing, SG by limit × percent, SBH strictest.": the less, the stricter.
    #[inline]
    pub fn leeway<R: Reading>(self, r: R, data: &MachineData) -> i64 {
        match self {
            Selection::Nothing => paper!(r, i64::MAX,
                NothingStrictest => -1),
            Selection::Sg {
                sg,
                override_number,
            } => paper!(r, Selection::limit_percent(r, data, sg, override_number),
                OrderByLimit => data.get(number::SG_LIMIT + usize::from(sg & 3)).into(),
                OrderByNumber => 5 - i64::from(sg)),
            Selection::Sbh => paper!(r, 0,
                SbhLeastStrict => i64::MAX - 1),
        }
    }

    /// "A stricter one": whether this selection is stricter than the other.
    #[inline]
    pub fn stricter<R: Reading>(self, r: R, data: &MachineData, other: Selection) -> bool {
        paper!(r, self.leeway(r, data) < other.leeway(r, data),
        EqualIsLowering => match (self, other) {
            (Selection::Sg { sg, .. }, Selection::Sg { sg: before, .. }) if sg != before =>
                self.leeway(r, data) <= other.leeway(r, data),
            _ => self.leeway(r, data) < other.leeway(r, data),
        })
    }
}

/// The selections of a channel: the effective one, and the count of a lower one.
#[derive(Clone, Copy, Debug, PartialEq, Eq)]
pub struct Selections {
    /// The effective selection.
    pub effective: Selection,
    /// Whether there was a usable selection.
    pub any_yet: bool,
    /// "A stricter one sets a count to datum 27": 0 while no lower selection waits.
    pub count: i64,
    /// "its reference is the position, kept while SBH is effective"
    pub reference: i32,
    /// Of deviations only: the selection that waits, and the position of its choice; the present
    /// ratio, and that of the effective selection; what was effective in the cycle before,
    /// whether something is active in the other channel, and whether there is a previous position.
    waiting: Selection,
    chosen_at: i32,
    referenced: bool,
    pub ratio: Ratio,
    pub bound_by: Ratio,
    pub before: Selection,
    pub other_active: bool,
    pub has_previous: bool,
}

impl Selections {
    /// "A fresh channel has .. nothing effective"
    pub const FRESH: Selections = Selections {
        effective: Selection::Nothing,
        any_yet: false,
        count: 0,
        reference: 0,
        waiting: Selection::Nothing,
        chosen_at: 0,
        referenced: false,
        ratio: Ratio::ONE,
        bound_by: Ratio::ONE,
        before: Selection::Nothing,
        other_active: false,
        has_previous: false,
    };

    /// "counts, runs, F, selections, references and cams stay"
    #[inline]
    pub fn unusable<R: Reading>(&mut self, r: R) {
        paper!(r, (),
            UnusableDelayFalls => self.count = (self.count - 1).max(1).min(self.count),
            UnusableDelayEnds => self.count = 0,
            UnusableSelectionLost => self.effective = Selection::Nothing,
            UnusableNextIsFirst => self.any_yet = false,
            UnusableReferenceAnew => self.referenced = false)
    }

    /// "5. Acknowledged and no fresh cause: rank 0, not held, F off.", and nothing of the selections.
    #[inline]
    pub fn cleared<R: Reading>(&mut self, r: R, position: i32) {
        paper!(r, (),
            ClearEndsDelay => self.count = 0,
            ClearSetsReference => self.reference = position)
    }

    /// Step 3: the selection of this cycle, and which is effective by it.
    #[inline]
    pub fn advance<R: Reading>(
        &mut self,
        r: R,
        data: &MachineData,
        selected: Selection,
        position: i32,
    ) {
        let was_sbh = self.effective == Selection::Sbh;
        paper!(r, (), ActiveByCycleBefore => self.before = self.effective);
        if self.at_once(r, data, selected) {
            self.bind(r, selected);
        } else {
            self.count_down(r, data, selected, position);
        }
        self.take_reference(r, was_sbh, position);
        paper!(r, (),
            OrderScaled => if self.count == 0 { self.bound_by = self.ratio },
            RatioWaits => if self.count == 0 { self.bound_by = self.ratio });
    }

    /// "The first usable selection becomes effective immediately, as does a later one that is no stricter."
    #[inline]
    fn at_once<R: Reading>(&mut self, r: R, data: &MachineData, selected: Selection) -> bool {
        let first = paper!(r, !self.any_yet,
            FirstDelayed => false);
        self.any_yet = paper!(r, true,
            FirstIsNotNothing => self.any_yet || selected != Selection::Nothing);
        let stricter = paper!(r, selected.stricter(r, data, self.effective),
            OrderScaled => self.stricter_by_ratio(r, data, selected));
        paper!(r, first || !stricter,
            LooserDelayed => first || selected == self.effective,
            StricterAtOnce => true,
            SbhAtOnce => first || !stricter || selected == Selection::Sbh)
    }

    /// "A selection no stricter ends the count."
    #[inline]
    fn bind<R: Reading>(&mut self, r: R, selected: Selection) {
        self.effective = selected;
        self.count = paper!(r, 0,
            LooserKeepsCount => self.count);
    }

    /// "sets a count to datum 27; the count falls in later usable cycles and is not set anew by a further lowering"
    #[inline]
    fn count_down<R: Reading>(
        &mut self,
        r: R,
        data: &MachineData,
        selected: Selection,
        position: i32,
    ) {
        let starts = paper!(r, self.count == 0,
            DelaySetAnew => self.count == 0 || selected.stricter(r, data, self.waiting),
            PartWayUpEndsCount => self.count == 0 || self.waiting.stricter(r, data, selected));
        let delay = i64::from(data.get(number::DELAY));
        let count = paper!(r, if starts { delay } else { self.count - 1 },
            DelayOneMore => if starts { delay + 1 } else { self.count - 1 },
            DelayOneLess => if starts { (delay - 1).max(0) } else { self.count - 1 },
            DelayZeroNextCycle => if starts { delay.max(1) } else { self.count - 1 });
        self.remember(r, starts, selected, position);
        self.count = count;
        if count == 0 {
            self.effective = paper!(r, selected,
                FirstLoweringBinds => self.waiting);
        }
    }

    /// "When SBH becomes effective and was not so before, its reference is the position"
    #[inline]
    fn take_reference<R: Reading>(&mut self, r: R, was_sbh: bool, position: i32) {
        let becomes = paper!(r, self.effective == Selection::Sbh && !was_sbh,
            SbhReferenceForever => self.effective == Selection::Sbh && !self.referenced,
            UnusableReferenceAnew => self.effective == Selection::Sbh && (!was_sbh || !self.referenced));
        if becomes {
            self.reference = paper!(r, position,
                SbhReferenceFromSelection => if self.waiting == Selection::Sbh { self.chosen_at } else { position });
            paper!(r, (),
                SbhReferenceForever => self.referenced = true,
                UnusableReferenceAnew => self.referenced = true);
        }
    }

    /// Of deviations only: what waits, and since which position.
    #[inline]
    fn remember<R: Reading>(&mut self, r: R, starts: bool, selected: Selection, position: i32) {
        paper!(r, (),
        FirstLoweringBinds => if starts { self.waiting = selected },
        DelaySetAnew => self.waiting = selected,
        PartWayUpEndsCount => self.waiting = selected,
        SbhReferenceFromSelection => {
            if starts || self.waiting != selected { self.chosen_at = position }
            self.waiting = selected
        })
    }

    /// Of deviations only: whether a selection is stricter by the present ratio than the effective one by its own.
    fn stricter_by_ratio<R: Reading>(&self, r: R, data: &MachineData, selected: Selection) -> bool {
        let by = |selection: Selection, ratio: Ratio| match selection {
            Selection::Sg { .. } => ratio.of_bound(selection.leeway(r, data)),
            _ => selection.leeway(r, data),
        };
        by(selected, self.ratio) < by(self.effective, self.bound_by)
    }
}
