//! W7: a channel with its pending list: "A list is first asked about", "A commit takes the pending list", "Any cycle in between
//! drops it."

use super::commit::fresh_codes;
use super::image::{machine_data, word, Lent};
use super::{bit, usable, Channel, Report};
use crate::causes::Causes;
use crate::deviation::{paper, Paper, Reading};
use crate::list::{self, Refusal};
use crate::machine_data::{MachineData, COUNT, HEADS};
use crate::selection::Selections;

/// What an ask tells of a list that is accepted.
#[derive(Clone, Copy, Debug, PartialEq, Eq)]
pub struct Asked {
    /// How many words the list has: those behind it are not looked at.
    pub used: usize,
    /// The codes of the fresh causes, with 0 behind them.
    pub codes: [u8; Causes::MOST],
}

/// "8, place 0: commit with nothing pending"
const NOTHING_PENDING: Refusal = Refusal {
    number: 8,
    place: 0,
};

/// What a list is asked about with.
#[derive(Clone, Copy, Debug)]
struct Given {
    position: i32,
    inputs: u32,
    report: Report,
}

impl Lent {
    /// A list that is accepted makes a fresh channel, of which none is pending; a refused one leaves everything as it was.
    pub fn read_list(&mut self, words: &[u32]) -> Result<usize, Refusal> {
        self.read_list_as(Paper, words)
    }

    /// [`Lent::read_list`] by any reading of W7.
    pub fn read_list_as<R: Reading>(&mut self, r: R, words: &[u32]) -> Result<usize, Refusal> {
        let before = self.state[word::PENDING];
        let read = list::read(words);
        if let Ok((data, _)) = read {
            self.renew(data);
        }
        paper!(r, (),
            PendingOutlivesList => self.state[word::PENDING] = before,
            PendingDroppedByRefusedList => self.state[word::PENDING] = 0);
        read.map(|(_, used)| used)
    }

    /// "the channel tells the refusal, or the fresh causes that a cycle with a given position, inputs and report would have
    /// straight after its commit, and keeps the list pending"
    pub fn ask(
        &mut self,
        words: &[u32],
        position: i32,
        inputs: u32,
        report: Report,
    ) -> Result<Asked, Refusal> {
        self.ask_as(Paper, words, position, inputs, report)
    }

    /// [`Lent::ask`] by any reading.
    pub fn ask_as<R: Reading>(
        &mut self,
        r: R,
        words: &[u32],
        position: i32,
        inputs: u32,
        report: Report,
    ) -> Result<Asked, Refusal> {
        let given = Given {
            position,
            inputs,
            report,
        };
        match read(r, words) {
            Ok((list, used)) => Ok(self.accepted(r, list, used, given)),
            Err(refusal) => {
                self.refused(r);
                Err(refusal)
            }
        }
    }

    /// An accepted list is pending, in place of any before it, and what it would find is told.
    fn accepted<R: Reading>(
        &mut self,
        r: R,
        list: MachineData,
        used: usize,
        given: Given,
    ) -> Asked {
        let codes = self.codes_after_commit(r, list, given);
        self.keep(r, list, &codes);
        self.altered_by_ask(r, given);
        Asked { used, codes }
    }

    /// "the fresh causes that a cycle with a given position, inputs and report would have straight after its commit"
    fn codes_after_commit<R: Reading>(
        &self,
        r: R,
        list: MachineData,
        given: Given,
    ) -> [u8; Causes::MOST] {
        let mut then = self.clone();
        then.pend(list);
        paper!(r, {
            let _ = then.commit();
        },
            AskByListInForce => (),
            AskByNewChannel => then = Lent::fresh(list),
            AskWithoutCommit => then.take_uncommitted(list),
            AskWithoutCuts => {
                let _ = then.commit();
                then.uncut(self);
            },
            AskByOldK => {
                let _ = then.commit();
                then.channel.k = self.channel.k;
            });
        let given = self.asked_wrongly(r, &then, given);
        let unusable = paper!(r, false,
            AskUsableByListInForce => !usable(r, self.channel.data(), given.position, given.inputs));
        match unusable {
            true => fresh_codes(r, &Causes::UNUSABLE),
            false => {
                let cycle = then.cycle(given.position, given.inputs, false, given.report);
                fresh_codes(r, &cycle.causes)
            }
        }
    }

    /// "and keeps the list pending"
    fn keep<R: Reading>(&mut self, r: R, list: MachineData, codes: &[u8; Causes::MOST]) {
        let stays = paper!(r, false,
            AskKeepsFirstList => self.state[word::PENDING] != 0,
            AskKeepsNoneWithCauses => codes[0] != 0,
            AskKeepsNoneUnusable => codes[0] == 1,
            AskKeepsNone => true);
        let before = self.pending;
        if !stays {
            self.pend(list);
        }
        paper!(r, (),
            AskLeavesDataBehind => self.pending[list.head()..].copy_from_slice(&before[list.head()..]),
            AskCounts51 => self.state[word::PENDING] = HEADS[0] as u32,
            AskCountsMost => self.state[word::PENDING] = COUNT as u32);
    }

    /// The list is pending, in place of any before it.
    fn pend(&mut self, list: MachineData) {
        self.pending = whole_array(&list);
        self.state[word::PENDING] = list.head() as u32;
    }

    /// "a refused list leaves none pending, all else unaltered"
    fn refused<R: Reading>(&mut self, r: R) {
        let before = self.state[word::PENDING];
        self.state[word::PENDING] = paper!(r, 0,
            RefusedAskKeepsPending => before);
        paper!(r, (),
            RefusedAskClearsArray => self.pending = [0; COUNT],
            RefusedAskCountsK => self.set(word::K, self.state[word::K] + 1),
            RefusedAskForgetsPrevious => self.set(word::HAS_PREVIOUS, 0),
            RefusedAskEndsDelay => self.set(word::DELAY, 0));
    }

    /// "A commit takes the pending list": how many data the list in force has then. "8, place 0: commit with nothing pending; the
    /// channel is unaltered."
    pub fn commit(&mut self) -> Result<usize, Refusal> {
        self.commit_as(Paper)
    }

    /// [`Lent::commit`] by any reading.
    pub fn commit_as<R: Reading>(&mut self, r: R) -> Result<usize, Refusal> {
        let count = self.state[word::PENDING];
        if count == 0 {
            return self.nothing_pending(r);
        }
        self.channel
            .commit_as(r, machine_data(&self.pending, count));
        let before = self.data;
        self.data = self.pending;
        self.write_committed(count);
        paper!(r, (),
            CommitStaysPending => self.state[word::PENDING] = count,
            CommitLeavesDataBehind => if (count as usize) < COUNT {
                self.data[count as usize..].copy_from_slice(&before[count as usize..])
            },
            CommitKeepsCount => self.set(word::COUNT, HEADS[0] as u32));
        Ok(paper!(r, count as usize,
            CommitTells0 => 0))
    }

    /// "8, place 0: commit with nothing pending; the channel is unaltered."
    fn nothing_pending<R: Reading>(&mut self, r: R) -> Result<usize, Refusal> {
        let count = self.state[word::COUNT];
        paper!(r, (),
            EmptyCommitForgetsPrevious => self.set(word::HAS_PREVIOUS, 0),
            EmptyCommitEndsDelay => self.set(word::DELAY, 0),
            EmptyCommitKTo0 => self.set(word::K, 0),
            EmptyCommitTakesArray => self.data = self.pending);
        let refusal = paper!(r, NOTHING_PENDING,
            EmptyCommitIs7 => Refusal { number: 7, place: 0 },
            EmptyCommitIs1 => Refusal { number: 1, place: 0 },
            EmptyCommitAtCount => Refusal { number: 8, place: count as usize });
        paper!(r, Err(refusal),
            EmptyCommitAccepted => Ok(count as usize))
    }

    /// "Any cycle in between drops it.": a cycle of this channel, usable or not.
    pub(super) fn dropped<R: Reading>(
        &mut self,
        r: R,
        before: u32,
        in_log: Option<char>,
        usable: bool,
        acknowledged: bool,
    ) {
        let stays = paper!(r, false,
            PendingOutlivesSingle => in_log.is_none() && usable,
            PendingOutlivesUnusable => !usable,
            PendingOutlivesSingleUnusable => in_log.is_none() && !usable,
            PendingOutlivesAcknowledged => acknowledged,
            PendingOutlivesLog => in_log.is_some(),
            PendingOutlivesLogOfA => in_log == Some('A'),
            PendingOutlivesLogOfB => in_log == Some('B'),
            PendingOutlivesUnusableInLog => in_log.is_some() && !usable,
            PendingOutlivesCycles => true);
        self.state[word::PENDING] = if stays { before } else { 0 };
    }

    /// Of deviations only: a log that is accepted without a cycle, or refused, and drops the list.
    pub(super) fn no_cycle<R: Reading>(&mut self, r: R, ran: Result<usize, Refusal>, of: char) {
        let drops = paper!(r, false,
            PendingDroppedByEmptyLog => ran == Ok(0),
            PendingDroppedByEmptyLogAsB => ran == Ok(0) && of == 'B',
            PendingDroppedBy6 => ran.is_err_and(|refusal| refusal.number == 6),
            PendingDroppedBy7 => ran.is_err_and(|refusal| refusal.number == 7),
            PendingDroppedByRefusedAsB => ran.is_err() && of == 'B');
        if drops {
            self.state[word::PENDING] = 0;
        }
    }
}

/// "A list is first asked about": it is read as every list is, and the words behind it are not looked at.
fn read<R: Reading>(r: R, words: &[u32]) -> Result<(MachineData, usize), Refusal> {
    let read = list::read(words);
    paper!(r, read,
    AskRefusesWordsBehind => match read {
        Ok((_, used)) if used < words.len() => Err(Refusal { number: 1, place: used }),
        read => read,
    },
    AskCountsWordsBehind => read.map(|(list, _)| (list, words.len())),
    AskRefusesOtherHead => match read {
        Ok((list, _)) if list.head() != HEADS[0] => Err(Refusal { number: 1, place: 0 }),
        read => read,
    })
}

/// A list as an array: 0 behind its data.
pub(super) fn whole_array(list: &MachineData) -> [i32; COUNT] {
    std::array::from_fn(|number| list.data().get(number).copied().unwrap_or(0))
}

// What follows is of deviations only.

impl Lent {
    /// A word of the state, changed.
    fn set(&mut self, word: usize, value: u32) {
        let mut state = self.state;
        state[word] = value;
        *self = Lent::of(self.data, state, self.pending);
    }

    /// The list without what a commit does besides.
    fn take_uncommitted(&mut self, list: MachineData) {
        self.data = whole_array(&list);
        self.channel.data = list;
    }

    /// The counts as they were before the commit.
    fn uncut(&mut self, before: &Lent) {
        let Channel {
            selections: Selections { count, .. },
            stop,
            f,
            ..
        } = before.channel;
        self.channel.selections.count = count;
        (self.channel.stop, self.channel.f) = (stop, f);
    }

    /// An ask that compares the report with something else.
    fn asked_wrongly<R: Reading>(&self, r: R, then: &Lent, mut given: Given) -> Given {
        let (old, new) = (self.report(0, 0), then.report(0, 0));
        let report = &mut given.report;
        paper!(r, (),
        AskComparesOldHead => report.head = if report.head == old.head { new.head } else { !new.head },
        AskComparesNoHead => report.head = new.head,
        AskComparesOldDatum => report.datum = if report.datum == old.datum { new.datum } else { !new.datum },
        AskComparesNoDatum => report.datum = new.datum,
        AskComparesNoPosition => report.position = given.position,
        AskComparesNoInputs => report.inputs = given.inputs);
        given
    }

    /// An ask that alters more than the pending list.
    fn altered_by_ask<R: Reading>(&mut self, r: R, given: Given) {
        paper!(r, (),
        AskCommits => {
            let _ = self.commit();
        },
        AskRunsCycle => {
            let count = self.state[word::PENDING];
            self.cycle(given.position, given.inputs, false, given.report);
            self.state[word::PENDING] = count;
        },
        AskCountsK => self.set(word::K, self.state[word::K] + 1),
        AskTakesPrevious => {
            self.set(word::PREVIOUS, given.position as u32);
            self.set(word::HAS_PREVIOUS, 1);
        },
        AskSetsF => if bit(given.report.inputs ^ given.inputs, 0) { self.set(word::F, 1) },
        AskEndsRun => self.set(word::RUN, 0));
    }
}
