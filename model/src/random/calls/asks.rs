//! Asks and commits among the calls: W7, "New limits without stopping".

use super::super::reached::named;
use super::super::{list, order_se, Xorshift};
use super::{odd, Answer, Call, Calls, Past, ReachedCalls, CHANNELS};
use crate::channel::image::{word, Lent};
use crate::channel::{usable, Channel, Report};
use crate::list::Refusal;
use crate::log;
use crate::machine_data::{number, range, Function, COUNT, HEADS};
use crate::selection::Selection;
use crate::stop::Rank;
use crate::{list as reader, words, Paper};

impl Calls {
    /// New limits between two cycles: of both channels, or of one alone.
    pub(super) fn new_limits(&mut self, a: usize, b: usize) {
        let [both, alone, third] = [&[a, b][..], &[a], &[2]];
        for &of in self.random.pick(&[both, both, alone, alone, third]) {
            let other = if of == b { a } else { b };
            for _ in 0..self.random.pick(&[1, 1, 1, 2, 2, 3]) {
                self.ask(of, other);
                self.between(of, other);
                if self.random.percent(85) {
                    self.call(Call::Commit { of });
                }
            }
            if self.random.percent(25) {
                self.call(Call::Commit { of });
            }
        }
    }

    /// An ask with what the next cycle may be given.
    fn ask(&mut self, of: usize, other: usize) {
        let words = self.asked_words(of);
        let Some(record) = self.records(of, other).into_iter().next() else {
            return;
        };
        let (position, inputs) = self.asked_side(record.a);
        let report = self.asked_report(of, other, &words, position, inputs);
        self.call(Call::Ask {
            of,
            position,
            inputs,
            report,
            words,
        });
    }

    /// A position and inputs: those of a cycle, or odd ones.
    fn asked_side(&mut self, side: log::Side) -> (i32, u32) {
        let random = &mut self.random;
        match random.below(12) {
            0 => (odd(random) as i32, side.inputs),
            1 => (side.position, side.inputs ^ 1 << random.below(32)),
            2 => (side.position, side.inputs ^ 3 << 13),
            _ => (side.position, side.inputs),
        }
    }

    /// Mostly what a channel reports that took the list; else what the other one reports now, or anything.
    fn asked_report(
        &mut self,
        of: usize,
        other: usize,
        words: &[u32],
        position: i32,
        inputs: u32,
    ) -> Report {
        let [mut then, other] = [of, other].map(|of| self.channels.0[of].clone());
        let now = other.report(position, inputs);
        let _ = then.ask(words, position, inputs, now);
        let _ = then.commit();
        match self.random.below(10) {
            0 => now,
            1 => self.channels.0[of].report(position, inputs),
            2 | 3 => self.other_report(now),
            _ => then.report(position, inputs),
        }
    }

    /// The words of a list: one with other limits, any other, or a damaged one; often with words behind it.
    fn asked_words(&mut self, of: usize) -> Vec<u32> {
        let seed = self.random.next();
        match self.random.below(20) {
            0 => words::of_bytes(&super::super::bytes(seed)),
            1..=4 => words::of_bytes(&super::super::kit(seed)),
            5 => words::of_bytes(&super::super::kit_of(seed, 0)),
            _ => self.other_limits(of),
        }
    }

    /// The list in force with some of its data changed.
    fn other_limits(&mut self, of: usize) -> Vec<u32> {
        let channel = *self.channels.0[of].channel();
        let in_force = channel.data();
        let random = &mut self.random;
        let last = channel.k() + 1;
        let head = match HEADS.contains(&in_force.head()) && random.percent(65) {
            _ if HEADS.contains(&last) && random.percent(60) => last,
            true => in_force.head(),
            false => random.pick(&HEADS),
        };
        let mut data: Vec<i32> = (0..head).map(|number| in_force.get(number)).collect();
        for _ in 0..random.pick(&[0, 1, 2, 6]) {
            change(random, &mut data);
        }
        if random.percent(if brakes(&channel) { 90 } else { 40 }) {
            other_times(random, &mut data);
        }
        for (number, datum) in data.iter_mut().enumerate() {
            let (low, high) = range(head, number);
            *datum = (*datum).clamp(low, high);
        }
        order_se(&mut data);
        let mut words = vec![words::head(head)];
        words.extend(list(random, &data).concat());
        words.extend((0..random.pick(&[0, 0, 1, 7])).map(|_| odd(random)));
        if random.percent(8) {
            let at = random.below(words.len());
            words[at] = odd(random);
        }
        words
    }

    /// What may lie between an ask and its commit: mostly nothing.
    fn between(&mut self, of: usize, other: usize) {
        match self.random.below(24) {
            0 => self.report(of),
            1 => self.no_cycle(of, other),
            2 => self.no_cycle(other, of),
            3 => self.one_cycle(other, of),
            4 | 5 => self.one_cycle(of, other),
            6 => self.run_log(of, other),
            7 => self.run_log(other, of),
            8 | 9 => self.ask(of, other),
            10 => self.read_lists(&[of]),
            _ => (),
        }
    }

    /// A log that has no cycle, or is refused.
    fn no_cycle(&mut self, a: usize, b: usize) {
        let (words, room) = match self.random.below(4) {
            0 => (vec![], 0),
            1 => (vec![words::remark(0)], 3),
            2 => (self.record_words(a, b).concat(), 0),
            _ => (vec![odd(&mut self.random) & 0x0fff_ffff], 3),
        };
        self.call(Call::RunLog { a, b, words, room });
    }

    /// One cycle of a channel alone.
    fn one_cycle(&mut self, of: usize, other: usize) {
        let Some(record) = self.records(of, other).into_iter().next() else {
            return;
        };
        let report = self.channels.0[other].report(record.b.position, record.b.inputs);
        self.cycle(of, record.a, record.acknowledged, report, 100);
    }
}

/// Whether the time of a stop runs.
pub(super) fn brakes(channel: &Channel) -> bool {
    let stop = channel.stop();
    stop.held.is_none() && stop.rank.time().is_some()
}

/// A datum of those that a commit is read by.
fn change(random: &mut Xorshift, data: &mut [i32]) {
    let last = data.len() - 1;
    let number = random.pick(&[1, 1, 1, 2, 3, 4, 5, 6, 7, 26, 28, 33, 50, last, last]);
    let (low, high) = range(data.len(), number);
    data[number] = match number {
        1 => data[1] ^ random.pick(&[1, 2, 4, 8, 16, 32, 32, 32]),
        3..=6 => random.pick(&[
            1,
            500,
            2000,
            data[number] / 2,
            data[number].saturating_mul(2),
        ]),
        _ => random.pick(&[low, high, data[number].saturating_add(1), data[number] - 1]),
    };
}

/// Times above, at and below those in force.
fn other_times(random: &mut Xorshift, data: &mut [i32]) {
    for number in [27, 29, 30, 31, 32, 34] {
        if random.percent(60) {
            data[number] = random.pick(&[0, 0, 1, 2, 5, 1000, data[number] + 1, data[number] - 1]);
        }
    }
}

named! {
    /// What asks and commits come to.
    AskEvent {
        NoCause: "an ask without a cause",
        Causes: "an ask with causes",
        Unusable: "an ask that is unusable",
        UnusableByNew: "an ask that is unusable by the new list alone",
        UsableByNew: "an ask that is usable by the new list alone",
        Not13: "an ask of a cycle with cause 13",
        Only13: "an ask of a cycle with cause 13 alone",
        HeadAlone: "an ask with cause 12 by the head alone",
        WordsBehind: "an ask with words behind the list",
        OtherHead: "an ask about a list of another head",
        Replaces: "an ask in place of one before",
        RefusedDrops: "a refused ask that drops a list",
        RefusedOfNone: "a refused ask with none pending",
        AskOfAnyContent: "an ask of a channel with any content",
        NothingPending: "a commit with nothing pending",
        Taken: "a commit",
        Again: "a second commit between two cycles",
        DelayCut: "a commit that cuts the count of a lower selection",
        DelayCutTo1: "a commit of datum 27 at 0 that cuts it to 1",
        DelayAt: "a commit with that count at the new datum",
        DelayBelow: "a commit with that count below the new datum",
        FCut: "a commit that cuts F's count",
        FCutTo0: "a commit that cuts F's count to 0",
        FBelow: "a commit with F's count below the new datum",
        ECut: "a commit that cuts the count of STOP E",
        DCut: "a commit that cuts the count of STOP D",
        CCut: "a commit that cuts the count of STOP C",
        BCut: "a commit that cuts the count of STOP B",
        StopCutTo0: "a commit that cuts a stop's count to 0",
        StopBelow: "a commit with a stop's count below the new datum",
        Held: "a commit while a stop is held",
        Cancelled: "a commit in STOP A",
        KTo0: "a commit that puts k to 0",
        KLast: "a commit with k at the new last datum",
        KGoesOn: "a commit of another head with which k goes on",
        WatchEnded: "a commit that ends a watch",
        DirectionRunEnded: "a commit that ends a direction's run",
        WatchKept: "a commit with which a watch goes on",
        SgAnew: "a commit of another limit or percent of the effective SG",
        FunctionOff: "a commit that takes function 0 from an effective selection",
        OtherCount: "a commit of a list with another count",
        AnyContent: "a commit of a list with any content",
        DroppedBySingle: "a list dropped by a single cycle",
        DroppedByUnusable: "a list dropped by an unusable cycle",
        DroppedAsA: "a list dropped by a log as A",
        DroppedAsB: "a list dropped by a log as B",
        DroppedByList: "a list dropped by a new one",
        KeptByEmptyLog: "a list kept over a log without a cycle",
        KeptBy6: "a list kept over a log refused with 6",
        KeptBy7: "a list kept over a log refused with 7",
        KeptByReport: "a list kept over a report",
        KeptByOther: "a list kept over another channel's cycle",
        KeptByRefusedList: "a list kept over a refused one",
    }
}

/// Whether a list is pending.
fn is_pending(lent: &Lent) -> bool {
    lent.state()[word::PENDING] != 0
}

impl ReachedCalls {
    fn ask_event(&mut self, event: AskEvent, happened: bool) {
        self.asks[event as usize] += u64::from(happened);
    }

    /// What asks, commits, and other calls of a channel with a pending list come to.
    pub(super) fn asks(
        &mut self,
        call: &Call,
        answer: &Answer,
        before: &[Lent; CHANNELS],
        pasts: &mut [Past],
    ) {
        match (call, answer) {
            (call @ &Call::Ask { of, .. }, Answer::Asked(asked, codes)) => {
                self.ask_event(AskEvent::AskOfAnyContent, pasts[of].any_content);
                self.asked(call, *asked, codes, &before[of]);
            }
            (&Call::Commit { of }, Answer::Committed(committed)) => {
                self.ask_event(AskEvent::NothingPending, committed.is_err());
                if committed.is_ok() {
                    self.ask_event(AskEvent::Again, pasts[of].committed);
                    pasts[of].committed = true;
                    self.committed(&before[of]);
                }
            }
            (&Call::Cycle { of, .. }, Answer::Cycle { codes, .. }) => {
                pasts[of].committed = false;
                let (pending, unusable) = (is_pending(&before[of]), codes[0] == 1);
                self.ask_event(AskEvent::DroppedBySingle, pending && !unusable);
                self.ask_event(AskEvent::DroppedByUnusable, pending && unusable);
                let others = (0..CHANNELS).filter(|&other| other != of);
                let kept = others.map(|other| &before[other]).any(is_pending);
                self.ask_event(AskEvent::KeptByOther, kept);
            }
            (&Call::RunLog { a, b, .. }, Answer::Ran(ran, _)) => {
                if matches!(ran, Ok(1..)) {
                    (pasts[a].committed, pasts[b].committed) = (false, false);
                }
                self.pending_log(*ran, is_pending(&before[a]), is_pending(&before[b]));
            }
            (&Call::Report { of, .. }, _) => {
                self.ask_event(AskEvent::KeptByReport, is_pending(&before[of]));
            }
            (&Call::ReadList { of, .. }, Answer::Read(read)) => {
                let pending = is_pending(&before[of]);
                self.ask_event(AskEvent::DroppedByList, pending && read.is_ok());
                self.ask_event(AskEvent::KeptByRefusedList, pending && read.is_err());
            }
            _ => (),
        }
    }

    fn pending_log(&mut self, ran: Result<usize, Refusal>, of_a: bool, of_b: bool) {
        let either = of_a || of_b;
        match ran {
            Ok(0) => self.ask_event(AskEvent::KeptByEmptyLog, either),
            Ok(_) => {
                self.ask_event(AskEvent::DroppedAsA, of_a);
                self.ask_event(AskEvent::DroppedAsB, of_b);
            }
            Err(Refusal { number: 6, .. }) => self.ask_event(AskEvent::KeptBy6, either),
            Err(_) => self.ask_event(AskEvent::KeptBy7, either),
        }
    }

    /// What an ask is given and tells.
    fn asked(
        &mut self,
        call: &Call,
        asked: Result<usize, Refusal>,
        codes: &[u8; 13],
        before: &Lent,
    ) {
        let &Call::Ask {
            position,
            inputs,
            report,
            ref words,
            ..
        } = call
        else {
            return;
        };
        let (used, pending) = match asked {
            Ok(used) => (used, is_pending(before)),
            Err(refusal) => {
                self.asks_refused[refusal.number as usize - 1] += 1;
                self.ask_event(AskEvent::RefusedDrops, is_pending(before));
                self.ask_event(AskEvent::RefusedOfNone, !is_pending(before));
                return;
            }
        };
        self.ask_event(AskEvent::NoCause, codes[0] == 0);
        self.ask_event(AskEvent::Causes, codes[0] > 1);
        self.ask_event(AskEvent::WordsBehind, used < words.len());
        self.ask_event(AskEvent::Replaces, pending);
        let Ok((list, _)) = reader::read(words) else {
            return;
        };
        let unusable = codes[0] == 1;
        let in_force = usable(Paper, before.channel().data(), position, inputs);
        self.ask_event(AskEvent::Unusable, unusable);
        self.ask_event(AskEvent::UnusableByNew, unusable && in_force);
        self.ask_event(AskEvent::UsableByNew, !unusable && !in_force);
        let other_head = list.head() != before.channel().data().head();
        self.ask_event(AskEvent::OtherHead, other_head);
        let mut then = before.clone();
        let _ = then.ask(words, position, inputs, report);
        let _ = then.commit();
        let own = then.report(position, inputs);
        let by_head = own.head != report.head && own.datum == report.datum;
        self.ask_event(AskEvent::HeadAlone, by_head && codes.contains(&12));
        let causes = then.cycle(position, inputs, false, report).causes;
        self.ask_event(AskEvent::Not13, causes.stands(13));
        self.ask_event(AskEvent::Only13, causes.stands(13) && codes[0] == 0);
    }

    /// What a commit comes to.
    fn committed(&mut self, before: &Lent) {
        let mut after = before.clone();
        let _ = after.commit();
        self.ask_event(AskEvent::Taken, true);
        self.cuts(before, &after);
        let [was, is] = [before, &after].map(Lent::channel);
        let head = is.data().head();
        let other_head = head != was.data().head();
        self.ask_event(AskEvent::KTo0, is.k() != was.k());
        self.ask_event(AskEvent::KLast, was.k() + 1 == head);
        let goes_on = other_head && is.k() == was.k() && is.k() > 0;
        self.ask_event(AskEvent::KGoesOn, goes_on);
        self.ask_event(AskEvent::Held, is.stop().held.is_some());
        self.ask_event(AskEvent::Cancelled, is.stop().rank == Rank::A);
        for (was, is) in [
            (was.directions().positive, is.directions().positive),
            (was.directions().negative, is.directions().negative),
        ] {
            let ended = was.watch.is_some() && is.watch.is_none();
            self.ask_event(AskEvent::WatchEnded, ended);
            let run_ended = was.run > 0 && is.run == 0;
            self.ask_event(AskEvent::DirectionRunEnded, run_ended);
            self.ask_event(AskEvent::WatchKept, is.watch.is_some());
        }
        if let Selection::Sg {
            sg,
            override_number,
        } = is.selections().effective
        {
            let limit = |data| Selection::limit_percent(Paper, data, sg, override_number);
            self.ask_event(AskEvent::SgAnew, limit(was.data()) != limit(is.data()));
        }
        let on = |data: &crate::MachineData| data.has(Paper, Function::SbhSg);
        let effective = was.selections().effective != Selection::Nothing;
        let off = effective && on(was.data()) && !on(is.data());
        self.ask_event(AskEvent::FunctionOff, off);
        self.ask_event(AskEvent::OtherCount, !HEADS.contains(&head));
        let out_of_range = |number: usize| {
            let (low, high) = range(COUNT, number);
            !(low..=high).contains(&after.data()[number])
        };
        let any = (0..head.min(COUNT)).any(out_of_range);
        self.ask_event(AskEvent::AnyContent, any);
    }

    /// Which counts a commit cuts.
    fn cuts(&mut self, before: &Lent, after: &Lent) {
        let [was, is] = [before, after].map(Lent::channel);
        let datum = |number: usize| i64::from(is.data().get(number));
        let (delay, new) = (was.selections().count, datum(number::DELAY));
        self.ask_event(AskEvent::DelayCut, delay > new.max(1));
        self.ask_event(AskEvent::DelayCutTo1, delay > 1 && new == 0);
        self.ask_event(AskEvent::DelayAt, delay > 0 && delay == new);
        self.ask_event(AskEvent::DelayBelow, delay > 0 && delay < new);
        let (f, new) = (was.f(), datum(number::TIME_F));
        self.ask_event(AskEvent::FCut, f.on && f.count > new);
        self.ask_event(AskEvent::FCutTo0, f.on && f.count > 0 && new == 0);
        self.ask_event(AskEvent::FBelow, f.on && f.count < new);
        let stop = was.stop();
        let (Some(time), None) = (stop.rank.time(), stop.held) else {
            return;
        };
        let cut = stop.count > datum(time);
        self.ask_event(AskEvent::ECut, cut && stop.rank == Rank::E);
        self.ask_event(AskEvent::DCut, cut && stop.rank == Rank::D);
        self.ask_event(AskEvent::CCut, cut && stop.rank == Rank::C);
        self.ask_event(AskEvent::BCut, cut && stop.rank == Rank::B);
        self.ask_event(AskEvent::StopCutTo0, cut && datum(time) == 0);
        self.ask_event(AskEvent::StopBelow, stop.count < datum(time));
    }
}
