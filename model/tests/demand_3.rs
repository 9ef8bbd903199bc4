//! "The runs of demand 3": its bounds, looked at over random lists of calls.

mod common;
use common::Xorshift;
use model::channel::{usable, Report};
use model::selection::Selection;
use model::{causes, device, list, log, random, Channel, Paper};

/// One cycle of the working channel.
struct Seen {
    usable: bool,
    clears: bool,
    causes: Vec<u8>,
    entered: Option<u32>,
    selected: Selection,
    effective: Selection,
    active: bool,
    word: u32,
    device: u32,
}

impl Seen {
    fn rank(&self) -> u32 {
        self.word >> 24 & 7
    }

    fn device_rank(&self) -> u32 {
        self.device >> 1
    }

    fn stands(&self, code: u8) -> bool {
        self.causes.contains(&code)
    }
}

/// A single cycle, looked at from outside.
fn cycle(
    channel: &mut Channel,
    position: i32,
    inputs: u32,
    acknowledged: bool,
    report: Report,
    other: u32,
) -> Seen {
    let before = *channel;
    let cycle = channel.cycle(position, inputs, acknowledged, report);
    let strongest = cycle.causes.strongest();
    let usable = usable(Paper, before.data(), position, inputs);
    Seen {
        usable,
        clears: acknowledged && !cycle.causes.any_fresh(),
        causes: cycle.causes.codes().collect(),
        entered: (usable && strongest > before.stop().rank).then(|| strongest.number()),
        selected: Selection::of(Paper, channel.data(), inputs),
        effective: channel.selections().effective,
        active: causes::active(Paper, channel.data(), channel.selections()),
        word: cycle.word,
        device: device::word(cycle.word, other),
    }
}

/// The calls of a seed: the kit's log with the working channel as A or B, single cycles between.
fn calls(seed: u64) -> Option<(Channel, Vec<Seen>)> {
    let mut random = Xorshift(seed | 1);
    let kit = random::kit(seed);
    let words: Vec<u32> = kit
        .chunks_exact(4)
        .map(|b| u32::from_be_bytes([b[0], b[1], b[2], b[3]]))
        .collect();
    let (data_a, behind_a) = list::read(&words).ok()?;
    let (data_b, behind_b) = list::read(&words[behind_a..]).ok()?;
    let log = &words[behind_a + behind_b..];
    let mut working = Channel::fresh(data_a);
    let mut seen = Vec::new();
    for call in 0..3 {
        let mut other = Channel::fresh(if call == 1 { data_b } else { data_a });
        let as_a = call != 2;
        // The log as a call, to see that it gives the same words.
        let (mut run, mut run_other) = (working, other);
        let mut out = vec![0; 3 * (log.len() / 7)];
        let (first, second) = if as_a {
            (&mut run, &mut run_other)
        } else {
            (&mut run_other, &mut run)
        };
        let Ok(cycles) = log::run(first, second, log, &mut out) else {
            continue;
        };
        let mut place = 0;
        for record in log::records(log) {
            let (own, others) = if as_a {
                (record.a, record.b)
            } else {
                (record.b, record.a)
            };
            let report = other.report(others.position, others.inputs);
            let to_other = working.report(own.position, own.inputs);
            let word = other
                .cycle(
                    others.position,
                    others.inputs,
                    record.acknowledged,
                    to_other,
                )
                .word;
            let cycle = cycle(
                &mut working,
                own.position,
                own.inputs,
                record.acknowledged,
                report,
                word,
            );
            let wanted = if as_a {
                [cycle.word, word]
            } else {
                [word, cycle.word]
            };
            assert_eq!(out[place..place + 2], wanted);
            assert_eq!(out[place + 2], cycle.device);
            place += 3;
            seen.push(cycle);
        }
        assert_eq!((place, working, other), (3 * cycles, run, run_other));
        // Single cycles with reports that are anything at all.
        let previous = working.previous().unwrap_or(0);
        for _ in 0..random.below(20) {
            let position = previous + random.below(40) as i32 - 20;
            let inputs = [
                2,
                0,
                0x003c_0002,
                0x103c_000a,
                1,
                4,
                0x102,
                0x50a,
                0x4002,
                0x2002,
            ];
            let inputs = inputs[random.below(10) as usize];
            let report = match random.below(3) {
                0 => Report {
                    position: random.next() as i32,
                    inputs: random.next() as u32,
                    datum: 0,
                    head: [51, 67, 69, 72, 0][random.below(5) as usize],
                },
                _ => working.report(position, inputs),
            };
            let acknowledged = random.below(3) == 0;
            seen.push(cycle(
                &mut working,
                position,
                inputs,
                acknowledged,
                report,
                random.next() as u32,
            ));
        }
    }
    Some((working, seen))
}

/// Until a cycle after n clears, what is claimed from some cycle on holds.
fn until_cleared(seen: &[Seen], n: usize, from: usize, claim: impl Fn(&Seen) -> bool) -> bool {
    let behind = &seen[n + 1..];
    let end = behind
        .iter()
        .position(|cycle| cycle.clears)
        .map_or(seen.len(), |place| n + 1 + place);
    (from..end).all(|place| claim(&seen[place]))
}

#[test]
fn the_bounds_hold_over_random_calls() {
    let (mut looked_at, mut without) = ([0_u64; 8], 0_u64);
    for seed in 0..4_000 {
        let Some((channel, seen)) = calls(seed) else {
            continue;
        };
        if seen.len() > 2_000 {
            continue;
        }
        let data = channel.data();
        let datum = |number: usize| data.get(number) as usize;
        for (n, cycle) in seen.iter().enumerate() {
            // "A limit in force is overstepped where cause 2, 3 or 4 stands"
            let sg_rank = match cycle.effective {
                Selection::Sg { sg, .. } => data.get(7 + usize::from(sg)) as u32,
                _ => 0,
            };
            for (code, rank) in [(2, 4), (3, sg_rank), (4, data.get(15) as u32)] {
                if cycle.stands(code) {
                    looked_at[0] += 1;
                    assert!(cycle.device_rank() >= rank);
                }
            }
            // W6: "joins 2, 3 and 4 as a limit of demand 3"
            if cycle.stands(14) {
                looked_at[7] += 1;
                assert!(cycle.device_rank() >= data.get(71) as u32);
            }
            // "if C, D or E with time t is entered in n"
            if let Some(rank @ 1..=3) = cycle.entered.filter(|_| !cycle.clears) {
                looked_at[1] += 1;
                let time = datum(32 - rank as usize);
                assert!(until_cleared(&seen, n, n + time, |later| {
                    later.rank() > rank || later.rank() == rank && later.word >> 27 & 1 == 1
                }));
            }
            // "If cause 1 stands in n, the device rank is 5 from n on."
            if cycle.stands(1) {
                looked_at[2] += 1;
                assert!(until_cleared(&seen, n, n, |later| later.device_rank() == 5));
            }
            if cycle.stands(9) {
                looked_at[3] += 1;
                assert!(cycle.device_rank() >= 4);
                assert!(until_cleared(&seen, n, n + datum(32), |later| later
                    .device_rank()
                    == 5));
            }
            if cycle.stands(10) {
                let (b, a) = (n + datum(34), n + datum(34) + datum(32));
                let off = |later: &Seen| later.device_rank() == 5;
                // W2: "for axes on which one of these is active throughout"
                let idle = (n..seen.len()).find(|&m| seen[m].usable && !seen[m].active);
                let throughout = &seen[..idle.unwrap_or(seen.len())];
                if n < throughout.len() {
                    looked_at[4] += u64::from(a < throughout.len());
                    assert!(until_cleared(throughout, n, a, off));
                }
                // The one cycle in which F's count is 0 at the latest is enough.
                if seen.get(b).is_some_and(|cycle| cycle.active) {
                    looked_at[6] += u64::from(a < seen.len());
                    assert!(until_cleared(&seen, n, a, off));
                }
                // And without it the bound does not hold.
                without += u64::from(!until_cleared(&seen, n, a, off));
            }
            // "The device rank is never below the channel word's, .. lower .. only in a cycle that clears"
            assert!(cycle.device_rank() >= cycle.rank());
            assert!(n == 0 || cycle.clears || cycle.rank() >= seen[n - 1].rank());
            assert_eq!(cycle.device & 1 == 0, cycle.device_rank() == 5);
        }
        // "Where a usable cycle and the last usable ones before it, as many as datum 27 says"
        let usable: Vec<&Seen> = seen.iter().filter(|cycle| cycle.usable).collect();
        for n in datum(27)..usable.len() {
            let last = &usable[n - datum(27)..=n];
            for x in last.iter().map(|cycle| cycle.selected) {
                let all = last
                    .iter()
                    .all(|cycle| !x.stricter(Paper, data, cycle.selected));
                if all {
                    looked_at[5] += 1;
                    assert!(!x.stricter(Paper, data, usable[n].effective));
                }
            }
            let (any, sg) = match usable[n].effective {
                Selection::Nothing => (0, 0),
                Selection::Sg { sg, .. } => (1, u32::from(sg)),
                Selection::Sbh => (1, 0),
            };
            assert_eq!((usable[n].word & 1, usable[n].word >> 19 & 3), (any, sg));
        }
    }
    println!("{looked_at:?} {without}");
    assert!(looked_at.iter().all(|&count| count > 500) && without > 200);
}
