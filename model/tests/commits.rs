//! Request W7 on random lists of calls: what an ask tells and leaves, what a commit leaves, and a commit by one channel alone.

use model::channel::image::{word, Lent};
use model::list::Refusal;
use model::machine_data::{number, HEADS};
use model::random::{self, Answer, Call, Channels, Xorshift};
use model::{list, words, Channel, MachineData};

/// Every call of many lists, with the channels before and after it.
fn each_call(mut look: impl FnMut(&Call, &Answer, &Channels, &Channels)) {
    for seed in 0..1_500 {
        let mut channels = Channels::default();
        for call in random::calls(seed) {
            let before = channels.clone();
            let answer = channels.answer(&call);
            look(&call, &answer, &before, &channels);
        }
    }
}

/// The words of a state but for the pending list's.
fn state_of(lent: &Lent) -> Vec<u32> {
    lent.state()[..word::PENDING].to_vec()
}

/// "the fresh causes that a cycle with a given position, inputs and report would have straight after its commit"; "a refused
/// list leaves none pending, all else unaltered"
#[test]
fn an_ask_tells_the_cycle_behind_its_commit() {
    let mut asked = [0; 2];
    each_call(|call, answer, before, after| {
        let (
            &Call::Ask {
                of,
                position,
                inputs,
                report,
                ref words,
            },
            Answer::Asked(told, codes),
        ) = (call, answer)
        else {
            return;
        };
        let [was, is] = [before, after].map(|channels| &channels.0[of]);
        asked[usize::from(told.is_ok())] += 1;
        assert_eq!(was.data(), is.data());
        assert_eq!(state_of(was), state_of(is));
        let Ok(used) = told else {
            assert_eq!(is.state()[word::PENDING], 0);
            assert_eq!((is.pending(), *codes), (was.pending(), Call::CODES));
            return;
        };
        let (list, taken) = list::read(words).expect("an accepted list");
        assert_eq!(
            (*used, is.state()[word::PENDING]),
            (taken, list.head() as u32)
        );
        let mut then = is.clone();
        assert_eq!(then.commit(), Ok(list.head()));
        // Whether it is acknowledged makes no difference.
        for acknowledged in [false, true] {
            let cycle = then.clone().cycle(position, inputs, acknowledged, report);
            let fresh = cycle.causes.codes().filter(|&code| code != 13);
            let told = codes.iter().copied().take_while(|&code| code != 0);
            assert!(told.eq(fresh), "{codes:?}");
        }
    });
    assert!(asked.iter().all(|&asked| asked > 500), "{asked:?}");
}

/// "A commit never lowers a stop"; "Rank, hold, F, references, cams, k .. go on"; "falling counts above the new datum are cut to it"
#[test]
fn a_commit_cuts_counts_and_leaves_the_rest() {
    let nothing = Refusal {
        number: 8,
        place: 0,
    };
    let mut commits = [0; 2];
    each_call(|call, answer, before, after| {
        let (&Call::Commit { of }, Answer::Committed(told)) = (call, answer) else {
            return;
        };
        let [was, is] = [before, after].map(|channels| &channels.0[of]);
        commits[usize::from(told.is_ok())] += 1;
        let pending = was.state()[word::PENDING];
        if pending == 0 {
            assert_eq!((told, is), (&Err(nothing), was));
            return;
        }
        assert_eq!((told, is.data()), (&Ok(pending as usize), was.pending()));
        assert_eq!(is.state()[word::PENDING], 0);
        goes_on(was.channel(), is.channel());
        counts(was.channel(), is.channel());
        // A second commit has nothing.
        let mut again = is.clone();
        assert_eq!((again.commit(), &again), (Err(nothing), is));
    });
    assert!(commits.iter().all(|&commits| commits > 500), "{commits:?}");
}

fn goes_on(was: &Channel, is: &Channel) {
    assert_eq!(was.previous(), is.previous());
    assert_eq!((was.run(), was.cams()), (is.run(), is.cams()));
    assert_eq!((was.nx().value, was.nx().run), (is.nx().value, is.nx().run));
    assert_eq!(
        (was.stop().rank, was.stop().held),
        (is.stop().rank, is.stop().held)
    );
    assert_eq!(was.f().on, is.f().on);
    let [old, new] = [was, is].map(Channel::selections);
    assert_eq!((old.effective, old.any_yet), (new.effective, new.any_yet));
    assert_eq!(old.reference, new.reference);
    let past = was.k() >= is.data().head();
    assert_eq!(is.k(), if past { 0 } else { was.k() });
    for (old, new) in [
        (was.directions().positive, is.directions().positive),
        (was.directions().negative, is.directions().negative),
    ] {
        let on = is.data().get(number::FUNCTIONS) >> 5 & 1 == 1;
        let kept = if on { (old.run, old.watch) } else { (0, None) };
        assert_eq!((new.run, new.watch), kept);
    }
}

/// No count is raised, none is above its datum, but a delay that runs is not ended; and one that is not above it stays.
fn counts(was: &Channel, is: &Channel) {
    let datum = |number: usize| i64::from(is.data().get(number));
    let cut = |old: i64, new: i64, most: i64| {
        assert!(new <= most && new == old.min(most), "{old} {new} {most}");
    };
    let delay = (was.selections().count, is.selections().count);
    cut(delay.0, delay.1, datum(number::DELAY).max(1));
    assert_eq!(delay.0 > 0, delay.1 > 0);
    cut(was.f().count, is.f().count, datum(number::TIME_F));
    if let (Some(time), None) = (is.stop().rank.time(), is.stop().held) {
        cut(was.stop().count, is.stop().count, datum(time));
    }
}

/// "if one of two with equal lists and k alone takes a list of another head or datum, both show F within as many cycles as its
/// head says, where all are usable, reports true and no commit follows"
#[test]
fn a_commit_by_one_alone_shows_f_in_both() {
    let mut last = 0;
    for seed in 0..2_000 {
        let random = &mut Xorshift::new(seed);
        let kit = words::of_bytes(&random::kit_of(seed, 0));
        let (data, _) = list::read(&kit).expect("a list");
        let other = other_list(random, &data);
        let (mut one, mut two) = (Channel::fresh(data), Channel::fresh(data));
        for _ in 0..random.below(160) {
            both_show_f(&mut one, &mut two, false);
        }
        let acknowledged = random.percent(50);
        one.commit(other);
        let cycles = (1..=other.head())
            .find(|_| both_show_f(&mut one, &mut two, acknowledged))
            .expect("F in both");
        last += usize::from(cycles == other.head());
        if other.head() != data.head() {
            assert_eq!(cycles, 1);
        }
    }
    assert!(last > 5, "{last}");
}

/// Another head, or another value of one datum.
fn other_list(random: &mut Xorshift, data: &MachineData) -> MachineData {
    let mut values = data.data().to_vec();
    if random.percent(20) {
        let others: Vec<usize> = HEADS
            .into_iter()
            .filter(|&head| head != values.len())
            .collect();
        values.resize(random.pick(&others), 1);
        values[number::FUNCTIONS] &= 31;
    } else {
        // An override's percent, which every list has.
        let at = number::OVERRIDE + random.below(16);
        values[at] = if values[at] == 1 { 2 } else { 1 };
    }
    MachineData::new(&values).expect("a list")
}

/// A usable cycle of both at rest, with true reports: whether both show F.
fn both_show_f(one: &mut Channel, two: &mut Channel, acknowledged: bool) -> bool {
    let inputs = 1;
    let (from_one, from_two) = (one.report(0, inputs), two.report(0, inputs));
    let first = one.cycle(0, inputs, acknowledged, from_two);
    let second = two.cycle(0, inputs, acknowledged, from_one);
    assert!(!first.causes.stands(1) && !second.causes.stands(1));
    first.word & second.word & 1 << 28 != 0
}
