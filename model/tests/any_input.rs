//! No input makes the model panic, by any reading; overflow checks are on.

mod common;
use common::{data, data_of, Xorshift};
use model::channel::Report;
use model::machine_data::number;
use model::selection::Selection;
use model::{device, kit, list, listing, log, random, Channel, Deviant, Deviation, MachineData};
use std::cmp::Reverse;

#[test]
fn random_bytes_are_listed_and_shown() {
    for seed in 0..50_000 {
        let bytes = random::bytes(seed);
        let text = listing::list(&bytes);
        assert!(text.is_ascii());
        let mut buffer = [0; 64];
        let answer = listing::list_into(&bytes, &mut buffer);
        assert_eq!(
            answer,
            if text.len() <= 64 {
                Ok(text.len())
            } else {
                Err(text.len())
            }
        );
    }
}

#[test]
fn every_deviation_lists_random_kits_and_bytes() {
    for seed in 0..100 {
        let kits = [random::kit(seed), random::bytes(seed)];
        for kit in kits.iter().filter(|kit| kit.len() < 8_000) {
            for &deviation in Deviation::ALL {
                assert!(listing::list_as(Deviant(deviation), kit).is_ascii());
            }
        }
    }
}

#[test]
fn a_kit_with_any_one_byte_changed_is_listed_and_shown() {
    let whole = random::kit(
        (0..)
            .find(|&seed| listing::list(&random::kit(seed)).lines().count() == 5)
            .unwrap_or(0),
    );
    let mut random = Xorshift(99);
    for place in 0..whole.len() {
        let mut kit = whole.clone();
        kit[place] ^= 1 << random.below(8);
        assert!(!listing::list(&kit).is_empty());
        assert_eq!(kit::assemble(&kit::show(&kit)), Ok(kit));
    }
}

/// Numbers at and beside every end.
fn odd_number(random: &mut Xorshift) -> i32 {
    let ends = [
        0,
        1,
        -1,
        i32::MIN,
        i32::MAX,
        100_000_000,
        -100_000_000,
        100_000_001,
        -100_000_001,
    ];
    match random.below(3) {
        0 => random.next() as i32,
        1 => ends[random.below(ends.len() as u64) as usize],
        _ => random.next() as i32 >> random.below(32),
    }
}

/// The rank of a cause in a cycle that leaves a channel so; 0 for none.
fn rank(channel: &Channel, code: u8) -> i32 {
    match (code, channel.selections().effective) {
        (1 | 5, _) => 5,
        (2 | 9 | 13, _) => 4,
        (3, Selection::Sg { sg, .. }) => channel.data().get(number::SG_STOP + usize::from(sg)),
        (4, _) => channel.data().get(number::SE_STOP),
        (14, _) => channel.data().get(number::DIRECTION_STOP),
        (6..=8, _) => 9 - i32::from(code),
        _ => 0,
    }
}

#[test]
fn a_cycle_takes_any_numbers() {
    let mut random = Xorshift(7);
    let highest = |of: &str| {
        let read = list::read(&words(&format!("lists A and B{of}, else highest")));
        read.expect("a list").0
    };
    for data in [
        MachineData::lowest(51),
        highest(""),
        highest(" of 67 data"),
        highest(" of 69 data"),
        highest(" of 72 data"),
        data(&[(0, 25), (1, 31), (27, 3), (28, 2)]),
        data_of(67, &[(1, 31), (51, 1000), (59, 7), (53, 3), (61, 1000)]),
        data_of(
            69,
            &[(1, 31), (25, 600), (51, 1000), (59, 7), (67, 300), (68, 2)],
        ),
        data_of(72, &[(1, 63), (69, 1000), (70, 1), (71, 2)]),
    ] {
        for deviation in [None]
            .into_iter()
            .chain(Deviation::ALL.iter().copied().map(Some))
        {
            let mut channel = Channel::fresh(data);
            for _ in 0..if deviation.is_none() { 100_000 } else { 300 } {
                let report = Report {
                    position: odd_number(&mut random),
                    inputs: odd_number(&mut random) as u32,
                    datum: odd_number(&mut random),
                    head: odd_number(&mut random) as u32 as usize,
                };
                let position = odd_number(&mut random);
                let inputs = odd_number(&mut random) as u32 & random.next() as u32 & 0xf03c_771f;
                let acknowledged = random.below(2) == 0;
                let cycle = match deviation {
                    None => channel.cycle(position, inputs, acknowledged, report),
                    Some(deviation) => {
                        channel.cycle_as(Deviant(deviation), position, inputs, acknowledged, report)
                    }
                };
                if deviation.is_none() {
                    let codes: Vec<u8> = cycle.causes.codes().collect();
                    let place = |code: u8| (Reverse(rank(&channel, code)), code);
                    assert!(codes.is_sorted_by(|&one, &next| place(one) < place(next)));
                    assert!(codes.iter().all(|code| (1..=14).contains(code)));
                    assert_eq!(cycle.word & 0xe046_007a, 0, "{:08x}", cycle.word);
                    let device = device::word(cycle.word, random.next() as u32);
                    assert!((device >> 1) >= (cycle.word >> 24 & 7) && device <= 0xa);
                }
            }
        }
    }
}

/// The words of a kit's text.
fn words(text: &str) -> Vec<u32> {
    let bytes = common::bytes(text);
    bytes
        .chunks(4)
        .map(|b| u32::from_be_bytes([b[0], b[1], b[2], b[3]]))
        .collect()
}

#[test]
fn lists_and_logs_take_any_words() {
    let mut random = Xorshift(5);
    let fresh = Channel::fresh(MachineData::lowest(51));
    for _ in 0..50_000 {
        let mut words: Vec<u32> = (0..random.below(40))
            .map(|_| random.next() as u32)
            .collect();
        if random.below(2) == 0 {
            for (place, word) in words.iter_mut().enumerate() {
                *word = *word & 0xffff | [4, 5, 6, 4, 5, 6, 7][place % 7] << 28;
                if place % 7 == 6 {
                    *word &= 0xf000_0001;
                }
            }
        }
        assert!(list::read(&words).is_err());
        let (mut a, mut b) = (fresh, fresh);
        let mut out = vec![0; random.below(24) as usize];
        let answer = log::run(&mut a, &mut b, &words, &mut out);
        assert_eq!(answer.is_ok() && answer != Ok(0), a != fresh);
        assert_eq!(
            log::check(&words).is_err(),
            answer.is_err_and(|refusal| refusal.number == 6)
        );
    }
}

#[test]
fn the_device_word_takes_any_words() {
    let mut random = Xorshift(3);
    let rank = |word: u32| {
        if word & 4 != 0 {
            5
        } else {
            (word >> 24 & 7).min(5)
        }
    };
    for _ in 0..100_000 {
        let (a, b) = (random.next() as u32, random.next() as u32);
        let greater = rank(a).max(rank(b));
        assert_eq!(device::word(a, b), greater << 1 | u32::from(greater < 5));
        assert_eq!(device::word(a, b), device::word(b, a));
    }
}
