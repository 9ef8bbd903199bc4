//! Every deviation is told from document 01 by some random kit.

mod common;
use model::{listing, random, Deviant, Deviation};

const KITS: u64 = 20_000;

#[test]
fn every_deviation_is_told_by_a_random_kit() {
    let mut open: Vec<Deviation> = Deviation::ALL.to_vec();
    let mut told: Vec<(u64, Deviation)> = Vec::new();
    for seed in 0..KITS {
        let kit = random::kit(seed);
        let paper = listing::list(&kit);
        open.retain(|&deviation| {
            let differs = listing::list_as(Deviant(deviation), &kit) != paper;
            if differs {
                told.push((seed, deviation));
            }
            !differs
        });
        if open.is_empty() {
            break;
        }
    }
    for (seed, deviation) in told.iter().rev().take(40) {
        println!("{seed:>6} {}", deviation.name());
    }
    for deviation in &open {
        println!("never  {}: {}", deviation.name(), deviation.what());
    }
    println!("{} told, {} not", told.len(), open.len());
    assert!(open.is_empty());
}

#[test]
fn there_are_at_least_100_and_each_has_its_words() {
    assert!(Deviation::ALL.len() >= 100 && Deviation::OF_CALLS.len() >= 100);
    let all = [Deviation::ALL, Deviation::OF_CALLS].concat();
    for deviation in &all {
        assert!(!deviation.what().is_empty() && !deviation.breaks().is_empty());
    }
    let mut names: Vec<&str> = all.iter().map(|deviation| deviation.what()).collect();
    names.sort();
    names.dedup();
    assert_eq!(names.len(), all.len());
}

/// Takes its time: run it with `--ignored`.
#[test]
#[ignore]
fn no_two_deviations_are_alike() {
    use std::collections::HashMap;
    use std::hash::{DefaultHasher, Hash, Hasher};
    let chosen = common::kits().into_iter().map(|kit| kit.bytes);
    let all: Vec<Vec<u8>> = (0..6_000).map(random::kit).chain(chosen).collect();
    let (small, mut large): (Vec<_>, Vec<_>) = all.into_iter().partition(|kit| kit.len() < 8_000);
    // Those of the long delays and filters stand last.
    large.drain(60..large.len() - 60);
    let turned = small[0]
        .chunks_exact(4)
        .flat_map(|word| word.iter().rev().copied())
        .collect();
    let kits = [small, large, vec![turned]].concat();
    let mut alike: HashMap<u64, Vec<&str>> = HashMap::new();
    for &deviation in Deviation::ALL {
        let mut hasher = DefaultHasher::new();
        for kit in &kits {
            listing::list_as(Deviant(deviation), kit).hash(&mut hasher);
        }
        alike
            .entry(hasher.finish())
            .or_default()
            .push(deviation.name());
    }
    alike.retain(|_, names| names.len() > 1);
    assert!(alike.is_empty(), "{alike:?}");
}
