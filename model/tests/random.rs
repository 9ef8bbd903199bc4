//! Random kits: what they reach, and that the same seed gives the same kit.

use model::random::{self, Reached, ReachedCalls};

#[test]
fn everything_is_reached_often() {
    let mut reached = Reached::new();
    for seed in 0..10_000 {
        reached.count(&random::kit(seed));
    }
    println!("{reached}");
    let (count, name) = reached.scarcest();
    assert!(count >= 20, "{name}: {count}");
}

#[test]
fn lists_of_calls_reach_everything_often() {
    let mut reached = ReachedCalls::default();
    for seed in 0..4_000 {
        reached.count(&random::calls(seed));
    }
    println!("{reached}");
    let (count, name) = reached.scarcest();
    assert!(count >= 10, "{name}: {count}");
}

#[test]
fn a_seed_gives_one_kit() {
    for seed in [0, 1, 2, 77, u64::MAX] {
        assert_eq!(random::kit(seed), random::kit(seed));
    }
    assert_ne!(random::kit(1), random::kit(2));
}
