//! The power of the conformance kits: every deviation is told apart by one of them.

mod common;
use common::kits;
use model::conformance;

#[test]
fn every_deviation_is_told_by_a_conformance_kit() {
    let untold: Vec<String> = conformance::untold(&kits())
        .iter()
        .map(|deviation| format!("{}: {}", deviation.name(), deviation.what()))
        .collect();
    assert!(untold.is_empty(), "not told:\n{}", untold.join("\n"));
}
