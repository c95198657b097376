//! A short run of each comparison. A seed has to give the same trees and texts as ever: the figures in
//! docs/TESTING.md and the vectors of crates/test_original are of these.

use oracle::compare::{Compared, Comparison};
use oracle::every_tree::compare_every;
use oracle::guarded::compare_damaged;
use oracle::random_tree::compare_random;

/// Runs a comparison without a difference; answers with how many trees and texts it had.
fn compared(run: impl FnOnce(&mut Comparison) -> Compared) -> (u64, u64) {
    let mut comparison = Comparison::default();
    run(&mut comparison).unwrap_or_else(|difference| panic!("{difference}"));
    (comparison.tally.trees, comparison.tally.texts)
}

#[test]
fn random_trees() {
    assert_eq!(compared(|comparison| compare_random(comparison, 1000, 1)), (1000, 3190));
}

#[test]
fn all_trees_of_three_lines() {
    assert_eq!(compared(|comparison| compare_every(comparison, 3, 1)), (1769, 1982));
}

#[test]
fn damaged_texts() {
    assert_eq!(compared(|comparison| compare_damaged(comparison, 1000, 1)), (63, 1008));
}
