//! Random cases, from a fixed seed and from a fresh one: lists valid, damaged and at the
//! edges, rows of every manner, buffers exact, longer and short.

#![cfg(library)]

mod common;
#[path = "common/seed.rs"]
mod seed;

use common::{compare_admission, compare_run};
use reference::cases::case;
use reference::cases::coverage::Coverage;

/// Debug builds look at fewer cases.
const CASES: u64 = if cfg!(debug_assertions) {
    60_000
} else {
    400_000
};

const FIXED_SEED: u64 = 20;

fn compare(seed: u64) {
    let mut coverage = Coverage::of_runs();
    for number in 0..CASES {
        let case = case(seed, number);
        coverage.observe(&case);
        let (list, incoming, outgoing) = (&case.list, &case.incoming, &case.outgoing);
        let what = format_args!("case({seed}, {number})");
        compare_admission(list, case.lengths.0, case.lengths.1, what);
        compare_run(list, incoming, outgoing, &case.row, what);
    }
    let missing = coverage.missing();
    assert!(
        missing.is_empty(),
        "never met: {missing:?}\n{}",
        coverage.table()
    );
}

#[test]
fn fixed_seed() {
    compare(FIXED_SEED);
}

#[test]
fn fresh_seed() {
    compare(seed::fresh(CASES, "random cases"));
}
