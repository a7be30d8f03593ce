//! Stop blocks that Q = 0 closes (document 02's E8): one at every word, before everything that
//! can follow, and any in random lists. Both engines are compared; and the proved one with
//! itself, since such a run is the run in which the blocks ask for the words that they brought.

#![cfg(library)]

mod common;
#[path = "common/seed.rs"]
mod seed;

use camlist::ffi;
use common::{compare_admission, compare_run, compare_start, compare_step, compare_steps};
use common::{Given, Record};
use reference::cases::coverage::Coverage;
use reference::cases::short::{self, ShortRun};
use reference::cases::Case;
use std::fmt::Arguments;

/// Debug builds look at fewer cases.
const CASES: u64 = if cfg!(debug_assertions) {
    10_000
} else {
    100_000
};

const FIXED_SEED: u64 = 70;

/// The run as a case with exact buffers.
fn case_of(run: &ShortRun) -> Case {
    let list = run.draft.bytes();
    let [number, _, _, b, o] = ffi::admit(&list, u64::MAX, u64::MAX);
    assert_eq!(number, 0);
    Case {
        list,
        lengths: (b, o),
        incoming: vec![0xEE; b as usize],
        outgoing: (1..=o).map(|at| at as u8).collect(),
        row: run.row.clone(),
    }
}

/// A run of the proved engine over some list and row, in the buffers of the case.
fn ran(case: &Case, list: &[u8], row: &[u8]) -> ([u64; ffi::RUN_NUMBERS], Vec<u8>) {
    let mut incoming = case.incoming.clone();
    let numbers = ffi::run(list, &mut incoming, &case.outgoing, row);
    (numbers, incoming)
}

/// The operation wanted behind a row, by start and steps of the proved engine.
fn wanted(case: &Case, list: &[u8], row: &[u8]) -> [u64; 6] {
    let (mut incoming, mut record) = (case.incoming.clone(), [0; ffi::RECORD_NUMBERS]);
    let [number, _, wanted @ ..] = ffi::start(list, &mut incoming, &case.outgoing, &mut record);
    assert_eq!(number, 0);
    if record[0] == 1 {
        return wanted;
    }
    let answer = ffi::steps(list, &mut record, &mut incoming, &case.outgoing, row);
    let [0, 0, _, wanted @ ..] = answer else {
        panic!("{answer:?}");
    };
    wanted
}

fn given<'a>(case: &'a Case, record: Record, incoming: &'a [u8]) -> Given<'a> {
    Given {
        list: &case.list,
        record,
        incoming,
        outgoing: &case.outgoing,
    }
}

/// Compares both engines by the whole run and by a step for each reply, and by steps over the
/// rest of the row from every record on the way.
fn compare_engines(case: &Case, what: Arguments) {
    let (list, outgoing) = (&case.list, &case.outgoing);
    compare_admission(list, case.lengths.0, case.lengths.1, what);
    let [_, _, _, whole @ ..] = compare_run(list, &case.incoming, outgoing, &case.row, what);
    let start = compare_start(&given(case, [0; 13], &case.incoming), what);
    let (mut record, mut incoming) = (start.record, start.incoming);
    for (number, reply) in case.row.chunks(8).enumerate() {
        if record[0] == 1 {
            break;
        }
        let rest = compare_steps(
            &given(case, record, &incoming),
            &case.row[8 * number..],
            what,
        );
        assert_eq!(rest.record, whole, "{what}");
        let after = compare_step(&given(case, record, &incoming), reply, what);
        (record, incoming) = (after.record, after.incoming);
    }
    assert_eq!(record, whole, "{what}");
}

fn compare(run: &ShortRun, what: Arguments) {
    let case = case_of(run);
    compare_engines(&case, what);
    let (list, row) = run.cut();
    let (numbers, incoming) = ran(&case, &list, &row);
    let expected = (run.joined(numbers), incoming);
    assert_eq!(ran(&case, &case.list, &case.row), expected, "{what}");
    let expected = wanted(&case, &list, &row);
    assert_eq!(wanted(&case, &case.list, &case.row), expected, "{what}");
}

#[test]
fn every_word_before_everything() {
    let mut coverage = Coverage::of_short_runs();
    let family = short::family();
    for run in &family {
        compare(run, format_args!("{run:02X?}"));
        coverage.observe(&case_of(run));
    }
    println!("{} runs\n{}", family.len(), coverage.table());
    assert_eq!(coverage.missing(), []);
}

fn compare_random(seed: u64) {
    let mut closed = 0;
    for number in 0..CASES {
        let run = short::random(seed, number);
        closed += run.closings.len() as u64;
        compare(&run, format_args!("short::random({seed}, {number})"));
    }
    println!("{closed} blocks closed in {CASES} runs");
    assert!(closed > CASES / 10);
}

#[test]
fn fixed_seed() {
    compare_random(FIXED_SEED);
}

#[test]
fn fresh_seed() {
    compare_random(seed::fresh(CASES, "runs with short blocks"));
}
