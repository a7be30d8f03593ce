//! Start, step and steps on random cases, from a fixed seed and from a fresh one: records
//! reached, made to fit, changed and any; lists and buffers spoilt; replies of any length.
//! Every number of answer and record and every incoming byte is compared, refused calls
//! included.

#![cfg(library)]

mod common;
#[path = "common/seed.rs"]
mod seed;

use camlist::ffi;
use common::{compare_start, compare_step, compare_steps, After, Given, Record};
use reference::cases::calls::{call_case, CallCase};
use reference::cases::coverage::Coverage;
use reference::cases::rng::Rng;
use std::fmt::Arguments;

/// Debug builds look at fewer cases.
const CASES: u64 = if cfg!(debug_assertions) {
    30_000
} else {
    300_000
};

const FIXED_SEED: u64 = 30;

fn compare(seed: u64) {
    let mut coverage = Coverage::of_calls();
    for number in 0..CASES {
        let case = call_case(seed, number);
        coverage.observe_call(&case);
        compare_case(&case, &mut Rng::of_case(seed + 1, number), seed, number);
    }
    let missing = coverage.missing();
    assert!(
        missing.is_empty(),
        "never met: {missing:?}\n{}",
        coverage.table()
    );
}

fn compare_case(case: &CallCase, rng: &mut Rng, seed: u64, number: u64) {
    let what = format_args!("call_case({seed}, {number})");
    let given = Given {
        list: &case.list,
        record: case.record,
        incoming: &case.incoming,
        outgoing: &case.outgoing,
    };
    compare_start(&given, what);
    compare_step(&given, &case.reply, what);
    let whole = compare_steps(&given, &case.row, what);
    if whole.answer[0] == 0 {
        assert_eq!(in_pieces(&given, &case.row, rng), whole, "cut: {what}");
        assert_eq!(one_by_one(&given, &case.row), whole, "one by one: {what}");
    }
    started_whole(&given, &case.row, what);
}

/// Start and steps are the whole run, unless 22 refuses its row.
fn started_whole(given: &Given, row: &[u8], what: Arguments) {
    let Given { list, outgoing, .. } = *given;
    let mut incoming = given.incoming.to_vec();
    let [refused, _, taken, whole @ ..] = ffi::run(list, &mut incoming, outgoing, row);
    if refused != 0 {
        return;
    }
    let (mut stepped, mut record) = (given.incoming.to_vec(), given.record);
    ffi::start(list, &mut stepped, outgoing, &mut record);
    let ended = record[0];
    let steps = ffi::steps(list, &mut record, &mut stepped, outgoing, row);
    assert_eq!(steps[0], 24 * ended, "{what}");
    assert_eq!((steps[2], record), (taken, whole), "{what}");
    assert!(stepped == incoming, "{what}");
}

/// Steps over a row cut at random into pieces, empty ones too.
fn in_pieces(given: &Given, row: &[u8], rng: &mut Rng) -> After<{ ffi::STEPS_NUMBERS }> {
    let (mut record, mut incoming) = (given.record, given.incoming.to_vec());
    let (mut rest, mut taken) = (row, 0);
    loop {
        let (piece, after) = rest.split_at(8 * rng.index(rest.len() / 8 + 1));
        let mut answer = ffi::steps(
            given.list,
            &mut record,
            &mut incoming,
            given.outgoing,
            piece,
        );
        assert_eq!(answer[0], 0);
        taken += answer[2];
        rest = after;
        if record[0] == 1 || rest.is_empty() {
            answer[2] = taken;
            return After {
                answer,
                record,
                incoming,
            };
        }
    }
}

/// The same by one step for each reply; a row without one is left as it is.
fn one_by_one(given: &Given, row: &[u8]) -> After<{ ffi::STEPS_NUMBERS }> {
    let (mut record, mut incoming): (Record, _) = (given.record, given.incoming.to_vec());
    let mut answer = ffi::steps(given.list, &mut record, &mut incoming, given.outgoing, &[]);
    for reply in row.chunks(8) {
        if record[0] == 1 {
            break;
        }
        let [number, place, operation @ ..] = ffi::step(
            given.list,
            &mut record,
            &mut incoming,
            given.outgoing,
            reply,
        );
        let head = [number, place, answer[2] + 1];
        answer[..3].copy_from_slice(&head);
        answer[3..].copy_from_slice(&operation);
    }
    After {
        answer,
        record,
        incoming,
    }
}

#[test]
fn fixed_seed() {
    compare(FIXED_SEED);
}

#[test]
fn fresh_seed() {
    compare(seed::fresh(CASES, "cases of start, step and steps"));
}
