//! The cases themselves: what they cover, and the plain run compared with the whole run.

use reference::cases::coverage::Coverage;
use reference::cases::lists::{Draft, DraftField, BITS_16};
use reference::cases::{calls, case, records, Case};
use reference::{admit, plain, run_row, start, step, Operation, Record, RunAnswer};

const SEED: u64 = 1;

/// Debug builds look at fewer cases.
const CASES: u64 = if cfg!(debug_assertions) {
    20_000
} else {
    200_000
};

fn whole_run(case: &Case) -> (RunAnswer, Vec<u8>) {
    let mut incoming = case.incoming.clone();
    let answer = run_row(&case.list, &mut incoming, &case.outgoing, &case.row);
    (answer, incoming)
}

#[test]
fn cases_are_the_same_every_time() {
    for number in 0..50 {
        assert_eq!(case(SEED, number), case(SEED, number));
    }
    assert_ne!(case(SEED, 0), case(SEED, 1));
    assert_ne!(case(SEED, 0), case(SEED + 1, 0));
}

#[test]
fn run_cases_cover_everything() {
    let mut coverage = Coverage::of_runs();
    for number in 0..CASES {
        coverage.observe(&case(SEED, number));
    }
    println!("{}", coverage.table());
    assert_eq!(coverage.missing(), []);
}

#[test]
fn step_cases_cover_everything() {
    let mut coverage = Coverage::of_steps();
    for number in 0..CASES {
        coverage.observe_step(&records::step_case(SEED, number));
    }
    println!("{}", coverage.table());
    assert_eq!(coverage.missing(), []);
}

#[test]
fn call_cases_cover_everything() {
    let mut coverage = Coverage::of_calls();
    for number in 0..CASES {
        coverage.observe_call(&calls::call_case(SEED, number));
    }
    println!("{}", coverage.table());
    assert_eq!(coverage.missing(), []);
}

#[test]
fn plain_equals_the_whole_run() {
    for number in 0..CASES {
        let case = case(SEED, number);
        let mut incoming = case.incoming.clone();
        let (incoming_len, outgoing_len) = case.lengths;
        let admitted = plain::admit(&case.list, incoming_len, outgoing_len);
        let expected = admit(&case.list, incoming_len, outgoing_len);
        assert_eq!(admitted, expected, "case {number}");
        let plain = plain::run_row(&case.list, &mut incoming, &case.outgoing, &case.row);
        assert_eq!((plain, incoming), whole_run(&case), "case {number}");
    }
}

/// The plain admission of every N, A, F, Q-mode and transfer mode, in both lengths and word
/// sizes, with right and wrong second longwords.
#[test]
fn plain_admits_every_word_alike() {
    let stride = if cfg!(debug_assertions) { 97 } else { 1 };
    let seconds = [0, 1, 0xFFFF_FFFE, 0xFFFF_FFFF, 0xFFFF_FE00];
    for bits in (0..1_u32 << 18).step_by(stride) {
        let naf = bits >> 4 << 16;
        let first = naf | 0x0100 | (bits & 15) << 3;
        for first in [first, first | BITS_16] {
            let short = DraftField::camac(first, None);
            let long = seconds.map(|second| DraftField::camac(first, Some(second)));
            for field in [short].into_iter().chain(long) {
                let list = Draft::new(3, vec![field, DraftField::halt()]).bytes();
                let counts = plain::admit(&list, u64::MAX, u64::MAX);
                assert_eq!(counts, admit(&list, u64::MAX, u64::MAX), "{list:02X?}");
            }
        }
    }
}

/// A whole run by start and one step a reply, its row checked first.
fn by_steps(case: &Case) -> (RunAnswer, Vec<u8>) {
    let mut incoming = case.incoming.clone();
    let mut answer = start(&case.list, &mut incoming, &case.outgoing);
    let mut taken = 0;
    for reply in case.row.chunks(8) {
        if answer.record.ended {
            break;
        }
        let record = answer.record;
        answer = step(&case.list, &record, &mut incoming, &case.outgoing, reply);
        assert_eq!(answer.refusal, None);
        taken += 1;
    }
    let answer = RunAnswer {
        refusal: answer.refusal,
        taken,
        record: answer.record,
    };
    (answer, incoming)
}

/// Whole runs equal start and steps, unless 22 refuses their row.
#[test]
fn the_whole_run_equals_start_and_steps() {
    let mut long = 0;
    for number in 0..CASES / 4 {
        let case = case(SEED, number);
        let whole = whole_run(&case);
        let refused = whole.0.refusal.map_or(0, |refusal| refusal.number);
        if refused == 22 {
            assert_eq!(whole.0.record, Record::refused());
            assert_eq!(whole.1, case.incoming);
            continue;
        }
        // A step reads the whole list: long rows on long lists would take minutes.
        if case.row.len() * case.list.len() > 4_000_000 {
            long += 1;
            continue;
        }
        assert_eq!(by_steps(&case), whole, "case {number}");
    }
    assert!(long < 1 + CASES / 400);
}

/// A refused step gives back what it was given; a refused whole run or start a record
/// marked ended, all else zero.
#[test]
fn refusals_change_nothing() {
    for number in 0..CASES {
        let case = records::step_case(SEED, number);
        let (answer, incoming) = case.stepped();
        if answer.refusal.is_some() {
            assert_eq!(answer.record, case.record);
            assert_eq!(answer.wanted, Operation::default());
            assert_eq!(incoming, case.incoming);
        }
        let case = reference::cases::case(SEED, number);
        let (answer, incoming) = whole_run(&case);
        if answer.refusal.is_some() {
            assert_eq!((answer.record, answer.taken), (Record::refused(), 0));
            assert_eq!(incoming, case.incoming);
        }
    }
}
