//! E8: stop blocks closed at every word, and at any word of random lists. A run that closes
//! blocks is the run in which they ask for the words that they brought.

use reference::cases::coverage::Coverage;
use reference::cases::short::{self, ShortRun};
use reference::cases::Case;
use reference::walk::admission;
use reference::{plain, run_row, start, step, Answer, RunAnswer};

/// Debug builds look at fewer cases.
const CASES: u64 = if cfg!(debug_assertions) {
    10_000
} else {
    200_000
};

const SEED: u64 = 12;

type Run = fn(&[u8], &mut [u8], &[u8], &[u8]) -> RunAnswer;

/// The run as a case with exact buffers.
fn case_of(run: &ShortRun) -> Case {
    let list = run.draft.bytes();
    let counts = admission(&list, u64::MAX, u64::MAX)
        .expect("admitted")
        .counts;
    Case {
        list,
        lengths: (counts.b, counts.o),
        incoming: vec![0xEE; counts.b as usize],
        outgoing: (1..=counts.o).map(|at| at as u8).collect(),
        row: run.row.clone(),
    }
}

/// What a run over another list and row answers and stores, in the buffers of the case.
fn ran(run: Run, case: &Case, (list, row): (&[u8], &[u8])) -> ([u64; 16], Vec<u8>) {
    let mut incoming = case.incoming.clone();
    let answer = run(list, &mut incoming, &case.outgoing, row);
    (answer.numbers(), incoming)
}

/// The last of start and steps over a row.
fn stepped(case: &Case, (list, row): (&[u8], &[u8])) -> (Answer, Vec<u8>) {
    let mut incoming = case.incoming.clone();
    let mut answer = start(list, &mut incoming, &case.outgoing);
    for reply in row.chunks(8) {
        if answer.record.ended {
            break;
        }
        let record = answer.record;
        answer = step(list, &record, &mut incoming, &case.outgoing, reply);
        assert_eq!(answer.refusal, None);
    }
    (answer, incoming)
}

/// Holds the run against the one without short blocks: by the whole run, the plain one, and
/// start and steps with the operation wanted last.
fn compare(run: &ShortRun) {
    let case = case_of(run);
    let whole = (&case.list[..], &case.row[..]);
    let (list, row) = run.cut();
    let cut = (&list[..], &row[..]);
    for engine in [run_row as Run, plain::run_row] {
        let (numbers, incoming) = ran(engine, &case, cut);
        let expected = (run.joined(numbers), incoming);
        assert_eq!(ran(engine, &case, whole), expected, "{run:02X?}");
    }
    let ((short, incoming), (full, expected)) = (stepped(&case, whole), stepped(&case, cut));
    assert_eq!((short.wanted, incoming), (full.wanted, expected), "{run:?}");
    let numbers = ran(run_row, &case, whole).0;
    assert_eq!(short.record.numbers()[..], numbers[3..], "{run:?}");
}

#[test]
fn every_word_before_everything() {
    let mut coverage = Coverage::of_short_runs();
    let family = short::family();
    for run in &family {
        compare(run);
        coverage.observe(&case_of(run));
    }
    println!("{} runs\n{}", family.len(), coverage.table());
    assert_eq!(coverage.missing(), []);
}

#[test]
fn random_lists() {
    let mut closed = 0;
    for number in 0..CASES {
        let run = short::random(SEED, number);
        closed += run.closings.len() as u64;
        compare(&run);
    }
    println!("{closed} blocks closed in {CASES} runs");
    assert!(closed > CASES / 10);
}
