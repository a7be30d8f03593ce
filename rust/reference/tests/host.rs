//! Start, step and steps in numbers, by hand; steps held against one step for each reply.

use reference::cases::by_hand::*;
use reference::cases::calls::call_case;
use reference::host::{run_numbers, start_numbers, step_numbers, steps_numbers};
use reference::{Note, Record};

const CASES: u64 = if cfg!(debug_assertions) {
    3_000
} else {
    50_000
};

/// Two 16-bit words read in repeat from crate 3, N 6, A 0, F 2, with R = 3.
fn words() -> Vec<u8> {
    one(&double(0x0C02_0332, 0xFFFF_FFFE))
}

/// After one try of the first word.
const TRIED: [u64; 13] = [0, 0, 2, 1, 6, 0, 0, 0, 1, 0x1_0000, 0, 0, 0];

#[test]
fn a_run_by_hand() {
    let (list, mut incoming) = (words(), [0xEE; 4]);
    let (mut record, answer) = start_numbers(&list, &mut incoming, &[]);
    assert_eq!(record, [0, 0, 2, 0, 6, 0, 0, 0, 0, 0, 0, 0, 0]);
    let wanted = [0, 0, 3, 6, 0, 2, 0, 0];
    assert_eq!(answer, wanted);
    let answer = step_numbers(&list, &mut record, &mut incoming, &[], &answers(&[X]));
    assert_eq!((record, answer), (TRIED, wanted));
    let row = [ok(0x1234), ok(0x5678), kind(1)].concat();
    let answer = steps_numbers(&list, &mut record, &mut incoming, &[], &row);
    assert_eq!(answer, [0, 0, 2, 0, 0, 0, 0, 0, 0]);
    assert_eq!(record, [1, 1, 0, 0, 0, 0, 4, 0, 3, 0x1_0080, 0, 2, 2]);
    assert_eq!(incoming, [0x34, 0x12, 0x78, 0x56]);
    let answer = steps_numbers(&list, &mut record, &mut incoming, &[], &row);
    assert_eq!(answer, [24, 0, 0, 0, 0, 0, 0, 0, 0]);
}

/// "The operation wanted next gains a sixth number" (E1), in start, step and steps; zero after
/// the end. Two words for the sequencer's list 3, then a standard read.
#[test]
fn an_enhanced_run_by_hand() {
    let fields = double(0x3C6C_055A, 0xFFFF_FFFE) + &single(0x0C02_0302);
    let (list, outgoing) = (one(&fields), [0x34, 0x12, 0x78, 0x56]);
    let mut incoming = [0xEE; 2];
    let (mut record, answer) = start_numbers(&list, &mut incoming, &outgoing);
    assert_eq!(record, [0, 0, 2, 0, 30, 3, 0, 0, 0, 0, 0, 0, 0]);
    assert_eq!(answer, [0, 0, 5, 30, 3, 12, 0x1234, 1]);
    let answer = step_numbers(&list, &mut record, &mut incoming, &outgoing, &answers(&[X]));
    assert_eq!(record, [0, 0, 1, 0, 30, 3, 0, 2, 1, 0x1_0000, 1, 0, 2]);
    assert_eq!(answer, [0, 0, 5, 30, 3, 12, 0x5678, 1]);
    let answer = steps_numbers(&list, &mut record, &mut incoming, &outgoing, &[]);
    assert_eq!(answer, [0, 0, 0, 5, 30, 3, 12, 0x5678, 1]);
    let answer = steps_numbers(&list, &mut record, &mut incoming, &outgoing, &ok(0));
    assert_eq!(record, [0, 1, 1, 0, 6, 0, 0, 4, 2, 0x1_0000, 1, 2, 2]);
    assert_eq!(answer, [0, 0, 1, 3, 6, 0, 2, 0, 0]);
    let answer = step_numbers(&list, &mut record, &mut incoming, &outgoing, &ok(0x9ABC));
    assert_eq!(answer, [0; 8]);
    assert_eq!(record, [1, 2, 0, 0, 0, 0, 2, 4, 3, 0x1_0080, 0, 0, 2]);
    assert_eq!(incoming, [0xBC, 0x9A]);
}

/// E8: three 16-bit words asked for, of which one comes, in steps and in one whole run; then a
/// literal, and a 24-bit word that is written.
#[test]
fn a_short_run_by_hand() {
    let literal = "21 04 00 DD CC BB AA ";
    let fields = double(0x0C02_0322, 0xFFFF_FFFD) + literal + &single(0x0C10_0300);
    let (list, outgoing) = (one(&fields), [0x56, 0x34, 0x12, 0x99]);
    let mut incoming = [0xEE; 12];
    let (mut record, answer) = start_numbers(&list, &mut incoming, &outgoing);
    assert_eq!(record, [0, 0, 3, 0, 6, 0, 0, 0, 0, 0, 0, 0, 0]);
    assert_eq!(answer, [0, 0, 3, 6, 0, 2, 0, 0]);
    let row = [ok(0x1234), answer_without_q()].concat();
    let answer = steps_numbers(&list, &mut record, &mut incoming, &outgoing, &row);
    let waiting = [0, 2, 1, 0, 6, 0, 8, 0, 2, 0x1_0000, 0, 0, 2];
    assert_eq!(record, waiting);
    assert_eq!(answer, [0, 0, 2, 3, 6, 0, 16, 0x12_3456, 0]);
    let stored = hex("34 12 00 00 DD CC BB AA EE EE EE EE");
    assert_eq!(incoming[..], stored);
    let mut incoming = [0xEE; 12];
    let [0, 0, 2, whole @ ..] = run_numbers(&list, &mut incoming, &outgoing, &row) else {
        panic!("two replies taken");
    };
    assert_eq!((whole, &incoming[..]), (waiting, &stored[..]));
    let answer = step_numbers(&list, &mut record, &mut incoming, &outgoing, &ok(0));
    assert_eq!(answer, [0; 8]);
    assert_eq!(record, [1, 3, 0, 0, 0, 0, 8, 4, 3, 0x1_0080, 1, 0, 4]);
}

fn answer_without_q() -> [u8; 8] {
    answer(X, 0x56_5656)
}

/// An empty row changes nothing and says what is wanted.
#[test]
fn steps_over_no_reply() {
    let (list, mut incoming, mut record) = (words(), [0xEE; 4], TRIED);
    let answer = steps_numbers(&list, &mut record, &mut incoming, &[], &[]);
    assert_eq!(answer, [0, 0, 0, 3, 6, 0, 2, 0, 0]);
    assert_eq!((record, incoming), (TRIED, [0xEE; 4]));
}

/// "22 .. a row with such a reply anywhere or not a multiple of 8", past the end too.
#[test]
fn the_whole_row_is_checked_first() {
    let rows = [
        [ok(1), ok(2), [4; 8]].concat(),
        [ok(1), ok(2), ok(3)].concat()[..23].to_vec(),
        vec![0; 7],
    ];
    for row in rows {
        let (list, mut incoming, mut record) = (words(), [0xEE; 4], TRIED);
        let answer = steps_numbers(&list, &mut record, &mut incoming, &[], &row);
        assert_eq!(answer, [22, 0, 0, 0, 0, 0, 0, 0, 0]);
        assert_eq!((record, incoming), (TRIED, [0xEE; 4]));
    }
}

/// Numbers too wide for their part don't fit; any first number but 0 is an ended one, which
/// comes before; a record refused keeps its numbers.
#[test]
fn numbers_too_wide() {
    let with = |at: usize, number| {
        let mut record = TRIED;
        record[at] = number;
        record
    };
    let mut both = with(0, 2);
    both[4] += 256;
    for (given, number) in [
        (with(4, 6 + 256), 23),
        (with(4, 6 + (1 << 32)), 23),
        (with(5, 256), 23),
        (with(9, 1 << 32 | 0x1_0000), 23),
        (with(9, 1 << 63), 23),
        (with(10, 256), 23),
        (with(0, 1), 24),
        (with(0, 2), 24),
        (with(0, 256), 24),
        (with(0, u64::MAX), 24),
        (both, 24),
    ] {
        let (list, mut incoming, mut record) = (words(), [0xEE; 4], given);
        let answer = step_numbers(&list, &mut record, &mut incoming, &[], &ok(1));
        assert_eq!(answer, [number, 0, 0, 0, 0, 0, 0, 0], "{given:?}");
        assert_eq!((record, incoming), (given, [0xEE; 4]));
        // Admission's refusals come first.
        let answer = step_numbers(&list, &mut record, &mut incoming[..3], &[], &ok(1));
        assert_eq!((answer[0], record), (20, given));
    }
}

/// "a refused start .. gives a record marked ended, all else zero."
#[test]
fn a_refused_start() {
    let (record, answer) = start_numbers(&list(M01), &mut [], &[]);
    assert_eq!(record, [1, 0, 0, 0, 0, 0, 0, 0, 0, 0, 0, 0, 0]);
    assert_eq!(answer, [8, 18, 0, 0, 0, 0, 0, 0]);
}

#[test]
fn records_from_their_numbers() {
    let record = Record {
        ended: true,
        instruction: 1,
        words_left: 2,
        tries: 3,
        n: 4,
        a: 5,
        incoming_mark: 6,
        outgoing_mark: 7,
        operations: 8,
        status: 9,
        note: Note {
            buffer: 10,
            offset: 11,
            length: 12,
        },
    };
    let numbers = [1, 1, 2, 3, 4, 5, 6, 7, 8, 9, 10, 11, 12];
    assert_eq!(record.numbers(), numbers);
    assert_eq!(Record::from_numbers(&numbers), Some(record));
}

/// Steps equal one step for each reply, and start with steps equals the whole run.
#[test]
fn steps_equal_step_by_step() {
    for number in 0..CASES {
        let case = call_case(2, number);
        let (list, outgoing) = (&case.list, &case.outgoing);
        let (mut record, mut incoming) = (case.record, case.incoming.clone());
        let steps = steps_numbers(list, &mut record, &mut incoming, outgoing, &case.row);
        if steps[0] == 0 {
            let after = (record, incoming);
            let (mut record, mut incoming) = (case.record, case.incoming.clone());
            let mut taken = 0;
            for reply in case.row.chunks(8).take(steps[2] as usize) {
                let [refused, ..] = step_numbers(list, &mut record, &mut incoming, outgoing, reply);
                assert_eq!(refused, 0);
                taken += 1;
            }
            assert!(record[0] == 1 || taken == case.row.len() / 8);
            assert_eq!((record, incoming), after, "call_case(2, {number})");
        }
        let mut incoming = case.incoming.clone();
        let [refused, _, taken, whole @ ..] = run_numbers(list, &mut incoming, outgoing, &case.row);
        if refused == 0 {
            let mut stepped = case.incoming.clone();
            let (mut record, _) = start_numbers(list, &mut stepped, outgoing);
            let ended = record[0];
            let steps = steps_numbers(list, &mut record, &mut stepped, outgoing, &case.row);
            assert_eq!(steps[0], 24 * ended);
            assert_eq!((steps[2], record, stepped), (taken, whole, incoming));
        }
    }
}
