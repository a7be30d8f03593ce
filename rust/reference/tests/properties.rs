//! Properties of document 01, tried on many lists.

use std::collections::HashMap;

use reference::cases::by_hand::{ERR, LPE, Q, TPE, X};
use reference::cases::lists::{self, Draft, DraftField, BLOCK, ENHANCED, Q_MODE};
use reference::cases::records::{fitting, step_case, StepCase};
use reference::cases::rng::Rng;
use reference::cases::rows::{row, slowest, Manner, MANNERS};
use reference::fit::{broken_clause, fits, most_still_possible, Clause};
use reference::list::Instruction;
use reference::scan::Position;
use reference::walk::{admission, Admitted};
use reference::words::{decode, Camac, QMode, Transfer};
use reference::{run_row, start, step, Answer, Note, Record};

const CASES: u64 = if cfg!(debug_assertions) {
    3_000
} else {
    60_000
};

const STOP: u32 = 0;
const IGNORE: u32 = 1 << 3;
const REPEAT: u32 = 2 << 3;
/// F 16, and the list sequencer's F 12.
const WRITE: u32 = 16 << 16;
const SEQUENCER: u32 = 12 << 16;

/// Rows longer than this are not made.
const MOST_REPLIES: u64 = 3_000;

fn small_list(rng: &mut Rng) -> (Vec<u8>, Admitted) {
    let list = lists::small(rng).bytes();
    let admitted = admission(&list, u64::MAX, u64::MAX).expect("small lists are valid");
    (list, admitted)
}

/// Demand 3, upper half: along any run operations stay within W, the incoming mark within
/// B, nothing is written at B or after, and the record always fits. "B and O become the most
/// that can be stored and taken; no reply list passes them" (E8).
#[test]
fn runs_stay_within_w_and_b() {
    let mut rng = Rng::new(3);
    for _ in 0..CASES / 10 {
        let (list, admitted) = small_list(&mut rng);
        let manner = rng.pick(&MANNERS);
        let row = row(&mut rng, &admitted, manner, 100);
        let b = admitted.counts.b as usize;
        let mut incoming = vec![0xEE; b + 4];
        let outgoing = rng.bytes(admitted.counts.o as usize);
        let mut answer = start(&list, &mut incoming, &outgoing);
        for (taken, reply) in row.chunks(8).enumerate() {
            assert!(fits(&admitted, &answer.record));
            assert_eq!(answer.record.operations, taken as u64);
            let record = answer.record;
            answer = step(&list, &record, &mut incoming, &outgoing, reply);
            assert_eq!(answer.refusal, None);
        }
        let record = answer.record;
        assert!(record.ended || fits(&admitted, &record));
        assert!(record.operations <= admitted.counts.w);
        assert!(record.incoming_mark <= admitted.counts.b);
        assert!(record.outgoing_mark <= admitted.counts.o);
        assert_eq!(incoming[b..], [0xEE; 4]);
    }
}

/// Demand 3, attained half: the slowest replies make W operations, fill B bytes and end
/// with code 0. "some run without short blocks reaches them along with W" (E8): none of these
/// replies has Q = 0 in stop.
#[test]
fn the_slowest_replies_reach_w_and_b() {
    let mut rng = Rng::new(4);
    let mut reached = 0;
    for _ in 0..CASES {
        let (list, admitted) = small_list(&mut rng);
        let counts = admitted.counts;
        if counts.w > MOST_REPLIES {
            continue;
        }
        let most = MOST_REPLIES as usize + 1;
        let row = row(&mut rng, &admitted, Manner::Slowest, most);
        let mut incoming = vec![0; counts.b as usize];
        let outgoing = vec![0; counts.o as usize];
        let record = run_row(&list, &mut incoming, &outgoing, &row).record;
        assert!(record.ended);
        assert_eq!(record.operations, counts.w);
        assert_eq!(record.incoming_mark, counts.b);
        assert_eq!(record.outgoing_mark, counts.o);
        assert_eq!(record.status >> 28, 0);
        reached += 1;
    }
    assert!(reached > CASES / 2);
}

/// "Counts, packing and endings are those of standard blocks" (E1): with its standard blocks
/// turned enhanced where those are carried, a list runs as before.
#[test]
fn enhanced_blocks_run_as_standard_ones() {
    let mut rng = Rng::new(7);
    let mut turned = 0;
    for _ in 0..CASES {
        let standard = lists::small(&mut rng);
        let mut enhanced = standard.clone();
        for field in &mut enhanced.fields {
            turned += u64::from(turn_enhanced(field));
        }
        compare_runs(&mut rng, &standard.bytes(), &enhanced.bytes());
    }
    assert!(turned > CASES / 4);
}

/// Turns a standard block that isn't a scan or a repeat write.
fn turn_enhanced(field: &mut DraftField) -> bool {
    let block = field.tag == 0x10 && field.mode() == BLOCK;
    let q_mode = block.then(|| field.first() & Q_MODE);
    let writes = block && field.first() & WRITE != 0;
    match q_mode {
        Some(STOP | IGNORE) => {}
        Some(REPEAT) if !writes => {}
        _ => return false,
    }
    field.set_first(field.first() ^ BLOCK ^ ENHANCED);
    true
}

/// "It goes by ignore mode's rules" (E1): a sequencer runs as the ignore block at its N and A
/// that reads, for A 0 and 1, or writes.
#[test]
fn a_sequencer_runs_as_an_ignore_block() {
    let mut rng = Rng::new(8);
    for number in 0..CASES / 4 {
        let subaddress = number as u32 % 4;
        let flags = rng.below(4) as u32;
        let halfwords = 2 * rng.within(1..=6) as u32;
        let first = 30 << 25 | subaddress << 21 | 0x0100 | flags;
        let function = if subaddress < 2 { 0 } else { WRITE };
        let list = |first| {
            let before = DraftField::camac(0x0200_0102, None);
            let block = DraftField::camac(first, Some(halfwords.wrapping_neg()));
            let literal = DraftField::literal(0x1234_5678);
            Draft::new(3, vec![before, block, literal, DraftField::halt()]).bytes()
        };
        let ignore = list(first | BLOCK | IGNORE | function);
        let sequencer = list(first | ENHANCED | Q_MODE | SEQUENCER);
        compare_runs(&mut rng, &ignore, &sequencer);
    }
}

/// Compares admission and a run of two lists.
fn compare_runs(rng: &mut Rng, list: &[u8], other: &[u8]) {
    let admitted = admission(list, u64::MAX, u64::MAX).expect("admitted");
    let manner = rng.pick(&MANNERS);
    let row = row(rng, &admitted, manner, 100);
    let incoming = vec![0xEE; admitted.counts.b as usize];
    let outgoing = rng.bytes(admitted.counts.o as usize);
    let ran = |list: &[u8]| {
        let mut incoming = incoming.clone();
        let answer = run_row(list, &mut incoming, &outgoing, &row);
        (answer, incoming)
    };
    let counts = admission(other, u64::MAX, u64::MAX).map(|admitted| admitted.counts);
    assert_eq!(counts, Ok(admitted.counts), "{list:02X?} {other:02X?}");
    assert_eq!(ran(list), ran(other), "{list:02X?} {other:02X?}");
}

/// The slowest scan from every position with every number of words, by positions alone.
#[test]
fn the_slowest_scan_from_every_position() {
    for station in 1..=23 {
        for subaddress in 0..16 {
            let first = Position {
                station,
                subaddress,
            };
            for words in (1..=first.positions()).filter(|words| sampled(*words, station)) {
                assert_eq!(slowest_scan(first, words), first.most_operations(words));
            }
        }
    }
}

/// Debug builds look at some of the word counts only.
fn sampled(words: u64, station: u64) -> bool {
    !cfg!(debug_assertions) || words < 20 || words % 23 == station
}

fn slowest_scan(first: Position, words: u64) -> u64 {
    let scan = read_scan(first, words);
    let (mut position, mut left, mut operations) = (first, words, 0);
    while left > 0 {
        let record = Record {
            words_left: left,
            n: position.station,
            a: position.subaddress,
            ..Record::default()
        };
        let done = slowest(&scan, &record, 1) & 1 == 1;
        operations += 1;
        left -= u64::from(done);
        let next = if done {
            position.after_done()
        } else {
            position.next_station()
        };
        position = match next {
            Some(next) => next,
            None => break,
        };
    }
    assert_eq!(left, 0);
    operations
}

/// A scan block that reads 16-bit words.
fn read_scan(first: Position, words: u64) -> Camac {
    let naf = (first.station << 25 | first.subaddress << 21) as u32;
    decode(naf | 0x013A, Some((words as u32).wrapping_neg())).expect("a scan")
}

/// The step cases of a seed that are taken, each with its answer and the incoming buffer after.
fn taken(seed: u64) -> impl Iterator<Item = (StepCase, Answer, Vec<u8>)> {
    let cases = (0..CASES).map(move |number| step_case(seed, number));
    cases.filter_map(|case| {
        let (answer, incoming) = case.stepped();
        answer.refusal.is_none().then_some((case, answer, incoming))
    })
}

/// Fit is closed under taken steps, for any record that fits, and each step uses up at
/// least one of the operations still possible.
#[test]
fn fit_is_closed_under_taken_steps() {
    for (case, answer, _) in taken(5) {
        let lengths = (case.incoming.len() as u64, case.outgoing.len() as u64);
        let admitted = admission(&case.list, lengths.0, lengths.1).expect("admitted");
        let (before, after) = (case.record, answer.record);
        assert!(after.ended || fits(&admitted, &after), "{case:?}");
        assert_eq!(after.operations, before.operations + 1);
        let most = most_still_possible(&admitted, &before);
        assert!(most >= 1);
        assert!(most_still_possible(&admitted, &after) < most);
        assert_eq!(answer.wanted == Default::default(), after.ended);
    }
}

/// E4: where AD = 0, ERR with X = 1 ends the run, with 4 or a greater code, and moves no word.
#[test]
fn a_damaged_command_ends_the_run_and_moves_no_word() {
    let mut ended = 0;
    for (case, answer, incoming) in taken(9).filter(|(case, ..)| is_damaged(case)) {
        let (before, after) = (case.record, answer.record);
        assert!(after.ended, "{case:?}");
        assert!([4, 7, 9, 0xA, 0xB].contains(&(after.status >> 28)));
        assert_eq!(after.status & ERR_BITS, ERR_BITS);
        assert_eq!(after.note, before.note);
        assert_eq!(after.incoming_mark, before.incoming_mark);
        assert_eq!(after.outgoing_mark, before.outgoing_mark);
        assert_eq!(incoming, case.incoming);
        ended += u64::from(after.status >> 28 == 4);
    }
    assert!(ended > CASES / 100);
}

/// "ERR alone ends nothing" stays for X = 0 and for AD = 1: there ERR sets its two bits of the
/// status and does nothing else.
#[test]
fn err_without_x_or_with_ad_is_only_gathered() {
    let mut gathered = 0;
    let is_borne = |case: &StepCase| case.reply[1] & ERR != 0 && !is_damaged(case);
    for (case, answer, incoming) in taken(10).filter(|(case, ..)| is_borne(case)) {
        let mut without = case.clone();
        without.reply[1] &= !ERR;
        let (mut plain, plain_incoming) = without.stepped();
        assert_eq!(answer.record.status & ERR_BITS, ERR_BITS);
        plain.record.status |= ERR_BITS;
        assert_eq!((answer, incoming), (plain, plain_incoming), "{case:?}");
        gathered += 1;
    }
    assert!(gathered > CASES / 100);
}

/// What ERR sets in the status.
const ERR_BITS: u32 = 1 << 23 | 1 << 18;

/// Whether the reply to a record that fits is an answer with ERR and X = 1 where AD = 0.
fn is_damaged(case: &StepCase) -> bool {
    let instruction = case.record.instruction as usize;
    let admitted = admission(&case.list, u64::MAX, u64::MAX).expect("admitted");
    let field = admitted.list.instructions.get(instruction);
    let Some(Instruction::Camac(camac)) = field else {
        return false;
    };
    case.reply[1] & (X | ERR) == X | ERR && !camac.abort_disable
}

/// Whether a case's reply is an answer with Q = 0 in stop, and its instruction.
fn without_q(case: &StepCase) -> Option<Camac> {
    let admitted = admission(&case.list, u64::MAX, u64::MAX).expect("admitted");
    let number = case.record.instruction as usize;
    match admitted.list.instructions[number] {
        Instruction::Camac(camac) if camac.q_mode == QMode::Stop => {
            (case.reply[0] == 0 && case.reply[1] & Q == 0).then_some(camac)
        }
        _ => None,
    }
}

/// The code that such an answer ends the run with, 7 aside.
fn code_but_7(camac: &Camac, reply: &[u8]) -> Option<u32> {
    let flags = reply[1];
    match camac.abort_disable {
        true => None,
        false if flags & (TPE | LPE) != 0 => Some(0xA),
        false if flags & X == 0 => Some(8),
        false if flags & ERR != 0 => Some(4),
        false => None,
    }
}

/// E8: Q = 0 closes a stop block unless another cause ends the run, and ends it with 7 in singles
/// and inline writes. In no case a word is moved.
#[test]
fn q_0_in_stop_moves_no_word() {
    let (mut closed, mut ended) = (0, 0);
    for (case, answer, incoming) in taken(13) {
        let Some(camac) = without_q(&case) else {
            continue;
        };
        let (before, after) = (case.record, answer.record);
        let is_block = match camac.transfer {
            Transfer::Block { .. } | Transfer::Enhanced { .. } => true,
            Transfer::Single | Transfer::Inline { .. } => false,
            Transfer::Sequencer { .. } => panic!("a sequencer is not stop"),
        };
        let code = match code_but_7(&camac, &case.reply) {
            code if is_block => code,
            code => code.max(Some(7)),
        };
        assert_eq!(after.note, before.note, "{case:?}");
        assert_eq!(after.outgoing_mark, before.outgoing_mark, "{case:?}");
        assert_eq!(after.operations, before.operations + 1, "{case:?}");
        assert_ne!(after.status & 1 << 16, 0, "{case:?}");
        let mark = before.incoming_mark as usize;
        assert_eq!(incoming[..mark], case.incoming[..mark], "{case:?}");
        if let Some(code) = code {
            assert_eq!((after.ended, after.status >> 28), (true, code), "{case:?}");
            assert_eq!(after.instruction, before.instruction, "{case:?}");
            assert_eq!(after.incoming_mark, before.incoming_mark, "{case:?}");
            assert_eq!(incoming, case.incoming, "{case:?}");
            ended += 1;
        } else {
            assert_eq!(after.status >> 28, 0, "{case:?}");
            assert_ne!(after.instruction, before.instruction, "{case:?}");
            closed += 1;
        }
    }
    assert!(closed > CASES / 200 && ended > CASES / 200);
}

/// "each mark need only be even and no greater than the old one at its place" (E8), for every
/// list and each mark by itself. The old marks are those of a run with clean answers.
#[test]
fn every_two_marks_around_the_old_ones() {
    let mut rng = Rng::new(14);
    // Marks that don't fit, and that do.
    let mut tried = [0, 0];
    for _ in 0..CASES / 40 {
        let (list, admitted) = small_list(&mut rng);
        if admitted.counts.b.max(admitted.counts.o) > 40 {
            continue;
        }
        let mut incoming = vec![0; admitted.counts.b as usize];
        let outgoing = vec![0; admitted.counts.o as usize];
        let mut old = start(&list, &mut incoming, &outgoing).record;
        while !old.ended {
            for incoming_mark in 0..old.incoming_mark + 4 {
                let fitting = try_marks(&admitted, &old, incoming_mark);
                tried[1] += fitting;
                tried[0] += old.outgoing_mark + 4 - fitting;
            }
            let done = [0, Q | X, 0, 0, 0, 0, 0, 0];
            old = step(&list, &old, &mut incoming, &outgoing, &done).record;
        }
    }
    assert!(tried.into_iter().all(|tried| tried > CASES));
}

/// Tries an incoming mark with each outgoing one; how many fit.
fn try_marks(admitted: &Admitted, old: &Record, incoming_mark: u64) -> u64 {
    let fits = |mark: u64, old: u64| mark.is_multiple_of(2) && mark <= old;
    let mut fitting = 0;
    for outgoing_mark in 0..old.outgoing_mark + 4 {
        let record = Record {
            incoming_mark,
            outgoing_mark,
            note: Note::default(),
            ..*old
        };
        let both = fits(incoming_mark, old.incoming_mark) && fits(outgoing_mark, old.outgoing_mark);
        let broken = (!both).then_some(Clause::Marks);
        assert_eq!(broken_clause(admitted, &record), broken, "{record:?}");
        fitting += u64::from(both);
    }
    fitting
}

/// E9: a 24-bit word is stored with Q in bit 31 and X in bit 30 of its own answer, bits 29 to 24
/// zero; a 16-bit word is the low half of its data, whatever Q and X.
#[test]
fn a_stored_word_has_q_and_x_of_its_answer() {
    let (mut wide, mut narrow) = ([0; 4], [0; 4]);
    for number in 0..CASES {
        let case = step_case(11, number);
        let (answer, incoming) = case.stepped();
        let note = answer.record.note;
        if answer.refusal.is_some() || note == case.record.note || note.buffer != 0 {
            continue;
        }
        let [_, flags, _, _, low, middle, high, _] = case.reply[..] else {
            panic!("a reply of 8 bytes");
        };
        let stored = &incoming[note.offset as usize..][..note.length as usize];
        let qx = usize::from(flags & (Q | X));
        if note.length == 4 {
            let top = [0x00, 0x80, 0x40, 0xC0][qx];
            assert_eq!(stored, [low, middle, high, top], "case {number}");
            wide[qx] += 1;
        } else {
            assert_eq!(stored, [low, middle], "case {number}");
            narrow[qx] += 1;
        }
    }
    assert!(wide.iter().chain(&narrow).all(|&met| met > 0));
}

/// All the bytes 1 that can change the course of a run, and a timeout.
const REPLIES: [[u8; 8]; 7] = [
    [0, 0, 0, 0, 0, 0, 0, 0],
    [0, 1, 0, 0, 0, 0, 0, 0],
    [0, 2, 0, 0, 0, 0, 0, 0],
    [0, 3, 0, 0, 0, 0, 0, 0],
    [0, 7, 0, 0, 0, 0, 0, 0],
    [0, 0x13, 0, 0, 0, 0, 0, 0],
    [1, 0, 0, 0, 0, 0, 0, 0],
];

/// The longest rest of a run, by trying all replies.
fn longest(list: &[u8], admitted: &Admitted, record: Record, known: &mut Known) -> u64 {
    if record.ended {
        return 0;
    }
    let key = [
        record.instruction,
        record.words_left,
        record.tries,
        record.n,
        record.a,
    ];
    if let Some(&longest) = known.get(&key) {
        return longest;
    }
    let mut incoming = vec![0; admitted.counts.b as usize];
    let outgoing = vec![0; admitted.counts.o as usize];
    let after = REPLIES.map(|reply| {
        let answer = step(list, &record, &mut incoming, &outgoing, &reply);
        assert_eq!(answer.refusal, None);
        longest(list, admitted, answer.record, known)
    });
    let most = 1 + after.into_iter().max().expect("seven replies");
    known.insert(key, most);
    most
}

type Known = HashMap<[u64; 5], u64>;

/// The most still possible is the true longest rest of the run, for any record that fits.
#[test]
fn the_most_still_possible_is_the_longest_rest() {
    let mut rng = Rng::new(6);
    for _ in 0..CASES / 20 {
        let (list, admitted) = small_list(&mut rng);
        if admitted.counts.w > 60 {
            continue;
        }
        let Some(record) = fitting(&mut rng, &admitted) else {
            continue;
        };
        let expected = most_still_possible(&admitted, &record);
        let found = longest(&list, &admitted, record, &mut Known::new());
        assert_eq!(found, expected, "{record:?}");
    }
}
