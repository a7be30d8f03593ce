//! Runs: what camrun prints, operations wanted, steps, refusals, notes.

use reference::camrun::render;
use reference::cases::by_hand::*;
use reference::record::last_moved;
use reference::{run_row, start, step, Note, Operation, Record, Refusal};

/// All lines that camrun prints.
fn lines(list: &[u8], row: &[u8], out: &[u8]) -> Vec<String> {
    render(list, row, out).lines().map(String::from).collect()
}

#[test]
fn the_worked_case() {
    let lst = hex("01 04 00 01 00 03 00 10 04 00 02 01 00 02 2F 00 00");
    let rep = hex("00 03 00 00 34 12 00 00");
    let printed = "admitted 1 2 0\nop 1 1 1 0 0\nend 0 00000080 1 2\n";
    assert_eq!(render(&lst, &rep, &[]), printed);
    let mut incoming = [0xEE; 4];
    let answer = run_row(&lst, &mut incoming, &[], &rep);
    assert_eq!(incoming, [0x34, 0x12, 0xEE, 0xEE]);
    let numbers = [0, 0, 1, 1, 1, 0, 0, 0, 0, 2, 0, 1, 0x80, 0, 0, 2];
    assert_eq!(answer.numbers(), numbers);
    let (buffer, part) = last_moved(&incoming, &[], &answer.record.note);
    assert_eq!((buffer, part), (0, &[0x34, 0x12][..]));
}

#[test]
fn what_camrun_prints_otherwise() {
    let one = list(&format!("{} {HALT}", single(0x0200_0102)));
    assert_eq!(render(&[], &[], &[]), "refused 2 0\n");
    assert_eq!(render(&list(M01), &[9], &[]), "refused 8 18\n");
    assert_eq!(render(&one, &[], &[]), "admitted 1 2 0\nwaiting 0 0\n");
    assert_eq!(render(&one, &[0; 7], &[]), "admitted 1 2 0\nrefused 22 0\n");
    let late = [ok(1).to_vec(), kind(4).to_vec()].concat();
    assert_eq!(render(&one, &late, &[]), "admitted 1 2 0\nrefused 22 0\n");
    let past = [ok(1), kind(1)].concat();
    let printed = "admitted 1 2 0\nop 1 1 1 0 0\nend 0 00000080 1 2\n";
    assert_eq!(render(&one, &past, &[]), printed);
    let printed = "admitted 0 0 0\nend 0 00000080 0 0\n";
    assert_eq!(render(&list(HALT), &past, &[]), printed);
    assert_eq!(render(&list(M15), &[], &[0; 15]), "refused 21 0\n");
    let large = list(&format!("{} {HALT}", double(0x0C02_0322, 0xFFFF_0000)));
    assert_eq!(render(&large, &[], &[]), "refused 20 0\n");
}

/// E1: camrun's `op` line keeps its five numbers.
#[test]
fn camrun_of_an_enhanced_list() {
    let printed = ["admitted 1 4 0", "op 1 1 30 0 12", "end 8 80020080 1 0"];
    let sequencer = list_with(1, &(double(0x3C0C_0158, 0xFFFF_FFFE) + HALT));
    assert_eq!(lines(&sequencer, &answers(&[Q]), &[]), printed);
}

/// E9: Q and X of the words stored are nothing that camrun prints.
#[test]
fn camrun_of_24_bit_words_and_a_literal() {
    let printed = [
        "admitted 4 20 0",
        "op 1 1 1 0 0",
        "op 2 1 1 0 0",
        "op 3 1 1 0 0",
        "op 4 1 1 0 0",
        "end 0 00030080 4 20",
    ];
    let block = double(0x0200_0129, 0xFFFF_FFF8) + "21 04 00 DD CC BB AA " + HALT;
    let row = answers(&[Q | X, Q, X, 0]);
    assert_eq!(lines(&list_with(1, &block), &row, &[]), printed);
}

/// E8: the digitizer's block is short, and the list goes on.
#[test]
fn camrun_of_a_short_block() {
    let printed = [
        "admitted 5 16 0",
        "op 1 1 1 0 0",
        "op 2 1 1 0 0",
        "op 3 1 1 0 0",
        "op 4 1 1 0 0",
        "end 0 00010080 4 12",
    ];
    let blocks = double(0x0200_0122, 0xFFFF_FFFD) + &double(0x0200_0120, 0xFFFF_FFFC) + HALT;
    let row = answers(&[Q | X, X, Q | X, Q | X]);
    assert_eq!(lines(&list_with(1, &blocks), &row, &[]), printed);
}

/// Each file is cut before anything looks at it.
#[test]
fn camrun_cuts_its_files() {
    let one = list(&format!("{} {HALT}", single(0x0200_0102)));
    let mut row = ok(1).repeat(65_536 / 8);
    row.push(0xFF);
    let printed = "admitted 1 2 0\nop 1 1 1 0 0\nend 0 00000080 1 2\n";
    assert_eq!(render(&one, &row, &[]), printed);
    row[65_535] = 1;
    assert_eq!(render(&one, &row, &[]), "admitted 1 2 0\nrefused 22 0\n");
    let writes = list(&format!("{} {}", double(0x0C10_0322, 0xFFFF_8000), HALT));
    assert_eq!(
        lines(&writes, &[], &[0; 70_000])[0],
        "admitted 32768 0 65536"
    );
    let one_more = format!("{} {HALT}", single(0x0C10_0302)) + HALT;
    let writes = format!("{} {one_more}", double(0x0C10_0322, 0xFFFF_8000));
    assert_eq!(render(&list(&writes), &[], &[0; 70_000]), "refused 21 0\n");
    // A field of an unknown tag whose body the cut leaves short.
    let long = [list("99 FF FF"), vec![0; 65_535]].concat();
    assert_eq!(render(&long, &[], &[]), "refused 1 7\n");
    let refusal = reference::admit(&long, 0, 0).expect_err("refused");
    assert_eq!(refusal, Refusal::at(3, 7));
}

/// M03's operations: F 2 in all reads.
#[test]
fn the_manuals_worked_list() {
    let printed = lines(&list(M03), &ok(0).repeat(2_054), &[]);
    let reads = printed.iter().filter(|line| line.ends_with(" 3 6 0 2"));
    assert_eq!(reads.count(), 2_048);
}

/// Runs a list by start and steps and returns the data of each operation wanted.
fn wanted_data(list: &[u8], outgoing: &[u8], reply: [u8; 8]) -> Vec<u64> {
    let mut incoming = vec![0; 65_536];
    let mut answer = start(list, &mut incoming, outgoing);
    let mut data = Vec::new();
    while !answer.record.ended {
        data.push(answer.wanted.data);
        answer = step(list, &answer.record, &mut incoming, outgoing, &reply);
        assert_eq!(answer.refusal, None);
    }
    data
}

/// M07: crate, N, A, F and data of each operation.
#[test]
fn the_manuals_timer_list() {
    let printed = lines(&list(M07), &ok(0).repeat(2), &[]);
    let expected = [
        "admitted 2 0 0",
        "op 1 1 1 0 16",
        "op 2 1 2 0 16",
        "end 0 00000080 2 0",
    ];
    assert_eq!(printed, expected);
    assert_eq!(wanted_data(&list(M07), &[], ok(0)), [0x12_3456, 0xAB_CDEF]);
}

/// M15: pads and top bytes are ignored.
#[test]
fn the_manuals_mixed_writes() {
    let outgoing = hex("01 11 02 12 03 13 99 99 01 11 A1 77 04 14 05 15");
    let expected = [0x1101, 0x1202, 0x1303, 0xA1_1101, 0x1404, 0x1505];
    assert_eq!(wanted_data(&list(M15), &outgoing, ok(0)), expected);
}

/// A pad is written with its word and not before: a waiting record's mark is before it.
#[test]
fn pads_wait_for_their_word() {
    let mut incoming = [0xEE; 16];
    let row: Vec<u8> = (1..=3).flat_map(ok).collect();
    let answer = run_row(&list(M12), &mut incoming, &[], &row);
    assert_eq!(answer.record.incoming_mark, 6);
    assert_eq!(incoming[6..], [0xEE; 10]);
    let next = step(&list(M12), &answer.record, &mut incoming, &[], &ok(4));
    assert_eq!(next.record.incoming_mark, 12);
    let note = Note {
        buffer: 0,
        offset: 8,
        length: 4,
    };
    assert_eq!(next.record.note, note);
    assert_eq!(incoming[6..12], [0, 0, 4, 0, 0, 0xC0]);
}

/// A record of a run in the middle of M58's block, to be damaged.
fn waiting_record(list: &[u8]) -> Record {
    let mut incoming = [0; 8];
    let row = answers(&[X, Q | X, X]);
    let record = run_row(list, &mut incoming, &[], &row).record;
    assert!(!record.ended);
    record
}

fn step_refusal(list: &[u8], record: &Record, reply: &[u8]) -> Option<u8> {
    let mut incoming = [0xEE; 8];
    let answer = step(list, record, &mut incoming, &[], reply);
    if answer.refusal.is_some() {
        assert_eq!(answer.record, *record);
        assert_eq!(answer.wanted, Operation::default());
        assert_eq!(incoming, [0xEE; 8]);
    }
    answer.refusal.map(|refusal| refusal.number)
}

/// "then 10 over all fields, 11, 20, 21, 24, 23, 22."
#[test]
fn refusals_of_a_step() {
    let block = list(&format!("{} {HALT}", double(0x0C02_0330, 0xFFFF_FFFC)));
    let fine = waiting_record(&block);
    assert_eq!(step_refusal(&block, &fine, &ok(0)), None);
    assert_eq!(step_refusal(&block, &fine, &kind(4)), Some(22));
    assert_eq!(step_refusal(&block, &fine, &[0; 7]), Some(22));
    assert_eq!(step_refusal(&block, &fine, &[0; 16]), Some(22));
    assert_eq!(step_refusal(&block, &fine, &[]), Some(22));
    let ended = Record {
        ended: true,
        ..fine
    };
    assert_eq!(step_refusal(&block, &ended, &kind(4)), Some(24));
    let unfit = Record { tries: 3, ..fine };
    assert_eq!(step_refusal(&block, &unfit, &kind(4)), Some(23));
    assert_eq!(step_refusal(&[], &ended, &kind(4)), Some(2));
    let larger = list(&format!("{} {HALT}", double(0x0C02_0330, 0xFFFF_FFFA)));
    assert_eq!(step_refusal(&larger, &ended, &kind(4)), Some(20));
    let writes = list(&format!("{} {HALT}", single(0x0C10_0302)));
    assert_eq!(step_refusal(&writes, &ended, &kind(4)), Some(21));
}

/// Each clause of the fit, broken alone.
#[test]
fn records_that_do_not_fit() {
    let block = list(&format!(
        "{HALT} {} {HALT}",
        double(0x0C02_0330, 0xFFFF_FFFC)
    ));
    let block = [list("20 02 00 02 00"), block[7..].to_vec()].concat();
    let fine = waiting_record(&block);
    let with = |change: fn(&mut Record)| {
        let mut record = fine;
        change(&mut record);
        record
    };
    let note = |buffer, offset, length| Record {
        note: Note {
            buffer,
            offset,
            length,
        },
        ..fine
    };
    let below = |incoming_mark, record: Record| Record {
        incoming_mark,
        ..record
    };
    assert_eq!(
        fine.numbers(),
        [0, 2, 1, 1, 6, 0, 4, 0, 3, 0x1_0000, 0, 0, 4]
    );
    for fitting in [
        with(|r| r.operations = 0),
        with(|r| r.tries = 2),
        with(|r| r.status = 0x04B7_0000),
        with(|r| r.status = 1 << 18),
        below(2, note(0, 0, 2)),
        below(2, note(0, 0, 0)),
        below(0, note(0, 0, 0)),
        note(0, 0, 0),
        note(0, 0, 2),
        note(0, 1, 2),
        note(0, 2, 2),
    ] {
        assert_eq!(step_refusal(&block, &fitting, &ok(0)), None, "{fitting:?}");
    }
    for unfit in [
        with(|r| r.instruction = 0),
        with(|r| r.instruction = 1),
        with(|r| r.instruction = 3),
        with(|r| r.instruction = 4),
        with(|r| r.instruction = u64::MAX),
        with(|r| r.words_left = 0),
        with(|r| r.words_left = 2),
        with(|r| r.words_left = 3),
        with(|r| r.words_left = u64::MAX),
        with(|r| r.tries = 3),
        with(|r| r.n = 7),
        with(|r| r.a = 1),
        with(|r| r.incoming_mark = 6),
        with(|r| r.incoming_mark = 5),
        with(|r| r.incoming_mark = 2),
        below(3, note(0, 0, 0)),
        below(1, note(0, 0, 0)),
        below(2, note(0, 1, 2)),
        below(2, note(0, 2, 2)),
        below(0, note(0, 0, 2)),
        with(|r| r.outgoing_mark = 1),
        with(|r| r.outgoing_mark = 2),
        with(|r| r.operations = 5),
        with(|r| r.operations = u64::MAX),
        with(|r| r.status = 1 << 7),
        with(|r| r.status = 1 << 19),
        with(|r| r.status = 1 << 22),
        with(|r| r.status = 1 << 28),
        note(0, 0, 1),
        note(0, 0, 3),
        note(0, 1, 4),
        note(0, 3, 2),
        note(0, 1, 0),
        note(1, 0, 0),
        note(1, 0, 2),
        note(2, 0, 2),
        note(0, u64::MAX, 2),
    ] {
        assert_eq!(step_refusal(&block, &unfit, &ok(0)), Some(23), "{unfit:?}");
    }
}

#[test]
fn refused_starts_and_runs() {
    let refused = Record {
        ended: true,
        ..Record::default()
    };
    let mut incoming = [0xEE; 3];
    let answer = start(&list(M17), &mut incoming, &[]);
    assert_eq!(answer.refusal, Some(Refusal::plain(20)));
    assert_eq!(
        (answer.record, answer.wanted),
        (refused, Operation::default())
    );
    let answer = run_row(&list(M01), &mut incoming, &[], &[9]);
    assert_eq!(answer.refusal, Some(Refusal::at(8, 18)));
    assert_eq!((answer.record, answer.taken), (refused, 0));
    // A start that would write a literal, refused for its row.
    let mut incoming = [0xEE; 4];
    let literal = list(&format!("21 04 00 01 02 03 04 {HALT}"));
    let answer = run_row(&literal, &mut incoming, &[], &[9]);
    assert_eq!(answer.refusal, Some(Refusal::plain(22)));
    assert_eq!((answer.record, incoming), (refused, [0xEE; 4]));
    let answer = run_row(&literal, &mut incoming, &[], &[]);
    assert_eq!((answer.refusal, incoming), (None, [1, 2, 3, 4]));
    assert_eq!(
        answer.record.numbers(),
        [1, 1, 0, 0, 0, 0, 4, 0, 0, 0x80, 0, 0, 0]
    );
}

/// Inline, control and literals leave the note alone; a write's note is in the outgoing
/// buffer, after its pad.
#[test]
fn notes() {
    let fields = [
        single(0x0C10_0302),
        single(0x0C10_0300),
        double(0x0C10_0360, 5),
        single(0x0C18_0302),
        String::from("21 04 00 01 02 03 04 "),
        String::from(HALT),
    ];
    let writes = list(&fields.concat());
    let outgoing = [1, 2, 3, 4, 5, 6, 7, 8];
    let mut incoming = [0; 4];
    let after = |taken: usize, incoming: &mut [u8]| {
        run_row(&writes, incoming, &outgoing, &ok(9).repeat(taken)).record
    };
    assert_eq!(after(0, &mut incoming).note, Note::default());
    let one = after(1, &mut incoming);
    assert_eq!(
        last_moved(&incoming, &outgoing, &one.note),
        (1, &[1, 2][..])
    );
    for taken in 2..=4 {
        let record = after(taken, &mut incoming);
        let moved = last_moved(&incoming, &outgoing, &record.note);
        assert_eq!(moved, (1, &[5, 6, 7, 8][..]));
        assert_eq!(record.outgoing_mark, 8);
        assert_eq!(record.ended, taken == 4);
    }
    assert_eq!(incoming, [1, 2, 3, 4]);
}

#[test]
fn last_moved_outside() {
    let (incoming, outgoing) = ([1, 2, 3, 4], [5, 6]);
    let moved = |buffer, offset, length| {
        let note = Note {
            buffer,
            offset,
            length,
        };
        let (buffer, part) = last_moved(&incoming, &outgoing, &note);
        (buffer, part.to_vec())
    };
    assert_eq!(moved(0, 1, 3), (0, vec![2, 3, 4]));
    assert_eq!(moved(1, 0, 2), (1, vec![5, 6]));
    for (buffer, offset, length) in [
        (0, 1, 4),
        (0, 5, 0),
        (0, 0, 0),
        (1, 1, 2),
        (1, 1, 0),
        (2, 0, 2),
        (0, u64::MAX, 2),
    ] {
        assert_eq!(moved(buffer, offset, length), (0, vec![]));
    }
}

#[test]
fn code_names() {
    use reference::names::{code_name, CODE_NAMES};
    assert_eq!(code_name(0), b"NO ERROR");
    assert_eq!(code_name(0xD), b"NO SYNC");
    assert!(CODE_NAMES.iter().all(|name| (1..=15).contains(&name.len())));
    let reserved = CODE_NAMES.iter().filter(|name| **name == b"RESERVED");
    assert_eq!(reserved.count(), 6);
}
