//! Every reply at every place of a run through each small list of a family: all 64 bytes 1 of
//! an answer and the three other kinds, by one step from every record that fits, with every two
//! marks, with no flags gathered before it and no word moved, and with all flags and a note.

#![cfg(library)]

mod common;
#[path = "common/family.rs"]
mod family;

use common::{compare_step, After, Given};
use family::family;
use reference::cases::by_hand::{answer, kind, ERR, LPE, Q, TPE, X};
use reference::cases::coverage::Coverage;
use reference::cases::records::all_fitting;
use reference::list::Instruction;
use reference::walk::{admission, Admitted};
use reference::words::Camac;
use reference::{reply, status, Note, Record};

/// Every well-formed reply, answers with one data.
fn replies() -> Vec<[u8; 8]> {
    let answers = (0..64).map(|flags| answer(flags, 0x56_1234));
    answers.chain([1, 2, 3].map(kind)).collect()
}

/// What the steps met.
struct Met {
    steps: u64,
    damaged: u64,
    closed: u64,
    stored: u64,
    coverage: Coverage,
}

impl Met {
    /// Compares a step and counts what it met.
    fn step(&mut self, admitted: &Admitted, given: &Given, before: &Record, reply: &[u8; 8]) {
        let Given { list, record, .. } = given;
        let what = format_args!("list {list:02X?}, record {record:?}, reply {reply:02X?}");
        let after = compare_step(given, reply, what);
        assert_eq!(after.answer[0], 0, "{what}");
        let camac = camac_at(admitted, before);
        if is_damaged(&camac, reply) {
            assert!(ends_moving_nothing(given, &after), "{what}");
            self.damaged += 1;
        }
        if closes(&camac, reply) {
            assert!(goes_on_moving_nothing(given, &after), "{what}");
            self.closed += 1;
        }
        if let Some(bytes) = stored(given, &after) {
            assert!(is_stored_so(bytes, reply), "{bytes:02X?}, {what}");
            self.stored += 1;
        }
        self.steps += 1;
        let reply = reply::read(reply).expect("well formed");
        let after = Record::from_numbers(&after.record).expect("a record");
        self.coverage
            .observe_operation(admitted, before, &reply, &after);
    }
}

fn camac_at(admitted: &Admitted, record: &Record) -> Camac {
    match admitted.list.instructions[record.instruction as usize] {
        Instruction::Camac(camac) => camac,
        _ => panic!("a record that fits stands at a CAMAC instruction"),
    }
}

/// Whether an answer has ERR and X = 1 where AD = 0.
fn is_damaged(camac: &Camac, reply: &[u8; 8]) -> bool {
    let [_, flags, ..] = *reply;
    !camac.abort_disable && flags & (X | ERR) == X | ERR
}

/// Whether an answer has Q = 0 in a stop block and no other cause.
fn closes(camac: &Camac, reply: &[u8; 8]) -> bool {
    let [kind, flags, ..] = *reply;
    let passes = camac.abort_disable || flags & (X | ERR | TPE | LPE) == X;
    camac.is_stop_block() && kind == 0 && flags & Q == 0 && passes
}

/// Ended with 4 or a greater code of an answer; marks, note and bytes as they were.
fn ends_moving_nothing<const NUMBERS: usize>(given: &Given, after: &After<NUMBERS>) -> bool {
    let (old, new) = (&given.record, &after.record);
    let code = new[9] >> 28;
    new[0] == 1
        && [4, 7, 9, 0xA, 0xB].contains(&code)
        && new[6..8] == old[6..8]
        && new[10..] == old[10..]
        && after.incoming == given.incoming
}

/// At another instruction, or at the halt with code 0, and one operation more; note, outgoing
/// mark and the bytes below the incoming one as they were.
fn goes_on_moving_nothing<const NUMBERS: usize>(given: &Given, after: &After<NUMBERS>) -> bool {
    let (old, new) = (&given.record, &after.record);
    let mark = old[6] as usize;
    let no_q = u64::from(status::NO_Q);
    new[1] != old[1]
        && new[7] == old[7]
        && new[8] == old[8] + 1
        && new[9] >> 28 == 0
        && new[9] & no_q == no_q
        && new[10..] == old[10..]
        && after.incoming[..mark] == given.incoming[..mark]
}

/// The word that a step stored: that of the note, if it is another than before and of the
/// incoming buffer.
fn stored<'a, const NUMBERS: usize>(given: &Given, after: &'a After<NUMBERS>) -> Option<&'a [u8]> {
    let (old, new) = (&given.record[10..], &after.record[10..]);
    let &[buffer, offset, length] = new else {
        panic!("a note has three numbers");
    };
    let bytes = || &after.incoming[offset as usize..][..length as usize];
    (new != old && buffer == 0).then(bytes)
}

/// A 24-bit word with Q in bit 31 and X in bit 30 of its longword, or two bytes of the data.
fn is_stored_so(bytes: &[u8], reply: &[u8; 8]) -> bool {
    let [_, flags, _, _, low, middle, high, _] = *reply;
    let q = if flags & Q != 0 { 0x80 } else { 0 };
    let x = if flags & X != 0 { 0x40 } else { 0 };
    bytes == [low, middle, high, q | x] || bytes == [low, middle]
}

/// A record with no flags and no note, and with all flags and a note of the last word, if a
/// mark has room for one.
fn with_flags(record: Record) -> [Record; 2] {
    let word = |buffer, mark| Note {
        buffer,
        offset: mark - 2,
        length: 2,
    };
    let note = match (record.incoming_mark, record.outgoing_mark) {
        (mark @ 2.., _) => word(0, mark),
        (_, mark @ 2..) => word(1, mark),
        _ => Note::default(),
    };
    let status = status::FLAGS;
    [
        record,
        Record {
            status,
            note,
            ..record
        },
    ]
}

fn compare_list(list: &[u8], met: &mut Met) {
    let Ok(admitted) = admission(list, u64::MAX, u64::MAX) else {
        return;
    };
    let incoming = vec![0xEE; admitted.counts.b as usize];
    // Top bytes have the bits of Q and X, which an outgoing word doesn't.
    let outgoing: Vec<u8> = (0xC1..=0xC0 + admitted.counts.o as u8).collect();
    let replies = replies();
    for before in all_fitting(&admitted).into_iter().flat_map(with_flags) {
        let given = Given {
            list,
            record: before.numbers(),
            incoming: &incoming,
            outgoing: &outgoing,
        };
        for reply in &replies {
            met.step(&admitted, &given, &before, reply);
        }
    }
}

#[test]
fn every_reply_at_every_place() {
    let mut met = Met {
        steps: 0,
        damaged: 0,
        closed: 0,
        stored: 0,
        coverage: Coverage::of_replies(),
    };
    for small in family() {
        compare_list(&small.list, &mut met);
    }
    let Met {
        steps,
        damaged,
        closed,
        stored,
        ..
    } = met;
    println!("{steps} steps, {damaged} of them with a damaged command");
    println!("{closed} blocks closed, {stored} words stored");
    // Of all 67 replies each, from 14,488 places with every two marks: 58,528 records.
    assert_eq!(steps, 2 * 67 * 58_528);
    let table = met.coverage.table();
    println!("{table}");
    assert_eq!(met.coverage.missing(), [], "never met:\n{table}");
}
