//! Cases for step: records that fit, reached by a run or not, and records that don't.

use super::rng::Rng;
use super::{lists, rows};
use crate::fit::{fits, most_still_possible};
use crate::list::Instruction;
use crate::record::{Note, Record};
use crate::run::{step, Answer};
use crate::scan::Position;
use crate::status;
use crate::walk::{admission, marks_before, Admitted};
use crate::words::{Camac, QMode};

/// One case for step.
#[derive(Clone, Debug, PartialEq, Eq)]
pub struct StepCase {
    pub list: Vec<u8>,
    pub record: Record,
    pub incoming: Vec<u8>,
    pub outgoing: Vec<u8>,
    pub reply: Vec<u8>,
}

impl StepCase {
    /// What the step answers, and the incoming buffer after it.
    pub fn stepped(&self) -> (Answer, Vec<u8>) {
        let mut incoming = self.incoming.clone();
        let answer = step(
            &self.list,
            &self.record,
            &mut incoming,
            &self.outgoing,
            &self.reply,
        );
        (answer, incoming)
    }
}

/// Step case `number` of a seed.
pub fn step_case(seed: u64, number: u64) -> StepCase {
    let mut rng = Rng::of_case(seed, number);
    let list = lists::small(&mut rng).bytes();
    let admitted = admission(&list, u64::MAX, u64::MAX).expect("small lists are valid");
    let mut record = fitting(&mut rng, &admitted).unwrap_or(Record::refused());
    if rng.once_in(3) {
        record = damaged(&mut rng, &record);
    }
    let mut reply = rows::any_reply(&mut rng).to_vec();
    if rng.once_in(10) {
        reply = rows::damaged(&mut rng, reply);
    }
    let short = u64::from(rng.once_in(30));
    let incoming_len = admitted.counts.b.saturating_sub(short) as usize;
    let outgoing_len = admitted.counts.o as usize + rng.index(3);
    StepCase {
        incoming: rng.bytes(incoming_len),
        outgoing: rng.bytes(outgoing_len),
        list,
        record,
        reply,
    }
}

/// Any record that fits, or `None` if the walk has no CAMAC instruction.
pub fn fitting(rng: &mut Rng, admitted: &Admitted) -> Option<Record> {
    let visits: Vec<_> = (0..admitted.walk.len())
        .filter_map(|visit| Some((visit, camac_at(admitted, visit)?)))
        .collect();
    if visits.is_empty() {
        return None;
    }
    let (visit, camac) = rng.pick(&visits);
    let words_left = rng.within(1..=camac.words());
    let position = position(rng, &camac);
    let marks = marks_before(&admitted.list, &admitted.walk, visit)
        .after_words(&camac, camac.words() - words_left);
    let mut record = Record {
        ended: false,
        instruction: admitted.walk[visit] as u64,
        words_left,
        tries: tries(rng, &camac, admitted.list.try_limit),
        n: position.station,
        a: position.subaddress,
        incoming_mark: mark(rng, marks.incoming),
        outgoing_mark: mark(rng, marks.outgoing),
        operations: 0,
        status: rng.number() as u32 & status::FLAGS,
        note: Note::default(),
    };
    let room = admitted.counts.w - most_still_possible(admitted, &record);
    record.operations = if rng.coin() {
        room
    } else {
        rng.within(0..=room)
    };
    record.note = note(rng, &record);
    assert!(fits(admitted, &record));
    Some(record)
}

/// A mark that fits where the old one is `old`: that one, or any even one below it.
fn mark(rng: &mut Rng, old: u64) -> u64 {
    if rng.coin() {
        old
    } else {
        2 * rng.within(0..=old / 2)
    }
}

/// Every place of a run that a record can fit, with each two marks that fit there; each with as
/// many operations as fit, no flags and no note.
pub fn all_fitting(admitted: &Admitted) -> Vec<Record> {
    let places = all_places(admitted);
    places.iter().flat_map(with_lower_marks).collect()
}

/// A record with each two even marks up to its own.
fn with_lower_marks(record: &Record) -> Vec<Record> {
    let even = |mark: u64| (0..=mark).step_by(2);
    let with = |incoming_mark, outgoing_mark| Record {
        incoming_mark,
        outgoing_mark,
        ..*record
    };
    let outgoing = |incoming| even(record.outgoing_mark).map(move |mark| with(incoming, mark));
    even(record.incoming_mark).flat_map(outgoing).collect()
}

/// Every place of a run that a record can fit: instruction, words left, tries, N and A; each
/// with the marks of the walk, as many operations as fit, no flags and no note.
pub fn all_places(admitted: &Admitted) -> Vec<Record> {
    let mut records = Vec::new();
    for (visit, &number) in admitted.walk.iter().enumerate() {
        let Some(camac) = camac_at(admitted, visit) else {
            continue;
        };
        let marks = marks_before(&admitted.list, &admitted.walk, visit);
        for words_left in 1..=camac.words() {
            let marks = marks.after_words(&camac, camac.words() - words_left);
            let tries = match camac.q_mode {
                QMode::Repeat => admitted.list.try_limit,
                _ => 1,
            };
            for (tries, position) in (0..tries).flat_map(|tries| places(&camac, tries)) {
                let mut record = Record {
                    instruction: number as u64,
                    words_left,
                    tries,
                    n: position.station,
                    a: position.subaddress,
                    incoming_mark: marks.incoming,
                    outgoing_mark: marks.outgoing,
                    ..Record::default()
                };
                record.operations = admitted.counts.w - most_still_possible(admitted, &record);
                assert!(fits(admitted, &record));
                records.push(record);
            }
        }
    }
    records
}

/// The positions that an instruction's operations can have.
fn places(camac: &Camac, tries: u64) -> Vec<(u64, Position)> {
    let first = Some(camac.position());
    let next = |position: &Position| match camac.q_mode {
        QMode::Scan => position.after_done(),
        _ => None,
    };
    std::iter::successors(first, next)
        .map(|position| (tries, position))
        .collect()
}

fn camac_at(admitted: &Admitted, visit: usize) -> Option<Camac> {
    match admitted.list.instructions[admitted.walk[visit]] {
        Instruction::Camac(camac) => Some(camac),
        _ => None,
    }
}

fn tries(rng: &mut Rng, camac: &Camac, try_limit: u64) -> u64 {
    if camac.q_mode == QMode::Repeat {
        let any = rng.below(try_limit);
        rng.pick(&[any, try_limit - 1])
    } else {
        0
    }
}

fn position(rng: &mut Rng, camac: &Camac) -> Position {
    let mut position = camac.position();
    if camac.q_mode == QMode::Scan {
        let last = position.positions() - 1;
        let any = rng.within(0..=last);
        for _ in 0..rng.pick(&[any, any, last]) {
            position = position.after_done().expect("a position below P");
        }
    }
    position
}

fn note(rng: &mut Rng, record: &Record) -> Note {
    let buffer = rng.below(2);
    let mark = [record.incoming_mark, record.outgoing_mark][buffer as usize];
    let length = rng.pick(&[2, 4]);
    if mark < length || rng.once_in(4) {
        return Note::default();
    }
    Note {
        buffer,
        offset: rng.within(0..=mark - length),
        length,
    }
}

/// A record with one number changed; it may still fit.
fn damaged(rng: &mut Rng, record: &Record) -> Record {
    let mut record = *record;
    let change = rng.pick(&[1, 2, 16, u64::MAX, u64::MAX - 1]);
    let number = match rng.below(13) {
        0 => {
            record.ended = !record.ended;
            return record;
        }
        1 => {
            record.status ^= 1 << rng.below(32);
            return record;
        }
        2 => &mut record.instruction,
        3 => &mut record.words_left,
        4 => &mut record.tries,
        5 => &mut record.n,
        6 => &mut record.a,
        7 => &mut record.incoming_mark,
        8 => &mut record.outgoing_mark,
        9 => &mut record.operations,
        10 => &mut record.note.buffer,
        11 => &mut record.note.offset,
        _ => &mut record.note.length,
    };
    *number = number.wrapping_add(change);
    record
}
