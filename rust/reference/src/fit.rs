//! Records that fit a list, and the most operations still possible (document 01, "The
//! calls"; refusal 23).

use crate::list::Instruction;
use crate::record::{Note, Record};
use crate::scan::{Position, LAST_STATION, LAST_SUBADDRESS};
use crate::status;
use crate::walk::{marks_before, most_operations, Admitted, Marks};
use crate::words::{Camac, QMode};

/// What a record must be to fit a list, in the order of document 01's sentence.
#[derive(Clone, Copy, Debug, PartialEq, Eq, PartialOrd, Ord)]
pub enum Clause {
    Waiting,
    Instruction,
    WordsLeft,
    Tries,
    Position,
    Marks,
    Operations,
    Status,
    Note,
}

/// "A record fits the list if it hasn't ended, its instruction is a CAMAC one on the
/// walk", and so on.
pub fn fits(admitted: &Admitted, record: &Record) -> bool {
    broken_clause(admitted, record).is_none()
}

/// The first clause that a record breaks.
pub fn broken_clause(admitted: &Admitted, record: &Record) -> Option<Clause> {
    if record.ended {
        return Some(Clause::Waiting);
    }
    let Some((visit, camac)) = current(admitted, record) else {
        return Some(Clause::Instruction);
    };
    // The later clauses count on words left being 1 to n and the position being in order.
    let checks: [(Clause, &dyn Fn() -> bool); 7] = [
        (Clause::WordsLeft, &|| {
            (1..=camac.words()).contains(&record.words_left)
        }),
        (Clause::Tries, &|| tries_fit(admitted, &camac, record.tries)),
        (Clause::Position, &|| {
            position_fits(&camac, record.position())
        }),
        (Clause::Marks, &|| {
            marks_fit(admitted, visit, &camac, record)
        }),
        (Clause::Operations, &|| {
            operations_fit(admitted, visit, &camac, record)
        }),
        (Clause::Status, &|| record.status & !status::FLAGS == 0),
        (Clause::Note, &|| note_fits(record)),
    ];
    let broken = checks.into_iter().find(|(_, holds)| !holds());
    broken.map(|(clause, _)| clause)
}

/// The visit of the walk that a record stands at, with its CAMAC instruction.
fn current(admitted: &Admitted, record: &Record) -> Option<(usize, Camac)> {
    let number = usize::try_from(record.instruction).ok()?;
    let visit = admitted.walk.iter().position(|&met| met == number)?;
    match admitted.list.instructions[number] {
        Instruction::Camac(camac) => Some((visit, camac)),
        _ => None,
    }
}

/// "tries are below R in repeat and 0 elsewhere".
fn tries_fit(admitted: &Admitted, camac: &Camac, tries: u64) -> bool {
    match camac.q_mode {
        QMode::Repeat => tries < admitted.list.try_limit,
        _ => tries == 0,
    }
}

/// "N and A are the instruction's or, in scan, from there up to station 23".
fn position_fits(camac: &Camac, position: Position) -> bool {
    match camac.q_mode {
        QMode::Scan => {
            position.station <= LAST_STATION
                && position.subaddress <= LAST_SUBADDRESS
                && camac.position() <= position
        }
        _ => position == camac.position(),
    }
}

/// "to fit, each mark need only be even and no greater than the old one at its place" (E8).
fn marks_fit(admitted: &Admitted, visit: usize, camac: &Camac, record: &Record) -> bool {
    let old = marks_at(admitted, visit, camac, record.words_left);
    let fits = |mark: u64, old: u64| mark.is_multiple_of(2) && mark <= old;
    fits(record.incoming_mark, old.incoming) && fits(record.outgoing_mark, old.outgoing)
}

/// The old marks at a place: "those of the walk with the moved words".
fn marks_at(admitted: &Admitted, visit: usize, camac: &Camac, words_left: u64) -> Marks {
    let moved = camac.words() - words_left;
    marks_before(&admitted.list, &admitted.walk, visit).after_words(camac, moved)
}

/// The old marks at the place of a record, if it has one: its instruction is a CAMAC one on
/// the walk and has as many words.
pub fn old_marks(admitted: &Admitted, record: &Record) -> Option<Marks> {
    let (visit, camac) = current(admitted, record)?;
    let is_place = (1..=camac.words()).contains(&record.words_left);
    is_place.then(|| marks_at(admitted, visit, &camac, record.words_left))
}

/// "operations plus the most still possible is at most W".
fn operations_fit(admitted: &Admitted, visit: usize, camac: &Camac, record: &Record) -> bool {
    let still_possible = most_from(admitted, visit, camac, record);
    record
        .operations
        .checked_add(still_possible)
        .is_some_and(|most| most <= admitted.counts.w)
}

/// "the note is zeros, or two or four bytes of its buffer below that buffer's mark."
fn note_fits(record: &Record) -> bool {
    let note = &record.note;
    if *note == Note::default() {
        return true;
    }
    let mark = match note.buffer {
        0 => record.incoming_mark,
        1 => record.outgoing_mark,
        _ => return false,
    };
    let end = note.offset.checked_add(note.length);
    matches!(note.length, 2 | 4) && end.is_some_and(|end| end <= mark)
}

/// The most operations still possible for a record that fits, 0 for one that doesn't.
pub fn most_still_possible(admitted: &Admitted, record: &Record) -> u64 {
    match current(admitted, record) {
        Some((visit, camac)) if fits(admitted, record) => {
            most_from(admitted, visit, &camac, record)
        }
        _ => 0,
    }
}

/// "the same sums over the words left and the walk after them, less the tries made", a
/// scan's "with P and S of the current N and A"; "where a scan has more words left than
/// positions, its positions and nothing after it."
fn most_from(admitted: &Admitted, visit: usize, camac: &Camac, record: &Record) -> u64 {
    let words = record.words_left;
    let here = match camac.q_mode {
        QMode::Stop | QMode::Ignore => words,
        QMode::Repeat => words * admitted.list.try_limit - record.tries,
        QMode::Scan => {
            let positions = record.position().positions();
            if words > positions {
                return positions;
            }
            record.position().most_operations(words)
        }
    };
    let after = admitted.walk[visit + 1..].iter();
    let rest: u64 = after
        .map(|&number| most_operations(&admitted.list, number))
        .sum();
    here + rest
}
