//! The bounds of the clauses of fit: a record at a bound is one that fits until one number
//! changes by the least; the record so changed is beyond it.

use crate::fit::{broken_clause, fits, Clause};
use crate::list::Instruction;
use crate::record::Record;
use crate::status;
use crate::walk::Admitted;
use crate::words::QMode;

/// One number of a record changed, by its place among the thirteen; or one bit of the status.
#[derive(Clone, Copy, Debug, PartialEq, Eq, PartialOrd, Ord)]
pub enum Change {
    Less(usize),
    More(usize),
    MoreByTwo(usize),
    Bit(u32),
}

/// The record's numbers, for the names of equations.
const NAMES: [&str; 13] = [
    "ended",
    "instruction",
    "words-left",
    "tries",
    "station",
    "subaddress",
    "incoming-mark",
    "outgoing-mark",
    "operations",
    "status",
    "note-buffer",
    "note-offset",
    "note-length",
];

/// The places of numbers that changes are made at: all but ended and the status.
const CHANGED: [usize; 11] = [1, 2, 3, 4, 5, 6, 7, 8, 10, 11, 12];

/// Every change.
pub fn changes() -> Vec<Change> {
    let numbers = CHANGED.into_iter();
    let numbers = numbers.flat_map(|at| [Change::Less(at), Change::More(at)]);
    let marks = [6, 7].map(Change::MoreByTwo);
    numbers
        .chain(marks)
        .chain((0..32).map(Change::Bit))
        .collect()
}

impl Change {
    pub fn name(&self) -> String {
        match *self {
            Change::Less(at) => format!("{}-less", NAMES[at]),
            Change::More(at) => format!("{}-more", NAMES[at]),
            Change::MoreByTwo(at) => format!("{}-more-by-2", NAMES[at]),
            Change::Bit(bit) => format!("status-bit-{bit}"),
        }
    }

    /// The record with the change, `None` for a number below 0.
    pub fn made(&self, record: &Record) -> Option<Record> {
        self.by(record, 1)
    }

    /// The record without it.
    fn undone(&self, record: &Record) -> Option<Record> {
        self.by(record, -1)
    }

    fn by(&self, record: &Record, sign: i64) -> Option<Record> {
        let mut numbers = record.numbers();
        let (at, change) = match *self {
            Change::Less(at) => (at, -1),
            Change::More(at) => (at, 1),
            Change::MoreByTwo(at) => (at, 2),
            Change::Bit(bit) => {
                numbers[9] ^= 1 << bit;
                return Record::from_numbers(&numbers);
            }
        };
        numbers[at] = numbers[at].checked_add_signed(sign * change)?;
        Record::from_numbers(&numbers)
    }
}

/// A clause's bound: the change that breaks it, and the Q-mode where the clause asks for it.
#[derive(Clone, Copy, Debug, PartialEq, Eq, PartialOrd, Ord)]
pub struct Bound {
    pub clause: Clause,
    pub change: Change,
    pub q_mode: Option<u8>,
}

fn q_mode(admitted: &Admitted, record: &Record, clause: Clause) -> Option<u8> {
    let by_mode = matches!(
        clause,
        Clause::Tries | Clause::Position | Clause::Operations
    );
    match admitted.list.instructions[record.instruction as usize] {
        Instruction::Camac(camac) if by_mode => Some(match camac.q_mode {
            QMode::Stop => 0,
            QMode::Ignore => 1,
            QMode::Repeat => 2,
            QMode::Scan => 3,
        }),
        _ => None,
    }
}

/// The bounds that a record which fits is at.
pub fn bounds_at(admitted: &Admitted, record: &Record) -> Vec<Bound> {
    let bound = |change: Change| {
        let changed = change.made(record)?;
        let clause = broken_clause(admitted, &changed)?;
        Some(Bound {
            clause,
            change,
            q_mode: q_mode(admitted, record, clause),
        })
    };
    changes().into_iter().filter_map(bound).collect()
}

/// The bounds that a record which doesn't fit is beyond, by one change alone.
pub fn bounds_beyond(admitted: &Admitted, record: &Record) -> Vec<Bound> {
    let Some(clause) = broken_clause(admitted, record) else {
        return Vec::new();
    };
    let bound = |change: Change| {
        let fitting = change.undone(record)?;
        fits(admitted, &fitting).then(|| Bound {
            clause,
            change,
            q_mode: q_mode(admitted, &fitting, clause),
        })
    };
    changes().into_iter().filter_map(bound).collect()
}

/// Every bound of every clause.
pub fn expected() -> Vec<Bound> {
    let plain = |clause, change| Bound {
        clause,
        change,
        q_mode: None,
    };
    let mut bounds = vec![
        plain(Clause::Instruction, Change::Less(1)),
        plain(Clause::Instruction, Change::More(1)),
        plain(Clause::WordsLeft, Change::Less(2)),
        plain(Clause::WordsLeft, Change::More(2)),
        plain(Clause::Note, Change::Less(10)),
        plain(Clause::Note, Change::More(10)),
        plain(Clause::Note, Change::More(11)),
        plain(Clause::Note, Change::Less(12)),
        plain(Clause::Note, Change::More(12)),
    ];
    for mark in [6, 7] {
        bounds.push(plain(Clause::Marks, Change::More(mark)));
        bounds.push(plain(Clause::Marks, Change::MoreByTwo(mark)));
    }
    let bits = (0..32).filter(|bit| status::FLAGS >> bit & 1 == 0);
    bounds.extend(bits.map(|bit| plain(Clause::Status, Change::Bit(bit))));
    for q_mode in 0..4 {
        let of_mode = [
            (Clause::Tries, Change::More(3)),
            (Clause::Position, Change::Less(4)),
            (Clause::Position, Change::More(4)),
            (Clause::Position, Change::Less(5)),
            (Clause::Position, Change::More(5)),
            (Clause::Operations, Change::More(8)),
        ];
        bounds.extend(of_mode.map(|(clause, change)| Bound {
            clause,
            change,
            q_mode: Some(q_mode),
        }));
    }
    bounds
}
