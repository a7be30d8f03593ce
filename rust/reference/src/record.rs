//! The record (document 01, "The calls").

use crate::scan::Position;

/// "The note is the buffer (0 incoming, 1 outgoing), offset and length of the last read
/// or block or single write word moved", and "zeros before any".
#[derive(Clone, Copy, Debug, Default, PartialEq, Eq)]
pub struct Note {
    pub buffer: u64,
    pub offset: u64,
    pub length: u64,
}

/// "It has: ended, instruction, words left, tries made, current N and A, both marks,
/// operations, status, note of the last move."
#[derive(Clone, Copy, Debug, Default, PartialEq, Eq)]
pub struct Record {
    pub ended: bool,
    pub instruction: u64,
    pub words_left: u64,
    pub tries: u64,
    pub n: u64,
    pub a: u64,
    pub incoming_mark: u64,
    pub outgoing_mark: u64,
    pub operations: u64,
    pub status: u32,
    pub note: Note,
}

impl Record {
    /// "a refused start or whole run gives a record marked ended, all else zero."
    pub fn refused() -> Record {
        Record {
            ended: true,
            ..Record::default()
        }
    }

    /// The current N and A.
    pub fn position(&self) -> Position {
        Position {
            station: self.n,
            subaddress: self.a,
        }
    }

    /// The record of some numbers: any number but 0 first is an ended one; `None` if the
    /// status has more than its 32 bits.
    pub fn from_numbers(numbers: &[u64; 13]) -> Option<Record> {
        let [ended, instruction, words_left, tries, n, a, ..] = *numbers;
        let [.., incoming_mark, outgoing_mark, operations, status, buffer, offset, length] =
            *numbers;
        Some(Record {
            ended: ended != 0,
            instruction,
            words_left,
            tries,
            n,
            a,
            incoming_mark,
            outgoing_mark,
            operations,
            status: u32::try_from(status).ok()?,
            note: Note {
                buffer,
                offset,
                length,
            },
        })
    }

    /// The record's numbers in document 01's order.
    pub fn numbers(&self) -> [u64; 13] {
        [
            u64::from(self.ended),
            self.instruction,
            self.words_left,
            self.tries,
            self.n,
            self.a,
            self.incoming_mark,
            self.outgoing_mark,
            self.operations,
            u64::from(self.status),
            self.note.buffer,
            self.note.offset,
            self.note.length,
        ]
    }
}

/// "The last moved word is shown as a part of whichever buffer carried it", or "an
/// empty incoming part if none or if the note lies outside." The number is the buffer's.
pub fn last_moved<'a>(incoming: &'a [u8], outgoing: &'a [u8], note: &Note) -> (u64, &'a [u8]) {
    let nothing = (0, &incoming[..0]);
    let buffer = match note.buffer {
        0 => incoming,
        1 => outgoing,
        _ => return nothing,
    };
    match part(buffer, note.offset, note.length) {
        Some(part) if !part.is_empty() => (note.buffer, part),
        _ => nothing,
    }
}

/// `length` bytes of a buffer from `offset` on, unless they lie outside.
fn part(buffer: &[u8], offset: u64, length: u64) -> Option<&[u8]> {
    let start = usize::try_from(offset).ok()?;
    let end = usize::try_from(offset.checked_add(length)?).ok()?;
    buffer.get(start..end)
}
