//! The record of a run.

use crate::ffi::RECORD_NUMBERS;
use crate::status::Status;

/// Where a run stands: document 01's thirteen numbers. It may be kept anywhere and given
/// back to [`Run::resume`](crate::Run::resume); one that doesn't fit the list is refused
/// there.
///
/// ```
/// use camlist::Record;
///
/// let record = Record::from_numbers([0, 2, 5, 0, 7, 1, 6, 0, 3, 0x10000, 0, 4, 2]);
/// assert!(!record.ended() && record.status().has(camlist::Status::NO_Q));
/// assert_eq!((record.instruction(), record.words_left(), record.operations()), (2, 5, 3));
/// ```
#[derive(Clone, Copy, Debug, Default, PartialEq, Eq)]
pub struct Record(pub(crate) [u64; RECORD_NUMBERS]);

impl Record {
    pub fn from_numbers(numbers: [u64; RECORD_NUMBERS]) -> Record {
        Record(numbers)
    }

    pub fn numbers(&self) -> [u64; RECORD_NUMBERS] {
        self.0
    }

    pub fn ended(&self) -> bool {
        self.0[0] != 0
    }

    /// The instruction that waits, or that ended the run.
    pub fn instruction(&self) -> u64 {
        self.0[1]
    }

    /// Of that instruction, at most: Q = 0 may close a stop block; 0 after the end.
    pub fn words_left(&self) -> u64 {
        self.0[2]
    }

    /// Made in vain for the current word, in repeat.
    pub fn tries(&self) -> u64 {
        self.0[3]
    }

    /// Current station N; 0 after the end, as the subaddress.
    pub fn station(&self) -> u64 {
        self.0[4]
    }

    pub fn subaddress(&self) -> u64 {
        self.0[5]
    }

    /// Incoming bytes used so far; after a halt B, or less if blocks were short.
    pub fn incoming_mark(&self) -> u64 {
        self.0[6]
    }

    /// Outgoing bytes used so far; after a halt O, or less.
    pub fn outgoing_mark(&self) -> u64 {
        self.0[7]
    }

    /// Operations made.
    pub fn operations(&self) -> u64 {
        self.0[8]
    }

    pub fn status(&self) -> Status {
        Status(self.0[9] as u32)
    }

    /// Where the last moved word lies, if one was moved.
    pub fn note(&self) -> Option<Note> {
        let [.., buffer, offset, length] = self.0;
        let buffer = match buffer {
            0 => Buffer::Incoming,
            _ => Buffer::Outgoing,
        };
        (length > 0).then_some(Note {
            buffer,
            offset,
            length,
        })
    }
}

/// One of a run's two buffers.
#[derive(Clone, Copy, Debug, PartialEq, Eq)]
pub enum Buffer {
    Incoming,
    Outgoing,
}

/// Where a word lies in its buffer.
#[derive(Clone, Copy, Debug, PartialEq, Eq)]
pub struct Note {
    pub buffer: Buffer,
    pub offset: u64,
    pub length: u64,
}
