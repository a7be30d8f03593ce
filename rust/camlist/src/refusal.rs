//! Refusals: why a call did nothing.

use std::error::Error;
use std::fmt;

/// Why a call was refused. It changed nothing.
///
/// ```
/// use camlist::{admit, List, Reason};
///
/// // A jump to an instruction that isn't there, in the second field.
/// let refusal = admit(&List::new(3).jump(7), 0, 0).unwrap_err();
/// assert_eq!((refusal.reason, refusal.place), (Reason::Jump, 7));
/// assert_eq!(
///     refusal.to_string(),
///     "refusal 10 at byte 7 of the list: jump to no instruction"
/// );
/// ```
#[derive(Clone, Copy, Debug, PartialEq, Eq)]
pub struct Refusal {
    pub reason: Reason,
    /// Offset in the list of the refused field's first byte, up to [`Reason::Jump`]; offset in
    /// the row of the refused longword, of [`Reason::Scaler`]; 0 for other reasons.
    pub place: usize,
}

/// The refusal of an answer's first two numbers; none for number 0.
pub(crate) fn refused_or(number: u64, place: u64) -> Result<(), Refusal> {
    let mut reasons = Reason::ALL.into_iter();
    match reasons.find(|reason| reason.number() == number) {
        Some(reason) => Err(Refusal {
            reason,
            place: place as usize,
        }),
        None => Ok(()),
    }
}

impl fmt::Display for Refusal {
    fn fmt(&self, formatter: &mut fmt::Formatter) -> fmt::Result {
        let Refusal { reason, place } = *self;
        write!(formatter, "refusal {}", reason.number())?;
        if reason <= Reason::Jump {
            write!(formatter, " at byte {place} of the list")?;
        } else if reason == Reason::Scaler {
            write!(formatter, " at byte {place} of the row")?;
        }
        write!(formatter, ": {reason}")
    }
}

impl Error for Refusal {}

/// The reasons, with the header's names, numbers and texts.
#[derive(Clone, Copy, Debug, PartialEq, Eq, PartialOrd, Ord)]
pub enum Reason {
    /// A field's head or body runs past the end of the list.
    Cut = 1,
    /// No field, or a first one that is not format 1 with a try limit.
    First = 2,
    /// Unknown tag, or a second first field.
    Tag = 3,
    /// Length wrong for its tag.
    Length = 4,
    /// Instruction 4,097.
    TooMany = 5,
    /// A zero bit of a CAMAC word is set.
    ZeroBit = 6,
    /// Crate not 1 to 62, N not 1 to 23 or 30, or a scan (the sequencer is none) at N 30.
    Address = 7,
    /// Length not the mode's; block with control; inline not write; enhanced: control, a
    /// repeat write, or a sequencer other than N 30, F 12, A 0 to 3.
    Mode = 8,
    /// The count of a block, enhanced or not; a scan past its positions; or inline data above
    /// the word size.
    CountOrData = 9,
    /// A jump's target is not an instruction.
    Jump = 10,
    /// The walk repeats or passes the last field.
    Walk = 11,
    /// Incoming buffer shorter than B.
    Incoming = 20,
    /// Outgoing buffer shorter than O.
    Outgoing = 21,
    /// A reply, or one anywhere in a row, is not well formed; or the row is no multiple of 8
    /// bytes.
    Reply = 22,
    /// The record does not fit the list, or one of its numbers is too wide for its part. Its
    /// marks fit if even and not above those of a run in which no block is short.
    Record = 23,
    /// The record's first number is not 0: its run has ended.
    Ended = 24,
    /// A queue of demands breaks a limit: its length, its first cell, how many wait, its mark;
    /// a demand's crate is not 1 to 62; or a row of demands has odd length.
    Demand = 25,
    /// A row of scalers is no multiple of 4 bytes.
    RowLength = 31,
    /// A longword has a bit of 29 to 24 set; or, to binary, a digit above 9, to decimal a value
    /// above 999,999.
    Scaler = 32,
}

impl Reason {
    pub const ALL: [Reason; 19] = [
        Reason::Cut,
        Reason::First,
        Reason::Tag,
        Reason::Length,
        Reason::TooMany,
        Reason::ZeroBit,
        Reason::Address,
        Reason::Mode,
        Reason::CountOrData,
        Reason::Jump,
        Reason::Walk,
        Reason::Incoming,
        Reason::Outgoing,
        Reason::Reply,
        Reason::Record,
        Reason::Ended,
        Reason::Demand,
        Reason::RowLength,
        Reason::Scaler,
    ];

    /// The number that the header has for it.
    pub fn number(self) -> u64 {
        self as u64
    }
}

impl fmt::Display for Reason {
    fn fmt(&self, formatter: &mut fmt::Formatter) -> fmt::Result {
        formatter.write_str(match self {
            Reason::Cut => "a field runs past the end of the list",
            Reason::First => "the first field is missing or wrong",
            Reason::Tag => "unknown tag, or a second first field",
            Reason::Length => "length wrong for its tag",
            Reason::TooMany => "more than 4,096 instructions",
            Reason::ZeroBit => "a bit that must be zero is set",
            Reason::Address => "no such crate or station",
            Reason::Mode => {
                "transfer mode does not go with its length, Q-mode, address or function"
            }
            Reason::CountOrData => "wrong word count or inline data",
            Reason::Jump => "jump to no instruction",
            Reason::Walk => "the list comes to no halt",
            Reason::Incoming => "incoming buffer too short",
            Reason::Outgoing => "outgoing buffer too short",
            Reason::Reply => "a reply is not well formed",
            Reason::Record => "the record does not fit the list",
            Reason::Ended => "the run has ended",
            Reason::Demand => "no queue of demands, a crate that is not 1 to 62, or half a demand",
            Reason::RowLength => "the row is not whole longwords",
            Reason::Scaler => {
                "a longword has a bit of 29 to 24, a digit above 9 or a value above 999,999"
            }
        })
    }
}
