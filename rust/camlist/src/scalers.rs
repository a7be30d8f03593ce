//! Decimal scalers: modules that give six decimal digits in a 24-bit word, the highest in bits
//! 23 to 20.
//!
//! A row is a part of a buffer that holds the longwords of such words and nothing else. Bits 31
//! and 30 of each, Q and X of a [`Word`](crate::Word), stay.
//!
//! ```
//! use camlist::{row, run, scalers, Camac, List, Reply, Word};
//!
//! // Two decimal scalers, and a module that gives binary words.
//! let list = List::new(3)
//!     .block(Camac::at(1, 9, 0, 0), 2)
//!     .single(Camac::at(1, 10, 0, 0))
//!     .halt();
//! let mut incoming = [0; 12];
//! let replies = [0x12_3456, 0x99_9999, 0x12_ABCD].map(Reply::answer);
//! run(&list, &mut incoming, &[], &row(replies))?;
//! assert_eq!(scalers::to_binary(&mut incoming).unwrap_err().place, 8);
//!
//! scalers::to_binary(&mut incoming[..8])?;
//! let words = incoming.as_chunks().0.iter().copied().map(Word::from);
//! assert!(words.clone().all(|word| word.q() && word.x()));
//! let counts: Vec<u32> = words.map(Word::data).collect();
//! assert_eq!(counts, [123_456, 999_999, 0x12_ABCD]);
//!
//! scalers::to_decimal(&mut incoming[..8])?;
//! assert_eq!(incoming[..4], [0x56, 0x34, 0x12, 0xC0]);
//! # Ok::<(), camlist::Refusal>(())
//! ```

use crate::ffi;
use crate::refusal::{refused_or, Refusal};

/// Puts into bits 23 to 0 of each longword the number that its digits stand for. Refused, by
/// [`Reason::RowLength`](crate::Reason::RowLength) or [`Reason::Scaler`](crate::Reason::Scaler),
/// the whole row stays as it is.
///
/// ```
/// use camlist::scalers::to_binary;
/// use camlist::Reason;
///
/// let mut row = [0x56, 0x34, 0x12, 0xC0, 0x0A, 0, 0, 0];
/// let refusal = to_binary(&mut row).unwrap_err();
/// assert_eq!((refusal.reason, refusal.place), (Reason::Scaler, 4));
/// assert!(refusal.to_string().starts_with("refusal 32 at byte 4 of the row: "));
/// assert_eq!(to_binary(&mut row[..7]).unwrap_err().reason, Reason::RowLength);
/// assert_eq!(row, [0x56, 0x34, 0x12, 0xC0, 0x0A, 0, 0, 0]);
/// ```
pub fn to_binary(row: &mut [u8]) -> Result<(), Refusal> {
    let [number, place] = ffi::to_binary(row);
    refused_or(number, place)
}

/// The same from numbers, 0 to 999,999, to digits. What either of the two converts, the other
/// converts back.
///
/// ```
/// use camlist::scalers::to_decimal;
///
/// let mut row = [0x40, 0xE2, 0x01, 0xC0, 0x3F, 0x42, 0x0F, 0];
/// to_decimal(&mut row)?;
/// assert_eq!(row, [0x56, 0x34, 0x12, 0xC0, 0x99, 0x99, 0x99, 0]);
/// assert_eq!(to_decimal(&mut row).unwrap_err().place, 0);
/// # Ok::<(), camlist::Refusal>(())
/// ```
pub fn to_decimal(row: &mut [u8]) -> Result<(), Refusal> {
    let [number, place] = ffi::to_decimal(row);
    refused_or(number, place)
}
