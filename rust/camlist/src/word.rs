//! The words that reads store.

/// The longword of a 24-bit word that was read: its data, and Q and X of the answer that
/// brought it. X is 0 only with AD = 1 and never in scan, Q is 0 only in ignore and from the
/// list sequencer.
///
/// A 16-bit word is stored as two bytes of data, and a literal as the longword that the list
/// has: neither is to be read by this type.
///
/// ```
/// use camlist::{row, run, Camac, List, Reply, Word};
///
/// let scalers = Camac::at(1, 9, 0, 0).ignore().abort_disable();
/// let list = List::new(3).block(scalers, 2).halt();
/// let mut incoming = [0; 8];
/// let replies = [Reply::answer(0x12_3456), Reply::answer(0).no_x()];
/// run(&list, &mut incoming, &[], &row(replies))?;
/// let words: Vec<Word> = incoming.as_chunks().0.iter().copied().map(Word::from).collect();
/// assert_eq!((words[0].data(), words[0].q(), words[0].x()), (0x12_3456, true, true));
/// assert_eq!((words[1].data(), words[1].q(), words[1].x()), (0, true, false));
/// # Ok::<(), camlist::Refusal>(())
/// ```
#[derive(Clone, Copy, Debug, Default, PartialEq, Eq)]
pub struct Word(pub u32);

impl Word {
    /// The bit that is Q.
    pub const Q: u32 = 1 << 31;
    /// The bit that is X.
    pub const X: u32 = 1 << 30;
    /// The bits of the data.
    pub const DATA: u32 = 0xFF_FFFF;

    pub fn data(self) -> u32 {
        self.0 & Word::DATA
    }

    pub fn q(self) -> bool {
        self.0 & Word::Q != 0
    }

    pub fn x(self) -> bool {
        self.0 & Word::X != 0
    }
}

/// The four bytes of a buffer, low byte first.
impl From<[u8; 4]> for Word {
    fn from(bytes: [u8; 4]) -> Word {
        Word(u32::from_le_bytes(bytes))
    }
}
