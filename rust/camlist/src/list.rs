//! Writing lists.

use std::ops::Deref;

/// A CAMAC instruction to be put into a [`List`]: 24-bit words, stop, AD = 0 until said
/// otherwise.
///
/// ```
/// use camlist::Camac;
///
/// // Crate 5, N 7, A 2, F 0, 16-bit words, ignore.
/// let camac = Camac::at(5, 7, 2, 0).bits16().ignore();
/// assert_eq!(camac.first_longword(), 0x0E40_050A);
/// ```
#[derive(Clone, Copy, Debug, PartialEq, Eq)]
pub struct Camac {
    first: u32,
}

const BITS_16: u32 = 1 << 1;
const ABORT_DISABLE: u32 = 1;
const Q_MODE: u32 = 3 << 3;
const BLOCK: u32 = 1 << 5;
const ENHANCED: u32 = 2 << 5;
const INLINE: u32 = 3 << 5;

impl Camac {
    /// An instruction for a crate, station N, subaddress A and function F.
    ///
    /// # Panics
    ///
    /// If a number has more bits than the longword has for it. Whether a station or a
    /// function may be used is for admission to say.
    pub fn at(crate_number: u32, station: u32, subaddress: u32, function: u32) -> Camac {
        let part = |number: u32, bits: u32, low: u32| {
            assert!(number >> bits == 0, "{number} has more than {bits} bits");
            number << low
        };
        Camac {
            first: part(crate_number, 6, 8)
                | part(station, 5, 25)
                | part(subaddress, 4, 21)
                | part(function, 5, 16),
        }
    }

    /// An instruction for one of the four lists of a crate's list sequencer, to be put by
    /// [`List::enhanced`]: 0 and 1 read, 2 and 3 write. Its Q-mode is its own: Q is gathered
    /// as in ignore.
    ///
    /// # Panics
    ///
    /// If the crate's number has more than 6 bits, or the list's number more than 2.
    pub fn sequencer(crate_number: u32, number: u32) -> Camac {
        assert!(number < 4, "the sequencer has no list {number}");
        Camac::at(crate_number, 30, number, 12).with(Q_MODE, Q_MODE)
    }

    pub fn bits16(self) -> Camac {
        self.with(BITS_16, BITS_16)
    }

    pub fn bits24(self) -> Camac {
        self.with(BITS_16, 0)
    }

    /// Q = 0 closes a [block](List::block), and ends the run in a single or an inline write.
    pub fn stop(self) -> Camac {
        self.with(Q_MODE, 0)
    }

    /// Q is gathered in the status and nothing else.
    pub fn ignore(self) -> Camac {
        self.with(Q_MODE, 1 << 3)
    }

    /// Q = 0 tries the word again, up to the list's try limit.
    pub fn repeat(self) -> Camac {
        self.with(Q_MODE, 2 << 3)
    }

    /// Q = X = 1 goes to the next subaddress, any other answer to the next station.
    pub fn scan(self) -> Camac {
        self.with(Q_MODE, 3 << 3)
    }

    /// AD = 1: parity errors, damaged commands and X = 0 end nothing. Which 24-bit words came
    /// with X = 0 is stored with them ([`Word::x`](crate::Word::x)).
    pub fn abort_disable(self) -> Camac {
        self.with(ABORT_DISABLE, ABORT_DISABLE)
    }

    /// The first longword, as a single has it.
    pub fn first_longword(self) -> u32 {
        self.first
    }

    fn with(self, mask: u32, bits: u32) -> Camac {
        Camac {
            first: self.first & !mask | bits,
        }
    }

    /// The second longword of a block: the two's complement of its halfwords.
    fn count(self, words: u32) -> u32 {
        let halfwords = if self.first & BITS_16 == 0 { 2 } else { 1 };
        words.wrapping_mul(halfwords).wrapping_neg()
    }
}

/// A list file, written field by field. Instructions are numbered from 0. It is checked by
/// [`admit`](crate::admit) and not before.
///
/// ```
/// use camlist::{admit, Camac, List};
///
/// let adc = Camac::at(3, 6, 0, 2).bits16().ignore();
/// let lamp = Camac::at(3, 9, 0, 16).bits24();
/// let list = List::new(3)
///     .block(adc, 100)
///     .inline(lamp, 1)
///     .literal(0xFFFF_FFFF)
///     .jump(4)
///     .halt();
/// let counts = admit(&list, 1_000, 0).unwrap();
/// assert_eq!((counts.operations, counts.incoming), (101, 204));
/// ```
#[derive(Clone, Debug, PartialEq, Eq)]
pub struct List {
    bytes: Vec<u8>,
}

impl List {
    /// An empty list with a try limit.
    pub fn new(try_limit: u16) -> List {
        let [low, high] = try_limit.to_le_bytes();
        let bytes = Vec::new();
        List { bytes }.field(0x01, &[1, 0, low, high])
    }

    /// One operation.
    pub fn single(self, camac: Camac) -> List {
        self.field(0x10, &camac.first.to_le_bytes())
    }

    /// So many words. In stop they may be fewer: Q = 0 closes the block without that word, and
    /// the list goes on at the marks reached.
    ///
    /// ```
    /// use camlist::{row, run, Camac, Code, List, Reply, Status};
    ///
    /// let digitizer = Camac::at(3, 6, 0, 2).bits16().stop();
    /// let list = List::new(3).block(digitizer, 100).literal(0xAABB_CCDD).halt();
    /// let replies = [Reply::answer(7), Reply::answer(8), Reply::answer(0).no_q()];
    /// let mut incoming = [0; 204];
    /// let ran = run(&list, &mut incoming, &[], &row(replies))?;
    /// assert_eq!(ran.record.status().code(), Code::NO_ERROR);
    /// assert!(ran.record.status().has(Status::NO_Q));
    /// assert_eq!(ran.record.incoming_mark(), 8);
    /// assert_eq!(incoming[..8], [7, 0, 8, 0, 0xDD, 0xCC, 0xBB, 0xAA]);
    /// # Ok::<(), camlist::Refusal>(())
    /// ```
    pub fn block(self, camac: Camac, words: u32) -> List {
        self.double(camac.first | BLOCK, camac.count(words))
    }

    /// So many words as an enhanced block: stop, in which they may be fewer as in a
    /// [block](List::block), ignore, repeat for reads, or the
    /// [list sequencer](Camac::sequencer).
    ///
    /// ```
    /// use camlist::{admit, Camac, List};
    ///
    /// let adc = Camac::at(3, 6, 0, 2).bits16();
    /// let list = List::new(3)
    ///     .enhanced(adc.repeat(), 100)
    ///     .enhanced(Camac::sequencer(3, 0).bits16(), 50)
    ///     .enhanced(Camac::sequencer(3, 2).bits16(), 8)
    ///     .halt();
    /// let counts = admit(&list, 300, 16).unwrap();
    /// assert_eq!((counts.operations, counts.incoming, counts.outgoing), (358, 300, 16));
    /// ```
    pub fn enhanced(self, camac: Camac, words: u32) -> List {
        self.double(camac.first | ENHANCED, camac.count(words))
    }

    /// One write with its data in the list.
    pub fn inline(self, camac: Camac, data: u32) -> List {
        self.double(camac.first | INLINE, data)
    }

    /// Goes on at an instruction.
    pub fn jump(self, instruction: u16) -> List {
        self.field(0x20, &instruction.to_le_bytes())
    }

    /// A longword for the incoming buffer.
    pub fn literal(self, longword: u32) -> List {
        self.field(0x21, &longword.to_le_bytes())
    }

    /// Ends the run.
    pub fn halt(self) -> List {
        self.field(0x2F, &[])
    }

    pub fn bytes(&self) -> &[u8] {
        &self.bytes
    }

    fn double(self, first: u32, second: u32) -> List {
        let body = [first.to_le_bytes(), second.to_le_bytes()].concat();
        self.field(0x10, &body)
    }

    fn field(mut self, tag: u8, body: &[u8]) -> List {
        self.bytes.push(tag);
        self.bytes.extend((body.len() as u16).to_le_bytes());
        self.bytes.extend(body);
        self
    }
}

impl Deref for List {
    type Target = [u8];

    fn deref(&self) -> &[u8] {
        &self.bytes
    }
}
