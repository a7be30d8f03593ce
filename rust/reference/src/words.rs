//! CAMAC words (document 01, "CAMAC words", with document 02's E1; refusals 6 to 9).

use crate::scan::Position;

/// "bits 31, 30, 15, 14, 7, 2 zero".
pub const ZERO_BITS: u32 = 1 << 31 | 1 << 30 | 1 << 15 | 1 << 14 | 1 << 7 | 1 << 2;

/// The largest H of a block: "H above 65,536" is refused.
pub const MOST_HALFWORDS: u32 = 65_536;

/// "Q-mode 0 stop, 1 ignore, 2 repeat, 3 scan." In transfer mode 2 the last "is the list
/// sequencer" (E1), which "goes by ignore mode's rules" (E1): its Q-mode is ignore here.
#[derive(Clone, Copy, Debug, PartialEq, Eq)]
pub enum QMode {
    Stop,
    Ignore,
    Repeat,
    Scan,
}

/// "F with its 8-bit set is control (no data); otherwise read, or write if its
/// 16-bit is set."
#[derive(Clone, Copy, Debug, PartialEq, Eq)]
pub enum Direction {
    Read,
    Write,
    Control,
}

/// "bit 1 set for 16-bit words, else 24-bit".
#[derive(Clone, Copy, Debug, PartialEq, Eq)]
pub enum WordSize {
    Bits16,
    Bits24,
}

impl WordSize {
    /// The bytes that such a word takes in its buffer.
    pub fn bytes(self) -> u64 {
        match self {
            WordSize::Bits16 => 2,
            WordSize::Bits24 => 4,
        }
    }

    /// The bits of a longword that such a word has.
    pub fn mask(self) -> u32 {
        match self {
            WordSize::Bits16 => 0x0000_FFFF,
            WordSize::Bits24 => 0x00FF_FFFF,
        }
    }
}

/// Crate, station N, subaddress A and function F of an instruction.
#[derive(Clone, Copy, Debug, PartialEq, Eq)]
pub struct Address {
    pub crate_number: u64,
    pub station: u64,
    pub subaddress: u64,
    pub function: u64,
}

/// "Transfer mode 0 single (length 4), 1 block (8), 2 enhanced", "carried with length 8"
/// (E1), "3 inline write (8)." The sequencer is transfer mode 2 with Q-mode 3.
#[derive(Clone, Copy, Debug, PartialEq, Eq)]
pub enum Transfer {
    Single,
    Block { words: u64 },
    Enhanced { words: u64 },
    Sequencer { words: u64 },
    Inline { data: u32 },
}

/// A CAMAC instruction that passed refusals 6 to 9.
#[derive(Clone, Copy, Debug, PartialEq, Eq)]
pub struct Camac {
    pub transfer: Transfer,
    pub q_mode: QMode,
    pub address: Address,
    pub size: WordSize,
    /// Bit 0, AD: "AD = 1 disables".
    pub abort_disable: bool,
}

impl Camac {
    /// "Words wanted, n: 1 for single and inline."
    pub fn words(&self) -> u64 {
        match self.transfer {
            Transfer::Single | Transfer::Inline { .. } => 1,
            Transfer::Block { words }
            | Transfer::Enhanced { words }
            | Transfer::Sequencer { words } => words,
        }
    }

    /// By F, but for the sequencer: "A 0 or 1 reading and 2 or 3 writing" (E1); "A tells
    /// the direction there, although F 12 is a control function" (E1).
    pub fn direction(&self) -> Direction {
        match (self.transfer, self.address.subaddress) {
            (Transfer::Sequencer { .. }, 0 | 1) => Direction::Read,
            (Transfer::Sequencer { .. }, _) => Direction::Write,
            _ => direction(self.address.function),
        }
    }

    /// The operation's sixth number, "1 if enhanced, else 0" (E1).
    pub fn is_enhanced(&self) -> bool {
        matches!(
            self.transfer,
            Transfer::Enhanced { .. } | Transfer::Sequencer { .. }
        )
    }

    /// "A stop block, enhanced or standard" (E8), of one word too.
    pub fn is_stop_block(&self) -> bool {
        let is_block = matches!(
            self.transfer,
            Transfer::Block { .. } | Transfer::Enhanced { .. }
        );
        is_block && self.q_mode == QMode::Stop
    }

    /// Where the instruction's first operation goes.
    pub fn position(&self) -> Position {
        Position {
            station: self.address.station,
            subaddress: self.address.subaddress,
        }
    }
}

/// Decodes the body of a field of tag 10h: its first longword and, at length 8, its
/// second. An error is the number of the refusal; "each in the order listed".
pub fn decode(first: u32, second: Option<u32>) -> Result<Camac, u8> {
    if first & ZERO_BITS != 0 {
        return Err(6);
    }
    let address = address(first);
    let q_mode = q_mode(first);
    check_address(&address, q_mode)?;
    let mode = check_mode(first, second)?;
    let size = word_size(first);
    let instruction = Camac {
        transfer: transfer(mode, size)?,
        q_mode,
        address,
        size,
        abort_disable: first & 1 == 1,
    };
    check_scan(&instruction)?;
    Ok(instruction)
}

/// Bits `low` to `high` of a longword.
fn bits(word: u32, high: u32, low: u32) -> u64 {
    u64::from(word >> low) & ((1 << (high - low + 1)) - 1)
}

/// "station N 29–25; subaddress A 24–21; function F 20–16; crate 13–8".
fn address(first: u32) -> Address {
    Address {
        crate_number: bits(first, 13, 8),
        station: bits(first, 29, 25),
        subaddress: bits(first, 24, 21),
        function: bits(first, 20, 16),
    }
}

/// "transfer mode 6–5".
fn transfer_mode(first: u32) -> u64 {
    bits(first, 6, 5)
}

/// "Q-mode 4–3".
fn q_mode(first: u32) -> QMode {
    match bits(first, 4, 3) {
        0 => QMode::Stop,
        1 => QMode::Ignore,
        2 => QMode::Repeat,
        _ if is_sequencer(first) => QMode::Ignore,
        _ => QMode::Scan,
    }
}

/// Whether a word is "in sequencer mode" (E1), right or not.
fn is_sequencer(first: u32) -> bool {
    transfer_mode(first) == 2 && bits(first, 4, 3) == 3
}

fn word_size(first: u32) -> WordSize {
    if bits(first, 1, 1) == 1 {
        WordSize::Bits16
    } else {
        WordSize::Bits24
    }
}

fn direction(function: u64) -> Direction {
    if function & 8 != 0 {
        Direction::Control
    } else if function & 16 != 0 {
        Direction::Write
    } else {
        Direction::Read
    }
}

/// "7: crate not 1–62; N not 1–23 or 30; Q-mode 3 with N = 30", which "spares N 30 in
/// sequencer mode" (E1).
fn check_address(address: &Address, q_mode: QMode) -> Result<(), u8> {
    let crate_known = (1..=62).contains(&address.crate_number);
    let station_known = (1..=23).contains(&address.station) || address.station == 30;
    let scans_30 = q_mode == QMode::Scan && address.station == 30;
    if crate_known && station_known && !scans_30 {
        Ok(())
    } else {
        Err(7)
    }
}

/// A transfer mode with the second longword that its length brings.
enum Mode {
    Single,
    Block(u32),
    Enhanced(u32),
    Sequencer(u32),
    Inline(u32),
}

/// "8: .. length not the mode's; block with control; inline not write"; it "no longer
/// takes mode 2 as such" (E1).
fn check_mode(first: u32, second: Option<u32>) -> Result<Mode, u8> {
    let direction = direction(address(first).function);
    match (transfer_mode(first), second) {
        (0, None) => Ok(Mode::Single),
        (1, Some(second)) if direction != Direction::Control => Ok(Mode::Block(second)),
        (2, Some(second)) if enhanced_fault(first).is_none() => Ok(if is_sequencer(first) {
            Mode::Sequencer(second)
        } else {
            Mode::Enhanced(second)
        }),
        (3, Some(second)) if direction == Direction::Write => Ok(Mode::Inline(second)),
        _ => Err(8),
    }
}

/// What 8 takes in transfer mode 2, "a length other than 8" (E1) aside.
#[derive(Clone, Copy, Debug, PartialEq, Eq, PartialOrd, Ord)]
pub enum EnhancedFault {
    Control,
    RepeatWrite,
    SequencerStation,
    SequencerFunction,
    SequencerSubaddress,
}

/// "control outside sequencer mode, a repeat write, or a sequencer instruction other than
/// those four" (E1): "N 30, F 12, A 0 or 1 reading and 2 or 3 writing" (E1).
pub fn enhanced_fault(first: u32) -> Option<EnhancedFault> {
    let Address {
        station,
        subaddress,
        function,
        ..
    } = address(first);
    if is_sequencer(first) {
        return match (station, function, subaddress) {
            (30, 12, 0..=3) => None,
            (30, 12, _) => Some(EnhancedFault::SequencerSubaddress),
            (30, _, _) => Some(EnhancedFault::SequencerFunction),
            _ => Some(EnhancedFault::SequencerStation),
        };
    }
    match (direction(function), q_mode(first)) {
        (Direction::Control, _) => Some(EnhancedFault::Control),
        (Direction::Write, QMode::Repeat) => Some(EnhancedFault::RepeatWrite),
        _ => None,
    }
}

/// "9: second longword zero in a block; H above 65,536; H odd for 24-bit; inline bits
/// above the word size".
fn transfer(mode: Mode, size: WordSize) -> Result<Transfer, u8> {
    match mode {
        Mode::Single => Ok(Transfer::Single),
        Mode::Block(second) => {
            let words = block_words(second, size)?;
            Ok(Transfer::Block { words })
        }
        Mode::Enhanced(second) => {
            let words = block_words(second, size)?;
            Ok(Transfer::Enhanced { words })
        }
        Mode::Sequencer(second) => {
            let words = block_words(second, size)?;
            Ok(Transfer::Sequencer { words })
        }
        Mode::Inline(data) if data & !size.mask() == 0 => Ok(Transfer::Inline { data }),
        Mode::Inline(_) => Err(9),
    }
}

/// "the second longword is the two's complement of H, counted in halfwords; n = H for
/// 16-bit, H/2 for 24-bit words."
fn block_words(second: u32, size: WordSize) -> Result<u64, u8> {
    let halfwords = second.wrapping_neg();
    if halfwords == 0 || halfwords > MOST_HALFWORDS {
        return Err(9);
    }
    match size {
        WordSize::Bits16 => Ok(u64::from(halfwords)),
        WordSize::Bits24 if halfwords % 2 == 1 => Err(9),
        WordSize::Bits24 => Ok(u64::from(halfwords / 2)),
    }
}

/// The last of 9: "scan with n above P". To the sequencer it "doesn't apply" (E1).
fn check_scan(instruction: &Camac) -> Result<(), u8> {
    let scans = instruction.q_mode == QMode::Scan;
    if scans && instruction.words() > instruction.position().positions() {
        return Err(9);
    }
    Ok(())
}
