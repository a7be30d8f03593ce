//! Admission once more, as fast as plain safe Rust makes it: one pass over the fields, one
//! along the walk, which the number of its visits bounds.

use crate::list::MOST_INSTRUCTIONS;
use crate::packing::{mark_after, mark_after_words, LITERAL_BYTES};
use crate::refusal::Refusal;
use crate::scan::Position;
use crate::walk::Counts;
use crate::words::{MOST_HALFWORDS, ZERO_BITS};

/// A field after the first.
#[derive(Clone, Copy)]
pub enum Entry {
    Camac(Command),
    Jump(u16),
    Literal(u32),
    Halt,
}

/// A CAMAC instruction: its first longword, with ignore's Q-mode for the list sequencer,
/// and the words wanted.
#[derive(Clone, Copy)]
pub struct Command {
    first: u32,
    pub words: u32,
}

/// What a done word moves.
#[derive(Clone, Copy, PartialEq, Eq)]
pub enum Moves {
    In,
    Out,
    Nothing,
}

pub const STOP: u32 = 0;
pub const REPEAT: u32 = 2;
pub const SCAN: u32 = 3;

const SINGLE: u32 = 0;
const BLOCK: u32 = 1;
const ENHANCED: u32 = 2;
const INLINE: u32 = 3;

/// The list sequencer: N 30, F 12 and A below 4, of which 2 and 3 write.
const SEQUENCER: u32 = 30 << 25 | 12 << 16;
const SEQUENCER_MASK: u32 = 31 << 25 | 31 << 16 | 3 << 23;
const SEQUENCER_WRITES: u32 = 1 << 22;

/// Set in the sequencer's Q-mode 3, clear in ignore's 1.
const NOT_IGNORE: u32 = 1 << 4;

impl Command {
    pub fn q_mode(self) -> u32 {
        self.first >> 3 & 3
    }

    /// Whether it is a block, enhanced or standard.
    pub fn is_block(self) -> bool {
        matches!(mode(self.first), BLOCK | ENHANCED)
    }

    /// The bytes that a word takes.
    pub fn length(self) -> u64 {
        if self.first & 2 == 0 {
            4
        } else {
            2
        }
    }

    /// Bits 4 to 0: Q-mode, word size and AD among them.
    pub fn low_bits(self) -> usize {
        (self.first & 31) as usize
    }

    /// Station × 16 + subaddress.
    pub fn place(self) -> u64 {
        u64::from(self.first >> 21 & 0x1FF)
    }

    /// What a control function moves: nothing, but in the list sequencer.
    fn moves_by_subaddress(self) -> Moves {
        if mode(self.first) != ENHANCED {
            Moves::Nothing
        } else if self.first & SEQUENCER_WRITES != 0 {
            Moves::Out
        } else {
            Moves::In
        }
    }

    pub fn moves(self) -> Moves {
        if is_control(self.first) {
            return self.moves_by_subaddress();
        }
        if mode(self.first) == INLINE {
            Moves::Nothing
        } else if is_write(self.first) {
            Moves::Out
        } else {
            Moves::In
        }
    }

    fn position(self) -> Position {
        Position {
            station: self.place() / 16,
            subaddress: self.place() % 16,
        }
    }

    fn most_operations(self, try_limit: u64) -> u64 {
        let words = u64::from(self.words);
        match self.q_mode() {
            SCAN => self.position().most_operations(words),
            REPEAT => words * try_limit,
            _ => words,
        }
    }

    /// Checks the two longwords; an error is the refusal.
    fn check(first: u32, second: Option<u32>) -> Result<Command, u8> {
        if first & ZERO_BITS != 0 {
            return Err(6);
        }
        let (crate_number, station) = (first >> 8 & 63, first >> 25);
        let (scans, sequences) = match first >> 3 & 3 {
            SCAN => (mode(first) != ENHANCED, mode(first) == ENHANCED),
            _ => (false, false),
        };
        if !(1..=62).contains(&crate_number)
            || !(1..=23).contains(&station) && (station != 30 || scans)
        {
            return Err(7);
        }
        let words = match (mode(first), second) {
            (SINGLE, None) => 1,
            (BLOCK, Some(second)) if !is_control(first) => block_words(first, second)?,
            (ENHANCED, Some(second)) if is_enhanced(first) => block_words(first, second)?,
            (INLINE, Some(second)) if !is_control(first) && is_write(first) => {
                inline_words(first, second)?
            }
            _ => return Err(8),
        };
        let mask = if sequences { !NOT_IGNORE } else { !0 };
        let command = Command {
            first: first & mask,
            words,
        };
        if scans && u64::from(words) > command.position().positions() {
            return Err(9);
        }
        Ok(command)
    }
}

fn mode(first: u32) -> u32 {
    first >> 5 & 3
}

fn is_control(first: u32) -> bool {
    first & 1 << 19 != 0
}

fn is_write(first: u32) -> bool {
    first & 1 << 20 != 0
}

/// Whether a word of transfer mode 2 is carried.
fn is_enhanced(first: u32) -> bool {
    match first >> 3 & 3 {
        SCAN => first & SEQUENCER_MASK == SEQUENCER,
        REPEAT => !is_control(first) && !is_write(first),
        _ => !is_control(first),
    }
}

fn block_words(first: u32, second: u32) -> Result<u32, u8> {
    let halfwords = second.wrapping_neg();
    let wide = first & 2 == 0;
    if halfwords.wrapping_sub(1) >= MOST_HALFWORDS || wide && halfwords & 1 == 1 {
        return Err(9);
    }
    Ok(halfwords >> u32::from(wide))
}

fn inline_words(first: u32, data: u32) -> Result<u32, u8> {
    let bits = if first & 2 == 0 { 24 } else { 16 };
    if data >> bits == 0 {
        Ok(1)
    } else {
        Err(9)
    }
}

/// A list that was admitted.
pub struct Plan {
    pub try_limit: u64,
    pub entries: Vec<Entry>,
    pub counts: Counts,
}

/// Admission, as `walk::admission`.
pub fn plan(list: &[u8], incoming_len: u64, outgoing_len: u64) -> Result<Plan, Refusal> {
    let (try_limit, entries) = read(list)?;
    let counts = counts(try_limit, &entries).ok_or(Refusal::plain(11))?;
    if incoming_len < counts.b {
        return Err(Refusal::plain(20));
    }
    if outgoing_len < counts.o {
        return Err(Refusal::plain(21));
    }
    Ok(Plan {
        try_limit,
        entries,
        counts,
    })
}

fn read(list: &[u8]) -> Result<(u64, Vec<Entry>), Refusal> {
    let (try_limit, mut rest) = first_field(list)?;
    let mut entries = Vec::with_capacity((rest.len() / 3).min(MOST_INSTRUCTIONS));
    let mut farthest = 0;
    while let Some((entry, after)) = field(rest) {
        if entries.len() == MOST_INSTRUCTIONS {
            break;
        }
        if let Entry::Jump(target) = entry {
            farthest = farthest.max(target);
        }
        entries.push(entry);
        rest = after;
    }
    if let [_, ..] = rest {
        let full = entries.len() == MOST_INSTRUCTIONS;
        return Err(Refusal::at(fault(rest, full), list.len() - rest.len()));
    }
    if usize::from(farthest) >= entries.len() {
        check_jumps(list, &entries)?;
    }
    Ok((try_limit, entries))
}

fn first_field(list: &[u8]) -> Result<(u64, &[u8]), Refusal> {
    match list {
        [1, 4, 0, 1, 0, low, high, rest @ ..] if (*low, *high) != (0, 0) => {
            Ok((u64::from(u16::from_le_bytes([*low, *high])), rest))
        }
        [_, low, high, body @ ..] if body.len() >= halfword(*low, *high) => Err(Refusal::plain(2)),
        [] => Err(Refusal::plain(2)),
        _ => Err(Refusal::plain(1)),
    }
}

fn halfword(low: u8, high: u8) -> usize {
    usize::from(u16::from_le_bytes([low, high]))
}

/// The next field and what follows it; `None` at the end and where it is refused.
#[inline(always)]
fn field(rest: &[u8]) -> Option<(Entry, &[u8])> {
    let (&[tag, low, high], body) = rest.split_first_chunk()?;
    match (tag, halfword(low, high)) {
        (0x10, 4) => {
            let (first, after) = body.split_first_chunk()?;
            let command = Command::check(u32::from_le_bytes(*first), None).ok()?;
            Some((Entry::Camac(command), after))
        }
        (0x10, 8) => {
            let (first, after) = body.split_first_chunk()?;
            let (second, after) = after.split_first_chunk()?;
            let second = Some(u32::from_le_bytes(*second));
            let command = Command::check(u32::from_le_bytes(*first), second).ok()?;
            Some((Entry::Camac(command), after))
        }
        (0x20, 2) => {
            let (target, after) = body.split_first_chunk()?;
            Some((Entry::Jump(u16::from_le_bytes(*target)), after))
        }
        (0x21, 4) => {
            let (longword, after) = body.split_first_chunk()?;
            Some((Entry::Literal(u32::from_le_bytes(*longword)), after))
        }
        (0x2F, 0) => Some((Entry::Halt, body)),
        _ => None,
    }
}

/// Why a field is refused.
#[cold]
fn fault(rest: &[u8], full: bool) -> u8 {
    let [tag, low, high, body @ ..] = rest else {
        return 1;
    };
    let Some(body) = body.get(..halfword(*low, *high)) else {
        return 1;
    };
    if full {
        return 5;
    }
    let longword = |bytes: &[u8]| u32::from_le_bytes([bytes[0], bytes[1], bytes[2], bytes[3]]);
    match (*tag, body.len()) {
        (0x10, 4) => Command::check(longword(body), None).err().unwrap_or(0),
        (0x10, 8) => {
            let second = Some(longword(&body[4..]));
            Command::check(longword(body), second).err().unwrap_or(0)
        }
        (0x10 | 0x20 | 0x21 | 0x2F, _) => 4,
        _ => 3,
    }
}

/// Finds the place of the first jump past the last instruction.
#[cold]
fn check_jumps(list: &[u8], entries: &[Entry]) -> Result<(), Refusal> {
    let mut place = 7;
    for entry in entries {
        match entry {
            Entry::Jump(target) if usize::from(*target) >= entries.len() => {
                return Err(Refusal::at(10, place));
            }
            _ => place += 3 + halfword(list[place + 1], list[place + 2]),
        }
    }
    Ok(())
}

/// W, B and O; `None` where the walk repeats or passes the last field.
fn counts(try_limit: u64, entries: &[Entry]) -> Option<Counts> {
    let mut counts = Counts::default();
    let mut number = 0;
    for _ in entries {
        let next = number + 1;
        number = match *entries.get(number)? {
            Entry::Halt => return Some(counts),
            Entry::Jump(target) => usize::from(target),
            Entry::Literal(_) => {
                counts.b = mark_after(counts.b, LITERAL_BYTES);
                next
            }
            Entry::Camac(command) => {
                counts.w += command.most_operations(try_limit);
                let mark = match command.moves() {
                    Moves::In => &mut counts.b,
                    Moves::Out => &mut counts.o,
                    Moves::Nothing => {
                        number = next;
                        continue;
                    }
                };
                *mark = mark_after_words(*mark, command.length(), u64::from(command.words));
                next
            }
        };
    }
    None
}
