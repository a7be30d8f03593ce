//! A family of small lists: each transfer mode with each Q-mode, direction, word size and AD,
//! the list sequencer among them, with marks that need a pad and marks that don't, and with
//! fields off the walk.

#![allow(dead_code)]

use reference::cases::lists::{Draft, DraftField, BITS_16, BLOCK, ENHANCED, INLINE};

const READ: u32 = 2 << 16;
const WRITE: u32 = 16 << 16;
const CONTROL: u32 = 24 << 16;
const SEQUENCER: u32 = 12 << 16;
const STOP: u32 = 0;
const REPEAT: u32 = 2;
const SCAN: u32 = 3;

/// One list of the family, and how many clean answers bring its run to the instruction
/// that the family is about.
pub struct Small {
    pub list: Vec<u8>,
    pub before: usize,
}

/// The family: R up to 3 in repeat; scans from places near 23/15. Lists that are refused are in
/// it too.
pub fn family() -> Vec<Small> {
    let mut family = Vec::new();
    for bits in 0..16 {
        let (q_mode, flags) = (bits >> 2, bits & 3);
        let limits = if q_mode == REPEAT { 1..=3 } else { 2..=2 };
        let places: &[(u32, u32)] = match q_mode {
            SCAN => &[(22, 0), (22, 14), (23, 13), (23, 14), (23, 15)],
            _ => &[(6, 1)],
        };
        let bits = 5 << 8 | q_mode << 3 | flags;
        for limit in limits {
            let at_places = places.iter().map(|(n, a)| n << 25 | a << 21 | bits);
            for field in at_places.flat_map(standard).chain(enhanced(bits)) {
                family.extend([aligned(limit, &field), padded(limit, &field)]);
                family.push(walked(limit, &field));
            }
        }
    }
    family
}

/// A block of either kind.
fn block(first: u32, words: u32) -> DraftField {
    let size = if first & BITS_16 == 0 { 2 } else { 1 };
    DraftField::camac(first, Some((words * size).wrapping_neg()))
}

/// Enhanced blocks of up to two words, in stop three, the refused repeat write among them; with
/// Q-mode 3, the four lists of the sequencer.
fn enhanced(bits: u32) -> Vec<DraftField> {
    let q_mode = bits >> 3 & 3;
    let firsts: Vec<u32> = match q_mode {
        SCAN => (0..4).map(|a| 30 << 25 | a << 21 | SEQUENCER).collect(),
        _ => [READ, WRITE]
            .map(|function| 6 << 25 | 1 << 21 | function)
            .to_vec(),
    };
    let most = if q_mode == STOP { 3 } else { 2 };
    let blocks = |first| (1..=most).map(move |words| block(first | bits | ENHANCED, words));
    firsts.into_iter().flat_map(blocks).collect()
}

/// Singles, inline writes, and blocks of up to three words.
fn standard(first: u32) -> Vec<DraftField> {
    let single = |function| DraftField::camac(first | function, None);
    let mut fields = vec![
        single(READ),
        single(WRITE),
        single(CONTROL),
        DraftField::camac(first | INLINE | WRITE, Some(0xABCD)),
    ];
    for words in 1..=3 {
        for function in [READ, WRITE] {
            fields.push(block(first | BLOCK | function, words));
        }
    }
    fields
}

/// The instruction, a literal and a halt.
fn aligned(limit: u16, field: &DraftField) -> Small {
    let literal = DraftField::literal(0x8765_4321);
    let fields = vec![field.clone(), literal, DraftField::halt()];
    Small {
        list: Draft::new(limit, fields).bytes(),
        before: 0,
    }
}

/// Behind a 16-bit word read and one written: a wide word needs a pad.
fn padded(limit: u16, field: &DraftField) -> Small {
    let word = |function| DraftField::camac(0x0200_0102 | function, None);
    let fields = vec![word(READ), word(WRITE), field.clone(), DraftField::halt()];
    Small {
        list: Draft::new(limit, fields).bytes(),
        before: 2,
    }
}

/// Behind a jump over a field that the walk doesn't reach and a literal; a word in repeat
/// comes after.
fn walked(limit: u16, field: &DraftField) -> Small {
    let word = |bits| DraftField::camac(0x0200_0102 | bits, None);
    let fields = vec![
        DraftField::jump(2),
        word(WRITE),
        DraftField::literal(0x0102_0304),
        field.clone(),
        word(READ | REPEAT << 3),
        DraftField::halt(),
    ];
    Small {
        list: Draft::new(limit, fields).bytes(),
        before: 0,
    }
}
