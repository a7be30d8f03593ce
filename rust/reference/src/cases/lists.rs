//! Valid lists, small ones and ones at the edges of document 01's limits.

use super::rng::Rng;
use crate::scan::Position;

pub const BLOCK: u32 = 1 << 5;
pub const ENHANCED: u32 = 2 << 5;
pub const INLINE: u32 = 3 << 5;
pub const BITS_16: u32 = 1 << 1;
/// Where transfer mode and Q-mode lie.
pub const MODE: u32 = 3 << 5;
pub const Q_MODE: u32 = 3 << 3;

const REPEAT: u32 = 2;
const SCAN: u32 = 3;

/// A field to be written: tag and body; the length is the body's.
#[derive(Clone, Debug, PartialEq, Eq)]
pub struct DraftField {
    pub tag: u8,
    pub body: Vec<u8>,
}

impl DraftField {
    pub fn new(tag: u8, body: &[u8]) -> DraftField {
        let body = body.to_vec();
        DraftField { tag, body }
    }

    pub fn camac(first: u32, second: Option<u32>) -> DraftField {
        let mut field = DraftField::new(0x10, &first.to_le_bytes());
        if let Some(second) = second {
            field.body.extend(second.to_le_bytes());
        }
        field
    }

    pub fn jump(target: usize) -> DraftField {
        DraftField::new(0x20, &(target as u16).to_le_bytes())
    }

    pub fn literal(data: u32) -> DraftField {
        DraftField::new(0x21, &data.to_le_bytes())
    }

    pub fn halt() -> DraftField {
        DraftField::new(0x2F, &[])
    }

    /// The first longword of a CAMAC field.
    pub fn first(&self) -> u32 {
        u32::from_le_bytes([self.body[0], self.body[1], self.body[2], self.body[3]])
    }

    pub fn set_first(&mut self, first: u32) {
        self.body[..4].copy_from_slice(&first.to_le_bytes());
    }

    /// Bits 6 and 5 of a CAMAC field, where they lie.
    pub fn mode(&self) -> u32 {
        self.first() & MODE
    }
}

/// A list to be written.
#[derive(Clone, Debug, PartialEq, Eq)]
pub struct Draft {
    /// Body of the first field, with its tag.
    pub head: DraftField,
    pub fields: Vec<DraftField>,
}

impl Draft {
    pub fn new(try_limit: u16, fields: Vec<DraftField>) -> Draft {
        let [low, high] = try_limit.to_le_bytes();
        let head = DraftField::new(0x01, &[1, 0, low, high]);
        Draft { head, fields }
    }

    pub fn bytes(&self) -> Vec<u8> {
        let mut bytes = Vec::new();
        for field in std::iter::once(&self.head).chain(&self.fields) {
            bytes.push(field.tag);
            bytes.extend((field.body.len() as u16).to_le_bytes());
            bytes.extend(&field.body);
        }
        bytes
    }

    /// Indices of the fields of one tag.
    pub fn with_tag(&self, tag: u8) -> Vec<usize> {
        let fields = self.fields.iter().enumerate();
        fields
            .filter(|(_, field)| field.tag == tag)
            .map(|(index, _)| index)
            .collect()
    }
}

/// A small valid list: chunks of instructions, tied together by jumps or by lying one
/// after another, the last one ended by a halt, with fields that no walk reaches between.
pub fn small(rng: &mut Rng) -> Draft {
    let chunks = if rng.coin() {
        1
    } else {
        rng.within(2..=4) as usize
    };
    let mut fields = Vec::new();
    let mut starts = vec![0; chunks];
    let mut ties = Vec::new();
    for chunk in file_order(rng, chunks) {
        starts[chunk] = fields.len();
        for _ in 0..rng.within(0..=4) {
            fields.push(worker(rng));
        }
        if chunk + 1 == chunks {
            fields.push(DraftField::halt());
        } else {
            ties.push((fields.len(), chunk + 1));
            fields.push(DraftField::jump(0));
        }
        for _ in 0..unreached_fields(rng) {
            fields.push(unreached(rng));
        }
    }
    for (tie, chunk) in ties {
        fields[tie] = DraftField::jump(starts[chunk]);
    }
    aim_unreached(rng, &mut fields);
    Draft::new(try_limit(rng), fields)
}

/// The order in which the chunks lie in the file; the walk's first chunk comes first.
fn file_order(rng: &mut Rng, chunks: usize) -> Vec<usize> {
    let mut order: Vec<usize> = (0..chunks).collect();
    for place in (2..chunks).rev() {
        order.swap(place, 1 + rng.index(place));
    }
    order
}

fn unreached_fields(rng: &mut Rng) -> u64 {
    if rng.once_in(4) {
        rng.within(1..=2)
    } else {
        0
    }
}

/// A field for a place that the walk doesn't reach; its jumps are aimed later.
fn unreached(rng: &mut Rng) -> DraftField {
    match rng.below(4) {
        0 => DraftField::halt(),
        1 => DraftField::new(0x20, &UNAIMED.to_le_bytes()),
        _ => worker(rng),
    }
}

/// The target of an unreached jump that is not aimed yet.
const UNAIMED: u16 = u16::MAX;

fn aim_unreached(rng: &mut Rng, fields: &mut [DraftField]) {
    let count = fields.len();
    for field in fields.iter_mut() {
        if field.tag == 0x20 && field.body == UNAIMED.to_le_bytes() {
            *field = DraftField::jump(rng.index(count));
        }
    }
}

fn try_limit(rng: &mut Rng) -> u16 {
    match rng.below(8) {
        0 => rng.pick(&[255, 256, 65_535]),
        1 => rng.within(1..=65_535) as u16,
        _ => rng.within(1..=4) as u16,
    }
}

/// A literal or a CAMAC instruction.
fn worker(rng: &mut Rng) -> DraftField {
    if rng.once_in(6) {
        DraftField::literal(rng.number() as u32)
    } else {
        camac(rng)
    }
}

/// A CAMAC instruction of any transfer mode and Q-mode.
pub fn camac(rng: &mut Rng) -> DraftField {
    if rng.once_in(4) {
        return enhanced(rng);
    }
    let q_mode = rng.below(4) as u32;
    let scans = q_mode == SCAN;
    let position = position(rng, scans);
    let first = naf(rng, position) | q_mode << 3 | rng.below(4) as u32;
    match rng.below(3) {
        0 => DraftField::camac(first | any_function(rng), None),
        1 => {
            let words = block_words(rng, scans, position);
            block(first | BLOCK | read_or_write(rng), words)
        }
        _ => {
            let sixteen = first & BITS_16 != 0;
            let mask = if sixteen { 0xFFFF } else { 0xFF_FFFF };
            let function = 16 + rng.below(8) as u32;
            let data = rng.number() as u32 & mask;
            DraftField::camac(first | INLINE | function << 16, Some(data))
        }
    }
}

/// A block of either kind.
fn block(first: u32, words: u64) -> DraftField {
    let sixteen = first & BITS_16 != 0;
    let halfwords = if sixteen { words } else { 2 * words };
    DraftField::camac(first, Some((halfwords as u32).wrapping_neg()))
}

/// An enhanced block: stop or ignore, repeat for reads, or the list sequencer.
fn enhanced(rng: &mut Rng) -> DraftField {
    let q_mode = rng.below(4) as u32;
    let (position, function) = match q_mode {
        SCAN => (sequencer_position(rng), 12 << 16),
        REPEAT => (position(rng, false), (rng.below(8) as u32) << 16),
        _ => (position(rng, false), read_or_write(rng)),
    };
    let words = block_words(rng, false, position);
    let first = naf(rng, position) | function | q_mode << 3 | rng.below(4) as u32;
    block(first | ENHANCED, words)
}

/// N 30 and the number of one of the sequencer's four lists.
fn sequencer_position(rng: &mut Rng) -> Position {
    Position {
        station: 30,
        subaddress: rng.below(4),
    }
}

/// A function that reads or writes, in its place in the word.
fn read_or_write(rng: &mut Rng) -> u32 {
    (rng.pick(&[0, 16]) + rng.below(8) as u32) << 16
}

/// Any function, in its place in the word; most of them read.
fn any_function(rng: &mut Rng) -> u32 {
    let functions = if rng.coin() { 8 } else { 32 };
    (rng.below(functions) as u32) << 16
}

/// Crate, N and A in their places.
fn naf(rng: &mut Rng, position: Position) -> u32 {
    let any_crate = rng.within(1..=62);
    let crate_number = rng.pick(&[1, 62, any_crate]) as u32;
    let (station, subaddress) = (position.station as u32, position.subaddress as u32);
    station << 25 | subaddress << 21 | crate_number << 8
}

/// A station and subaddress; scans mostly start near the last station.
fn position(rng: &mut Rng, scans: bool) -> Position {
    let station = match rng.below(4) {
        0 if !scans => 30,
        0 | 1 => rng.within(1..=23),
        _ => rng.within(21..=23),
    };
    let any_subaddress = rng.below(16);
    let subaddress = rng.pick(&[0, 13, 14, 15, any_subaddress, any_subaddress]);
    Position {
        station,
        subaddress,
    }
}

/// The words of a block; a scan's are at most its positions.
fn block_words(rng: &mut Rng, scans: bool, position: Position) -> u64 {
    let few = rng.within(1..=4);
    if !scans {
        return if rng.once_in(20) {
            rng.within(5..=80)
        } else {
            few
        };
    }
    let positions = position.positions();
    let any = rng.within(1..=positions);
    let words = rng.pick(&[few, few, any, positions - 1, positions]);
    words.clamp(1, positions)
}

/// A list at one of document 01's limits; not all of them are valid.
pub fn edge(rng: &mut Rng) -> Draft {
    match rng.below(10) {
        0 => Draft::new(3, full_list(rng, 4_096)),
        1 => Draft::new(3, full_list(rng, 4_097)),
        2 | 3 => Draft::new(try_limit(rng), largest_block(rng)),
        4 => Draft::new(65_535, vec![repeat_single(rng), DraftField::halt()]),
        5 => Draft::new(rng.pick(&[1, 65_535]), largest_counts(rng)),
        6 => Draft::new(3, long_walk()),
        7 => Draft::new(3, whole_scan(rng)),
        8 => Draft::new(3, vec![long_sequencer(rng), DraftField::halt()]),
        _ => Draft::new(3, vec![long_field(rng), DraftField::halt()]),
    }
}

/// `count` instructions, the last one a halt or a damaged field past the limit.
fn full_list(rng: &mut Rng, count: usize) -> Vec<DraftField> {
    let mut fields = Vec::with_capacity(count);
    let walked = rng.index(200);
    while fields.len() < walked {
        fields.push(worker(rng));
    }
    let fill = rng.pick(&[0, 1, 2]);
    while fields.len() + 1 < count {
        fields.push(match fill {
            0 => DraftField::halt(),
            1 => DraftField::literal(7),
            _ => DraftField::camac(0x0200_0102, None),
        });
    }
    let last = rng.pick(&[0x2F, 0x2F, 0x2F, 0x99]);
    fields.push(DraftField::new(last, &[]));
    fields
}

/// A block of H = 65,536, or one halfword beside it.
fn largest_block(rng: &mut Rng) -> Vec<DraftField> {
    let halfwords = rng.pick(&[65_536_u32, 65_536, 65_535, 65_537]);
    let mode = rng.pick(&[BLOCK, BLOCK, ENHANCED]);
    let first = 0x0C00_0300 | mode | rng.pick(&[0, 16]) << 16;
    let modes = rng.below(3) as u32 * 8 + rng.below(4) as u32;
    let block = DraftField::camac(first | modes, Some(halfwords.wrapping_neg()));
    vec![worker(rng), block, DraftField::halt()]
}

fn repeat_single(rng: &mut Rng) -> DraftField {
    DraftField::camac(0x0C00_0310 | any_function(rng), None)
}

/// Many blocks of 65,536 words: the largest W and B.
fn largest_counts(rng: &mut Rng) -> Vec<DraftField> {
    let function = rng.pick(&[0, 16]) << 16;
    let block = DraftField::camac(0x0C00_0332 | function, Some(0xFFFF_0000));
    let mut fields = vec![block; 4_095];
    fields.push(DraftField::halt());
    fields
}

/// A walk of 4,096 instructions, most of them jumps that cross the list.
fn long_walk() -> Vec<DraftField> {
    let (count, half) = (4_096, 2_048);
    let target = |number: usize| {
        if number < half {
            count - 1 - number
        } else {
            count - number
        }
    };
    let jumps = (0..count).map(|number| DraftField::jump(target(number)));
    let mut fields: Vec<_> = jumps.collect();
    // The walk is 0, 4095, 1, 4094, 2, ... and comes to 2,048 last.
    fields[half] = DraftField::halt();
    fields
}

/// A scan over all 368 positions, or one word less or more.
fn whole_scan(rng: &mut Rng) -> Vec<DraftField> {
    let words = rng.pick(&[367_u32, 368, 369]);
    let first = 1 << 25 | 0x011A | BLOCK | rng.pick(&[0, 16]) << 16;
    let scan = DraftField::camac(first | rng.below(2) as u32, Some(words.wrapping_neg()));
    vec![scan, DraftField::halt()]
}

/// A sequencer of more words than a scan's 368 positions, up to H = 65,536.
fn long_sequencer(rng: &mut Rng) -> DraftField {
    let position = sequencer_position(rng);
    let first = naf(rng, position) | 12 << 16 | SCAN << 3 | rng.below(4) as u32;
    let words = rng.pick(&[369, 400, 1_024, 32_768]);
    block(first | ENHANCED, words)
}

/// A field with the longest body.
fn long_field(rng: &mut Rng) -> DraftField {
    let body = rng.bytes(65_535);
    DraftField {
        tag: rng.pick(&[0x10, 0x2F, 0x99]),
        body,
    }
}
