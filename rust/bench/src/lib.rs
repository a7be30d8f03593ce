//! What the benchmark runs: lists of every kind, with rows of answers that are taken whole;
//! rows of scalers; queues of demands.

use camlist::{ffi, Demands};
use reference::cases::demands;
use reference::cases::lists::{Draft, DraftField, BITS_16, BLOCK, ENHANCED, INLINE};
use reference::cases::rng::Rng;
use reference::cases::rows::{self, Manner};
use reference::cases::scalers::{self, Way, TOPS, VALUES};
use reference::walk::admission;

/// Crate 3, N 6, A 0, AD = 1, so that few answers end a run.
const PLACE: u32 = 6 << 25 | 3 << 8 | 1;
const READ: u32 = 2 << 16;
const WRITE: u32 = 16 << 16;
const CONTROL: u32 = 26 << 16;
const STOP: u32 = 0;
const IGNORE: u32 = 1 << 3;
const REPEAT: u32 = 2 << 3;
const SCAN: u32 = 3 << 3;

/// The list sequencer of crate 3 with A 0, which reads; AD = 1.
const SEQUENCER: u32 = 30 << 25 | 12 << 16 | 3 << 8 | ENHANCED | SCAN | 1;

const MOST_REPLIES: usize = 65_536;

/// Bits of an answer's byte 1.
const Q: u8 = 1;
const X: u8 = 2;
const DERR: u8 = 8;

/// The answers of a row.
#[derive(Clone, Copy, Debug, PartialEq, Eq)]
pub enum Answers {
    /// Q = X = 1 and no other flag.
    Clean,
    /// The same with DERR.
    Flagged,
    /// At random, none of them clean, none that ends the run.
    Other,
    /// Two with Q = 0 before each word.
    Waits,
    /// Every fourth with Q = 0.
    Skips,
    /// Every second with Q = 0.
    Closes,
}

impl Answers {
    pub const ALL: [Answers; 6] = [
        Answers::Clean,
        Answers::Flagged,
        Answers::Other,
        Answers::Waits,
        Answers::Skips,
        Answers::Closes,
    ];

    pub fn name(self) -> &'static str {
        match self {
            Answers::Clean => "clean",
            Answers::Flagged => "flagged",
            Answers::Other => "other",
            Answers::Waits => "waits",
            Answers::Skips => "skips",
            Answers::Closes => "closes",
        }
    }

    /// Byte 1 of the answer with this number.
    fn flags(self, number: usize) -> u8 {
        match self {
            Answers::Waits if number % 3 < 2 => X,
            Answers::Skips if number % 4 == 3 => X,
            Answers::Closes if number % 2 == 1 => X,
            Answers::Flagged => Q | X | DERR,
            _ => Q | X,
        }
    }
}

/// A list, its outgoing buffer, the length of its incoming one, and the answers that it is
/// measured with.
pub struct Workload {
    pub name: &'static str,
    pub list: Vec<u8>,
    pub outgoing: Vec<u8>,
    pub incoming_len: usize,
    pub answers: &'static [Answers],
}

/// The lists for whole runs.
pub fn workloads() -> Vec<Workload> {
    let lists = [blocks_of_one_size(), singles(), mixed(), short_blocks()];
    lists.into_iter().flatten().collect()
}

const PLAIN: &[Answers] = &[Answers::Clean, Answers::Flagged];

fn single(bits: u32) -> DraftField {
    DraftField::camac(PLACE | STOP | bits, None)
}

fn block(bits: u32, words: u32) -> DraftField {
    let size = if bits & BITS_16 == 0 { 2 } else { 1 };
    DraftField::camac(PLACE | BLOCK | bits, Some((words * size).wrapping_neg()))
}

fn blocks_of_one_size() -> Vec<Workload> {
    use Answers::*;
    let short = |bits| vec![block(bits | BITS_16, 65_536)];
    let wide = |bits| vec![block(bits, 32_768); 2];
    // From N 1, A 0: even a scan that skips to station 23 has room for its 16 words.
    let scan_first = 1 << 25 | 3 << 8 | 1 | BLOCK | SCAN | READ;
    let scan = DraftField::camac(scan_first, Some(32_u32.wrapping_neg()));
    let enhanced = |bits| {
        DraftField::camac(
            PLACE | ENHANCED | BITS_16 | bits,
            Some(65_536_u32.wrapping_neg()),
        )
    };
    let sequencer = DraftField::camac(SEQUENCER, Some(65_536_u32.wrapping_neg()));
    let drawn: &[Answers] = &[Clean, Flagged, Other];
    vec![
        workload("16-bit read, ignore", short(IGNORE | READ), drawn),
        workload("16-bit read, stop", short(STOP | READ), PLAIN),
        workload("24-bit read, ignore", wide(IGNORE | READ), drawn),
        workload("16-bit write, ignore", short(IGNORE | WRITE), drawn),
        workload("24-bit write, ignore", wide(IGNORE | WRITE), PLAIN),
        workload(
            "16-bit repeat",
            short(REPEAT | READ),
            &[Clean, Flagged, Waits],
        ),
        workload(
            "24-bit scans of 16",
            vec![scan; 2_000],
            &[Clean, Flagged, Skips],
        ),
        workload(
            "16-bit enhanced read, ignore",
            vec![enhanced(IGNORE | READ)],
            drawn,
        ),
        workload("24-bit list sequencer, reading", vec![sequencer; 2], drawn),
    ]
}

fn singles() -> Vec<Workload> {
    let singles = |bits| vec![single(BITS_16 | bits); 4_095];
    let inline = DraftField::camac(PLACE | STOP | BITS_16 | INLINE | WRITE, Some(7));
    vec![
        workload("16-bit single reads", singles(READ), PLAIN),
        workload("16-bit single writes", singles(WRITE), PLAIN),
        workload("controls", singles(CONTROL), PLAIN),
        workload("inline writes", vec![inline; 4_095], PLAIN),
    ]
}

/// Reads of 16 and 24 bits in one list. In turn, each 24-bit single or block has a pad; at
/// random, some have one.
fn mixed() -> Vec<Workload> {
    let blocks = [block(IGNORE | READ | BITS_16, 3), block(IGNORE | READ, 1)];
    let pair = [single(READ | BITS_16), single(READ)];
    vec![
        workload(
            "3 x 16, 1 x 24 in turn",
            vec![blocks; 2_047].concat(),
            PLAIN,
        ),
        workload("mixed singles in turn", vec![pair; 2_047].concat(), PLAIN),
        workload("mixed singles, random", random_singles(), PLAIN),
        workload("mixed blocks, random", random_blocks(), PLAIN),
    ]
}

/// Stop blocks that bring the first of three words: the second answer closes them.
fn short_blocks() -> Vec<Workload> {
    let three = block(STOP | READ | BITS_16, 3);
    vec![workload(
        "stop blocks of 3, closed at 2",
        vec![three; 4_095],
        &[Answers::Closes],
    )]
}

fn random_singles() -> Vec<DraftField> {
    let mut rng = Rng::new(4);
    let singles = (0..4_095).map(|_| single(READ | rng.pick(&[0, BITS_16])));
    singles.collect()
}

/// Blocks of three or four 16-bit words and of two 24-bit words, in turn.
fn random_blocks() -> Vec<DraftField> {
    let mut rng = Rng::new(5);
    let pairs = (0..2_047).flat_map(|_| {
        let words = rng.pick(&[3, 4]);
        [
            block(IGNORE | READ | BITS_16, words),
            block(IGNORE | READ, 2),
        ]
    });
    pairs.collect()
}

fn workload(
    name: &'static str,
    mut fields: Vec<DraftField>,
    answers: &'static [Answers],
) -> Workload {
    fields.push(DraftField::halt());
    let list = Draft::new(3, fields).bytes();
    let counts = reference::admit(&list, u64::MAX, u64::MAX).expect("admitted");
    Workload {
        name,
        list,
        outgoing: Rng::new(1).bytes(counts.o as usize),
        incoming_len: counts.b as usize,
        answers,
    }
}

impl Workload {
    /// A row of these answers, as many as the list takes.
    pub fn row(&self, answers: Answers) -> Vec<u8> {
        let mut rng = Rng::new(2);
        let mut row = if answers == Answers::Other {
            self.drawn_row(&mut rng)
        } else {
            let reply = |number| {
                let [low, middle, high, ..] = rng.number().to_le_bytes();
                [0, answers.flags(number), 0, 0, low, middle, high, 0]
            };
            (0..MOST_REPLIES).flat_map(reply).collect()
        };
        let mut incoming = vec![0; self.incoming_len];
        let run = reference::run_row(&self.list, &mut incoming, &self.outgoing, &row);
        row.truncate(8 * run.taken as usize);
        row
    }

    fn drawn_row(&self, rng: &mut Rng) -> Vec<u8> {
        let admitted = admission(&self.list, u64::MAX, u64::MAX).expect("admitted");
        let mut row = rows::row(rng, &admitted, Manner::Slow, MOST_REPLIES);
        for reply in row.chunks_mut(8).filter(|reply| reply[1] == Q | X) {
            reply[1] |= DERR;
        }
        row
    }
}

/// The lists for admission.
pub fn admissions() -> Vec<(&'static str, Vec<u8>)> {
    let list = |mut fields: Vec<DraftField>| {
        fields.push(DraftField::halt());
        Draft::new(3, fields).bytes()
    };
    let one_block = block(STOP | READ | BITS_16, 65_536);
    vec![
        (
            "4,095 singles, halt",
            list(vec![single(READ | BITS_16); 4_095]),
        ),
        ("4,095 mixed, halt", list(random_singles())),
        (
            "4,095 literals, halt",
            list(vec![DraftField::literal(7); 4_095]),
        ),
        ("4,095 jumps, halt", Draft::new(3, shuffled_jumps()).bytes()),
        ("one block, halt", list(vec![one_block])),
    ]
}

/// Jumps that visit each other in a shuffled order, and a halt that comes last.
fn shuffled_jumps() -> Vec<DraftField> {
    let mut order: Vec<usize> = (0..4_096).collect();
    let mut rng = Rng::new(3);
    for place in (2..order.len()).rev() {
        order.swap(place, 1 + rng.index(place));
    }
    let mut fields = vec![DraftField::halt(); order.len()];
    for pair in order.windows(2) {
        fields[pair[0]] = DraftField::jump(pair[1]);
    }
    fields
}

/// The longwords of a row of scalers.
pub const SCALERS: usize = 65_536;

/// A row of scalers that passes this way: any values, any of bits 31 and 30.
pub fn scalers(way: Way) -> Vec<u8> {
    let mut rng = Rng::new(6);
    let scaler = |_| {
        let value = rng.below(u64::from(VALUES)) as u32;
        rng.pick(&TOPS) | way.with_value(value)
    };
    let longwords: Vec<u32> = (0..SCALERS).map(scaler).collect();
    scalers::bytes(&longwords)
}

/// The demands of a row.
pub const DEMANDS: usize = 1_000;

/// A row of demands that is accepted.
pub fn demands() -> Vec<u8> {
    demands::row(&mut Rng::new(7), DEMANDS)
}

/// A queue in which none waits, or 2,048 do.
pub fn queue(full: bool) -> Vec<u8> {
    let mut queue = demands::empty();
    if full {
        ffi::demand_row(&mut queue, &[1, 1].repeat(Demands::MOST));
    }
    queue
}

/// The numbers of instructions of the lists that steps are measured on.
pub const STEP_LISTS: [usize; 3] = [10, 100, 1_000];

/// A run half-way through a list of 16-bit single reads and a halt.
pub struct Halfway {
    pub list: Vec<u8>,
    pub incoming: Vec<u8>,
    pub record: [u64; ffi::RECORD_NUMBERS],
}

impl Halfway {
    pub fn of(instructions: usize) -> Halfway {
        let mut fields = vec![single(READ | BITS_16); instructions - 1];
        fields.push(DraftField::halt());
        let list = Draft::new(3, fields).bytes();
        let mut incoming = vec![0; 2 * (instructions - 1)];
        let mut record = [0; ffi::RECORD_NUMBERS];
        ffi::start(&list, &mut incoming, &[], &mut record);
        for _ in 0..instructions / 2 {
            let [refused, ..] = ffi::step(&list, &mut record, &mut incoming, &[], &CLEAN_REPLY);
            assert_eq!(refused, 0);
        }
        Halfway {
            list,
            incoming,
            record,
        }
    }
}

/// An answer with Q = X = 1.
pub const CLEAN_REPLY: [u8; 8] = [0, Q | X, 0, 0, 0x34, 0x12, 0, 0];
