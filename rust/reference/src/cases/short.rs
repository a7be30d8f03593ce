//! Runs with stop blocks that Q = 0 closes (document 02's E8), each beside the same run without
//! short blocks: every block of it asks for the words that it brought.

use super::by_hand::{answer, ok, DERR, ERR, LPE, Q, TPE, X};
use super::lists::{self, Draft, DraftField, BITS_16, BLOCK, ENHANCED};
use super::rng::Rng;
use super::rows::{self, Manner, MANNERS};
use crate::reply::{self, Reply};
use crate::run::{begin, current_camac, take};
use crate::status;
use crate::walk::{admission, Admitted};

const READ: u32 = 2 << 16;
const WRITE: u32 = 16 << 16;

/// Crate 5, N 6, A 1.
const PLACE: u32 = 6 << 25 | 1 << 21 | 5 << 8;

/// Every word of these blocks is closed at; the longer ones by one answer only.
const MOST_WORDS: u32 = 4;
const LONG_WORDS: u32 = 20;

/// Byte 1 of answers that close a block with AD = 0, and with AD = 1.
const CLOSING: [&[u8]; 2] = [
    &[X, X | DERR],
    &[X, 0, ERR, X | ERR, X | TPE, X | LPE, TPE | LPE | ERR | DERR],
];

/// A block that an answer closes.
#[derive(Clone, Copy, Debug, PartialEq, Eq)]
pub struct Closing {
    pub instruction: usize,
    /// The words that it brought.
    pub moved: u64,
    /// The answer's number in the row.
    pub answer: usize,
}

/// A list, and a row that closes some of its blocks.
#[derive(Clone, Debug)]
pub struct ShortRun {
    pub draft: Draft,
    pub row: Vec<u8>,
    pub closings: Vec<Closing>,
}

impl ShortRun {
    /// The list and the row without short blocks. A block that brought no word is a jump to the
    /// next instruction.
    pub fn cut(&self) -> (Vec<u8>, Vec<u8>) {
        let (mut draft, mut row) = (self.draft.clone(), self.row.clone());
        for closing in self.closings.iter().rev() {
            let field = &mut draft.fields[closing.instruction];
            *field = match closing.moved {
                0 => DraftField::jump(closing.instruction + 1),
                moved => block(field.first(), moved as u32),
            };
            row.drain(8 * closing.answer..8 * closing.answer + 8);
        }
        (draft.bytes(), row)
    }

    /// What the run answers, by what the run without short blocks answers: an operation more for
    /// each closing, and its flags.
    pub fn joined(&self, mut cut: [u64; 16]) -> [u64; 16] {
        let (taken, operations, status) = (2, 3 + 8, 3 + 9);
        for closing in &self.closings {
            let answer = &self.row[8 * closing.answer..][..8];
            let Some(Reply::Answer(response)) = reply::read(answer) else {
                panic!("an answer");
            };
            cut[taken] += 1;
            cut[operations] += 1;
            cut[status] |= u64::from(status::flags(&response));
        }
        cut
    }
}

/// A block of either kind.
fn block(first: u32, words: u32) -> DraftField {
    let size = if first & BITS_16 == 0 { 2 } else { 1 };
    DraftField::camac(first, Some((words * size).wrapping_neg()))
}

fn single(bits: u32) -> DraftField {
    DraftField::camac(PLACE | bits, None)
}

/// One stop block, closed: standard and enhanced, of 16 and 24 bits, read and written, with
/// either AD, at every word, behind no word and behind one in each buffer, and before
/// everything that can follow.
pub fn family() -> Vec<ShortRun> {
    let mut family = Vec::new();
    for bits in 0..32 {
        let mode = if bits & 8 == 0 { BLOCK } else { ENHANCED };
        let function = if bits & 4 == 0 { READ } else { WRITE };
        let first = PLACE | mode | function | bits & 3;
        let before = if bits & 16 == 0 {
            vec![]
        } else {
            vec![single(READ | BITS_16), single(WRITE | BITS_16)]
        };
        let flags = CLOSING[bits as usize & 1];
        for (words, flags) in lengths(flags) {
            for after in followers(before.len() + 1) {
                let closed = (0..words).flat_map(|moved| flags.iter().map(move |&f| (moved, f)));
                family.extend(closed.map(|(moved, flags)| {
                    let fields = [&before[..], &[block(first, words)], &after].concat();
                    short_run(fields, before.len(), moved as usize, flags)
                }));
            }
        }
    }
    family
}

/// Numbers of words, each with the answers to close with.
fn lengths(flags: &[u8]) -> Vec<(u32, &[u8])> {
    let few = (1..=MOST_WORDS).map(|words| (words, flags));
    few.chain([(LONG_WORDS, &flags[..1])]).collect()
}

/// What follows a block, from instruction `number` on: words of both sizes read and written, a
/// literal, a jump over a halt, a halt.
fn followers(number: usize) -> [Vec<DraftField>; 7] {
    let word = |bits| vec![single(bits)];
    [
        word(READ | BITS_16),
        word(READ),
        word(WRITE | BITS_16),
        word(WRITE),
        vec![DraftField::literal(0x8765_4321)],
        vec![DraftField::jump(number + 2), DraftField::halt()],
        vec![DraftField::halt()],
    ]
}

/// A list of these fields, a 24-bit word read and a 16-bit word written; its block at
/// `instruction` is closed behind so many words. Each instruction before it has one word.
fn short_run(mut fields: Vec<DraftField>, instruction: usize, moved: usize, flags: u8) -> ShortRun {
    fields.extend([single(READ), single(WRITE | BITS_16), DraftField::halt()]);
    let word = |number: usize| ok(0x03_0507 * (number as u32 + 1));
    let number = instruction + moved;
    let closing = answer(flags, 0xA5_A5A5);
    let words = (0..number).map(word);
    let row: Vec<_> = words.chain([closing]).chain((0..4).map(word)).collect();
    ShortRun {
        draft: Draft::new(2, fields),
        row: row.concat(),
        closings: vec![Closing {
            instruction,
            moved: moved as u64,
            answer: number,
        }],
    }
}

/// A run through a small list, with the blocks that its row closes.
pub fn random(seed: u64, number: u64) -> ShortRun {
    let mut rng = Rng::of_case(seed, number);
    let draft = lists::small(&mut rng);
    let admitted = admission(&draft.bytes(), u64::MAX, u64::MAX).expect("small lists are valid");
    let any = rng.pick(&MANNERS);
    let manner = rng.pick(&[Manner::Short, any]);
    let row = rows::row(&mut rng, &admitted, manner, 100);
    let closings = closings(&admitted, &row);
    ShortRun {
        draft,
        row,
        closings,
    }
}

/// The blocks that a row closes.
fn closings(admitted: &Admitted, row: &[u8]) -> Vec<Closing> {
    let mut incoming = vec![0; admitted.counts.b as usize];
    let mut record = begin(admitted, &mut incoming);
    let mut closings = Vec::new();
    for (number, bytes) in row.chunks(8).enumerate() {
        let before = record;
        let reply = reply::read(bytes).expect("well formed");
        let camac = current_camac(&admitted.list, &before);
        record = take(admitted, &before, &mut incoming, &reply);
        let on = !record.ended || status::code(record.status) == 0;
        if camac.is_stop_block() && on && bytes[1] & Q == 0 {
            closings.push(Closing {
                instruction: before.instruction as usize,
                moved: camac.words() - before.words_left,
                answer: number,
            });
        }
    }
    closings
}
