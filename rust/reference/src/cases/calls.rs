//! Cases for start, step and steps as a host calls them: lists whole and spoilt, records as
//! numbers, replies and rows of any length.

use super::records::fitting;
use super::rng::Rng;
use super::rows::{self, Manner, MANNERS};
use super::{damage, length, lists, MOST_BUFFER};
use crate::fit::fits;
use crate::record::Record;
use crate::reply;
use crate::run::{begin, take};
use crate::walk::{admission, Admitted};

/// How a case came to its record.
#[derive(Clone, Copy, Debug, PartialEq, Eq, PartialOrd, Ord)]
pub enum Origin {
    /// By a run of the list.
    Reached,
    /// Made to fit, whether or not a run can reach it.
    Made,
    /// One of these, changed.
    Changed,
    /// Any numbers.
    Any,
}

/// One case for start, step and steps.
#[derive(Clone, Debug, PartialEq, Eq)]
pub struct CallCase {
    pub list: Vec<u8>,
    pub record: [u64; 13],
    pub origin: Origin,
    pub incoming: Vec<u8>,
    pub outgoing: Vec<u8>,
    /// For step.
    pub reply: Vec<u8>,
    /// For steps.
    pub row: Vec<u8>,
}

/// One case in so many has a list at the edge of a limit.
const EDGES: u64 = 300;

/// The numbers that have less than 64 bits, with how many they have.
pub const NARROW: [(usize, u32); 4] = [(4, 8), (5, 8), (9, 32), (10, 8)];

/// Call case `number` of a seed.
pub fn call_case(seed: u64, number: u64) -> CallCase {
    let mut rng = Rng::of_case(seed, number);
    let draft = if rng.once_in(EDGES) {
        lists::edge(&mut rng)
    } else {
        lists::small(&mut rng)
    };
    let list = draft.bytes();
    let admitted = match admission(&list, u64::MAX, u64::MAX) {
        Ok(admitted) if admitted.counts.b.max(admitted.counts.o) <= MOST_BUFFER => admitted,
        _ => return refused_case(&mut rng, list),
    };
    let (record, origin) = record(&mut rng, &admitted);
    let reply = reply_for(&mut rng, &admitted, &record);
    let row = row_for(&mut rng, &admitted, &record);
    let incoming_len = length(&mut rng, admitted.counts.b) as usize;
    let outgoing_len = length(&mut rng, admitted.counts.o) as usize;
    let spoilt = rng.once_in(8);
    CallCase {
        list: if spoilt {
            damage::damaged(&mut rng, draft)
        } else {
            list
        },
        record,
        origin,
        incoming: rng.bytes(incoming_len),
        outgoing: rng.bytes(outgoing_len),
        reply,
        row,
    }
}

/// A list that is refused, or whose buffers would be too large to make.
fn refused_case(rng: &mut Rng, list: Vec<u8>) -> CallCase {
    CallCase {
        list,
        record: any_numbers(rng),
        origin: Origin::Any,
        incoming: rng.bytes(40),
        outgoing: rng.bytes(40),
        reply: rng.bytes(8),
        row: rng.bytes(16),
    }
}

fn record(rng: &mut Rng, admitted: &Admitted) -> ([u64; 13], Origin) {
    let (record, origin) = if rng.coin() {
        (reached(rng, admitted), Origin::Reached)
    } else {
        let made = fitting(rng, admitted);
        (made.unwrap_or(Record::refused()), Origin::Made)
    };
    let numbers = record.numbers();
    match rng.below(16) {
        0..=3 => (changed(rng, numbers), Origin::Changed),
        4 => {
            let twice = changed(rng, numbers);
            (changed(rng, twice), Origin::Changed)
        }
        5 => (any_numbers(rng), Origin::Any),
        _ => (numbers, origin),
    }
}

/// The record of a run that broke off somewhere, or ended.
fn reached(rng: &mut Rng, admitted: &Admitted) -> Record {
    let manner = rng.pick(&MANNERS);
    let most = rng.within(1..=60) as usize;
    let row = rows::row(rng, admitted, manner, most);
    let replies = row.len() / 8;
    let taken = if rng.once_in(6) {
        replies
    } else {
        rng.index(replies + 1)
    };
    let mut incoming = vec![0; admitted.counts.b as usize];
    let mut record = begin(admitted, &mut incoming);
    for reply in row.chunks(8).take(taken) {
        let reply = reply::read(reply).expect("well formed");
        record = take(admitted, &record, &mut incoming, &reply);
    }
    record
}

/// One number changed, a little or altogether; some changes make it too wide.
fn changed(rng: &mut Rng, mut numbers: [u64; 13]) -> [u64; 13] {
    let at = rng.index(13);
    let number = &mut numbers[at];
    *number = match rng.below(8) {
        0..=3 => number.wrapping_add(rng.pick(&[1, 2, 16, u64::MAX, u64::MAX - 1])),
        4 => rng.below(32),
        5 => *number ^ 1 << rng.below(64),
        6 => u64::MAX - rng.below(3),
        _ => {
            let (at, bits) = rng.pick(&NARROW);
            numbers[at] = numbers[at].wrapping_add(rng.within(1..=3) << bits);
            return numbers;
        }
    };
    numbers
}

fn any_numbers(rng: &mut Rng) -> [u64; 13] {
    let mut numbers = [0; 13];
    for number in numbers.iter_mut().skip(usize::from(rng.coin())) {
        *number = rng.number() >> rng.below(64);
    }
    numbers
}

/// The record that the numbers are, if it fits.
fn fitting_record(admitted: &Admitted, numbers: &[u64; 13]) -> Option<Record> {
    Record::from_numbers(numbers).filter(|record| fits(admitted, record))
}

/// A reply that the record is likely to meet, spoilt now and then, or of another length.
fn reply_for(rng: &mut Rng, admitted: &Admitted, numbers: &[u64; 13]) -> Vec<u8> {
    let reply = match fitting_record(admitted, numbers) {
        Some(record) if rng.coin() => {
            let manner = rng.pick(&[Manner::Marked, Manner::Short]);
            rows::next_reply(rng, admitted, &record, manner)
        }
        _ => rows::any_reply(rng),
    };
    match rng.below(20) {
        0 => rows::damaged(rng, reply.to_vec()),
        1 => reply[..rng.index(8)].to_vec(),
        2 => {
            let more = rng.within(1..=16) as usize;
            [reply.to_vec(), rng.bytes(more)].concat()
        }
        3 => reply.repeat(2),
        _ => reply.to_vec(),
    }
}

/// A row along the run from the record on: cut short, with replies past its end, damaged.
fn row_for(rng: &mut Rng, admitted: &Admitted, numbers: &[u64; 13]) -> Vec<u8> {
    let most = rng.within(0..=40) as usize;
    let mut row = match fitting_record(admitted, numbers) {
        Some(record) => {
            let manner = rng.pick(&MANNERS);
            rows::row_from(rng, admitted, record, manner, most)
        }
        None => (0..most % 4).flat_map(|_| rows::any_reply(rng)).collect(),
    };
    if rng.once_in(4) {
        for _ in 0..rng.within(1..=3) {
            row.extend(rows::any_reply(rng));
        }
    }
    if rng.once_in(12) {
        row = rows::damaged(rng, row);
    }
    row
}
