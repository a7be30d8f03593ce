//! Cases for comparison: lists, buffers, rows of replies, rows of scalers and calls on queues
//! of demands, made from a seed and a number. The same seed and number give the same case.

pub mod by_hand;
pub mod calls;
pub mod coverage;
pub mod damage;
pub mod demands;
pub mod lists;
pub mod paper;
pub mod records;
pub mod rng;
pub mod rows;
pub mod scalers;
pub mod short;

use crate::walk::{admission, Admitted};
use rng::Rng;
use rows::MANNERS;

/// One case for admission and the whole run.
#[derive(Clone, Debug, PartialEq, Eq)]
pub struct Case {
    pub list: Vec<u8>,
    /// The two buffer lengths for the call of admission. Mostly those of the buffers
    /// below, and larger where the buffers would be too large to make.
    pub lengths: (u64, u64),
    pub incoming: Vec<u8>,
    pub outgoing: Vec<u8>,
    pub row: Vec<u8>,
}

/// One case in so many has a list at the edge of a limit.
const EDGES: u64 = 500;
/// Buffers of more bytes than these aren't made.
const MOST_BUFFER: u64 = 1 << 20;

/// Case `number` of a seed.
pub fn case(seed: u64, number: u64) -> Case {
    let mut rng = Rng::of_case(seed, number);
    let at_edge = rng.once_in(EDGES);
    let draft = if at_edge {
        lists::edge(&mut rng)
    } else {
        lists::small(&mut rng)
    };
    let list = if rng.once_in(4) {
        damage::damaged(&mut rng, draft)
    } else {
        draft.bytes()
    };
    match admission(&list, u64::MAX, u64::MAX) {
        Ok(admitted) => admitted_case(&mut rng, list, &admitted, at_edge),
        Err(_) => refused_case(&mut rng, list),
    }
}

/// A case whose list is refused whatever the buffers.
fn refused_case(rng: &mut Rng, list: Vec<u8>) -> Case {
    let incoming_len = rng.index(40);
    let outgoing_len = rng.index(40);
    let incoming = rng.bytes(incoming_len);
    let outgoing = rng.bytes(outgoing_len);
    let row = rng.bytes(16);
    Case {
        list,
        lengths: (incoming.len() as u64, outgoing.len() as u64),
        incoming,
        outgoing,
        row,
    }
}

fn admitted_case(rng: &mut Rng, list: Vec<u8>, admitted: &Admitted, at_edge: bool) -> Case {
    let (b, o) = (admitted.counts.b, admitted.counts.o);
    if b > MOST_BUFFER || o > MOST_BUFFER {
        let case = refused_case(rng, list);
        let lengths = (length(rng, b), length(rng, o));
        return Case { lengths, ..case };
    }
    let lengths = (length(rng, b), length(rng, o));
    let incoming = rng.bytes(lengths.0 as usize);
    let outgoing = rng.bytes(lengths.1 as usize);
    let row = row(rng, admitted, at_edge);
    Case {
        list,
        lengths,
        incoming,
        outgoing,
        row,
    }
}

/// A buffer length: exact, a little longer, or one byte short.
fn length(rng: &mut Rng, needed: u64) -> u64 {
    match rng.below(12) {
        0 => needed.saturating_sub(1),
        1..=5 => needed + rng.within(1..=9),
        _ => needed,
    }
}

/// A row for an admitted list: to the run's end or up to some length, cut short, with
/// replies past the end, or damaged.
fn row(rng: &mut Rng, admitted: &Admitted, at_edge: bool) -> Vec<u8> {
    let most = if at_edge && rng.once_in(4) {
        1 << 17
    } else {
        rng.within(20..=300) as usize
    };
    let manner = rng.pick(&MANNERS);
    let mut row = rows::row(rng, admitted, manner, most);
    if rng.once_in(8) {
        row.truncate(8 * rng.index(row.len() / 8 + 1));
    }
    if rng.once_in(4) {
        for _ in 0..rng.within(1..=3) {
            row.extend(rows::any_reply(rng));
        }
    }
    if rng.once_in(12) {
        row = rows::damaged(rng, row);
    }
    row
}
