//! Rows of replies, made along a run so that the run gets far.

use super::by_hand::{answer, DERR, ERR, LPE, Q, TPE, X};
use super::rng::Rng;
use crate::record::Record;
use crate::reply;
use crate::run::{begin, current_camac, take};
use crate::walk::Admitted;
use crate::words::{Camac, QMode};

const PARITY: u8 = TPE | LPE;
/// What ends a run at Q = X = 1, ERR alone as often as parity errors.
const MARKS: [u8; 6] = [ERR, ERR, ERR | DERR, TPE, LPE, PARITY | ERR];

/// How the crate answers.
#[derive(Clone, Copy, Debug, PartialEq, Eq)]
pub enum Manner {
    /// Q = X = 1 throughout.
    Good,
    /// Nothing that ends the run, but many words tried again.
    Slow,
    /// As many operations as can be.
    Slowest,
    /// As slow, with a reply of any kind now and then.
    Risky,
    /// As slow, with ERR or a parity error where another cause or the last word can meet it.
    Marked,
    /// As slow, with stop blocks closed at any word.
    Short,
    /// Replies of any kind.
    Wild,
    /// Q = 0 wherever it is not the end at once.
    NeverReady,
}

pub const MANNERS: [Manner; 8] = [
    Manner::Good,
    Manner::Slow,
    Manner::Slowest,
    Manner::Risky,
    Manner::Marked,
    Manner::Short,
    Manner::Wild,
    Manner::NeverReady,
];

/// A row of at most `most` well-formed replies that stops when the run ends.
pub fn row(rng: &mut Rng, admitted: &Admitted, manner: Manner, most: usize) -> Vec<u8> {
    let mut incoming = vec![0; admitted.counts.b as usize];
    let record = begin(admitted, &mut incoming);
    row_from(rng, admitted, record, manner, most)
}

/// The same from a record on, which fits or has ended.
pub fn row_from(
    rng: &mut Rng,
    admitted: &Admitted,
    mut record: Record,
    manner: Manner,
    most: usize,
) -> Vec<u8> {
    let mut incoming = vec![0; admitted.counts.b as usize];
    let mut row = Vec::new();
    while !record.ended && row.len() < 8 * most {
        let bytes = next_reply(rng, admitted, &record, manner);
        row.extend(bytes);
        let reply = reply::read(&bytes).expect("a reply that is formed as it should be");
        record = take(admitted, &record, &mut incoming, &reply);
    }
    row
}

/// The next reply of a run in one manner.
pub fn next_reply(rng: &mut Rng, admitted: &Admitted, record: &Record, manner: Manner) -> [u8; 8] {
    let camac = current_camac(&admitted.list, record);
    let try_limit = admitted.list.try_limit;
    let flags = match manner {
        Manner::Good => Q | X,
        Manner::Slow => slow(rng, &camac, record, try_limit),
        Manner::Slowest => slowest(&camac, record, try_limit),
        Manner::Risky if rng.once_in(12) => return any_reply(rng),
        Manner::Risky => slow(rng, &camac, record, try_limit),
        Manner::Marked => marked(rng, &camac, record, try_limit),
        Manner::Short => short(rng, &camac, record, try_limit),
        Manner::Wild => return any_reply(rng),
        Manner::NeverReady => match camac.q_mode {
            QMode::Stop if !camac.is_stop_block() => Q | X,
            _ => X,
        },
    };
    answer(flags, rng.number() as u32)
}

/// Any well-formed reply.
pub fn any_reply(rng: &mut Rng) -> [u8; 8] {
    if rng.once_in(6) {
        return [rng.within(1..=3) as u8, 0, 0, 0, 0, 0, 0, 0];
    }
    let mut flags = rng.below(64) as u8;
    if rng.coin() {
        flags |= Q | X;
    }
    if rng.coin() {
        flags &= !PARITY;
    }
    if rng.coin() {
        flags &= !ERR;
    }
    answer(flags, rng.number() as u32)
}

/// ERR or a parity error, and maybe Q = 0, at a scan's last position, now and then at its last
/// station, on a repeat's last try and in stop; elsewhere as slow.
fn marked(rng: &mut Rng, camac: &Camac, record: &Record, try_limit: u64) -> u8 {
    let last_place = (record.n, record.a) == (23, 15);
    let last_try = record.tries + 1 == try_limit;
    let here = match camac.q_mode {
        QMode::Stop => rng.once_in(6),
        QMode::Ignore => false,
        QMode::Repeat => last_try && rng.coin(),
        QMode::Scan => last_place || (record.n == 23 && rng.once_in(12)),
    };
    if !here {
        return slow(rng, camac, record, try_limit);
    }
    let q = if last_place || rng.coin() { Q } else { 0 };
    q | X | rng.pick(&MARKS)
}

/// Half of the answers in a stop block with Q = 0, so that it is closed; else as slow.
fn short(rng: &mut Rng, camac: &Camac, record: &Record, try_limit: u64) -> u8 {
    let flags = slow(rng, camac, record, try_limit);
    if camac.is_stop_block() && rng.coin() {
        flags & !Q
    } else {
        flags
    }
}

/// Flags that end nothing: Q = 0 where the mode bears it, X = 0 and parity errors where
/// AD bears them, ERR there and beside X = 0.
fn slow(rng: &mut Rng, camac: &Camac, record: &Record, try_limit: u64) -> u8 {
    let mut flags = Q | X;
    if rng.once_in(4) {
        flags |= DERR;
    }
    if camac.abort_disable && rng.once_in(3) {
        flags |= rng.number() as u8 & (PARITY | ERR);
    }
    let again = match camac.q_mode {
        QMode::Stop => false,
        QMode::Ignore => rng.coin(),
        QMode::Repeat => rng.coin() && record.tries + 1 < try_limit,
        QMode::Scan => rng.once_in(3) && record.n < 23,
    };
    if again {
        flags &= !Q;
    }
    let no_x_again = camac.q_mode == QMode::Scan && again;
    let no_x_borne = camac.q_mode != QMode::Scan && camac.abort_disable;
    if (no_x_again || no_x_borne) && rng.once_in(3) {
        flags &= !X;
        flags |= rng.number() as u8 & ERR;
    }
    flags
}

/// The flags that draw the run out most. A repeat gives each word its last try. A scan
/// has one operation to gain at each station but the last, by an answer that isn't done:
/// best at subaddress 15, where it costs one position, and at once when only one word is
/// left; but never where the positions of the stations after it wouldn't hold the words.
pub fn slowest(camac: &Camac, record: &Record, try_limit: u64) -> u8 {
    let again = match camac.q_mode {
        QMode::Stop | QMode::Ignore => false,
        QMode::Repeat => record.tries + 1 < try_limit,
        QMode::Scan => {
            let next = record.position().next_station();
            let room = next.map_or(0, |next| next.positions());
            let now = record.a == 15 || record.words_left == 1;
            now && record.words_left <= room
        }
    };
    if again {
        X
    } else {
        Q | X
    }
}

/// A row with one change: a reply that isn't well-formed, or a byte too few or too many.
pub fn damaged(rng: &mut Rng, mut row: Vec<u8>) -> Vec<u8> {
    if row.is_empty() || rng.once_in(3) {
        let odd = rng.within(1..=7) as usize;
        if rng.coin() && row.len() >= 8 {
            row.truncate(row.len() - odd);
        } else {
            row.extend(rng.bytes(odd));
        }
        return row;
    }
    let reply = 8 * rng.index(row.len() / 8);
    match rng.below(5) {
        0 => row[reply] = rng.within(4..=255) as u8,
        1 => row[reply + 1] |= rng.pick(&[64, 128]),
        2 => row[reply + rng.pick(&[2, 3, 7])] = rng.within(1..=255) as u8,
        3 => {
            let kind = rng.within(1..=3) as u8;
            row[reply..reply + 8].copy_from_slice(&[kind, 0, 0, 0, 0, 0, 0, 0]);
            row[reply + rng.within(1..=7) as usize] = rng.within(1..=255) as u8;
        }
        _ => row[reply + rng.index(8)] ^= 1 << rng.below(8),
    }
    row
}
