//! Admission, the whole run, the conversion of scalers and queues of demands once more, as fast
//! as plain safe Rust makes them: the base line of the benchmark.
//!
//! They yield what `walk::admit` and `run::run_row` yield, and `scalers` and `demands` what the
//! modules of these names yield. In a whole run one pass checks the row. Then each visit of the
//! walk looks at its instruction once and takes the answers that are no cause in a loop of its
//! own, eight at a time where it can; the reply that stops that loop short of the last word
//! closes a stop block or ends the run.

pub mod demands;
mod plan;
pub mod scalers;

use crate::packing::{self, LITERAL_BYTES};
use crate::record::{Note, Record};
use crate::refusal::Refusal;
use crate::run::RunAnswer;
use crate::status;
use crate::walk::Counts;
use plan::{plan, Command, Entry, Moves, REPEAT, SCAN, STOP};

type Reply = [u8; 8];

/// A reply as a number, and the bits of it that are zero in an answer.
const ANSWER_ZEROS: u64 = 0xFF00_0000_FFFF_C0FF;

/// An answer with Q = X = 1 and no other flag, its data aside.
const CLEAN: u64 = 0x0300;

/// What a reply's number has set where it differs from `CLEAN`.
const KIND: u64 = 0xFF;
const NO_Q: u64 = 1 << 8;
const NO_X: u64 = 1 << 9;
const ERR: u64 = 1 << 10;
const DERR: u64 = 1 << 11;
const TPE: u64 = 1 << 12;
const LPE: u64 = 1 << 13;

/// The bits of a 24-bit word's longword that are Q and X.
const STORED_Q: u32 = 1 << 31;
const STORED_X: u32 = 1 << 30;

/// Replies that are looked at together.
const BATCH: usize = 8;

/// The first place that a scan can't address, as station × 16 + subaddress.
const PAST_LAST: u64 = 24 * 16;

/// Admission, as `walk::admit`.
pub fn admit(list: &[u8], incoming_len: u64, outgoing_len: u64) -> Result<Counts, Refusal> {
    plan(list, incoming_len, outgoing_len).map(|plan| plan.counts)
}

/// The whole run, as `run::run_row`.
pub fn run_row(list: &[u8], incoming: &mut [u8], outgoing: &[u8], row: &[u8]) -> RunAnswer {
    let plan = match plan(list, incoming.len() as u64, outgoing.len() as u64) {
        Ok(plan) => plan,
        Err(refusal) => return refused(refusal),
    };
    let (replies, rest) = row.as_chunks();
    if !rest.is_empty() || !row_formed(replies) {
        return refused(Refusal::plain(22));
    }
    let mut run = Run {
        record: Record::default(),
        seen: 0,
        try_limit: plan.try_limit,
        incoming,
        replies,
    };
    run.walk(&plan.entries);
    let taken = (replies.len() - run.replies.len()) as u64;
    run.record.operations = taken;
    run.record.status |= flags(run.seen);
    RunAnswer {
        refusal: None,
        taken,
        record: run.record,
    }
}

fn refused(refusal: Refusal) -> RunAnswer {
    RunAnswer {
        refusal: Some(refusal),
        taken: 0,
        record: Record::refused(),
    }
}

fn number(reply: &Reply) -> u64 {
    u64::from_le_bytes(*reply)
}

/// A batch of answers passes by the bits that any of them has.
fn row_formed(replies: &[Reply]) -> bool {
    let any = |some: &[Reply]| some.iter().fold(0, |bits, reply| bits | number(reply));
    let formed = |reply: &Reply| {
        let reply = number(reply);
        reply & ANSWER_ZEROS == 0 || matches!(reply, 1..=3)
    };
    let (batches, rest) = replies.as_chunks::<BATCH>();
    batches
        .iter()
        .all(|batch| any(batch) & ANSWER_ZEROS == 0 || batch.iter().all(formed))
        && rest.iter().all(formed)
}

/// The status flags of some answers.
fn flags(seen: u64) -> u32 {
    [
        (NO_Q, status::NO_Q),
        (NO_X, status::NO_X),
        (ERR, status::ERR | status::TRANSMISSION),
        (DERR, status::DERR),
        (TPE, status::TPE | status::TRANSMISSION),
        (LPE, status::LPE | status::TRANSMISSION),
    ]
    .into_iter()
    .filter(|(bit, _)| seen & bit != 0)
    .fold(0, |flags, (_, flag)| flags | flag)
}

/// The bits of an answer, less `CLEAN`, that end the run, by the low five bits of an
/// instruction's first longword; of ERR `causes_in` says more, of Q = 0 in a block
/// `Visit::closes`.
const CAUSES: [u64; 32] = causes_table();

const fn causes_table() -> [u64; 32] {
    let mut table = [KIND; 32];
    let mut low = 0;
    while low < 32 {
        let (q_mode, abort_disable) = (low as u32 >> 3, low & 1 == 1);
        if q_mode == STOP {
            table[low] |= NO_Q;
        }
        if !abort_disable {
            table[low] |= TPE | LPE | ERR;
        }
        if !abort_disable && q_mode != SCAN {
            table[low] |= NO_X;
        }
        low += 1;
    }
    table
}

/// Those of the bits `causes` that end the run by this answer: ERR with X = 0 doesn't.
#[cold]
#[inline(never)]
fn causes_in(answer: u64, causes: u64) -> u64 {
    let found = answer & causes;
    if answer & NO_X != 0 {
        found & !ERR
    } else {
        found
    }
}

/// What the answers of one visit are judged by, and how far it has come.
#[derive(Clone, Copy)]
struct Visit {
    command: Command,
    causes: u64,
    try_limit: u64,
    tries: u64,
    /// Station × 16 + subaddress.
    place: u64,
    taken: usize,
    done: usize,
    seen: u64,
}

impl Visit {
    fn new(command: Command, try_limit: u64) -> Visit {
        Visit {
            command,
            causes: CAUSES[command.low_bits()],
            try_limit,
            tries: 0,
            place: command.place(),
            taken: 0,
            done: 0,
            seen: 0,
        }
    }

    /// Whether an answer closes the block: Q = 0 in stop and no other cause.
    fn closes(&self, answer: u64) -> bool {
        self.command.is_block() && causes_in(answer, self.causes) == NO_Q
    }

    /// Takes answers that are no cause until each place has its word or replies run out.
    /// Places without bytes are for words that nobody stores.
    #[inline]
    fn take<const BYTES: usize>(&mut self, replies: &[Reply], places: &mut [[u8; BYTES]]) {
        match self.command.q_mode() {
            SCAN => self.scan(replies, places),
            REPEAT => self.repeat(replies, places),
            _ => self.each(replies, places),
        }
    }

    /// Stop and ignore: each answer is a word.
    #[inline]
    fn each<const BYTES: usize>(&mut self, replies: &[Reply], places: &mut [[u8; BYTES]]) {
        let causes = self.causes;
        let most = replies.len().min(places.len());
        let (replies, places) = (&replies[..most], &mut places[..most]);
        let (mut done, mut seen) = if most < BATCH {
            (0, 0)
        } else {
            whole_batches(causes, replies, places)
        };
        for (reply, place) in replies[done..].iter().zip(&mut places[done..]) {
            let answer = number(reply) ^ CLEAN;
            if answer & causes != 0 {
                break;
            }
            seen |= answer;
            done += 1;
            store(longword(reply), place);
        }
        self.seen = seen;
        self.done = done;
        self.taken = done;
    }

    /// A word is done where Q = 1.
    #[inline(never)]
    fn repeat<const BYTES: usize>(&mut self, replies: &[Reply], places: &mut [[u8; BYTES]]) {
        let (causes, try_limit) = (self.causes, self.try_limit);
        let (mut done, mut seen) = whole_batches(causes | NO_Q, replies, places);
        let (mut tries, mut taken) = (0, done);
        for reply in &replies[done..] {
            let Some(place) = places.get_mut(done) else {
                break;
            };
            let answer = number(reply) ^ CLEAN;
            if answer & causes != 0 {
                break;
            }
            if answer & NO_Q == 0 {
                store(longword(reply), place);
                done += 1;
                tries = 0;
            } else if tries + 1 == try_limit {
                break;
            } else {
                tries += 1;
            }
            seen |= answer;
            taken += 1;
        }
        self.seen = seen;
        self.tries = tries;
        self.done = done;
        self.taken = taken;
    }

    /// A word is done where Q = X = 1.
    #[inline(never)]
    fn scan<const BYTES: usize>(&mut self, replies: &[Reply], places: &mut [[u8; BYTES]]) {
        let (causes, words) = (self.causes, places.len());
        let staying = words.min((PAST_LAST - self.place - 1) as usize);
        let all_done = causes | NO_Q | NO_X;
        let (mut done, mut seen) = whole_batches(all_done, replies, &mut places[..staying]);
        let (mut at, mut taken) = (self.place + done as u64, done);
        for reply in &replies[done..] {
            let Some(place) = places.get_mut(done) else {
                break;
            };
            let answer = number(reply) ^ CLEAN;
            if answer & causes != 0 && causes_in(answer, causes) != 0 {
                break;
            }
            let is_done = is_done_in_scan(answer);
            let next = place_after(at, is_done);
            if next == PAST_LAST && !(is_done && done + 1 == words) {
                break;
            }
            if is_done {
                store(done_longword(reply), place);
                done += 1;
            }
            at = next;
            seen |= answer;
            taken += 1;
        }
        self.place = at;
        self.seen = seen;
        self.done = done;
        self.taken = taken;
    }
}

/// Takes whole batches of words up to the first that has a cause; how many words, and their
/// flags.
#[inline(never)]
fn whole_batches<const BYTES: usize>(
    causes: u64,
    replies: &[Reply],
    places: &mut [[u8; BYTES]],
) -> (usize, u64) {
    let batches = replies.as_chunks::<BATCH>().0.iter();
    let (mut done, mut seen) = (0, 0);
    for (replies, places) in batches.zip(places.as_chunks_mut::<BATCH>().0) {
        let answer = |any, reply| any | number(reply) ^ CLEAN;
        let any = replies.iter().fold(0, answer);
        if any & causes != 0 {
            break;
        }
        seen |= any;
        done += BATCH;
        for (reply, place) in replies.iter().zip(places) {
            store(longword(reply), place);
        }
    }
    (done, seen)
}

/// Where a scan goes from a place.
fn place_after(place: u64, done: bool) -> u64 {
    if done {
        place + 1
    } else {
        (place | 15) + 1
    }
}

fn is_done_in_scan(answer: u64) -> bool {
    answer & (NO_Q | NO_X) == 0
}

/// Whether a scan leaves station 23 by this answer.
fn leaves(visit: &Visit, answer: u64) -> bool {
    let done = is_done_in_scan(answer);
    let last_word = visit.done + 1 == visit.command.words as usize;
    place_after(visit.place, done) == PAST_LAST && !(done && last_word)
}

/// What a 24-bit read stores of an answer. Below Q an answer's number has its kind, which is 0.
#[inline]
fn longword(reply: &Reply) -> u32 {
    let answer = number(reply);
    let low = answer as u32;
    (answer >> 32) as u32 | low << 23 | low << 21 & STORED_X
}

/// The same where Q = X = 1.
#[inline]
fn done_longword(reply: &Reply) -> u32 {
    (number(reply) >> 32) as u32 | STORED_Q | STORED_X
}

/// Stores a longword, or its low half.
#[inline]
fn store<const BYTES: usize>(longword: u32, place: &mut [u8; BYTES]) {
    place.copy_from_slice(&longword.to_le_bytes()[..BYTES]);
}

/// A run: its record, the flags that aren't yet in its status, the incoming buffer, and the
/// replies not yet taken.
struct Run<'a> {
    record: Record,
    seen: u64,
    try_limit: u64,
    incoming: &'a mut [u8],
    replies: &'a [Reply],
}

impl Run<'_> {
    fn walk(&mut self, entries: &[Entry]) {
        let mut number = 0;
        while let Some(entry) = entries.get(number) {
            self.record.instruction = number as u64;
            number += 1;
            match *entry {
                Entry::Camac(command) => {
                    if !self.one_word(command) && !self.visit(Visit::new(command, self.try_limit)) {
                        return;
                    }
                }
                Entry::Jump(target) => number = usize::from(target),
                Entry::Literal(data) => {
                    let mark = self.record.incoming_mark;
                    let offset = packing::store(self.incoming, mark, LITERAL_BYTES, data);
                    self.record.incoming_mark = offset + LITERAL_BYTES;
                }
                Entry::Halt => return self.end(0),
            }
        }
    }

    fn end(&mut self, code: u8) {
        let record = &mut self.record;
        record.ended = true;
        record.words_left = 0;
        record.tries = 0;
        record.n = 0;
        record.a = 0;
        record.status = status::ended(record.status, code);
    }

    /// Takes the one word that an instruction wants, if its first answer has Q = X = 1 and is
    /// no cause.
    #[inline]
    fn one_word(&mut self, command: Command) -> bool {
        let [reply, rest @ ..] = self.replies else {
            return false;
        };
        let answer = number(reply) ^ CLEAN;
        let causes = CAUSES[command.low_bits()] | NO_Q | NO_X;
        if command.words != 1 || answer & causes != 0 {
            return false;
        }
        self.replies = rest;
        self.seen |= answer;
        self.move_one(command, reply);
        true
    }

    /// Takes the replies of one visit; false if the run ended or replies ran out.
    fn visit(&mut self, mut visit: Visit) -> bool {
        let Command { words, .. } = visit.command;
        let length = visit.command.length();
        match visit.command.moves() {
            Moves::In if length == 2 => self.read::<2>(&mut visit),
            Moves::In => self.read::<4>(&mut visit),
            Moves::Out => {
                visit.take(self.replies, &mut vec![[]; words as usize]);
                self.wrote(visit.done, length);
            }
            Moves::Nothing => visit.take(self.replies, &mut vec![[]; words as usize]),
        }
        self.replies = &self.replies[visit.taken..];
        self.seen |= visit.seen;
        visit.done == words as usize || self.stopped(&visit)
    }

    /// Reads words: the pad of the first is written with it.
    #[inline]
    fn read<const BYTES: usize>(&mut self, visit: &mut Visit) {
        let (length, words) = (BYTES as u64, u64::from(visit.command.words));
        let mark = self.record.incoming_mark;
        let offset = packing::offset(mark, length);
        let end = offset + words * length;
        let places = &mut self.incoming[offset as usize..end as usize];
        visit.take::<BYTES>(self.replies, places.as_chunks_mut().0);
        if visit.done > 0 {
            if offset > mark {
                self.incoming[mark as usize..offset as usize].fill(0);
            }
            let mark = offset + visit.done as u64 * length;
            self.record.incoming_mark = mark;
            self.note(0, mark, length);
        }
    }

    fn wrote(&mut self, words: usize, length: u64) {
        if words > 0 {
            let offset = packing::offset(self.record.outgoing_mark, length);
            let mark = offset + words as u64 * length;
            self.record.outgoing_mark = mark;
            self.note(1, mark, length);
        }
    }

    /// Notes the word that ends at a buffer's mark.
    fn note(&mut self, buffer: u64, mark: u64, length: u64) {
        self.record.note = Note {
            buffer,
            offset: mark - length,
            length,
        };
    }

    /// A visit that has words left waits, or its next reply ends the run or closes the block;
    /// true if the block is closed.
    #[cold]
    fn stopped(&mut self, visit: &Visit) -> bool {
        let Some((reply, rest)) = self.replies.split_first() else {
            self.record.words_left = u64::from(visit.command.words) - visit.done as u64;
            self.record.tries = visit.tries;
            self.record.n = visit.place / 16;
            self.record.a = visit.place % 16;
            return false;
        };
        self.replies = rest;
        let answer = number(reply) ^ CLEAN;
        if visit.closes(answer) {
            self.seen |= answer;
            return true;
        }
        let (flag, code) = match reply[0] {
            0 => self.cause(visit, reply),
            1 => (status::TIMEOUT, 0xB),
            2 => (status::NOT_RECOGNISED, 0xC),
            _ => (status::NO_SYNC, 0xD),
        };
        self.record.status |= flag;
        self.end(code);
        false
    }

    /// The flag and the code of an answer that ends the run; a word done at the scan's last
    /// position, with no other cause, is moved.
    fn cause(&mut self, visit: &Visit, reply: &Reply) -> (u32, u8) {
        let answer = number(reply) ^ CLEAN;
        self.seen |= answer;
        let causes = causes_in(answer, visit.causes);
        let q_mode = visit.command.q_mode();
        let last_try = visit.tries + 1 == visit.try_limit;
        if q_mode == REPEAT && answer & NO_Q != 0 && last_try {
            return (status::TIMEOUT, 0xB);
        }
        let left = q_mode == SCAN && leaves(visit, answer);
        if left && causes == 0 && is_done_in_scan(answer) {
            self.move_one(visit.command, reply);
        }
        let code = match causes {
            _ if causes & (TPE | LPE) != 0 => 0xA,
            _ if left => 9,
            _ if causes & NO_X != 0 => 8,
            _ if causes & NO_Q != 0 && !visit.command.is_block() => 7,
            _ => 4,
        };
        (if left { status::SCAN_LEFT } else { 0 }, code)
    }

    /// Moves the word of an answer with Q = X = 1.
    #[inline]
    fn move_one(&mut self, command: Command, reply: &Reply) {
        match (command.moves(), command.length()) {
            (Moves::In, 2) => self.read_one::<2>(reply),
            (Moves::In, _) => self.read_one::<4>(reply),
            (Moves::Out, length) => self.wrote(1, length),
            (Moves::Nothing, _) => {}
        }
    }

    #[inline]
    fn read_one<const BYTES: usize>(&mut self, reply: &Reply) {
        let mark = self.record.incoming_mark as usize;
        let offset = packing::offset(mark as u64, BYTES as u64) as usize;
        if offset > mark {
            self.incoming[mark..offset].fill(0);
        }
        let mark = offset + BYTES;
        let bytes = done_longword(reply).to_le_bytes();
        self.incoming[offset..mark].copy_from_slice(&bytes[..BYTES]);
        self.record.incoming_mark = mark as u64;
        self.note(0, mark as u64, BYTES as u64);
    }
}

#[cfg(test)]
mod tests {
    use super::{done_longword, flags, longword, CLEAN};
    use crate::reply::{read, Reply};
    use crate::status;

    #[test]
    fn flags_are_those_of_status() {
        for byte in 0..64_u8 {
            let Some(Reply::Answer(response)) = read(&[0, byte, 0, 0, 0, 0, 0, 0]) else {
                panic!("an answer");
            };
            let seen = u64::from(byte) << 8 ^ CLEAN;
            assert_eq!(flags(seen), status::flags(&response));
        }
    }

    #[test]
    fn longwords_have_q_and_x() {
        for byte in 0..64_u8 {
            let reply = [0, byte, 0, 0, 0x56, 0x34, 0x92, 0];
            let top = [0, 0x8000_0000, 0x4000_0000, 0xC000_0000][usize::from(byte % 4)];
            assert_eq!(longword(&reply), top | 0x92_3456);
            if byte % 4 == 3 {
                assert_eq!(done_longword(&reply), longword(&reply));
            }
        }
    }
}
