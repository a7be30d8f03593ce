//! Start, step and the whole run (document 01, "One operation, one reply" and "The
//! calls").

use crate::fit::fits;
use crate::list::{Instruction, List};
use crate::packing::{self, LITERAL_BYTES};
use crate::record::{Note, Record};
use crate::refusal::Refusal;
use crate::reply::{self, Reply, Response};
use crate::scan::Position;
use crate::status;
use crate::walk::{admission, Admitted};
use crate::words::{Camac, Direction, QMode, Transfer, WordSize};

/// "the operation wanted next: crate, N, A, F and data", with "a sixth number, 1 if
/// enhanced, else 0" (E1); after the end or a refusal all six are zero.
#[derive(Clone, Copy, Debug, Default, PartialEq, Eq)]
pub struct Operation {
    pub crate_number: u64,
    pub n: u64,
    pub a: u64,
    pub f: u64,
    pub data: u64,
    pub enhanced: bool,
}

/// What start and step yield.
#[derive(Clone, Copy, Debug, PartialEq, Eq)]
pub struct Answer {
    pub refusal: Option<Refusal>,
    pub record: Record,
    pub wanted: Operation,
}

/// What the whole run yields.
#[derive(Clone, Copy, Debug, PartialEq, Eq)]
pub struct RunAnswer {
    pub refusal: Option<Refusal>,
    /// "it reports how many it took."
    pub taken: u64,
    pub record: Record,
}

/// What several steps yield together.
#[derive(Clone, Copy, Debug, PartialEq, Eq)]
pub struct StepsAnswer {
    pub refusal: Option<Refusal>,
    /// How many replies were taken.
    pub taken: u64,
    pub record: Record,
    pub wanted: Operation,
}

/// "Start takes the list and both buffers and runs to the first operation or the end."
pub fn start(list: &[u8], incoming: &mut [u8], outgoing: &[u8]) -> Answer {
    let admitted = match admission(list, incoming.len() as u64, outgoing.len() as u64) {
        Ok(admitted) => admitted,
        Err(refusal) => return refused(refusal, Record::refused()),
    };
    let record = begin(&admitted, incoming);
    Answer {
        refusal: None,
        record,
        wanted: wanted(&admitted, &record, outgoing),
    }
}

/// "Step takes list, record, buffers, one reply." The new state is the answer's record;
/// a refused step's record is the one it was given.
pub fn step(
    list: &[u8],
    record: &Record,
    incoming: &mut [u8],
    outgoing: &[u8],
    reply: &[u8],
) -> Answer {
    let lengths = (incoming.len() as u64, outgoing.len() as u64);
    let (admitted, reply) = match check_step(list, record, lengths, reply) {
        Ok(checked) => checked,
        Err(refusal) => return refused(refusal, *record),
    };
    let record = take(&admitted, record, incoming, &reply);
    Answer {
        refusal: None,
        record,
        wanted: wanted(&admitted, &record, outgoing),
    }
}

/// Steps over a row of replies from a record on: stops at the end or when replies run out,
/// as the whole run does, and like it checks its entire row before the first step.
pub fn steps(
    list: &[u8],
    record: &Record,
    incoming: &mut [u8],
    outgoing: &[u8],
    row: &[u8],
) -> StepsAnswer {
    let lengths = (incoming.len() as u64, outgoing.len() as u64);
    let checked = check_record(list, record, lengths)
        .and_then(|admitted| Ok((admitted, reply::read_row(row).ok_or(Refusal::plain(22))?)));
    let (admitted, replies) = match checked {
        Ok(checked) => checked,
        Err(refusal) => {
            return StepsAnswer {
                refusal: Some(refusal),
                taken: 0,
                record: *record,
                wanted: Operation::default(),
            }
        }
    };
    let (record, taken) = take_row(&admitted, *record, incoming, &replies);
    StepsAnswer {
        refusal: None,
        taken,
        record,
        wanted: wanted(&admitted, &record, outgoing),
    }
}

/// "A whole-run call takes a row of replies, equals start and steps, and stops at the end
/// or when replies run out".
pub fn run_row(list: &[u8], incoming: &mut [u8], outgoing: &[u8], row: &[u8]) -> RunAnswer {
    let lengths = (incoming.len() as u64, outgoing.len() as u64);
    let (admitted, replies) = match check_run(list, lengths, row) {
        Ok(checked) => checked,
        Err(refusal) => {
            return RunAnswer {
                refusal: Some(refusal),
                taken: 0,
                record: Record::refused(),
            }
        }
    };
    let record = begin(&admitted, incoming);
    let (record, taken) = take_row(&admitted, record, incoming, &replies);
    RunAnswer {
        refusal: None,
        taken,
        record,
    }
}

/// Takes replies until the run ends or they run out; how many it took.
fn take_row(
    admitted: &Admitted,
    mut record: Record,
    incoming: &mut [u8],
    replies: &[Reply],
) -> (Record, u64) {
    let mut taken = 0;
    for reply in replies {
        if record.ended {
            break;
        }
        record = take(admitted, &record, incoming, reply);
        taken += 1;
    }
    (record, taken)
}

fn refused(refusal: Refusal, record: Record) -> Answer {
    Answer {
        refusal: Some(refusal),
        record,
        wanted: Operation::default(),
    }
}

/// A record's refusals: those of admission, then "24 ended; 23 record doesn't fit".
fn check_record(
    list: &[u8],
    record: &Record,
    (incoming_len, outgoing_len): (u64, u64),
) -> Result<Admitted, Refusal> {
    let admitted = admission(list, incoming_len, outgoing_len)?;
    if record.ended {
        return Err(Refusal::plain(24));
    }
    if !fits(&admitted, record) {
        return Err(Refusal::plain(23));
    }
    Ok(admitted)
}

/// A step's refusals: those of its record, then "22 reply not formed as above".
fn check_step(
    list: &[u8],
    record: &Record,
    lengths: (u64, u64),
    reply: &[u8],
) -> Result<(Admitted, Reply), Refusal> {
    let admitted = check_record(list, record, lengths)?;
    match reply::read(reply) {
        Some(reply) => Ok((admitted, reply)),
        None => Err(Refusal::plain(22)),
    }
}

/// "The whole run checks its entire row before starting, replies past the run's end
/// included."
fn check_run(
    list: &[u8],
    (incoming_len, outgoing_len): (u64, u64),
    row: &[u8],
) -> Result<(Admitted, Vec<Reply>), Refusal> {
    let admitted = admission(list, incoming_len, outgoing_len)?;
    match reply::read_row(row) {
        Some(replies) => Ok((admitted, replies)),
        None => Err(Refusal::plain(22)),
    }
}

/// The record of a start that isn't refused.
pub fn begin(admitted: &Admitted, incoming: &mut [u8]) -> Record {
    go_on(&admitted.list, Record::default(), 0, incoming)
}

/// Runs from instruction `number` to the next operation or the end: "jumps, literals and
/// halt need no reply. Halt ends with code 0."
fn go_on(list: &List, mut record: Record, mut number: usize, incoming: &mut [u8]) -> Record {
    loop {
        record.instruction = number as u64;
        match list.instructions[number] {
            Instruction::Camac(camac) => return first_word(record, &camac),
            Instruction::Jump(target) => number = target,
            Instruction::Literal(data) => {
                let mark = record.incoming_mark;
                packing::store(incoming, mark, LITERAL_BYTES, data);
                record.incoming_mark = packing::mark_after(mark, LITERAL_BYTES);
                number += 1;
            }
            Instruction::Halt => return end(record, 0),
        }
    }
}

/// The record before an instruction's first operation.
fn first_word(record: Record, camac: &Camac) -> Record {
    Record {
        words_left: camac.words(),
        tries: 0,
        n: camac.address.station,
        a: camac.address.subaddress,
        ..record
    }
}

/// "An ended record keeps the instruction that ended it, with words left, tries, N and A
/// zero."
fn end(record: Record, code: u8) -> Record {
    Record {
        ended: true,
        words_left: 0,
        tries: 0,
        n: 0,
        a: 0,
        status: status::ended(record.status, code),
        ..record
    }
}

/// Takes one reply: "An operation counts when its reply is taken." The record fits.
pub fn take(admitted: &Admitted, record: &Record, incoming: &mut [u8], reply: &Reply) -> Record {
    let mut record = *record;
    record.operations += 1;
    // "kind 3 Dh; kind 2 Ch; kind 1 Bh"; "Kinds 1 to 3 bring their own cause only."
    let (flag, code) = match reply {
        Reply::NoSync => (status::NO_SYNC, 0xD),
        Reply::NotRecognised => (status::NOT_RECOGNISED, 0xC),
        Reply::Timeout => (status::TIMEOUT, 0xB),
        Reply::Answer(response) => {
            return take_answer(&admitted.list, record, incoming, response);
        }
    };
    record.status |= flag;
    end(record, code)
}

/// Takes one answer.
fn take_answer(
    list: &List,
    mut record: Record,
    incoming: &mut [u8],
    response: &Response,
) -> Record {
    let camac = current_camac(list, &record);
    let done = word_done(&camac, response);
    let next = next_position(&camac, &record, done);
    let causes = causes(list, &camac, &record, response, next);
    record.status |= status::flags(response) | causes.flags();
    if let Some(code) = causes.greatest() {
        // "A reply that ends the run so moves no word", but "a word done at the scan's last
        // position, with 9 as the only cause, is moved first."
        if done && causes.only_scan_left() {
            record = move_word(record, &camac, incoming, response);
        }
        return end(record, code);
    }
    if done {
        record = move_word(record, &camac, incoming, response);
        record.words_left -= 1;
        record.tries = 0;
    } else if closes(&camac, response) {
        record.words_left = 0;
    } else if camac.q_mode == QMode::Repeat {
        record.tries += 1;
    }
    if record.words_left == 0 {
        // "After word n the next instruction follows", and after an answer that closes a block.
        let number = record.instruction as usize + 1;
        return go_on(list, record, number, incoming);
    }
    if let Next::At(position) = next {
        record.n = position.station;
        record.a = position.subaddress;
    }
    record
}

/// The CAMAC instruction that a record which fits stands at.
pub(crate) fn current_camac(list: &List, record: &Record) -> Camac {
    match list.instructions[record.instruction as usize] {
        Instruction::Camac(camac) => camac,
        _ => unreachable!("a record that fits stands at a CAMAC instruction"),
    }
}

/// "Q = 0 in a stop block is the normal end" (E8): the block "finishes without moving that
/// word, read or write, and the list goes on unless another cause ends it" (E8).
fn closes(camac: &Camac, response: &Response) -> bool {
    camac.is_stop_block() && !response.q
}

/// "Otherwise a word is done in stop and ignore; in repeat if Q = 1; in scan if Q = X =
/// 1."
fn word_done(camac: &Camac, response: &Response) -> bool {
    match camac.q_mode {
        QMode::Stop | QMode::Ignore => !closes(camac, response),
        QMode::Repeat => response.q,
        QMode::Scan => response.q && response.x,
    }
}

/// Where the instruction's next operation goes.
#[derive(Clone, Copy, Debug, PartialEq, Eq)]
enum Next {
    /// No further operation, or one at the same position.
    Stays,
    At(Position),
    /// The scan leaves station 23.
    Leaves,
}

/// "A scan's leaving is judged from Q, X and the words left, other causes aside." "If n
/// words are done, nothing was left, whatever the next address."
fn next_position(camac: &Camac, record: &Record, done: bool) -> Next {
    let all_done = done && record.words_left == 1;
    if camac.q_mode != QMode::Scan || all_done {
        return Next::Stays;
    }
    let position = record.position();
    let next = if done {
        position.after_done()
    } else {
        position.next_station()
    };
    next.map_or(Next::Leaves, Next::At)
}

/// The causes that an answer brings.
struct Causes {
    tries_spent: bool,
    parity: bool,
    scan_left: bool,
    no_x: bool,
    no_q: bool,
    damaged: bool,
}

fn causes(list: &List, camac: &Camac, record: &Record, response: &Response, next: Next) -> Causes {
    let abort = !camac.abort_disable;
    let last_try = record.tries + 1 == list.try_limit;
    Causes {
        // "repeat, Q = 0 on try R of this word, Bh".
        tries_spent: camac.q_mode == QMode::Repeat && !response.q && last_try,
        // "TPE or LPE with AD = 0, Ah".
        parity: (response.tpe || response.lpe) && abort,
        // "scan leaving station 23, 9".
        scan_left: next == Next::Leaves,
        // "X = 0 with AD = 0, not in scan, 8".
        no_x: !response.x && abort && camac.q_mode != QMode::Scan,
        // "Q = 0 in stop, 7": "Singles and inline writes still end with 7" (E8).
        no_q: !response.q && camac.q_mode == QMode::Stop && !camac.is_stop_block(),
        // "ERR with X = 1 and AD = 0 ends the run with code 4, in scan as well" (E4).
        damaged: response.err && response.x && abort,
    }
}

impl Causes {
    /// "The greatest code wins."
    fn greatest(&self) -> Option<u8> {
        let codes = [
            (self.tries_spent, 0xB),
            (self.parity, 0xA),
            (self.scan_left, 9),
            (self.no_x, 8),
            (self.no_q, 7),
            (self.damaged, 4),
        ];
        codes.into_iter().find(|code| code.0).map(|code| code.1)
    }

    fn only_scan_left(&self) -> bool {
        let others = self.tries_spent || self.parity || self.no_x || self.no_q || self.damaged;
        self.scan_left && !others
    }

    /// Bits 25 and 22, the latter "even under a greater code".
    fn flags(&self) -> u32 {
        let timeout = if self.tries_spent { status::TIMEOUT } else { 0 };
        let scan_left = if self.scan_left { status::SCAN_LEFT } else { 0 };
        timeout | scan_left
    }
}

/// Moves a done word: "Read words and literals go to the incoming buffer, write words
/// come from the outgoing one"; "Inline and control move neither mark" and leave the note
/// alone.
fn move_word(
    mut record: Record,
    camac: &Camac,
    incoming: &mut [u8],
    response: &Response,
) -> Record {
    let length = camac.size.bytes();
    match (camac.transfer, camac.direction()) {
        (Transfer::Inline { .. }, _) | (_, Direction::Control) => {}
        (_, Direction::Read) => {
            let data = stored(camac.size, response);
            let offset = packing::store(incoming, record.incoming_mark, length, data);
            record.incoming_mark = offset + length;
            record.note = Note {
                buffer: 0,
                offset,
                length,
            };
        }
        (_, Direction::Write) => {
            let offset = packing::offset(record.outgoing_mark, length);
            record.outgoing_mark = offset + length;
            record.note = Note {
                buffer: 1,
                offset,
                length,
            };
        }
    }
    record
}

/// What a read stores of an answer. In a 24-bit word "bit 31 becomes Q and bit 30 X; bits
/// 29–24 stay zero" (E9); "16-bit words don't change" (E9).
fn stored(size: WordSize, response: &Response) -> u32 {
    match size {
        WordSize::Bits16 => response.data,
        WordSize::Bits24 => {
            let (q, x) = (u32::from(response.q), u32::from(response.x));
            q << 31 | x << 30 | response.data
        }
    }
}

/// The operation wanted next: its data "is the outgoing word that a write takes from its
/// mark on, or the inline word, else zero".
pub fn wanted(admitted: &Admitted, record: &Record, outgoing: &[u8]) -> Operation {
    if record.ended {
        return Operation::default();
    }
    let camac = current_camac(&admitted.list, record);
    let data = match (camac.transfer, camac.direction()) {
        (Transfer::Inline { data }, _) => data,
        (_, Direction::Write) => packing::fetch(outgoing, record.outgoing_mark, camac.size.bytes()),
        _ => 0,
    };
    Operation {
        crate_number: camac.address.crate_number,
        n: record.n,
        a: record.a,
        f: camac.address.function,
        data: u64::from(data),
        enhanced: camac.is_enhanced(),
    }
}
