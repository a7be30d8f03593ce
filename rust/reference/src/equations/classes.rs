//! What equations meet, counted from the calls and the separate build's answers, and what
//! they must meet all together.

use std::collections::BTreeMap;

use super::bounds::{self, bounds_at, bounds_beyond, Bound};
use super::instructions::{kinds, Kind};
use super::{ran, started, stepped, Call};
use crate::cases::calls::{CallCase, Origin};
use crate::cases::coverage::{Coverage, Mode};
use crate::cases::Case;
use crate::list::Instruction;
use crate::record::{last_moved, Note, Record};
use crate::refusal::Refusal;
use crate::reply::{self, Reply};
use crate::run::current_camac;
use crate::status;
use crate::walk::{admission, admit, Admitted};
use crate::words::{Camac, Direction, QMode, Transfer, WordSize};

/// Who answers.
#[derive(Clone, Copy, Debug, PartialEq, Eq, PartialOrd, Ord)]
pub enum Entry {
    Admission,
    Fields,
    Start,
    Step,
    Run,
}

/// Why a reply isn't formed as it should be: its length, a kind above 3, bit 6 or 7 of byte 1,
/// a byte of an answer that must be zero, a byte of another kind.
#[derive(Clone, Copy, Debug, PartialEq, Eq, PartialOrd, Ord)]
pub enum Malformed {
    Part(usize),
    Longer,
    Kind,
    Bit(u32),
    AnswerByte(usize),
    KindByte(u8, usize),
}

/// What left the note as it was, a note of a word.
#[derive(Clone, Copy, Debug, PartialEq, Eq, PartialOrd, Ord)]
pub enum Kept {
    Control,
    Inline,
    Closed,
    Again,
    Cause,
}

/// Where a record stands that isn't at a CAMAC instruction on the walk.
#[derive(Clone, Copy, Debug, PartialEq, Eq, PartialOrd, Ord)]
pub enum Elsewhere {
    Unreached,
    Jump,
    Literal,
    Halt,
    PastLast,
}

/// Something that equations must meet.
#[derive(Clone, Debug, PartialEq, Eq, PartialOrd, Ord)]
pub enum Class {
    /// Refused with this number; the same at a field behind the first instruction.
    Refused(Entry, u8),
    RefusedBehind(u8),
    /// The run ended with this code.
    Ended(Entry, u8),
    /// An answer to an instruction of this kind, by AD, Q and X.
    Answer(String, bool, bool, bool),
    /// A reply of kind 1, 2 or 3 by transfer mode, Q-mode and AD.
    Kind(u8, Mode, u32, bool),
    /// ERR, TPE or LPE with Q = X = 1 by the same.
    Err(Mode, u32, bool),
    Tpe(Mode, u32, bool),
    Lpe(Mode, u32, bool),
    /// A status bit after a step, set and clear; one of the record that the step was given.
    Status(u32, bool),
    StatusBefore(u32, bool),
    /// A record that fits at this bound; one that doesn't, just beyond it.
    At(Bound),
    Beyond(Bound),
    /// A record that doesn't fit by where it stands.
    StandsAt(Elsewhere),
    /// A note of a word moved, by its buffer and length, with a pad before it or without.
    Moved(u64, u64, bool),
    Kept(Kept),
    /// A reply, or one of a row, that isn't formed as it should be.
    Malformed(Entry, Malformed),
    /// One past the run's end.
    MalformedPastEnd,
    /// A row of no reply; of fewer than the run takes, of as many, of more.
    RowOfNone,
    RowOfFewer,
    RowOfAll,
    RowOfMore,
    /// A word shown, by its buffer and length; one that ends with its buffer.
    Shown(u64, u64),
    ShownAtEnd(u64),
    /// Nothing shown: a word one byte past the buffer's end, zeros, another buffer, no length.
    PastEnd(u64),
    NoWord,
    NoBuffer,
    NoLength,
}

/// Counters of classes, and of the events that random cases are counted by.
#[derive(Clone)]
pub struct Met {
    counts: BTreeMap<Class, u64>,
    coverage: Coverage,
}

const CODES: [u8; 9] = [0, 4, 7, 8, 9, 0xA, 0xB, 0xC, 0xD];

fn expected() -> Vec<Class> {
    let mut classes = of_refusals();
    classes.extend(CODES.map(|code| Class::Ended(Entry::Run, code)));
    classes.extend(CODES.map(|code| Class::Ended(Entry::Step, code)));
    classes.push(Class::Ended(Entry::Start, 0));
    classes.extend(of_answers());
    let set = |bit| [Class::Status(bit, false), Class::Status(bit, true)];
    let bits = (16..=26).chain(28..=31).chain([7]);
    classes.extend(bits.flat_map(set));
    let before = |bit| [false, true].map(|set| Class::StatusBefore(bit, set));
    let waiting = (0..32).filter(|bit| status::FLAGS >> bit & 1 == 1);
    classes.extend(waiting.flat_map(before));
    classes.extend(bounds::expected().into_iter().map(Class::At));
    classes.extend(bounds::expected().into_iter().map(Class::Beyond));
    let elsewhere = [
        Elsewhere::Unreached,
        Elsewhere::Jump,
        Elsewhere::Literal,
        Elsewhere::Halt,
        Elsewhere::PastLast,
    ];
    classes.extend(elsewhere.map(Class::StandsAt));
    classes.extend(of_notes());
    classes.extend(of_rows());
    classes
}

fn of_refusals() -> Vec<Class> {
    let lists = || (1..=4).chain(6..=11).chain([20, 21]);
    let of = |entry| lists().map(move |number| Class::Refused(entry, number));
    let entries = [Entry::Admission, Entry::Start, Entry::Step, Entry::Run];
    let mut classes: Vec<Class> = entries.into_iter().flat_map(of).collect();
    classes.push(Class::Refused(Entry::Fields, 5));
    classes.push(Class::Refused(Entry::Run, 22));
    classes.extend([22, 23, 24].map(|number| Class::Refused(Entry::Step, number)));
    classes.extend([1, 3, 4, 6, 7, 8, 9, 10].map(Class::RefusedBehind));
    classes
}

fn of_answers() -> Vec<Class> {
    let both = [false, true];
    let mut classes = Vec::new();
    for kind in kinds() {
        for (ad, q, x) in (0..8).map(|n| (n & 4 != 0, n & 2 != 0, n & 1 != 0)) {
            classes.push(Class::Answer(kind.name(), ad, q, x));
        }
        for ad in both {
            let (mode, q_mode) = (kind.mode, kind.q_mode);
            classes.extend((1..4).map(|number| Class::Kind(number, mode, q_mode, ad)));
            classes.push(Class::Err(mode, q_mode, ad));
            classes.push(Class::Tpe(mode, q_mode, ad));
            classes.push(Class::Lpe(mode, q_mode, ad));
        }
    }
    classes
}

fn of_notes() -> Vec<Class> {
    let kept = [
        Kept::Control,
        Kept::Inline,
        Kept::Closed,
        Kept::Again,
        Kept::Cause,
    ];
    let mut classes: Vec<Class> = kept.map(Class::Kept).to_vec();
    for buffer in 0..2 {
        classes.extend([2, 4].map(|length| Class::Moved(buffer, length, false)));
        classes.push(Class::Moved(buffer, 4, true));
        classes.extend([2, 4].map(|length| Class::Shown(buffer, length)));
        classes.push(Class::ShownAtEnd(buffer));
        classes.push(Class::PastEnd(buffer));
    }
    classes.extend([Class::NoWord, Class::NoBuffer, Class::NoLength]);
    classes
}

fn of_rows() -> Vec<Class> {
    let mut faults: Vec<Malformed> = (1..8).map(Malformed::Part).collect();
    faults.extend([Malformed::Kind, Malformed::Bit(6)]);
    let mut classes: Vec<Class> = faults
        .iter()
        .flat_map(|&fault| [Entry::Step, Entry::Run].map(|e| Class::Malformed(e, fault)))
        .collect();
    let bytes = (1..4).flat_map(|kind| (1..8).map(move |at| Malformed::KindByte(kind, at)));
    let of_steps = [2, 3, 7]
        .map(Malformed::AnswerByte)
        .into_iter()
        .chain(bytes);
    let of_steps = of_steps.chain([Malformed::Bit(7), Malformed::Longer]);
    classes.extend(of_steps.map(|fault| Class::Malformed(Entry::Step, fault)));
    classes.extend([
        Class::MalformedPastEnd,
        Class::RowOfNone,
        Class::RowOfFewer,
        Class::RowOfAll,
        Class::RowOfMore,
    ]);
    classes
}

impl Met {
    /// Counters of all that equations must meet.
    pub fn expecting() -> Met {
        Met {
            counts: expected().into_iter().map(|class| (class, 0)).collect(),
            coverage: Coverage::of_equations(),
        }
    }

    fn met(&mut self, class: Class) {
        *self.counts.entry(class).or_insert(0) += 1;
    }

    fn met_if(&mut self, condition: bool, class: Class) {
        if condition {
            self.met(class);
        }
    }

    /// What was to be met and was not.
    pub fn missing(&self) -> Vec<String> {
        let unmet = self.counts.iter().filter(|(_, count)| **count == 0);
        let classes = unmet.map(|(class, _)| format!("{class:?}"));
        let events = self.coverage.missing().into_iter();
        classes.chain(events.map(|e| format!("{e:?}"))).collect()
    }

    /// Every class and event with its count, one on a line.
    pub fn table(&self) -> String {
        let line = |(class, count): (&Class, &u64)| format!("{count:>10} {class:?}\n");
        let classes: String = self.counts.iter().map(line).collect();
        classes + &self.coverage.table()
    }

    /// Whether nothing is missing.
    pub fn is_complete(&self) -> bool {
        self.missing().is_empty()
    }

    /// Counts a call, and says whether it meets something not met before.
    pub fn observe_if_new(&mut self, call: &Call) -> bool {
        let before = self.missing().len();
        self.observe(call);
        self.missing().len() < before
    }

    /// Counts what a call meets.
    pub fn observe(&mut self, call: &Call) {
        match call {
            Call::Admission {
                list,
                incoming_len,
                outgoing_len,
            } => self.observe_admission(list, (*incoming_len, *outgoing_len)),
            Call::Fields { before, fields } => self.observe_fields(*before, fields),
            Call::Start {
                list,
                incoming,
                outgoing,
            } => self.observe_start(list, (incoming, outgoing)),
            Call::Step {
                list,
                record,
                incoming,
                outgoing,
                reply,
            } => self.observe_step(list, record, (incoming, outgoing), reply),
            Call::Run {
                list,
                incoming,
                outgoing,
                row,
            } => self.observe_run(list, (incoming, outgoing), row),
            Call::LastWord {
                note,
                incoming,
                outgoing,
            } => self.observe_last_word(note, incoming, outgoing),
        }
    }

    fn observe_refusal(&mut self, entry: Entry, refusal: Option<Refusal>) {
        if let Some(Refusal { number, place }) = refusal {
            self.met(Class::Refused(entry, number));
            self.met_if(place > 7, Class::RefusedBehind(number));
        }
    }

    fn observe_fields(&mut self, before: usize, fields: &[u8]) {
        let (list, place) = super::admissions::behind_halts(before, fields);
        if let Err(refusal) = admit(&list, 0, 0) {
            let inside = refusal.place >= place;
            self.met_if(inside, Class::Refused(Entry::Fields, refusal.number));
        }
    }

    fn observe_start(&mut self, list: &[u8], buffers: (&[u8], &[u8])) {
        let (answer, _) = started(list, buffers.0, buffers.1);
        self.observe_refusal(Entry::Start, answer.refusal);
        let ended = answer.refusal.is_none() && answer.record.ended;
        let code = status::code(answer.record.status);
        self.met_if(ended, Class::Ended(Entry::Start, code));
    }

    fn observe_admission(&mut self, list: &[u8], lengths: (u64, u64)) {
        let refusal = admit(list, lengths.0, lengths.1).err();
        self.observe_refusal(Entry::Admission, refusal);
        if refusal.is_some() {
            self.coverage.observe(&Case {
                list: list.to_vec(),
                lengths,
                incoming: Vec::new(),
                outgoing: Vec::new(),
                row: Vec::new(),
            });
        }
    }

    fn observe_step(
        &mut self,
        list: &[u8],
        record: &Record,
        buffers: (&[u8], &[u8]),
        reply: &[u8],
    ) {
        self.coverage.observe_call(&CallCase {
            list: list.to_vec(),
            record: record.numbers(),
            origin: Origin::Made,
            incoming: buffers.0.to_vec(),
            outgoing: buffers.1.to_vec(),
            reply: reply.to_vec(),
            row: Vec::new(),
        });
        let (answer, _) = stepped(list, record, buffers, reply);
        self.observe_refusal(Entry::Step, answer.refusal);
        let lengths = (buffers.0.len() as u64, buffers.1.len() as u64);
        let Ok(admitted) = admission(list, lengths.0, lengths.1) else {
            return;
        };
        match answer.refusal.map_or(0, |refusal| refusal.number) {
            0 => {
                let bounds = bounds_at(&admitted, record);
                bounds.into_iter().for_each(|b| self.met(Class::At(b)));
                let taken = reply::read(reply).expect("a reply that was taken");
                self.observe_taken(&admitted, record, &taken, &answer.record);
            }
            22 => self.met(Class::Malformed(Entry::Step, malformed(reply))),
            23 => {
                let bounds = bounds_beyond(&admitted, record);
                bounds.into_iter().for_each(|b| self.met(Class::Beyond(b)));
                self.observe_standing(&admitted, record);
            }
            _ => {}
        }
    }

    fn observe_standing(&mut self, admitted: &Admitted, record: &Record) {
        let number = record.instruction as usize;
        let is_reached = admitted.walk.contains(&number);
        self.met(Class::StandsAt(
            match admitted.list.instructions.get(number) {
                Some(Instruction::Camac(_)) if is_reached => return,
                Some(Instruction::Camac(_)) => Elsewhere::Unreached,
                Some(Instruction::Jump(_)) => Elsewhere::Jump,
                Some(Instruction::Literal(_)) => Elsewhere::Literal,
                Some(Instruction::Halt) => Elsewhere::Halt,
                None => Elsewhere::PastLast,
            },
        ));
    }

    /// Counts what a reply that was taken meets.
    fn observe_taken(
        &mut self,
        admitted: &Admitted,
        before: &Record,
        reply: &Reply,
        after: &Record,
    ) {
        let camac = current_camac(&admitted.list, before);
        let code = status::code(after.status);
        self.met_if(after.ended, Class::Ended(Entry::Step, code));
        for bit in (7..32).filter(|bit| (16..27).contains(bit) || *bit > 27 || *bit == 7) {
            self.met(Class::Status(bit, after.status >> bit & 1 == 1));
        }
        for bit in (0..32).filter(|bit| status::FLAGS >> bit & 1 == 1) {
            self.met(Class::StatusBefore(bit, before.status >> bit & 1 == 1));
        }
        self.observe_reply(&camac, reply);
        self.observe_note(&camac, before, after);
    }

    fn observe_reply(&mut self, camac: &Camac, reply: &Reply) {
        let Kind { mode, q_mode, .. } = Kind::of(camac);
        let ad = camac.abort_disable;
        let response = match reply {
            Reply::Timeout => return self.met(Class::Kind(1, mode, q_mode, ad)),
            Reply::NotRecognised => return self.met(Class::Kind(2, mode, q_mode, ad)),
            Reply::NoSync => return self.met(Class::Kind(3, mode, q_mode, ad)),
            Reply::Answer(response) => response,
        };
        let name = Kind::of(camac).name();
        self.met(Class::Answer(name, ad, response.q, response.x));
        if response.q && response.x {
            self.met_if(response.err, Class::Err(mode, q_mode, ad));
            self.met_if(response.tpe, Class::Tpe(mode, q_mode, ad));
            self.met_if(response.lpe, Class::Lpe(mode, q_mode, ad));
        }
    }

    fn observe_note(&mut self, camac: &Camac, before: &Record, after: &Record) {
        let (old, new) = (before.note, after.note);
        if new != old {
            let mark = [before.incoming_mark, before.outgoing_mark][new.buffer as usize];
            let pads = new.offset > mark;
            return self.met(Class::Moved(new.buffer, new.length, pads));
        }
        if old == Note::default() {
            return;
        }
        let code = status::code(after.status);
        let stays = !after.ended && after.instruction == before.instruction;
        self.met(Class::Kept(match Kind::of(camac) {
            _ if after.ended && code != 0 => Kept::Cause,
            _ if stays => Kept::Again,
            kind if kind.direction == Direction::Control => Kept::Control,
            kind if kind.mode == Mode::Inline => Kept::Inline,
            _ => Kept::Closed,
        }));
    }

    fn observe_run(&mut self, list: &[u8], buffers: (&[u8], &[u8]), row: &[u8]) {
        let lengths = (buffers.0.len() as u64, buffers.1.len() as u64);
        self.coverage.observe(&Case {
            list: list.to_vec(),
            lengths,
            incoming: buffers.0.to_vec(),
            outgoing: buffers.1.to_vec(),
            row: row.to_vec(),
        });
        let (answer, _) = ran(list, buffers, row);
        self.observe_refusal(Entry::Run, answer.refusal);
        if answer.refusal.is_some_and(|refusal| refusal.number == 22) {
            return self.observe_bad_row(list, buffers, row);
        }
        if answer.refusal.is_some() {
            return;
        }
        let replies = row.len() as u64 / 8;
        let ended = answer.record.ended;
        let code = status::code(answer.record.status);
        self.met_if(ended, Class::Ended(Entry::Run, code));
        self.met_if(row.is_empty(), Class::RowOfNone);
        self.met(match ended {
            false => Class::RowOfFewer,
            true if answer.taken < replies => Class::RowOfMore,
            true => Class::RowOfAll,
        });
    }

    fn observe_bad_row(&mut self, list: &[u8], buffers: (&[u8], &[u8]), row: &[u8]) {
        let bad = row.chunks(8).position(|reply| reply::read(reply).is_none());
        let Some(at) = bad else {
            return;
        };
        let reply = row.chunks(8).nth(at).unwrap_or_default();
        self.met(Class::Malformed(Entry::Run, malformed(reply)));
        let (before, _) = ran(list, buffers, &row[..8 * at]);
        self.met_if(before.record.ended, Class::MalformedPastEnd);
    }

    fn observe_last_word(&mut self, note: &Note, incoming: &[u8], outgoing: &[u8]) {
        let (buffer, part) = last_moved(incoming, outgoing, note);
        let lengths = [incoming.len() as u64, outgoing.len() as u64];
        let end = note.offset.saturating_add(note.length);
        if !part.is_empty() {
            self.met(Class::Shown(buffer, part.len() as u64));
            let at_end = end == lengths[buffer as usize];
            return self.met_if(at_end, Class::ShownAtEnd(buffer));
        }
        self.met(match (note.buffer, note.length) {
            (2.., _) => Class::NoBuffer,
            _ if *note == Note::default() => Class::NoWord,
            (_, 0) => Class::NoLength,
            (buffer, _) if end == lengths[buffer as usize] + 1 => Class::PastEnd(buffer),
            _ => return,
        });
    }
}

/// What is wrong with a reply that isn't formed as it should be.
fn malformed(reply: &[u8]) -> Malformed {
    let zeros = |from: usize| reply.iter().skip(from).position(|&byte| byte != 0);
    match *reply {
        [] => Malformed::Part(0),
        _ if reply.len() < 8 => Malformed::Part(reply.len()),
        _ if reply.len() > 8 => Malformed::Longer,
        [0, flags, ..] if flags & 64 != 0 => Malformed::Bit(6),
        [0, flags, ..] if flags & 128 != 0 => Malformed::Bit(7),
        [0, _, 0, 0, ..] => Malformed::AnswerByte(7),
        [0, _, 0, ..] => Malformed::AnswerByte(3),
        [0, ..] => Malformed::AnswerByte(2),
        [kind @ 1..=3, ..] => Malformed::KindByte(kind, 1 + zeros(1).unwrap_or(0)),
        _ => Malformed::Kind,
    }
}

impl Kind {
    /// The kind of an instruction.
    pub fn of(camac: &Camac) -> Kind {
        let mode = match camac.transfer {
            Transfer::Single => Mode::Single,
            Transfer::Block { .. } => Mode::Block,
            Transfer::Enhanced { .. } => Mode::Enhanced,
            Transfer::Sequencer { .. } => Mode::Sequencer,
            Transfer::Inline { .. } => Mode::Inline,
        };
        let q_mode = match camac.q_mode {
            _ if mode == Mode::Sequencer => 3,
            QMode::Stop => 0,
            QMode::Ignore => 1,
            QMode::Repeat => 2,
            QMode::Scan => 3,
        };
        let direction = camac.direction();
        let wide = camac.size == WordSize::Bits24 && direction != Direction::Control;
        Kind {
            mode,
            q_mode,
            direction,
            wide,
        }
    }
}
