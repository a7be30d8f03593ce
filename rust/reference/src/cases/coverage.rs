//! What a set of cases has met. A comparison that never met one of these proves little.

mod demands;
mod scalers;
mod short;

use std::cmp::Ordering;
use std::collections::BTreeMap;

use super::calls::{CallCase, Origin, NARROW};
use super::demands::{Entry, Limit};
use super::lists::{ENHANCED, MODE, Q_MODE};
use super::records::StepCase;
use super::scalers::Way;
use super::Case;
use crate::fit::{broken_clause, Clause};
use crate::host::{start_numbers, step_numbers, steps_numbers};
use crate::list::Instruction;
use crate::list::MOST_INSTRUCTIONS;
use crate::packing;
use crate::record::Record;
use crate::refusal::Refusal;
use crate::reply::{self, Reply, Response};
use crate::run::{begin, current_camac, take};
use crate::status;
use crate::walk::{admission, Admitted};
use crate::words::{enhanced_fault, Camac, Direction, EnhancedFault, QMode, Transfer, WordSize};
pub use demands::Place;
pub use scalers::{Fault, Longword};
pub use short::{Buffer, ClosedAt, Follower, StopBlock};

/// A scan's positions from N 1, A 0.
const MOST_POSITIONS: u64 = 368;

/// The clauses that 23 is for; an ended record is 24's.
const CLAUSES: [Clause; 8] = [
    Clause::Instruction,
    Clause::WordsLeft,
    Clause::Tries,
    Clause::Position,
    Clause::Marks,
    Clause::Operations,
    Clause::Status,
    Clause::Note,
];

/// A transfer mode, the list sequencer apart from the other enhanced blocks.
#[derive(Clone, Copy, Debug, PartialEq, Eq, PartialOrd, Ord)]
pub enum Mode {
    Single,
    Block,
    Enhanced,
    Sequencer,
    Inline,
}

/// Q and X of an answer.
#[derive(Clone, Copy, Debug, PartialEq, Eq, PartialOrd, Ord)]
pub struct Qx {
    pub q: bool,
    pub x: bool,
}

/// Something that a case can meet.
#[derive(Clone, Copy, Debug, PartialEq, Eq, PartialOrd, Ord)]
pub enum Event {
    /// Admission or the whole run (or step, for step cases) refused with this number.
    Refusal(u8),
    /// The run ended with this code.
    End(u8),
    /// Replies ran out first.
    Waiting,
    /// A row with replies past the run's end.
    RepliesPastEnd,
    /// A run that made W operations and ended with code 0 and the marks B and O; with less.
    WorstCount,
    WorstCountShort,
    /// A run with both buffers as long as B and O, or with one that is longer.
    ExactBuffers,
    LongerBuffer,
    /// An admitted list of 4,096 instructions.
    FullList,
    /// An admitted block of H = 65,536.
    LargestBlock,
    /// An admitted list with R = 65,535.
    LargestTryLimit,
    /// An admitted list with fields that its walk doesn't reach.
    UnreachedField,
    /// A jump or a literal on the walk.
    Jump,
    Literal,
    /// Refusal 8 in transfer mode 2: by its length alone, or with length 8 by this fault.
    EnhancedLength,
    Enhanced(EnhancedFault),
    /// Refusal 7 of a sequencer word, and 9.
    SequencerAddress,
    SequencerCount,
    /// An admitted sequencer of more words than a scan can have positions.
    LongSequencer,
    /// A word done in this transfer mode and Q-mode (0 stop, 1 ignore, 2 repeat, 3 scan).
    Done(Mode, u8),
    /// An answer in this transfer mode and Q-mode that left its word to be tried again.
    Again(Mode, u8),
    ControlWord,
    /// An enhanced word written in this Q-mode.
    EnhancedWrite(u8),
    /// A word that the list sequencer read or wrote.
    SequencerRead,
    SequencerWrite,
    /// Q = 0 that ended no sequencer, X = 0 that ended one.
    SequencerNoQ,
    SequencerNoX,
    /// Two zero bytes before a word or a literal, or skipped before a write.
    IncomingPad,
    LiteralPad,
    OutgoingPad,
    /// A done word at subaddress 15, the next station following.
    ScanWraps,
    /// An answer not done, the next station following.
    ScanSkips,
    /// Word n done at 23/15.
    ScanFinishesLast,
    /// Word n done at 23/15 with a parity error that ends the run, nothing left.
    ScanFinishesWithParity,
    /// The scan left station 23 after a word that was moved.
    ScanLeavesMoved,
    /// The scan left station 23 by an answer not done.
    ScanLeavesSkipping,
    /// The scan left station 23 under a greater code.
    ScanLeavesUnderGreater,
    /// Q = 0 on try R.
    TriesSpent,
    /// X = 0 or a parity error that AD = 1 saved.
    AbortDisabled,
    /// ERR with X = 1 and AD = 0 that ended the run with code 4, in this transfer mode and
    /// Q-mode; the same of a control.
    Damaged(Mode, u8),
    DamagedControl,
    /// ERR with X = 1 and AD = 0 under this greater code.
    DamagedUnder(u8),
    /// Word n of a scan at 23/15, or its leaving from there with words left, with ERR.
    ScanFinishesDamaged,
    ScanLeavesDamaged,
    /// A word moved with ERR and X = 1, which AD = 1 saved.
    ErrSaved,
    /// A scan's answer with ERR and X = 0 that ended nothing, AD = 0.
    ScanSkipsErr,
    /// A stop block that Q = 0 closed, by what it is, by the word, and by what follows.
    ShortBlock(StopBlock),
    ClosedAt(Mode, ClosedAt),
    ClosedBefore(Follower),
    /// The same before a literal that has a pad, and one that has none.
    ClosedBeforePad,
    ClosedBeforeNoPad,
    /// A stop block closed with X = 0, with a parity error or with ERR and X = 1: AD = 1.
    ClosedWithoutX,
    ClosedWithParity,
    ClosedWithErr,
    /// Q = 0 in a stop block under this code, which ended the run.
    NotClosed(u8),
    /// Q = 0 that ended the run with 7 in this transfer mode, by AD.
    EndedWithoutQ(Mode, bool),
    /// A reply taken where this buffer's mark is below the old one.
    LowerMark(Buffer),
    /// A 24-bit word moved there with a pad that the old mark hasn't, and without one that it has.
    LowerMarkPads(Buffer),
    LowerMarkAligned(Buffer),
    /// A 24-bit word stored in this transfer mode and Q-mode with these Q and X.
    StoredWide(Mode, u8, Qx),
    /// The same with code 9, where Q = X = 1.
    StoredWideLeaving,
    /// A 16-bit word stored with these Q and X.
    StoredNarrow(Qx),
    /// A start that runs to its first operation, or to its end, or is refused.
    StartWaits,
    StartEnds,
    StartRefused,
    /// A step from a record of this origin that was not refused.
    Stepped(Origin),
    /// Refusal 23 by this clause.
    Unfit(Clause),
    /// Refusal 23 by a mark that is odd, or above the old one.
    OddMark(Buffer),
    MarkAbove(Buffer),
    /// Refusal 23 by a note above its buffer's mark that the old mark would do for.
    NoteAboveMark(Buffer),
    /// Refusal 23 by a number of the record, counted from 0, that is too wide.
    TooWide(usize),
    /// Refusal 24 where the record's first number is neither 0 nor 1.
    EndedOtherwise,
    /// Refusal 22 by a reply that is too short or too long.
    ShortReply,
    LongReply,
    /// Steps over no reply; that take all and wait; that end with the last; that end before.
    StepsOverNone,
    StepsWait,
    StepsEnd,
    StepsPastEnd,
    /// Steps refused with this number.
    StepsRefused(u8),
    /// A row of scalers converted this way; an empty one.
    Converted(Way),
    NoScaler(Way),
    /// Refusal 31, without and with a longword that 32 would refuse.
    PartLongword(Way, bool),
    /// Refusal 32 for this, with the longword there, and with another one refused behind it.
    RefusedScaler(Way, Fault),
    RefusedAt(Way, Longword),
    FaultsBehind(Way),
    /// Refusal 25 of a queue that is beyond this limit alone.
    BeyondLimit(Entry, Limit),
    /// Refusal 25 for this crate there; the same with 2,048 waiting, by the mark.
    BadCrate(Entry, u8, Place),
    BadCrateAtFull(Entry, bool),
    /// Refusal 25 for half a demand, without and with a bad crate.
    OddRow(bool),
    /// An empty row, on a queue that is full or isn't.
    EmptyRow(bool),
    /// A row accepted with fewer demands than there is room for, as many, or more.
    RowToRoom(Ordering),
    /// Demands after which 2,048 wait for the first time; one dropped, by the mark before.
    Filled(Entry),
    Dropped(Entry, bool),
    /// Demands put into the cells up to the last one, and into the first one behind it.
    LastCell(Entry),
    CellsWrap(Entry),
    /// A take with none waiting, with one, and with more, by the mark; from the last cell.
    Taken(usize, bool),
    FirstCellWraps,
    /// A clear, by whether any waits and by the mark.
    Cleared(bool, bool),
}

/// Counters of events.
#[derive(Clone, Debug)]
pub struct Coverage {
    counts: BTreeMap<Event, u64>,
}

impl Coverage {
    /// Counters for cases of admission and the whole run.
    pub fn of_runs() -> Coverage {
        let refusals = (1..=11).chain(20..=22).map(Event::Refusal);
        let plain = [
            Event::Waiting,
            Event::RepliesPastEnd,
            Event::WorstCount,
            Event::WorstCountShort,
            Event::ExactBuffers,
            Event::LongerBuffer,
            Event::FullList,
            Event::LargestBlock,
            Event::LargestTryLimit,
            Event::UnreachedField,
            Event::Jump,
            Event::Literal,
            Event::LiteralPad,
            Event::LongSequencer,
        ];
        let events = refusals.chain(plain).chain(of_operations());
        let events = events.chain(short::of_followers());
        let events = events.chain(short::of_lower_marks());
        let events = events.chain(short::of_lower_pads());
        Coverage::expecting(events.chain(of_enhanced_words()))
    }

    /// Counters for cases of step, whose lists are all valid.
    pub fn of_steps() -> Coverage {
        let refusals = [20, 22, 23, 24].map(Event::Refusal);
        let events = refusals.into_iter().chain(of_operations());
        let events = events.chain(short::of_followers());
        let events = events.chain(short::of_lower_marks());
        Coverage::expecting(events.chain(short::of_lower_pads()))
    }

    /// Counters for single replies to records that fit.
    pub fn of_replies() -> Coverage {
        let events = of_operations().chain(short::of_lower_marks());
        Coverage::expecting(events.chain(short::of_lower_pads()))
    }

    /// Counters for rows of any two replies.
    pub fn of_short_rows() -> Coverage {
        Coverage::expecting(of_operations())
    }

    /// Counters for longer rows: words stored and blocks closed.
    pub fn of_long_rows() -> Coverage {
        Coverage::expecting(of_stored_words().chain(short::of_blocks()))
    }

    /// Counters for runs with a stop block that is closed.
    pub fn of_short_runs() -> Coverage {
        let events = short::of_blocks().chain(short::of_closing_flags());
        let events = events.chain(short::of_followers()).chain(short::of_pads());
        let events = events.chain(short::of_lower_marks());
        Coverage::expecting(events.chain(short::of_lower_pads()))
    }

    /// Counters for cases of start, step and steps.
    pub fn of_calls() -> Coverage {
        let refusals = || (1..=11).chain(20..=24);
        let plain = [
            Event::StartWaits,
            Event::StartEnds,
            Event::StartRefused,
            Event::Stepped(Origin::Reached),
            Event::Stepped(Origin::Made),
            Event::Stepped(Origin::Changed),
            Event::EndedOtherwise,
            Event::ShortReply,
            Event::LongReply,
            Event::StepsOverNone,
            Event::StepsWait,
            Event::StepsEnd,
            Event::StepsPastEnd,
        ];
        let events = of_operations().chain(of_enhanced_words()).chain(plain);
        let events = events.chain(short::of_followers());
        let events = events.chain(short::of_lower_marks());
        let events = events.chain(short::of_unfit_marks());
        let events = events.chain(refusals().map(Event::Refusal));
        let events = events.chain(refusals().map(Event::StepsRefused));
        let events = events.chain(CLAUSES.map(Event::Unfit));
        Coverage::expecting(events.chain(NARROW.map(|(at, _)| Event::TooWide(at))))
    }

    /// Counters for equations: those of runs and steps, but for lists too long to compute.
    pub fn of_equations() -> Coverage {
        let refusals = (1..=4).chain(6..=11).chain(20..=24).map(Event::Refusal);
        let plain = [
            Event::Waiting,
            Event::RepliesPastEnd,
            Event::WorstCount,
            Event::WorstCountShort,
            Event::ExactBuffers,
            Event::LongerBuffer,
            Event::UnreachedField,
            Event::Jump,
            Event::Literal,
            Event::LiteralPad,
            Event::ShortReply,
            Event::LongReply,
        ];
        let events = of_operations().chain(of_enhanced_words()).chain(plain);
        let events = events.chain(refusals).chain(short::of_followers());
        let events = events
            .chain(short::of_pads())
            .chain(short::of_lower_marks());
        let events = events.chain(short::of_lower_pads());
        let events = events.chain(short::of_unfit_marks());
        Coverage::expecting(events.chain(CLAUSES.map(Event::Unfit)))
    }

    fn expecting(events: impl Iterator<Item = Event>) -> Coverage {
        let counts = events.map(|event| (event, 0)).collect();
        Coverage { counts }
    }

    fn met(&mut self, event: Event) {
        *self.counts.entry(event).or_insert(0) += 1;
    }

    fn met_if(&mut self, condition: bool, event: Event) {
        if condition {
            self.met(event);
        }
    }

    /// The events expected and never met.
    pub fn missing(&self) -> Vec<Event> {
        let unmet = self.counts.iter().filter(|(_, count)| **count == 0);
        unmet.map(|(event, _)| *event).collect()
    }

    /// Every event with its count, one on a line.
    pub fn table(&self) -> String {
        let line = |(event, count): (&Event, &u64)| format!("{count:>10} {event:?}\n");
        self.counts.iter().map(line).collect()
    }

    /// Counts what a case meets.
    pub fn observe(&mut self, case: &Case) {
        if let Err(refusal) = admission(&case.list, case.lengths.0, case.lengths.1) {
            self.met(Event::Refusal(refusal.number));
            self.observe_enhanced_fault(&case.list, refusal);
        }
        let lengths = (case.incoming.len() as u64, case.outgoing.len() as u64);
        let Ok(admitted) = admission(&case.list, lengths.0, lengths.1) else {
            return;
        };
        let exact = lengths == (admitted.counts.b, admitted.counts.o);
        self.met_if(exact, Event::ExactBuffers);
        self.met_if(!exact, Event::LongerBuffer);
        self.observe_list(&admitted);
        match reply::read_row(&case.row) {
            Some(replies) => self.observe_run(&admitted, case.incoming.clone(), &replies),
            None => self.met(Event::Refusal(22)),
        }
    }

    fn observe_list(&mut self, admitted: &Admitted) {
        let list = &admitted.list;
        let count = list.instructions.len();
        self.met_if(count == MOST_INSTRUCTIONS, Event::FullList);
        self.met_if(list.try_limit == 65_535, Event::LargestTryLimit);
        self.met_if(admitted.walk.len() < count, Event::UnreachedField);
        let mut mark = 0;
        for &number in &admitted.walk {
            match &list.instructions[number] {
                Instruction::Jump(_) => self.met(Event::Jump),
                Instruction::Literal(_) => {
                    self.met(Event::Literal);
                    self.met_if(packing::offset(mark, 4) != mark, Event::LiteralPad);
                    mark = packing::mark_after(mark, 4);
                }
                Instruction::Camac(camac) => {
                    let halfwords = camac.words() * camac.size.bytes() / 2;
                    self.met_if(halfwords == 65_536, Event::LargestBlock);
                    let long = mode(camac) == Mode::Sequencer && camac.words() > MOST_POSITIONS;
                    self.met_if(long, Event::LongSequencer);
                    if reads(camac) {
                        mark = packing::mark_after_words(mark, camac.size.bytes(), camac.words());
                    }
                }
                Instruction::Halt => {}
            }
        }
    }

    /// Counts why a CAMAC word of transfer mode 2 was refused.
    fn observe_enhanced_fault(&mut self, list: &[u8], refusal: Refusal) {
        let Some(&[_, length, _, a, b, c, d]) = list[refusal.place..].first_chunk() else {
            return;
        };
        let first = u32::from_le_bytes([a, b, c, d]);
        let sequences = first & Q_MODE == Q_MODE;
        match (refusal.number, length, first & MODE == ENHANCED) {
            (7, _, true) => self.met_if(sequences, Event::SequencerAddress),
            (8, 4, true) => {
                let alone = enhanced_fault(first).is_none();
                self.met_if(alone, Event::EnhancedLength);
            }
            (8, _, true) => {
                let fault = enhanced_fault(first).expect("a fault that 8 is for");
                self.met(Event::Enhanced(fault));
            }
            (9, _, true) => self.met_if(sequences, Event::SequencerCount),
            _ => {}
        }
    }

    fn observe_run(&mut self, admitted: &Admitted, mut incoming: Vec<u8>, replies: &[Reply]) {
        let mut record = begin(admitted, &mut incoming);
        let mut taken = 0;
        while !record.ended && taken < replies.len() {
            let next = take(admitted, &record, &mut incoming, &replies[taken]);
            self.observe_operation(admitted, &record, &replies[taken], &next);
            record = next;
            taken += 1;
        }
        if !record.ended {
            return self.met(Event::Waiting);
        }
        self.met_if(taken == 0, Event::End(0));
        self.met_if(taken < replies.len(), Event::RepliesPastEnd);
        let code = status::code(record.status);
        if record.operations == admitted.counts.w && taken > 0 && code == 0 {
            let marks = (record.incoming_mark, record.outgoing_mark);
            let full = marks == (admitted.counts.b, admitted.counts.o);
            self.met_if(full, Event::WorstCount);
            self.met_if(!full, Event::WorstCountShort);
        }
    }

    /// Counts what a step case meets.
    pub fn observe_step(&mut self, case: &StepCase) {
        let (answer, _) = case.stepped();
        if let Some(Refusal { number, .. }) = answer.refusal {
            return self.met(Event::Refusal(number));
        }
        let lengths = (case.incoming.len() as u64, case.outgoing.len() as u64);
        let admitted = admission(&case.list, lengths.0, lengths.1).expect("admitted");
        let reply = reply::read(&case.reply).expect("well-formed");
        self.observe_operation(&admitted, &case.record, &reply, &answer.record);
    }

    /// Counts what a case of start, step and steps meets.
    pub fn observe_call(&mut self, case: &CallCase) {
        let mut incoming = case.incoming.clone();
        let (record, answer) = start_numbers(&case.list, &mut incoming, &case.outgoing);
        self.met(match (answer[0], record[0]) {
            (0, 0) => Event::StartWaits,
            (0, _) => Event::StartEnds,
            _ => Event::StartRefused,
        });
        self.observe_one_step(case);
        self.observe_steps(case);
    }

    fn observe_one_step(&mut self, case: &CallCase) {
        let (mut record, mut incoming) = (case.record, case.incoming.clone());
        let [number, place, ..] = step_numbers(
            &case.list,
            &mut record,
            &mut incoming,
            &case.outgoing,
            &case.reply,
        );
        if number != 0 {
            let refusal = Refusal::at(number as u8, place as usize);
            self.met(Event::Refusal(refusal.number));
            self.observe_enhanced_fault(&case.list, refusal);
        }
        let lengths = (case.incoming.len() as u64, case.outgoing.len() as u64);
        let Ok(admitted) = admission(&case.list, lengths.0, lengths.1) else {
            return;
        };
        match number {
            0 => {
                self.met(Event::Stepped(case.origin));
                let records = [&case.record, &record].map(Record::from_numbers);
                let [Some(before), Some(after)] = records else {
                    panic!("a record that fits");
                };
                let reply = reply::read(&case.reply).expect("well-formed");
                self.observe_operation(&admitted, &before, &reply, &after);
            }
            22 => {
                self.met_if(case.reply.len() < 8, Event::ShortReply);
                self.met_if(case.reply.len() > 8, Event::LongReply);
            }
            23 => self.observe_unfit(&admitted, &case.record),
            _ => self.met_if(case.record[0] > 1, Event::EndedOtherwise),
        }
    }

    fn observe_unfit(&mut self, admitted: &Admitted, numbers: &[u64; 13]) {
        let wide = NARROW.iter().find(|(at, bits)| numbers[*at] >> bits != 0);
        if let Some(&(at, _)) = wide {
            return self.met(Event::TooWide(at));
        }
        let record = Record::from_numbers(numbers).expect("a status that is not too wide");
        let clause = broken_clause(admitted, &record).expect("a clause that 23 is for");
        self.met(Event::Unfit(clause));
        match clause {
            Clause::Marks => self.observe_unfit_marks(admitted, &record),
            Clause::Note => self.observe_unfit_note(admitted, &record),
            _ => {}
        }
    }

    fn observe_steps(&mut self, case: &CallCase) {
        let (mut record, mut incoming) = (case.record, case.incoming.clone());
        let [number, _, taken, ..] = steps_numbers(
            &case.list,
            &mut record,
            &mut incoming,
            &case.outgoing,
            &case.row,
        );
        let replies = case.row.len() as u64 / 8;
        self.met(match (number, record[0]) {
            (0, 0) if replies == 0 => Event::StepsOverNone,
            (0, 0) => Event::StepsWait,
            (0, _) if taken == replies => Event::StepsEnd,
            (0, _) => Event::StepsPastEnd,
            _ => Event::StepsRefused(number as u8),
        });
    }

    /// Counts what one reply meets, with the records before and after it.
    pub fn observe_operation(
        &mut self,
        admitted: &Admitted,
        before: &Record,
        reply: &Reply,
        after: &Record,
    ) {
        let code = status::code(after.status);
        self.met_if(after.ended, Event::End(code));
        let Reply::Answer(response) = reply else {
            return;
        };
        let camac = current_camac(&admitted.list, before);
        let on = !after.ended || code == 0;
        let parity = response.tpe || response.lpe;
        let (mode, q_mode) = (mode(&camac), q_number(&camac));
        let no_q = camac.is_stop_block() && !response.q;
        self.met_if(!on && no_q, Event::NotClosed(code));
        let without_q = Event::EndedWithoutQ(mode, camac.abort_disable);
        self.met_if(code == 7, without_q);
        self.observe_lower_marks(admitted, &camac, before, after);
        if on && no_q {
            self.observe_short_block(admitted, &camac, before, response);
        } else if on && same_word(before, after) {
            self.met(Event::Again(mode, q_mode));
        } else if on {
            self.met(Event::Done(mode, q_mode));
            self.met_if(camac.direction() == Direction::Control, Event::ControlWord);
            self.observe_enhanced_word(&camac, response);
            self.observe_pad(&camac, before);
        }
        self.met_if(code == 0xB, Event::TriesSpent);
        self.met_if(
            on && (parity || !response.x) && camac.abort_disable,
            Event::AbortDisabled,
        );
        let no_x = mode == Mode::Sequencer && code == 8;
        self.met_if(no_x, Event::SequencerNoX);
        if response.err {
            self.observe_err(&camac, before, response, after);
        }
        if reads(&camac) && moved(before, after) {
            self.observe_stored(&camac, response, code);
        }
        if camac.q_mode == QMode::Scan {
            self.observe_scan(before, response, after);
        }
    }

    /// Counts what a word done in transfer mode 2 meets.
    fn observe_enhanced_word(&mut self, camac: &Camac, response: &Response) {
        match mode(camac) {
            Mode::Enhanced => {
                let event = Event::EnhancedWrite(q_number(camac));
                self.met_if(writes(camac), event);
            }
            Mode::Sequencer => {
                self.met_if(reads(camac), Event::SequencerRead);
                self.met_if(writes(camac), Event::SequencerWrite);
                self.met_if(!response.q, Event::SequencerNoQ);
            }
            Mode::Single | Mode::Block | Mode::Inline => {}
        }
    }

    /// Counts what a word that was stored came with.
    fn observe_stored(&mut self, camac: &Camac, response: &Response, code: u8) {
        let qx = Qx {
            q: response.q,
            x: response.x,
        };
        self.met(match camac.size {
            WordSize::Bits16 => Event::StoredNarrow(qx),
            WordSize::Bits24 if code == 9 => Event::StoredWideLeaving,
            WordSize::Bits24 => Event::StoredWide(mode(camac), q_number(camac), qx),
        });
    }

    /// Counts what an answer with ERR meets.
    fn observe_err(&mut self, camac: &Camac, before: &Record, response: &Response, after: &Record) {
        let code = status::code(after.status);
        let saved = response.x && camac.abort_disable && moved(before, after);
        self.met_if(saved, Event::ErrSaved);
        let scans = camac.q_mode == QMode::Scan;
        let skips = scans && !response.x && !camac.abort_disable && !after.ended;
        self.met_if(skips, Event::ScanSkipsErr);
        if !response.x || camac.abort_disable {
            return;
        }
        let control = camac.direction() == Direction::Control;
        self.met_if(code == 4 && control, Event::DamagedControl);
        self.met(match code {
            4 => Event::Damaged(mode(camac), q_number(camac)),
            _ => Event::DamagedUnder(code),
        });
        let last_place = scans && response.q && (before.n, before.a) == (23, 15);
        let last_word = before.words_left == 1;
        let finishes = last_place && last_word && code == 4;
        self.met_if(finishes, Event::ScanFinishesDamaged);
        let leaves = last_place && !last_word && code == 9;
        self.met_if(leaves, Event::ScanLeavesDamaged);
    }

    fn observe_scan(&mut self, before: &Record, response: &Response, after: &Record) {
        let code = status::code(after.status);
        let on = !after.ended || code == 0;
        let left = after.status & status::SCAN_LEFT != 0;
        let done = response.q && response.x;
        let last_word = before.words_left == 1;
        let last_place = (before.n, before.a) == (23, 15);
        self.met_if(on && done && before.a == 15 && !last_word, Event::ScanWraps);
        self.met_if(on && !done, Event::ScanSkips);
        let finishes = done && last_word && last_place;
        self.met_if(on && finishes, Event::ScanFinishesLast);
        self.met_if(code == 0xA && finishes, Event::ScanFinishesWithParity);
        self.met_if(left && moved(before, after), Event::ScanLeavesMoved);
        self.met_if(left && !done && code == 9, Event::ScanLeavesSkipping);
        self.met_if(left && code > 9, Event::ScanLeavesUnderGreater);
    }

    fn observe_pad(&mut self, camac: &Camac, before: &Record) {
        let length = camac.size.bytes();
        let (incoming, outgoing) = (before.incoming_mark, before.outgoing_mark);
        let pads = |mark: u64| packing::offset(mark, length) != mark;
        self.met_if(reads(camac) && pads(incoming), Event::IncomingPad);
        self.met_if(writes(camac) && pads(outgoing), Event::OutgoingPad);
    }
}

/// The events of single operations.
fn of_operations() -> impl Iterator<Item = Event> {
    let ends = [0, 4, 7, 8, 9, 0xA, 0xB, 0xC, 0xD].map(Event::End);
    let modes = [Mode::Single, Mode::Block, Mode::Inline];
    let done = modes.map(|mode| (0..4).map(move |q_mode| Event::Done(mode, q_mode)));
    let again = modes.map(|mode| (2..4).map(move |q_mode| Event::Again(mode, q_mode)));
    let plain = [
        Event::Done(Mode::Enhanced, 0),
        Event::Done(Mode::Enhanced, 1),
        Event::Done(Mode::Enhanced, 2),
        Event::Again(Mode::Enhanced, 2),
        Event::EnhancedWrite(0),
        Event::EnhancedWrite(1),
        Event::SequencerRead,
        Event::SequencerWrite,
        Event::SequencerNoQ,
        Event::SequencerNoX,
        Event::ControlWord,
        Event::IncomingPad,
        Event::OutgoingPad,
        Event::ScanWraps,
        Event::ScanSkips,
        Event::ScanFinishesLast,
        Event::ScanFinishesWithParity,
        Event::ScanLeavesMoved,
        Event::ScanLeavesSkipping,
        Event::ScanLeavesUnderGreater,
        Event::TriesSpent,
        Event::AbortDisabled,
    ];
    let modes = done
        .into_iter()
        .flatten()
        .chain(again.into_iter().flatten());
    let events = ends.into_iter().chain(modes).chain(plain);
    let events = events.chain(of_damaged_commands()).chain(of_stored_words());
    let events = events.chain(short::of_blocks());
    let events = events.chain(short::of_closing_flags());
    events.chain(short::of_ends_without_q())
}

/// The events of answers with ERR.
fn of_damaged_commands() -> impl Iterator<Item = Event> {
    let modes = [Mode::Single, Mode::Block, Mode::Inline];
    let standard = modes.map(|mode| (0..4).map(move |q_mode| Event::Damaged(mode, q_mode)));
    let enhanced = (0..3).map(|q_mode| Event::Damaged(Mode::Enhanced, q_mode));
    let under = [7, 9, 0xA, 0xB].map(Event::DamagedUnder);
    let plain = [
        // The list sequencer is decoded as ignore.
        Event::Damaged(Mode::Sequencer, 1),
        Event::DamagedControl,
        Event::ScanFinishesDamaged,
        Event::ScanLeavesDamaged,
        Event::ErrSaved,
        Event::ScanSkipsErr,
    ];
    let standard = standard.into_iter().flatten();
    standard.chain(enhanced).chain(under).chain(plain)
}

/// The events of words stored: Q = 0 only in ignore, the list sequencer's mode too; X = 0 not
/// in scan.
fn of_stored_words() -> impl Iterator<Item = Event> {
    let standard = [Mode::Single, Mode::Block].map(|mode| (mode, 0..4));
    let enhanced = [(Mode::Enhanced, 0..3), (Mode::Sequencer, 1..2)];
    let modes = standard.into_iter().chain(enhanced);
    let modes = modes.flat_map(|(mode, q_modes)| q_modes.map(move |q_mode| (mode, q_mode)));
    let wide = modes.flat_map(|(mode, q_mode)| {
        let qx = all_qx().filter(move |qx| (qx.q || q_mode == 1) && (qx.x || q_mode != 3));
        qx.map(move |qx| Event::StoredWide(mode, q_mode, qx))
    });
    let narrow = all_qx().map(Event::StoredNarrow);
    wide.chain(narrow).chain([Event::StoredWideLeaving])
}

fn all_qx() -> impl Iterator<Item = Qx> {
    let both = [false, true];
    let pairs = both.into_iter().flat_map(move |q| both.map(|x| (q, x)));
    pairs.map(|(q, x)| Qx { q, x })
}

/// The events of words of transfer mode 2 that are refused.
fn of_enhanced_words() -> impl Iterator<Item = Event> {
    let faults = [
        EnhancedFault::Control,
        EnhancedFault::RepeatWrite,
        EnhancedFault::SequencerStation,
        EnhancedFault::SequencerFunction,
        EnhancedFault::SequencerSubaddress,
    ];
    let plain = [
        Event::EnhancedLength,
        Event::SequencerAddress,
        Event::SequencerCount,
    ];
    plain.into_iter().chain(faults.map(Event::Enhanced))
}

/// True if the record after an answer still wants the same word.
fn same_word(before: &Record, after: &Record) -> bool {
    !after.ended && (after.instruction, after.words_left) == (before.instruction, before.words_left)
}

/// True if a word was moved: its note lies behind the marks before.
fn moved(before: &Record, after: &Record) -> bool {
    after.note != before.note
}

fn mode(camac: &Camac) -> Mode {
    match camac.transfer {
        Transfer::Single => Mode::Single,
        Transfer::Block { .. } => Mode::Block,
        Transfer::Enhanced { .. } => Mode::Enhanced,
        Transfer::Sequencer { .. } => Mode::Sequencer,
        Transfer::Inline { .. } => Mode::Inline,
    }
}

fn q_number(camac: &Camac) -> u8 {
    match camac.q_mode {
        QMode::Stop => 0,
        QMode::Ignore => 1,
        QMode::Repeat => 2,
        QMode::Scan => 3,
    }
}

fn is_wide(camac: &Camac) -> bool {
    camac.size == WordSize::Bits24
}

fn reads(camac: &Camac) -> bool {
    camac.direction() == Direction::Read
}

fn writes(camac: &Camac) -> bool {
    camac.direction() == Direction::Write && mode(camac) != Mode::Inline
}
