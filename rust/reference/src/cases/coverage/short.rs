//! What short blocks meet (document 02's E8), and records with marks below the old ones.

use super::{is_wide, mode, moved, reads, writes, Coverage, Event, Mode};
use crate::fit::old_marks;
use crate::list::Instruction;
use crate::packing;
use crate::record::Record;
use crate::reply::Response;
use crate::walk::Admitted;
use crate::words::{Camac, Direction};

/// Longer walks aren't looked along for the old marks at each operation.
const MOST_VISITS: usize = 64;

/// A stop block.
#[derive(Clone, Copy, Debug, PartialEq, Eq, PartialOrd, Ord)]
pub struct StopBlock {
    pub enhanced: bool,
    pub wide: bool,
    pub writes: bool,
    pub abort_disable: bool,
}

/// Which word of a stop block Q = 0 came for.
#[derive(Clone, Copy, Debug, PartialEq, Eq, PartialOrd, Ord)]
pub enum ClosedAt {
    Only,
    First,
    Between,
    Last,
}

/// The instruction behind a block.
#[derive(Clone, Copy, Debug, PartialEq, Eq, PartialOrd, Ord)]
pub enum Follower {
    Read { wide: bool },
    Write { wide: bool },
    Control,
    Inline,
    Literal,
    Jump,
    Halt,
}

/// One of the two buffers.
#[derive(Clone, Copy, Debug, PartialEq, Eq, PartialOrd, Ord)]
pub enum Buffer {
    Incoming,
    Outgoing,
}

impl Coverage {
    /// Counts what a stop block meets that an answer closed.
    pub(super) fn observe_short_block(
        &mut self,
        admitted: &Admitted,
        camac: &Camac,
        before: &Record,
        response: &Response,
    ) {
        self.met(Event::ShortBlock(StopBlock {
            enhanced: camac.is_enhanced(),
            wide: is_wide(camac),
            writes: writes(camac),
            abort_disable: camac.abort_disable,
        }));
        let closed_at = match (camac.words(), before.words_left) {
            (1, _) => ClosedAt::Only,
            (words, left) if left == words => ClosedAt::First,
            (_, 1) => ClosedAt::Last,
            _ => ClosedAt::Between,
        };
        self.met(Event::ClosedAt(mode(camac), closed_at));
        let follower = follower(&admitted.list.instructions[before.instruction as usize + 1]);
        self.met(Event::ClosedBefore(follower));
        if follower == Follower::Literal {
            let pads = packing::offset(before.incoming_mark, 4) != before.incoming_mark;
            self.met_if(pads, Event::ClosedBeforePad);
            self.met_if(!pads, Event::ClosedBeforeNoPad);
        }
        self.met_if(!response.x, Event::ClosedWithoutX);
        self.met_if(response.tpe || response.lpe, Event::ClosedWithParity);
        self.met_if(response.err && response.x, Event::ClosedWithErr);
    }

    /// Counts what a reply meets that is taken where a mark is below the old one.
    pub(super) fn observe_lower_marks(
        &mut self,
        admitted: &Admitted,
        camac: &Camac,
        before: &Record,
        after: &Record,
    ) {
        if admitted.walk.len() > MOST_VISITS {
            return;
        }
        let moves_wide = is_wide(camac) && moved(before, after);
        for (buffer, mark, old) in with_old_marks(admitted, before) {
            self.met_if(mark < old, Event::LowerMark(buffer));
            let moves = match buffer {
                Buffer::Incoming => moves_wide && reads(camac),
                Buffer::Outgoing => moves_wide && writes(camac),
            };
            let (pads, old_pads) = (mark % 4 == 2, old % 4 == 2);
            self.met_if(moves && pads && !old_pads, Event::LowerMarkPads(buffer));
            self.met_if(moves && !pads && old_pads, Event::LowerMarkAligned(buffer));
        }
    }

    /// Counts how marks don't fit.
    pub(super) fn observe_unfit_marks(&mut self, admitted: &Admitted, record: &Record) {
        for (buffer, mark, old) in with_old_marks(admitted, record) {
            self.met_if(mark % 2 == 1 && mark <= old, Event::OddMark(buffer));
            self.met_if(mark % 2 == 0 && mark > old, Event::MarkAbove(buffer));
        }
    }

    /// Counts what a note meets that doesn't fit, although marks and all before it do.
    pub(super) fn observe_unfit_note(&mut self, admitted: &Admitted, record: &Record) {
        let note = &record.note;
        let Some(end) = note.offset.checked_add(note.length) else {
            return;
        };
        let marks = with_old_marks(admitted, record).into_iter();
        for (number, (buffer, mark, old)) in (0..).zip(marks) {
            let is_here = note.buffer == number && matches!(note.length, 2 | 4);
            let above = mark < end && end <= old;
            self.met_if(is_here && above, Event::NoteAboveMark(buffer));
        }
    }
}

/// Each buffer with its mark and the old one.
fn with_old_marks(admitted: &Admitted, record: &Record) -> [(Buffer, u64, u64); 2] {
    let old = old_marks(admitted, record).expect("a place on the walk");
    [
        (Buffer::Incoming, record.incoming_mark, old.incoming),
        (Buffer::Outgoing, record.outgoing_mark, old.outgoing),
    ]
}

/// The events of stop blocks that are closed.
pub fn of_blocks() -> impl Iterator<Item = Event> {
    let blocks = (0..16).map(|bits| {
        Event::ShortBlock(StopBlock {
            enhanced: bits & 8 != 0,
            wide: bits & 4 != 0,
            writes: bits & 2 != 0,
            abort_disable: bits & 1 != 0,
        })
    });
    let words = [
        ClosedAt::Only,
        ClosedAt::First,
        ClosedAt::Between,
        ClosedAt::Last,
    ];
    let standard = words.map(|word| Event::ClosedAt(Mode::Block, word));
    let enhanced = words.map(|word| Event::ClosedAt(Mode::Enhanced, word));
    blocks.chain(standard).chain(enhanced)
}

/// The events of answers that close one, by their other flags.
pub fn of_closing_flags() -> impl Iterator<Item = Event> {
    let events = [
        Event::ClosedWithoutX,
        Event::ClosedWithParity,
        Event::ClosedWithErr,
    ];
    events.into_iter()
}

/// The events of answers with Q = 0 that end a run in stop.
pub fn of_ends_without_q() -> impl Iterator<Item = Event> {
    let both = [false, true];
    let single = both.map(|ad| Event::EndedWithoutQ(Mode::Single, ad));
    let inline = both.map(|ad| Event::EndedWithoutQ(Mode::Inline, ad));
    let not_closed = [4, 8, 0xA].map(Event::NotClosed);
    single.into_iter().chain(inline).chain(not_closed)
}

/// The events of what follows a block that was closed.
pub fn of_followers() -> impl Iterator<Item = Event> {
    let followers = [
        Follower::Read { wide: false },
        Follower::Read { wide: true },
        Follower::Write { wide: false },
        Follower::Write { wide: true },
        Follower::Literal,
        Follower::Jump,
        Follower::Halt,
    ];
    followers.map(Event::ClosedBefore).into_iter()
}

/// The events of the pads of literals among them.
pub fn of_pads() -> impl Iterator<Item = Event> {
    [Event::ClosedBeforePad, Event::ClosedBeforeNoPad].into_iter()
}

/// The events of replies taken where a mark is below the old one.
pub fn of_lower_marks() -> impl Iterator<Item = Event> {
    of_both_buffers(Event::LowerMark)
}

/// The events of pads there.
pub fn of_lower_pads() -> impl Iterator<Item = Event> {
    of_both_buffers(Event::LowerMarkPads).chain(of_both_buffers(Event::LowerMarkAligned))
}

/// The events of marks that don't fit.
pub fn of_unfit_marks() -> impl Iterator<Item = Event> {
    let events: [fn(Buffer) -> Event; 3] = [Event::OddMark, Event::MarkAbove, Event::NoteAboveMark];
    events.into_iter().flat_map(of_both_buffers)
}

fn of_both_buffers(event: fn(Buffer) -> Event) -> impl Iterator<Item = Event> {
    [Buffer::Incoming, Buffer::Outgoing].map(event).into_iter()
}

fn follower(instruction: &Instruction) -> Follower {
    match instruction {
        Instruction::Camac(camac) if mode(camac) == Mode::Inline => Follower::Inline,
        Instruction::Camac(camac) => {
            let wide = is_wide(camac);
            match camac.direction() {
                Direction::Read => Follower::Read { wide },
                Direction::Write => Follower::Write { wide },
                Direction::Control => Follower::Control,
            }
        }
        Instruction::Jump(_) => Follower::Jump,
        Instruction::Literal(_) => Follower::Literal,
        Instruction::Halt => Follower::Halt,
    }
}
