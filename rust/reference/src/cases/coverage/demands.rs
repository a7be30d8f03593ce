//! What calls on a queue of demands meet (document 02's E2).

use super::{Coverage, Event};
use crate::cases::demands::{Call, Entry, Limit, BAD_CRATES};
use crate::demands::{number, FIRST, MOST, OVERFLOW, QUEUE_BYTES, WAITING};
use std::cmp::Ordering;

/// Where the first demand with a bad crate stands among those that a call brings.
#[derive(Clone, Copy, Debug, PartialEq, Eq, PartialOrd, Ord)]
pub enum Place {
    Only,
    First,
    Between,
    Last,
    /// Behind 2,048 others.
    Behind,
}

const PLACES: [Place; 5] = [
    Place::Only,
    Place::First,
    Place::Between,
    Place::Last,
    Place::Behind,
];

/// A queue's numbers and its mark before a call.
struct Before {
    first: usize,
    waiting: usize,
    marked: bool,
}

impl Coverage {
    /// Counters for calls on queues of demands.
    pub fn of_demands() -> Coverage {
        let limits = Entry::ALL.into_iter().flat_map(|entry| {
            let broken = Limit::ALL.into_iter();
            broken.map(move |limit| Event::BeyondLimit(entry, limit))
        });
        let events = limits.chain(of_bringing(Entry::Add));
        let events = events.chain(of_bringing(Entry::Row)).chain(of_rows());
        Coverage::expecting(events.chain(of_takes()))
    }

    /// Counts what a call meets on a queue that is like this before it.
    pub fn observe_demands(&mut self, call: &Call, queue: &[u8]) {
        let entry = call.entry();
        let broken = broken_limits(queue);
        if let [limit] = broken[..] {
            let is_bound = Limit::ALL.contains(&limit);
            self.met_if(is_bound, Event::BeyondLimit(entry, limit));
        }
        if !broken.is_empty() {
            return;
        }
        let before = Before {
            first: number(queue, FIRST),
            waiting: number(queue, WAITING),
            marked: queue[OVERFLOW] == 1,
        };
        match call {
            Call::Add(_) | Call::Row(_) => self.observe_brought(entry, &call.row(), &before),
            Call::Take => {
                self.met(Event::Taken(before.waiting.min(2), before.marked));
                let wraps = before.waiting > 0 && before.first == MOST - 1;
                self.met_if(wraps, Event::FirstCellWraps);
            }
            Call::Clear => self.met(Event::Cleared(before.waiting > 0, before.marked)),
        }
    }

    fn observe_brought(&mut self, entry: Entry, row: &[u8], before: &Before) {
        let (demands, rest) = row.as_chunks();
        let is_bad = |[crate_number, _]: &[u8; 2]| !(1..=62).contains(crate_number);
        let bad = demands.iter().position(is_bad);
        let full = before.waiting == MOST;
        if !rest.is_empty() {
            return self.met(Event::OddRow(bad.is_some()));
        }
        if let Some(at) = bad {
            let place = place(at, demands.len());
            self.met(Event::BadCrate(entry, demands[at][0], place));
            return self.met_if(full, Event::BadCrateAtFull(entry, before.marked));
        }
        let room = MOST - before.waiting;
        let to_room = demands.len().cmp(&room);
        if entry == Entry::Row && !full {
            self.met(Event::RowToRoom(to_room));
        }
        self.met_if(demands.is_empty(), Event::EmptyRow(full));
        self.met_if(!full && to_room.is_ge(), Event::Filled(entry));
        let dropped = Event::Dropped(entry, before.marked);
        self.met_if(to_room.is_gt(), dropped);
        let kept = demands.len().min(room);
        let last = before.first + before.waiting + kept;
        self.met_if(kept > 0 && last == MOST, Event::LastCell(entry));
        self.met_if(kept > 0 && last > MOST, Event::CellsWrap(entry));
    }
}

fn broken_limits(queue: &[u8]) -> Vec<Limit> {
    if queue.len() != QUEUE_BYTES {
        return vec![Limit::Length(queue.len())];
    }
    let (first, waiting) = (number(queue, FIRST), number(queue, WAITING));
    let mark = queue[OVERFLOW];
    let limits = [
        (first >= MOST, Limit::First(first as u16)),
        (waiting > MOST, Limit::Waiting(waiting as u16)),
        (mark > 1, Limit::Overflow(mark)),
    ];
    let broken = limits.into_iter().filter(|(is_broken, _)| *is_broken);
    broken.map(|(_, limit)| limit).collect()
}

fn place(at: usize, demands: usize) -> Place {
    match at {
        _ if at >= MOST => Place::Behind,
        0 if demands == 1 => Place::Only,
        0 => Place::First,
        _ if at + 1 == demands => Place::Last,
        _ => Place::Between,
    }
}

/// By add and by a row.
fn of_bringing(entry: Entry) -> impl Iterator<Item = Event> {
    let places = match entry {
        Entry::Add => &PLACES[..1],
        _ => &PLACES[..],
    };
    let crates = BAD_CRATES.into_iter().flat_map(move |bad| {
        let places = places.iter();
        places.map(move |place| Event::BadCrate(entry, bad, *place))
    });
    let marks = [false, true].into_iter();
    let marks = marks.flat_map(move |marked| {
        [
            Event::BadCrateAtFull(entry, marked),
            Event::Dropped(entry, marked),
        ]
    });
    let cells = [
        Event::Filled(entry),
        Event::LastCell(entry),
        Event::CellsWrap(entry),
    ];
    crates.chain(marks).chain(cells)
}

fn of_rows() -> [Event; 7] {
    [
        Event::RowToRoom(Ordering::Less),
        Event::RowToRoom(Ordering::Equal),
        Event::RowToRoom(Ordering::Greater),
        Event::EmptyRow(false),
        Event::EmptyRow(true),
        Event::OddRow(false),
        Event::OddRow(true),
    ]
}

/// By take and by clear.
fn of_takes() -> impl Iterator<Item = Event> {
    let marks = [false, true].into_iter();
    let events = marks.flat_map(|marked| {
        [
            Event::Taken(0, marked),
            Event::Taken(1, marked),
            Event::Taken(2, marked),
            Event::Cleared(false, marked),
            Event::Cleared(true, marked),
        ]
    });
    events.chain([Event::FirstCellWraps])
}
