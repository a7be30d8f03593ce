//! Calls on a queue of demands (document 02, E2): queues within their limits and beyond one of
//! them, lists of calls that fill a queue, empty it and go round its cells.

use super::rng::Rng;
use crate::demands::{self, Demand, FIRST, MOST, OVERFLOW, QUEUE_BYTES, WAITING};
use crate::host;

/// One call.
#[derive(Clone, Debug, PartialEq, Eq)]
pub enum Call {
    Add(Demand),
    Row(Vec<u8>),
    Take,
    Clear,
}

/// Its entry point.
#[derive(Clone, Copy, Debug, PartialEq, Eq, PartialOrd, Ord)]
pub enum Entry {
    Add,
    Row,
    Take,
    Clear,
}

impl Entry {
    pub const ALL: [Entry; 4] = [Entry::Add, Entry::Row, Entry::Take, Entry::Clear];
}

impl Call {
    /// One of each entry point, none of them refused for itself.
    pub fn each() -> [Call; 4] {
        let row = vec![1, 2, 62, 255];
        [
            Call::Add(Demand::of([7, 9])),
            Call::Row(row),
            Call::Take,
            Call::Clear,
        ]
    }

    pub fn entry(&self) -> Entry {
        match self {
            Call::Add(_) => Entry::Add,
            Call::Row(_) => Entry::Row,
            Call::Take => Entry::Take,
            Call::Clear => Entry::Clear,
        }
    }

    /// The bytes of the demands that it brings.
    pub fn row(&self) -> Vec<u8> {
        match self {
            Call::Add(demand) => demand.bytes().to_vec(),
            Call::Row(row) => row.clone(),
            Call::Take | Call::Clear => Vec::new(),
        }
    }
}

/// Number, place, waiting, overflow, found, crate, SGL; the last three are 0 but for take.
pub type Numbers = [u64; 7];

/// An engine's entry points, in the numbers of the C interface.
#[derive(Clone, Copy)]
pub struct Entries {
    pub add: fn(&mut [u8], u8, u8) -> [u64; 4],
    pub row: fn(&mut [u8], &[u8]) -> [u64; 4],
    pub take: fn(&mut [u8]) -> Numbers,
    pub clear: fn(&mut [u8]) -> [u64; 4],
}

/// Those of the separate build.
pub const SEPARATE: Entries = Entries {
    add: host::demand_add_numbers,
    row: host::demand_row_numbers,
    take: host::demand_take_numbers,
    clear: host::demand_clear_numbers,
};

impl Entries {
    /// Makes a call.
    pub fn make(&self, call: &Call, queue: &mut [u8]) -> Numbers {
        let [number, place, waiting, overflow] = match call {
            Call::Add(demand) => (self.add)(queue, demand.crate_number, demand.sgl),
            Call::Row(row) => (self.row)(queue, row),
            Call::Take => return (self.take)(queue),
            Call::Clear => (self.clear)(queue),
        };
        [number, place, waiting, overflow, 0, 0, 0]
    }
}

/// A queue beyond one limit, at its bounds.
#[derive(Clone, Copy, Debug, PartialEq, Eq, PartialOrd, Ord)]
pub enum Limit {
    Length(usize),
    First(u16),
    Waiting(u16),
    Overflow(u8),
}

impl Limit {
    pub const ALL: [Limit; 9] = [
        Limit::Length(0),
        Limit::Length(4_100),
        Limit::Length(4_102),
        Limit::First(2_048),
        Limit::First(65_535),
        Limit::Waiting(2_049),
        Limit::Waiting(65_535),
        Limit::Overflow(2),
        Limit::Overflow(255),
    ];

    /// A queue that is within all limits but this one.
    pub fn broken(self, queue: &[u8]) -> Vec<u8> {
        let mut queue = queue.to_vec();
        match self {
            Limit::Length(length) => queue.resize(length, 0),
            Limit::First(first) => put(&mut queue, FIRST, first),
            Limit::Waiting(waiting) => put(&mut queue, WAITING, waiting),
            Limit::Overflow(mark) => queue[OVERFLOW] = mark,
        }
        queue
    }
}

fn put(queue: &mut [u8], at: usize, number: u16) {
    queue[at..at + 2].copy_from_slice(&number.to_le_bytes());
}

/// A queue with these cells, numbers and mark.
pub fn queue_of(cells: &[u8], first: usize, waiting: usize, mark: bool) -> Vec<u8> {
    let (first, waiting) = (first as u16, waiting as u16);
    let mark = [u8::from(mark)];
    let parts = [
        cells,
        &first.to_le_bytes(),
        &waiting.to_le_bytes(),
        &mark[..],
    ];
    parts.concat()
}

/// An empty queue: all zero.
pub fn empty() -> Vec<u8> {
    vec![0; QUEUE_BYTES]
}

/// Any queue within its limits. Its cells hold any bytes.
pub fn queue(rng: &mut Rng) -> Vec<u8> {
    let cells = rng.bytes(2 * MOST);
    let (first, waiting) = (rng.index(MOST), rng.index(MOST + 1));
    let first = rng.pick(&[first, first, 0, 1, MOST - 1]);
    let waiting = rng.pick(&[waiting, waiting, 0, 1, MOST - 1, MOST]);
    queue_of(&cells, first, waiting, rng.coin())
}

/// Crates that are refused.
pub const BAD_CRATES: [u8; 3] = [0, 63, 255];

/// A demand that is accepted.
pub fn demand(rng: &mut Rng) -> Demand {
    let crate_number = rng.within(1..=62) as u8;
    Demand {
        crate_number: rng.pick(&[crate_number, crate_number, 1, 62]),
        sgl: rng.number() as u8,
    }
}

/// A row of so many demands that is accepted.
pub fn row(rng: &mut Rng, demands: usize) -> Vec<u8> {
    (0..demands).flat_map(|_| demand(rng).bytes()).collect()
}

/// What most of a list's calls do.
#[derive(Clone, Copy, Debug, PartialEq, Eq)]
pub enum Manner {
    /// Adds, so that the queue is full most of the time.
    Adding,
    /// Takes, so that it is empty most of the time.
    Taking,
    /// As many takes as adds.
    Evenly,
    /// Rows of any length, and clears.
    Rows,
}

impl Manner {
    pub const ALL: [Manner; 4] = [Manner::Adding, Manner::Taking, Manner::Evenly, Manner::Rows];

    /// Of ten thousand calls how many add, are rows and clear; the others take.
    fn shares(self) -> [u64; 3] {
        match self {
            Manner::Adding => [7_200, 300, 10],
            Manner::Taking => [2_500, 100, 2],
            Manner::Evenly => [4_700, 200, 5],
            Manner::Rows => [1_000, 2_500, 500],
        }
    }

    /// The demands of a row, by the room that there is.
    fn demands(self, rng: &mut Rng, room: usize) -> usize {
        let any = rng.index(2_501);
        match self {
            Manner::Rows => rng.pick(&[any, any, any, room, room + 1, room.saturating_sub(1)]),
            _ if rng.once_in(50) => rng.pick(&[any, room, room + 1]),
            _ => rng.index(5),
        }
    }
}

/// A list of calls on a queue.
pub struct List {
    pub queue: Vec<u8>,
    pub from_empty: bool,
    manner: Manner,
    calls: u64,
    rng: Rng,
}

/// Lists of a seed: long ones of so many calls from empty and from any queue, then short ones
/// from any queue.
pub fn lists(seed: u64, long: u64) -> impl Iterator<Item = List> {
    (0..3_000).map(move |number| {
        let mut rng = Rng::of_case(seed, number);
        let from_empty = number < 8;
        List {
            queue: if from_empty { empty() } else { queue(&mut rng) },
            from_empty,
            manner: Manner::ALL[number as usize % 4],
            calls: if number < 16 { long } else { 24 },
            rng,
        }
    })
}

impl List {
    /// The next call, by how many wait; some are refused.
    pub fn next_call(&mut self) -> Option<Call> {
        self.calls = self.calls.checked_sub(1)?;
        let rng = &mut self.rng;
        let [adds, rows, clears] = self.manner.shares();
        let drawn = rng.below(10_000);
        Some(if drawn < adds {
            let mut demand = demand(rng);
            if rng.once_in(20) {
                demand.crate_number = rng.pick(&BAD_CRATES);
            }
            Call::Add(demand)
        } else if drawn < adds + rows {
            let room = MOST - demands::number(&self.queue, WAITING);
            let demands = self.manner.demands(rng, room);
            Call::Row(any_row(rng, demands))
        } else if drawn < adds + rows + clears {
            Call::Clear
        } else {
            Call::Take
        })
    }

    /// The queue beyond one of its limits.
    pub fn broken(&mut self) -> Vec<u8> {
        self.rng.pick(&Limit::ALL).broken(&self.queue)
    }
}

/// A row of so many demands; about one in four has a bad crate or odd length, or both.
fn any_row(rng: &mut Rng, demands: usize) -> Vec<u8> {
    let mut row = row(rng, demands);
    if demands > 0 && rng.once_in(5) {
        let at = rng.index(demands);
        let behind = MOST + rng.index(300);
        let at = rng.pick(&[0, demands - 1, at, behind]).min(demands - 1);
        row[2 * at] = rng.pick(&BAD_CRATES);
    }
    if rng.once_in(10) {
        row.push(rng.pick(&[0, 1, 255]));
    }
    row
}

/// The law of a list of calls from empty: "what was taken and cleared, in order, followed by
/// what still waits, is what accepted adds brought less what came with 2,048 waiting."
#[derive(Default)]
pub struct Ledger {
    gone: Vec<Demand>,
    brought: Vec<Demand>,
    /// Whether one was dropped since the last clear.
    dropped: bool,
}

impl Ledger {
    /// Notes a call on a queue, which it found like this, and its answer.
    pub fn note(&mut self, call: &Call, before: &[u8], answer: &Numbers) {
        let [number, _, _, _, found, crate_number, sgl] = *answer;
        if number != 0 {
            return;
        }
        match call {
            Call::Add(_) | Call::Row(_) => self.bring(&call.row()),
            Call::Take => {
                let waits = self.gone.len() < self.brought.len();
                assert_eq!(found, u64::from(waits), "nothing exactly when none waits");
                if waits {
                    let taken = Demand::of([crate_number as u8, sgl as u8]);
                    self.gone.push(taken);
                }
            }
            Call::Clear => {
                let cleared = demands::waiting(before).expect("a queue within its limits");
                self.gone.extend(cleared);
                self.dropped = false;
            }
        }
    }

    fn bring(&mut self, row: &[u8]) {
        for &demand in row.as_chunks().0 {
            if self.brought.len() - self.gone.len() == MOST {
                self.dropped = true;
            } else {
                self.brought.push(Demand::of(demand));
            }
        }
    }

    /// Holds what the calls left against the law, and the mark against what was dropped.
    pub fn check(&self, queue: &[u8]) {
        let waiting = demands::waiting(queue).expect("a queue within its limits");
        assert!([&self.gone[..], &waiting].concat() == self.brought);
        assert_eq!(queue[OVERFLOW], u8::from(self.dropped));
    }
}
