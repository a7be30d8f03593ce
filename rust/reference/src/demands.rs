//! Demands kept beside the run (document 02, E2): "each two bytes: a crate number and an SGL
//! (graded LAM, look-at-me) byte", in a queue of lent bytes.
//!
//! The queue's layout: 2,048 cells, each a demand's two bytes; the number of the cell where the
//! oldest waits; how many wait; the overflow mark. The two numbers have two bytes, low byte
//! first. The demands wait in cells one behind the other, and behind the last cell comes the
//! first. All zero is an empty queue.

use crate::refusal::Refusal;
use std::collections::VecDeque;

/// "Keep up to 2,048".
pub const MOST: usize = 2_048;

pub const QUEUE_BYTES: usize = 4_101;

/// Where the two numbers and the mark lie.
pub const FIRST: usize = 4_096;
pub const WAITING: usize = 4_098;
pub const OVERFLOW: usize = 4_100;

#[derive(Clone, Copy, Debug, PartialEq, Eq)]
pub struct Demand {
    pub crate_number: u8,
    pub sgl: u8,
}

impl Demand {
    pub fn of([crate_number, sgl]: [u8; 2]) -> Demand {
        Demand { crate_number, sgl }
    }

    pub fn bytes(self) -> [u8; 2] {
        [self.crate_number, self.sgl]
    }

    /// "a demand whose crate isn't 1 to 62" is refused.
    fn is_bad(self) -> bool {
        !(1..=62).contains(&self.crate_number)
    }
}

/// How many wait after a call, and the overflow mark.
#[derive(Clone, Copy, Debug, PartialEq, Eq)]
pub struct Queued {
    pub waiting: usize,
    pub overflow: bool,
}

/// A queue taken out of its bytes.
struct Queue {
    first: usize,
    /// The oldest in front.
    waiting: VecDeque<Demand>,
    overflow: bool,
}

/// Adds a demand. Refused, the queue stays as it is.
pub fn add(queue: &mut [u8], demand: Demand) -> Result<Queued, Refusal> {
    let mut read = Queue::read(queue)?;
    if demand.is_bad() {
        return Err(Refusal::plain(25));
    }
    read.push(demand);
    Ok(read.write(queue))
}

/// Adds the demands of a row, which is judged whole first. Refused, the queue stays as it is.
pub fn add_row(queue: &mut [u8], row: &[u8]) -> Result<Queued, Refusal> {
    let mut read = Queue::read(queue)?;
    let (demands, rest) = row.as_chunks();
    let demands = demands.iter().copied().map(Demand::of);
    if !rest.is_empty() || demands.clone().any(Demand::is_bad) {
        return Err(Refusal::plain(25));
    }
    demands.for_each(|demand| read.push(demand));
    Ok(read.write(queue))
}

/// "Taking yields nothing exactly when none waits."
pub fn take(queue: &mut [u8]) -> Result<(Option<Demand>, Queued), Refusal> {
    let mut read = Queue::read(queue)?;
    let oldest = read.waiting.pop_front();
    if oldest.is_some() {
        read.first = (read.first + 1) % MOST;
    }
    Ok((oldest, read.write(queue)))
}

/// Takes the mark off; "clear also empties".
pub fn clear(queue: &mut [u8]) -> Result<Queued, Refusal> {
    let mut read = Queue::read(queue)?;
    read.waiting.clear();
    read.overflow = false;
    Ok(read.write(queue))
}

/// The demands that wait, the oldest first.
pub fn waiting(queue: &[u8]) -> Result<Vec<Demand>, Refusal> {
    Queue::read(queue).map(|read| read.waiting.into())
}

/// The two bytes of a queue's number.
pub fn number(queue: &[u8], at: usize) -> usize {
    usize::from(u16::from_le_bytes([queue[at], queue[at + 1]]))
}

impl Queue {
    /// "25 for a queue handed in that breaks its layout's limits". Its cells have none.
    fn read(bytes: &[u8]) -> Result<Queue, Refusal> {
        if bytes.len() != QUEUE_BYTES {
            return Err(Refusal::plain(25));
        }
        let (first, count) = (number(bytes, FIRST), number(bytes, WAITING));
        let mark = bytes[OVERFLOW];
        if first >= MOST || count > MOST || mark > 1 {
            return Err(Refusal::plain(25));
        }
        let cells = (0..count).map(|number| cell(first, number));
        let waiting = cells.map(|cell| Demand::of([bytes[cell], bytes[cell + 1]]));
        Ok(Queue {
            first,
            waiting: waiting.collect(),
            overflow: mark == 1,
        })
    }

    /// "One more when full is dropped and sets an overflow mark".
    fn push(&mut self, demand: Demand) {
        if self.waiting.len() == MOST {
            self.overflow = true;
        } else {
            self.waiting.push_back(demand);
        }
    }

    /// Puts what waits into its cells, and the numbers and the mark behind them; other cells
    /// stay as they are.
    fn write(&self, bytes: &mut [u8]) -> Queued {
        for (number, demand) in self.waiting.iter().enumerate() {
            let cell = cell(self.first, number);
            bytes[cell..cell + 2].copy_from_slice(&demand.bytes());
        }
        let (first, waiting) = (self.first as u16, self.waiting.len() as u16);
        bytes[FIRST..WAITING].copy_from_slice(&first.to_le_bytes());
        bytes[WAITING..OVERFLOW].copy_from_slice(&waiting.to_le_bytes());
        bytes[OVERFLOW] = u8::from(self.overflow);
        Queued {
            waiting: self.waiting.len(),
            overflow: self.overflow,
        }
    }
}

/// Where the cell lies that is so many behind the first.
fn cell(first: usize, number: usize) -> usize {
    2 * ((first + number) % MOST)
}
