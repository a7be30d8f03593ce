//! Queues of demands, as `demands` keeps them: a row is judged in one pass and copied in two
//! pieces at most, up to the last cell and from the first one on. A single call is not
//! inlined, so that its instructions can be counted by themselves.

use crate::demands::{Demand, Queued, FIRST, MOST, OVERFLOW, QUEUE_BYTES, WAITING};
use crate::refusal::Refusal;

const REFUSED: Refusal = Refusal {
    number: 25,
    place: 0,
};

/// A queue whose limits hold: its bytes and its two numbers.
struct Queue<'a> {
    bytes: &'a mut [u8; QUEUE_BYTES],
    first: usize,
    waiting: usize,
}

#[inline(never)]
pub fn add(queue: &mut [u8], demand: Demand) -> Result<Queued, Refusal> {
    let mut queue = Queue::of(queue)?;
    if is_bad(demand.crate_number) {
        return Err(REFUSED);
    }
    if queue.waiting == MOST {
        queue.bytes[OVERFLOW] = 1;
    } else {
        let cell = 2 * ((queue.first + queue.waiting) % MOST);
        queue.bytes[cell] = demand.crate_number;
        queue.bytes[cell + 1] = demand.sgl;
        queue.set_waiting(queue.waiting + 1);
    }
    Ok(queue.queued())
}

pub fn add_row(queue: &mut [u8], row: &[u8]) -> Result<Queued, Refusal> {
    let mut queue = Queue::of(queue)?;
    let (demands, rest) = row.as_chunks::<2>();
    let any_bad = |any, demand: &[u8; 2]| any | is_bad(demand[0]);
    if !rest.is_empty() || demands.iter().fold(false, any_bad) {
        return Err(REFUSED);
    }
    let room = MOST - queue.waiting;
    let kept = demands.len().min(room);
    let cell = (queue.first + queue.waiting) % MOST;
    let (upper, lower) = row[..2 * kept].split_at(2 * kept.min(MOST - cell));
    queue.bytes[2 * cell..2 * cell + upper.len()].copy_from_slice(upper);
    queue.bytes[..lower.len()].copy_from_slice(lower);
    queue.bytes[OVERFLOW] |= u8::from(demands.len() > room);
    queue.set_waiting(queue.waiting + kept);
    Ok(queue.queued())
}

#[inline(never)]
pub fn take(queue: &mut [u8]) -> Result<(Option<Demand>, Queued), Refusal> {
    let mut queue = Queue::of(queue)?;
    if queue.waiting == 0 {
        return Ok((None, queue.queued()));
    }
    let cell = 2 * queue.first;
    let oldest = Demand::of([queue.bytes[cell], queue.bytes[cell + 1]]);
    let next = (queue.first + 1) % MOST;
    queue.bytes[FIRST..WAITING].copy_from_slice(&(next as u16).to_le_bytes());
    queue.set_waiting(queue.waiting - 1);
    Ok((Some(oldest), queue.queued()))
}

#[inline(never)]
pub fn clear(queue: &mut [u8]) -> Result<Queued, Refusal> {
    let mut queue = Queue::of(queue)?;
    queue.bytes[OVERFLOW] = 0;
    queue.set_waiting(0);
    Ok(queue.queued())
}

fn is_bad(crate_number: u8) -> bool {
    crate_number.wrapping_sub(1) > 61
}

impl Queue<'_> {
    #[inline]
    fn of(queue: &mut [u8]) -> Result<Queue<'_>, Refusal> {
        let Ok(bytes) = <&mut [u8; QUEUE_BYTES]>::try_from(queue) else {
            return Err(REFUSED);
        };
        let [.., a, b, c, d, mark] = *bytes;
        let first = usize::from(u16::from_le_bytes([a, b]));
        let waiting = usize::from(u16::from_le_bytes([c, d]));
        if first >= MOST || waiting > MOST || mark > 1 {
            return Err(REFUSED);
        }
        Ok(Queue {
            bytes,
            first,
            waiting,
        })
    }

    fn set_waiting(&mut self, waiting: usize) {
        self.waiting = waiting;
        self.bytes[WAITING..OVERFLOW].copy_from_slice(&(waiting as u16).to_le_bytes());
    }

    fn queued(&self) -> Queued {
        Queued {
            waiting: self.waiting,
            overflow: self.bytes[OVERFLOW] == 1,
        }
    }
}
