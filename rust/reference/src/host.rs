//! What a host in C is given: the answers of the calls, and the record, as rows of
//! numbers.
//!
//! A record's first number is 0 while the run goes on; any other is an ended one. A number
//! too wide for its part (N, A and the note's buffer have a byte, the status has 32 bits)
//! belongs to a record that doesn't fit. A record refused keeps its numbers.

use crate::demands::{self, Demand, Queued};
use crate::run::RunAnswer;
use crate::{admit, run_row, scalers, start, step, steps, Counts, Operation, Record, Refusal};

/// Number, place, W, B, O. Number 0 means not refused.
pub fn admission_numbers(list: &[u8], incoming_len: u64, outgoing_len: u64) -> [u64; 5] {
    match admit(list, incoming_len, outgoing_len) {
        Ok(Counts { w, b, o }) => [0, 0, w, b, o],
        Err(Refusal { number, place }) => [u64::from(number), place as u64, 0, 0, 0],
    }
}

/// Number, place, taken, then the record's thirteen numbers.
pub fn run_numbers(list: &[u8], incoming: &mut [u8], outgoing: &[u8], row: &[u8]) -> [u64; 16] {
    run_row(list, incoming, outgoing, row).numbers()
}

impl RunAnswer {
    /// Number, place, taken, then the record's thirteen numbers.
    pub fn numbers(&self) -> [u64; 16] {
        let mut numbers = [0; 16];
        if let Some(Refusal { number, place }) = self.refusal {
            numbers[0] = u64::from(number);
            numbers[1] = place as u64;
        }
        numbers[2] = self.taken;
        numbers[3..].copy_from_slice(&self.record.numbers());
        numbers
    }
}

/// The record of a start; number, place, then the operation's six.
pub fn start_numbers(list: &[u8], incoming: &mut [u8], outgoing: &[u8]) -> ([u64; 13], [u64; 8]) {
    let answer = start(list, incoming, outgoing);
    let numbers = call_numbers(answer.refusal, &answer.wanted);
    (answer.record.numbers(), numbers)
}

/// Steps a record; number, place, then the operation's six.
pub fn step_numbers(
    list: &[u8],
    record: &mut [u64; 13],
    incoming: &mut [u8],
    outgoing: &[u8],
    reply: &[u8],
) -> [u64; 8] {
    let answer = step(list, &record_of(record), incoming, outgoing, reply);
    if answer.refusal.is_none() {
        *record = answer.record.numbers();
    }
    call_numbers(answer.refusal, &answer.wanted)
}

/// Steps a record over a row; number, place, taken, then the operation's six.
pub fn steps_numbers(
    list: &[u8],
    record: &mut [u64; 13],
    incoming: &mut [u8],
    outgoing: &[u8],
    row: &[u8],
) -> [u64; 9] {
    let answer = steps(list, &record_of(record), incoming, outgoing, row);
    if answer.refusal.is_none() {
        *record = answer.record.numbers();
    }
    let call = call_numbers(answer.refusal, &answer.wanted);
    let mut numbers = [0; 9];
    numbers[..2].copy_from_slice(&call[..2]);
    numbers[2] = answer.taken;
    numbers[3..].copy_from_slice(&call[2..]);
    numbers
}

/// Converts a row of scalers to binary; number, place.
pub fn to_binary_numbers(row: &mut [u8]) -> [u64; 2] {
    refusal_numbers(scalers::to_binary(row).err())
}

/// Converts a row of scalers from binary back; number, place.
pub fn to_decimal_numbers(row: &mut [u8]) -> [u64; 2] {
    refusal_numbers(scalers::to_decimal(row).err())
}

/// Adds a demand to a queue; number, place, waiting, overflow.
pub fn demand_add_numbers(queue: &mut [u8], crate_number: u8, sgl: u8) -> [u64; 4] {
    queued_numbers(demands::add(queue, Demand { crate_number, sgl }))
}

/// Adds a row of demands; number, place, waiting, overflow.
pub fn demand_row_numbers(queue: &mut [u8], row: &[u8]) -> [u64; 4] {
    queued_numbers(demands::add_row(queue, row))
}

/// Takes a demand; number, place, waiting, overflow, found, crate, SGL.
pub fn demand_take_numbers(queue: &mut [u8]) -> [u64; 7] {
    let answer = demands::take(queue);
    let taken = match answer {
        Ok((Some(Demand { crate_number, sgl }), _)) => [1, crate_number, sgl],
        _ => [0; 3],
    };
    let [found, crate_number, sgl] = taken.map(u64::from);
    let [number, place, waiting, overflow] = queued_numbers(answer.map(|(_, queued)| queued));
    [number, place, waiting, overflow, found, crate_number, sgl]
}

/// Clears a queue; number, place, waiting, overflow.
pub fn demand_clear_numbers(queue: &mut [u8]) -> [u64; 4] {
    queued_numbers(demands::clear(queue))
}

fn queued_numbers(answer: Result<Queued, Refusal>) -> [u64; 4] {
    let [number, place] = refusal_numbers(answer.err());
    match answer {
        Ok(Queued { waiting, overflow }) => [number, place, waiting as u64, u64::from(overflow)],
        Err(_) => [number, place, 0, 0],
    }
}

/// Number and place; zeros where nothing was refused.
fn refusal_numbers(refusal: Option<Refusal>) -> [u64; 2] {
    refusal.map_or([0, 0], |refusal| {
        [u64::from(refusal.number), refusal.place as u64]
    })
}

/// The record of some numbers; one that fits no list where the status is too wide. The
/// other numbers have as many bits here as they can have there.
fn record_of(numbers: &[u64; 13]) -> Record {
    Record::from_numbers(numbers).unwrap_or(Record {
        ended: numbers[0] != 0,
        status: u32::MAX,
        ..Record::default()
    })
}

fn call_numbers(refusal: Option<Refusal>, wanted: &Operation) -> [u64; 8] {
    let [number, place] = refusal_numbers(refusal);
    let Operation {
        crate_number,
        n,
        a,
        f,
        data,
        enhanced,
    } = *wanted;
    let enhanced = u64::from(enhanced);
    [number, place, crate_number, n, a, f, data, enhanced]
}
