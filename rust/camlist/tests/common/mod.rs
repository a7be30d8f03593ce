//! The calls of the C interface beside those of the separate build. `what` names the case
//! where they differ.

#![allow(dead_code)]

use camlist::ffi;
use reference::cases::demands::{Call, Entries, Numbers, SEPARATE};
use reference::cases::scalers::Way;
use reference::host;
use std::fmt::Arguments;

/// Bytes before and behind a buffer, which nobody may touch.
const FENCE: [u8; 32] = [0xC5; 32];

/// What a call may change.
pub type Record = [u64; ffi::RECORD_NUMBERS];

/// The arguments of a call on a record.
pub struct Given<'a> {
    pub list: &'a [u8],
    pub record: Record,
    pub incoming: &'a [u8],
    pub outgoing: &'a [u8],
}

/// What a call answered, and what it left in the record and the incoming buffer.
#[derive(Clone, Debug, PartialEq, Eq)]
pub struct After<const NUMBERS: usize> {
    pub answer: [u64; NUMBERS],
    pub record: Record,
    pub incoming: Vec<u8>,
}

/// Compares admission.
pub fn compare_admission(list: &[u8], incoming_len: u64, outgoing_len: u64, what: Arguments) {
    let answer = ffi::admit(list, incoming_len, outgoing_len);
    let numbers = host::admission_numbers(list, incoming_len, outgoing_len);
    assert_eq!(answer, numbers, "{what}, {incoming_len} {outgoing_len}");
}

/// Compares whole runs: the numbers answered, and every byte of the incoming buffer and
/// of the fences around it.
pub fn compare_run(
    list: &[u8],
    incoming: &[u8],
    outgoing: &[u8],
    row: &[u8],
    what: Arguments,
) -> [u64; 16] {
    let shift = list.len() + row.len() / 8;
    let (answer, _) = compare_fenced(
        shift,
        incoming,
        |incoming| ffi::run(list, incoming, outgoing, row),
        |incoming| host::run_numbers(list, incoming, outgoing, row),
        what,
    );
    answer
}

/// Compares starts. The record that a start is given counts for nothing.
pub fn compare_start(given: &Given, what: Arguments) -> After<{ ffi::CALL_NUMBERS }> {
    let Given { list, outgoing, .. } = *given;
    let proved = |incoming: &mut [u8]| {
        let mut record = given.record;
        let answer = ffi::start(list, incoming, outgoing, &mut record);
        (record, answer)
    };
    let plain = |incoming: &mut [u8]| host::start_numbers(list, incoming, outgoing);
    let ((record, answer), incoming) =
        compare_fenced(list.len(), given.incoming, proved, plain, what);
    After {
        answer,
        record,
        incoming,
    }
}

/// Compares one step: answer, record, incoming bytes and fences.
pub fn compare_step(given: &Given, reply: &[u8], what: Arguments) -> After<{ ffi::CALL_NUMBERS }> {
    compare_call(given, reply, ffi::step, host::step_numbers, what)
}

/// Compares steps over a row.
pub fn compare_steps(given: &Given, row: &[u8], what: Arguments) -> After<{ ffi::STEPS_NUMBERS }> {
    compare_call(given, row, ffi::steps, host::steps_numbers, what)
}

fn compare_call<const NUMBERS: usize>(
    given: &Given,
    replies: &[u8],
    proved: impl Fn(&[u8], &mut Record, &mut [u8], &[u8], &[u8]) -> [u64; NUMBERS],
    separate: impl Fn(&[u8], &mut Record, &mut [u8], &[u8], &[u8]) -> [u64; NUMBERS],
    what: Arguments,
) -> After<NUMBERS> {
    let Given { list, outgoing, .. } = *given;
    let proved = |incoming: &mut [u8]| {
        let mut record = given.record;
        let answer = proved(list, &mut record, incoming, outgoing, replies);
        (record, answer)
    };
    let separate = |incoming: &mut [u8]| {
        let mut record = given.record;
        let answer = separate(list, &mut record, incoming, outgoing, replies);
        (record, answer)
    };
    let shift = list.len() + replies.len();
    let ((record, answer), incoming) =
        compare_fenced(shift, given.incoming, proved, separate, what);
    if answer[0] != 0 {
        assert!(record == given.record, "a refused record changed: {what}");
        assert!(incoming == given.incoming, "refused, yet stored: {what}");
    }
    After {
        answer,
        record,
        incoming,
    }
}

/// The library's conversion of a row of scalers.
pub fn convert(way: Way, row: &mut [u8]) -> [u64; ffi::SCALERS_NUMBERS] {
    match way {
        Way::ToBinary => ffi::to_binary(row),
        Way::ToDecimal => ffi::to_decimal(row),
    }
}

/// Compares the conversions of a row of scalers, at an address that `shift` moves: answer,
/// bytes and fences; what the row is afterwards.
pub fn compare_scalers(
    way: Way,
    row: &[u8],
    shift: usize,
    what: Arguments,
) -> ([u64; ffi::SCALERS_NUMBERS], Vec<u8>) {
    let separate = match way {
        Way::ToBinary => host::to_binary_numbers,
        Way::ToDecimal => host::to_decimal_numbers,
    };
    let (answer, after) = compare_fenced(shift, row, |row| convert(way, row), separate, what);
    if answer[0] != 0 {
        assert!(after == row, "refused, yet converted: {what}");
    }
    (answer, after)
}

/// The library's calls on a queue of demands.
pub const PROVED: Entries = Entries {
    add: ffi::demand_add,
    row: ffi::demand_row,
    take: ffi::demand_take,
    clear: ffi::demand_clear,
};

/// Compares a call on a queue of demands: answer, bytes and fences; what the queue is afterwards.
pub fn compare_demands(call: &Call, queue: &[u8], what: Arguments) -> (Numbers, Vec<u8>) {
    let shift = call.row().len() + usize::from(queue.last().copied().unwrap_or(5));
    let (answer, after) = compare_fenced(
        shift,
        queue,
        |queue| PROVED.make(call, queue),
        |queue| SEPARATE.make(call, queue),
        what,
    );
    if answer[0] != 0 {
        assert!(after == queue, "refused, yet changed: {what}");
    }
    (answer, after)
}

/// Bytes as the programs in C take and print them: in hexadecimal, `-` for none.
pub fn hex(bytes: &[u8]) -> String {
    match bytes {
        [] => String::from("-"),
        _ => bytes.iter().map(|byte| format!("{byte:02X}")).collect(),
    }
}

/// Gives each call a copy of a buffer between fences, at any address, and compares what they
/// answer and every byte.
fn compare_fenced<Answer: PartialEq + std::fmt::Debug>(
    shift: usize,
    given: &[u8],
    proved: impl FnOnce(&mut [u8]) -> Answer,
    separate: impl FnOnce(&mut [u8]) -> Answer,
    what: Arguments,
) -> (Answer, Vec<u8>) {
    let start = FENCE.len() - shift % 8;
    let mut fenced = [&FENCE[..start], given, &FENCE].concat();
    let buffer = start..start + given.len();
    let mut expected = fenced.clone();
    let answer = proved(&mut fenced[buffer.clone()]);
    let expected_answer = separate(&mut expected[buffer.clone()]);
    assert_eq!(answer, expected_answer, "{what}");
    assert!(fenced == expected, "bytes differ: {what}");
    (answer, fenced[buffer].to_vec())
}
