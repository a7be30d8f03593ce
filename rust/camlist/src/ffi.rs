//! The C interface in numbers, as `include/camlist.h` has it, on slices and arrays.
//!
//! What each number of an answer means stands in the header; the types of this crate are
//! made of them.

/// Numbers of admission's answer: number, place, W, B, O.
pub const ADMIT_NUMBERS: usize = 5;

/// Numbers of the whole run's answer: number, place, taken, then the record.
pub const RUN_NUMBERS: usize = 16;

/// Numbers of a record: ended, instruction, words left, tries, N, A, incoming mark, outgoing
/// mark, operations, status, note's buffer, offset and length.
pub const RECORD_NUMBERS: usize = 13;

/// Numbers of the answer of start and of step: number, place, crate, N, A, F, data, enhanced.
pub const CALL_NUMBERS: usize = 8;

/// Numbers of the answer of steps: number, place, taken, crate, N, A, F, data, enhanced.
pub const STEPS_NUMBERS: usize = 9;

/// Numbers of the answer of a conversion of scalers: number, place.
pub const SCALERS_NUMBERS: usize = 2;

/// Bytes of a queue of demands.
pub const QUEUE_BYTES: usize = 4_101;

/// Numbers of the answer of a call on a queue of demands: number, place, waiting, overflow.
pub const DEMAND_NUMBERS: usize = 4;

/// Numbers of the answer of the call that takes one: those, found, crate, SGL.
pub const TAKE_NUMBERS: usize = 7;

/// Bytes of a code's name, blanks behind it included.
pub const NAME_BYTES: usize = 16;

/// The symbols of the library.
pub mod raw {
    use super::*;

    extern "C" {
        pub fn camlist_admit_v2(
            list: *const u8,
            list_len: usize,
            incoming_len: u64,
            outgoing_len: u64,
            answer: *mut [u64; ADMIT_NUMBERS],
        );

        pub fn camlist_run_v2(
            list: *const u8,
            list_len: usize,
            incoming: *mut u8,
            incoming_len: usize,
            outgoing: *const u8,
            outgoing_len: usize,
            replies: *const u8,
            replies_len: usize,
            answer: *mut [u64; RUN_NUMBERS],
        );

        pub fn camlist_start_v2(
            list: *const u8,
            list_len: usize,
            incoming: *mut u8,
            incoming_len: usize,
            outgoing: *const u8,
            outgoing_len: usize,
            record: *mut [u64; RECORD_NUMBERS],
            answer: *mut [u64; CALL_NUMBERS],
        );

        pub fn camlist_step_v2(
            list: *const u8,
            list_len: usize,
            record: *mut [u64; RECORD_NUMBERS],
            incoming: *mut u8,
            incoming_len: usize,
            outgoing: *const u8,
            outgoing_len: usize,
            reply: *const u8,
            reply_len: usize,
            answer: *mut [u64; CALL_NUMBERS],
        );

        pub fn camlist_steps_v2(
            list: *const u8,
            list_len: usize,
            record: *mut [u64; RECORD_NUMBERS],
            incoming: *mut u8,
            incoming_len: usize,
            outgoing: *const u8,
            outgoing_len: usize,
            replies: *const u8,
            replies_len: usize,
            answer: *mut [u64; STEPS_NUMBERS],
        );

        pub fn camlist_to_binary_v2(
            row: *mut u8,
            row_len: usize,
            answer: *mut [u64; SCALERS_NUMBERS],
        );

        pub fn camlist_to_decimal_v2(
            row: *mut u8,
            row_len: usize,
            answer: *mut [u64; SCALERS_NUMBERS],
        );

        pub fn camlist_demand_add_v2(
            queue: *mut u8,
            queue_len: usize,
            crate_number: u8,
            sgl: u8,
            answer: *mut [u64; DEMAND_NUMBERS],
        );

        pub fn camlist_demand_row_v2(
            queue: *mut u8,
            queue_len: usize,
            row: *const u8,
            row_len: usize,
            answer: *mut [u64; DEMAND_NUMBERS],
        );

        pub fn camlist_demand_take_v2(
            queue: *mut u8,
            queue_len: usize,
            answer: *mut [u64; TAKE_NUMBERS],
        );

        pub fn camlist_demand_clear_v2(
            queue: *mut u8,
            queue_len: usize,
            answer: *mut [u64; DEMAND_NUMBERS],
        );

        pub fn camlist_code_name_v2(code: u64, name: *mut [u8; NAME_BYTES]);
    }
}

/// Admission of a list with two buffer lengths.
pub fn admit(list: &[u8], incoming_len: u64, outgoing_len: u64) -> [u64; ADMIT_NUMBERS] {
    let mut answer = [0; ADMIT_NUMBERS];
    // SAFETY: the slice and the array are valid for the call, and the array is ours alone.
    unsafe {
        raw::camlist_admit_v2(
            list.as_ptr(),
            list.len(),
            incoming_len,
            outgoing_len,
            &mut answer,
        );
    }
    answer
}

/// The whole run over a row of replies.
pub fn run(
    list: &[u8],
    incoming: &mut [u8],
    outgoing: &[u8],
    replies: &[u8],
) -> [u64; RUN_NUMBERS] {
    let mut answer = [0; RUN_NUMBERS];
    // SAFETY: the slices and the array are valid for the call; nothing overlaps `incoming`,
    // which is lent to us alone, nor the array, which is ours.
    unsafe {
        raw::camlist_run_v2(
            list.as_ptr(),
            list.len(),
            incoming.as_mut_ptr(),
            incoming.len(),
            outgoing.as_ptr(),
            outgoing.len(),
            replies.as_ptr(),
            replies.len(),
            &mut answer,
        );
    }
    answer
}

/// Start: writes the record.
pub fn start(
    list: &[u8],
    incoming: &mut [u8],
    outgoing: &[u8],
    record: &mut [u64; RECORD_NUMBERS],
) -> [u64; CALL_NUMBERS] {
    let mut answer = [0; CALL_NUMBERS];
    // SAFETY: as in `run`; the record is lent to us alone.
    unsafe {
        raw::camlist_start_v2(
            list.as_ptr(),
            list.len(),
            incoming.as_mut_ptr(),
            incoming.len(),
            outgoing.as_ptr(),
            outgoing.len(),
            record,
            &mut answer,
        );
    }
    answer
}

/// Step: takes one reply; the record holds the new state afterwards.
pub fn step(
    list: &[u8],
    record: &mut [u64; RECORD_NUMBERS],
    incoming: &mut [u8],
    outgoing: &[u8],
    reply: &[u8],
) -> [u64; CALL_NUMBERS] {
    let mut answer = [0; CALL_NUMBERS];
    // SAFETY: as in `start`.
    unsafe {
        raw::camlist_step_v2(
            list.as_ptr(),
            list.len(),
            record,
            incoming.as_mut_ptr(),
            incoming.len(),
            outgoing.as_ptr(),
            outgoing.len(),
            reply.as_ptr(),
            reply.len(),
            &mut answer,
        );
    }
    answer
}

/// Steps: takes a row of replies, until the run ends or they run out.
pub fn steps(
    list: &[u8],
    record: &mut [u64; RECORD_NUMBERS],
    incoming: &mut [u8],
    outgoing: &[u8],
    replies: &[u8],
) -> [u64; STEPS_NUMBERS] {
    let mut answer = [0; STEPS_NUMBERS];
    // SAFETY: as in `start`.
    unsafe {
        raw::camlist_steps_v2(
            list.as_ptr(),
            list.len(),
            record,
            incoming.as_mut_ptr(),
            incoming.len(),
            outgoing.as_ptr(),
            outgoing.len(),
            replies.as_ptr(),
            replies.len(),
            &mut answer,
        );
    }
    answer
}

/// Converts a row of decimal scalers to binary.
pub fn to_binary(row: &mut [u8]) -> [u64; SCALERS_NUMBERS] {
    let mut answer = [0; SCALERS_NUMBERS];
    // SAFETY: the row is valid for the call and lent to us alone, and the array is ours.
    unsafe { raw::camlist_to_binary_v2(row.as_mut_ptr(), row.len(), &mut answer) };
    answer
}

/// Converts a row of scalers from binary back.
pub fn to_decimal(row: &mut [u8]) -> [u64; SCALERS_NUMBERS] {
    let mut answer = [0; SCALERS_NUMBERS];
    // SAFETY: as in `to_binary`.
    unsafe { raw::camlist_to_decimal_v2(row.as_mut_ptr(), row.len(), &mut answer) };
    answer
}

// The calls on a queue are short: each is inlined, so that it costs no call more.

/// Adds a demand to a queue.
#[inline]
pub fn demand_add(queue: &mut [u8], crate_number: u8, sgl: u8) -> [u64; DEMAND_NUMBERS] {
    let (bytes, length) = (queue.as_mut_ptr(), queue.len());
    let mut answer = [0; DEMAND_NUMBERS];
    // SAFETY: the queue is valid for the call and lent to us alone, and the array is ours.
    unsafe { raw::camlist_demand_add_v2(bytes, length, crate_number, sgl, &mut answer) };
    answer
}

/// Adds a row of demands to a queue.
#[inline]
pub fn demand_row(queue: &mut [u8], row: &[u8]) -> [u64; DEMAND_NUMBERS] {
    let (bytes, length) = (queue.as_mut_ptr(), queue.len());
    let mut answer = [0; DEMAND_NUMBERS];
    // SAFETY: as in `demand_add`; the row is valid for the call and overlaps neither.
    unsafe {
        raw::camlist_demand_row_v2(bytes, length, row.as_ptr(), row.len(), &mut answer);
    }
    answer
}

/// Takes the oldest demand out of a queue.
#[inline]
pub fn demand_take(queue: &mut [u8]) -> [u64; TAKE_NUMBERS] {
    let mut answer = [0; TAKE_NUMBERS];
    // SAFETY: as in `demand_add`.
    unsafe { raw::camlist_demand_take_v2(queue.as_mut_ptr(), queue.len(), &mut answer) };
    answer
}

/// Empties a queue and takes its overflow mark off.
#[inline]
pub fn demand_clear(queue: &mut [u8]) -> [u64; DEMAND_NUMBERS] {
    let mut answer = [0; DEMAND_NUMBERS];
    // SAFETY: as in `demand_add`.
    unsafe { raw::camlist_demand_clear_v2(queue.as_mut_ptr(), queue.len(), &mut answer) };
    answer
}

/// The name of a code, with blanks behind it; blanks alone above 15.
pub fn code_name(code: u64) -> [u8; NAME_BYTES] {
    let mut name = [0; NAME_BYTES];
    // SAFETY: the array is valid for the call and ours alone.
    unsafe { raw::camlist_code_name_v2(code, &mut name) };
    name
}
