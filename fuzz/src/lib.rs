//! libFuzzer's target: the calls of the C interface beside those of the separate build.
//!
//! An input is a head of six bytes, the list, and the row. The head: the list's length (two
//! bytes, little-endian); how long the buffers are, and whether the row stands as it is or
//! has one byte for each reply, which keeps most rows well formed; how many replies bring a
//! run to the record that step and steps are given; which of the record's numbers is changed
//! and how. The row as it stands is also taken for a row of scalers, either way, and for calls
//! on a queue of demands: five bytes for the queue, then one byte and more for each call.

#[path = "../../rust/camlist/tests/common/mod.rs"]
mod common;

use camlist::ffi;
use common::{compare_admission, compare_demands, compare_run, compare_scalers, compare_start};
use common::{compare_step, compare_steps, Given, Record};
use reference::cases::by_hand::{answer, kind, ok};
use reference::cases::demands::{queue_of, Call};
use reference::cases::scalers::Way;
use reference::demands::{Demand, MOST, OVERFLOW};
use std::slice;

/// The bytes before the list.
const HEAD: usize = 6;

/// The bit of the third byte that says that the row stands as it is.
const RAW_ROW: u8 = 0x80;

/// More calls on a queue than these aren't made.
const MOST_CALLS: usize = 64;

/// Buffers of more bytes than these aren't made.
const MOST_BUFFER: u64 = 1 << 18;

/// Called by libFuzzer for each input.
///
/// # Safety
///
/// `data` has `size` bytes.
#[no_mangle]
pub unsafe extern "C" fn LLVMFuzzerTestOneInput(data: *const u8, size: usize) -> i32 {
    let input = if size == 0 {
        &[]
    } else {
        slice::from_raw_parts(data, size)
    };
    if let Some((head, rest)) = input.split_first_chunk::<HEAD>() {
        let [low, high, manner, taken, at, change] = *head;
        let length = usize::from(u16::from_le_bytes([low, high]));
        let (list, row) = rest.split_at(length.min(rest.len()));
        compare_conversions(row, usize::from(taken));
        compare_queue(row);
        let row = if manner & RAW_ROW == 0 {
            let replies = row.iter().enumerate();
            replies.flat_map(|(at, &byte)| reply(byte, at)).collect()
        } else {
            row.to_vec()
        };
        compare(list, manner, &row, usize::from(taken), (at, change));
    }
    0
}

fn compare_conversions(row: &[u8], shift: usize) {
    for way in Way::BOTH {
        let what = format_args!("{way:?} {row:02X?}");
        let (answer, after) = compare_scalers(way, row, shift, what);
        if answer[0] == 0 {
            let (_, again) = compare_scalers(way.back(), &after, shift, what);
            assert!(again == row, "not converted back: {what}");
        }
    }
}

/// A queue and calls on it. Its numbers go a little beyond their limits, and its cells hold any
/// bytes.
fn compare_queue(input: &[u8]) {
    let Some((&[a, b, c, d, mark], mut rest)) = input.split_first_chunk() else {
        return;
    };
    let cells: Vec<u8> = (0..2 * MOST).map(|at| (at / 3) as u8).collect();
    let first = usize::from(u16::from_le_bytes([a, b])) % (MOST + 2);
    let waiting = usize::from(u16::from_le_bytes([c, d])) % (MOST + 3);
    let mut queue = queue_of(&cells, first, waiting, false);
    queue[OVERFLOW] = mark % 3;
    for _ in 0..MOST_CALLS {
        let Some(call) = next_call(&mut rest) else {
            return;
        };
        let what = format_args!("{call:02X?} of {input:02X?}");
        (_, queue) = compare_demands(&call, &queue, what);
    }
}

/// The call at the front of an input: an add of two bytes, a row of as many bytes as the first
/// says, a row of many demands of one crate with one byte changed, a take or a clear.
fn next_call(input: &mut &[u8]) -> Option<Call> {
    let (&kind, rest) = input.split_first()?;
    let (call, rest) = match kind {
        0..=95 => {
            let (&demand, rest) = rest.split_first_chunk()?;
            (Call::Add(Demand::of(demand)), rest)
        }
        96..=143 => {
            let (row, rest) = rest.split_at_checked(usize::from(kind - 96))?;
            (Call::Row(row.to_vec()), rest)
        }
        144..=175 => {
            let (&[low, high, at, value], rest) = rest.split_first_chunk()?;
            let length = usize::from(u16::from_le_bytes([low, high])) % 5_000;
            let mut row = vec![kind - 143; length];
            if let Some(byte) = row.get_mut(20 * usize::from(at)) {
                *byte = value;
            }
            (Call::Row(row), rest)
        }
        176..=250 => (Call::Take, rest),
        _ => (Call::Clear, rest),
    };
    *input = rest;
    Some(call)
}

fn compare(list: &[u8], manner: u8, row: &[u8], taken: usize, change: (u8, u8)) {
    let [_, _, _, b, o] = ffi::admit(list, u64::MAX, u64::MAX);
    let incoming_len = buffer_length(b, manner & 7);
    let outgoing_len = buffer_length(o, manner >> 3 & 7);
    let what = format_args!("list {list:02X?}, row {row:02X?}, {taken}, {change:?}");
    compare_admission(list, u64::MAX, u64::MAX, what);
    compare_admission(list, incoming_len, outgoing_len, what);
    if incoming_len.max(outgoing_len) > MOST_BUFFER {
        return;
    }
    let incoming = vec![0xEE; incoming_len as usize];
    let outgoing: Vec<u8> = (0..outgoing_len).map(|at| at as u8).collect();
    compare_run(list, &incoming, &outgoing, row, what);
    let mut given = Given {
        list,
        record: [0x77; ffi::RECORD_NUMBERS],
        incoming: &incoming,
        outgoing: &outgoing,
    };
    compare_start(&given, what);
    let (before, after) = row.split_at(row.len().min(8 * taken));
    let mut reached = incoming.clone();
    let [_, _, _, record @ ..] = ffi::run(list, &mut reached, &outgoing, before);
    given.record = changed(record, change);
    given.incoming = &reached;
    compare_step(&given, &after[..after.len().min(8)], what);
    compare_steps(&given, after, what);
}

/// The record with one number changed: a little, by one bit, or altogether. Its number 13
/// and those after it change nothing.
fn changed(mut record: Record, (at, change): (u8, u8)) -> Record {
    if let Some(number) = record.get_mut(usize::from(at)) {
        *number = match change {
            0..=63 => *number ^ 1 << change,
            64..=127 => u64::from(change - 64),
            128..=191 => number.wrapping_add(u64::from(change - 127)),
            _ => number.wrapping_sub(u64::from(change - 191)),
        };
    }
    record
}

/// One byte short, exact, or a little longer.
fn buffer_length(needed: u64, manner: u8) -> u64 {
    match manner {
        0 => needed.saturating_sub(1),
        1..=4 => needed,
        _ => needed + u64::from(manner),
    }
}

/// The reply that a byte stands for: any answer, any other kind, or a clean answer.
fn reply(byte: u8, at: usize) -> [u8; 8] {
    let data = (at as u32 + 1).wrapping_mul(0x9E_3779);
    match byte {
        0..=63 => answer(byte, data),
        64..=67 => kind(byte - 63),
        _ => ok(data),
    }
}

/// An input for a list and a row as it stands, with buffers that fit and half of the row
/// before the record.
pub fn seed(list: &[u8], row: &[u8]) -> Vec<u8> {
    let [low, high] = (list.len() as u16).to_le_bytes();
    let half = (row.len() / 16).min(255) as u8;
    let head = [low, high, RAW_ROW | 1 | 1 << 3, half, 13, 0];
    [&head, list, row].concat()
}

/// The same with one byte for each reply of the row, which is well formed.
pub fn short_seed(list: &[u8], row: &[u8]) -> Vec<u8> {
    let byte = |reply: &[u8]| match reply[0] {
        0 => reply[1],
        kind => 63 + kind,
    };
    let bytes: Vec<u8> = row.chunks(8).map(byte).collect();
    let mut input = seed(list, &bytes);
    input[2] &= !RAW_ROW;
    input[3] = (bytes.len() / 2).min(255) as u8;
    input
}
