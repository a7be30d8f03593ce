//! Queues of demands (document 02's E2), the proved calls beside those of the separate build.
//! Every queue lies between fences, and a refused call must keep every byte.

#![cfg(library)]

mod common;
#[path = "common/fed.rs"]
mod fed;
#[path = "common/program.rs"]
mod program;
#[path = "common/seed.rs"]
mod seed;

use camlist::{Demand, Demands, Queued, Reason, Refusal, Taken};
use common::{compare_demands, hex, PROVED};
use fed::printed;
use program::program;
use reference::cases::coverage::Coverage;
use reference::cases::demands::{empty, lists, queue, queue_of, row};
use reference::cases::demands::{Call, Ledger, Numbers, BAD_CRATES};
use reference::cases::paper;
use reference::cases::rng::Rng;
use reference::demands::{self, FIRST, MOST, QUEUE_BYTES, WAITING};

/// Debug builds make shorter lists and look at fewer numbers.
const CALLS: u64 = if cfg!(debug_assertions) {
    2_000
} else {
    60_000
};
const STRIDE: usize = if cfg!(debug_assertions) { 37 } else { 1 };

const FIXED_SEED: u64 = 91;

const REFUSED: Numbers = [25, 0, 0, 0, 0, 0, 0];

/// A call on a queue whose limits hold or don't: refused exactly if they don't.
fn compare_limits(call: &Call, queue: &[u8], within: bool) {
    let (length, last) = (queue.len(), queue.last_chunk::<5>());
    let what = format_args!("{call:?}, {length} bytes, {last:?} behind the cells");
    let (answer, _) = compare_demands(call, queue, what);
    if within {
        assert_eq!(answer[..2], [0, 0], "{what}");
    } else {
        assert_eq!(answer, REFUSED, "{what}");
    }
}

/// Every value of each byte behind the cells.
#[test]
fn every_header_byte() {
    let mut rng = Rng::new(FIXED_SEED);
    for at in FIRST..QUEUE_BYTES {
        for value in 0..=255 {
            let mut queue = queue(&mut rng);
            queue[at] = value;
            let within = demands::waiting(&queue).is_ok();
            for call in Call::each() {
                compare_limits(&call, &queue, within);
            }
        }
    }
}

/// Every number of the first cell, and every number that wait.
#[test]
fn every_number() {
    let mut rng = Rng::new(FIXED_SEED);
    let given = queue_of(&rng.bytes(2 * MOST), 2_000, 100, true);
    for (at, most) in [(FIRST, MOST - 1), (WAITING, MOST)] {
        for number in (0..1 << 16).step_by(STRIDE) {
            let mut queue = given.clone();
            queue[at..at + 2].copy_from_slice(&(number as u16).to_le_bytes());
            for call in Call::each() {
                compare_limits(&call, &queue, number <= most);
            }
        }
    }
}

/// Queues that are too short and too long, also where what lies behind would make them good.
#[test]
fn every_length() {
    let given = [0; 5_000];
    for length in 0..given.len() {
        for call in Call::each() {
            let within = length == QUEUE_BYTES;
            compare_limits(&call, &given[..length], within);
            let mut buffer = given;
            let answer = PROVED.make(&call, &mut buffer[..length]);
            assert_eq!(answer == REFUSED, !within, "{call:?}, {length} bytes");
            assert!(within || buffer == given, "{call:?}, {length} bytes");
        }
    }
}

/// Every crate with every SGL, by add and by a row of one.
#[test]
fn every_demand() {
    let mut rng = Rng::new(FIXED_SEED);
    let cells = rng.bytes(2 * MOST);
    for number in (0..1 << 16).step_by(STRIDE) {
        let demand = u16::to_le_bytes(number as u16);
        let accepted = (1..=62).contains(&demand[0]);
        let queue = queue_of(&cells, number % MOST, number % 3, number % 2 == 0);
        let calls = [
            Call::Add(demands::Demand::of(demand)),
            Call::Row(demand.to_vec()),
        ];
        for call in calls {
            let what = format_args!("{call:?}");
            let (answer, after) = compare_demands(&call, &queue, what);
            assert_eq!(answer == REFUSED, !accepted, "{what}");
            if accepted {
                let waiting = demands::waiting(&after).expect("a queue");
                let last = waiting.last().expect("a demand");
                assert_eq!(last.bytes(), demand, "{what}");
            }
        }
    }
}

/// Every crate at every place of short rows.
#[test]
fn every_crate_everywhere() {
    let mut rng = Rng::new(FIXED_SEED);
    let given = queue_of(&[0xEE; 2 * MOST], MOST - 20, 3, false);
    for demands in 1..=40 {
        let good = row(&mut rng, demands);
        for (at, value) in (0..demands).flat_map(|at| (0..=255).map(move |value| (at, value))) {
            let mut row = good.clone();
            row[2 * at] = value;
            let what = format_args!("{row:02X?}");
            let (answer, _) = compare_demands(&Call::Row(row.clone()), &given, what);
            let accepted = (1..=62).contains(&value);
            assert_eq!(answer == REFUSED, !accepted, "{what}");
        }
    }
}

/// A bad crate at every place of a row that has more demands than a queue keeps, into queues
/// empty and full.
#[test]
fn long_rows() {
    let mut rng = Rng::new(FIXED_SEED);
    let good = row(&mut rng, 2_500);
    let cells = rng.bytes(2 * MOST);
    for at in (0..2_500).step_by(STRIDE) {
        for (bad, waiting) in BAD_CRATES
            .into_iter()
            .flat_map(|bad| [(bad, 0), (bad, MOST)])
        {
            let mut row = good.clone();
            row[2 * at] = bad;
            let queue = queue_of(&cells, at % MOST, waiting, false);
            let what = format_args!("{bad} at {at}, {waiting}");
            let (answer, _) = compare_demands(&Call::Row(row), &queue, what);
            assert_eq!(answer, REFUSED, "{what}");
        }
    }
}

/// Rows of every length, odd ones too, into queues empty, half full and full.
#[test]
fn every_row_length() {
    let mut rng = Rng::new(FIXED_SEED);
    for length in (0..5_000).step_by(1 + STRIDE / 2) {
        let mut row = row(&mut rng, 2_500);
        row.truncate(length);
        let first = rng.index(MOST);
        for waiting in [0, 1_000, MOST - 1, MOST] {
            let queue = queue_of(&rng.bytes(2 * MOST), first, waiting, false);
            let what = format_args!("{length} bytes, {first}, {waiting}");
            let (answer, _) = compare_demands(&Call::Row(row.clone()), &queue, what);
            let after = (waiting + length / 2).min(MOST) as u64;
            let dropped = u64::from(waiting + length / 2 > MOST);
            let expected = match length % 2 {
                0 => [0, 0, after, dropped, 0, 0, 0],
                _ => REFUSED,
            };
            assert_eq!(answer, expected, "{what}");
        }
    }
}

/// From every first cell on, with none waiting, with some up to the last cell and behind it, and
/// with the last places taken: each call, and rows about as long as the room.
#[test]
fn every_first_cell() {
    let mut rng = Rng::new(FIXED_SEED);
    for first in (0..MOST).step_by(STRIDE) {
        let cells = rng.bytes(2 * MOST);
        let to_last = MOST - first;
        for waiting in [0, 1, to_last - 1, to_last, to_last + 1, MOST - 1, MOST] {
            let waiting = waiting.min(MOST);
            let queue = queue_of(&cells, first, waiting, rng.coin());
            let room = MOST - waiting;
            let rows = [0, 3, room.saturating_sub(1), room, room + 1];
            let rows = rows.map(|demands| Call::Row(row(&mut rng, demands)));
            for call in Call::each().into_iter().chain(rows) {
                let what = format_args!("{first}, {waiting}, {call:?}");
                let (answer, _) = compare_demands(&call, &queue, what);
                assert_eq!(answer[..2], [0, 0], "{what}");
            }
        }
    }
}

/// A call by the types, which must say what the numbers say.
fn compare_types(call: &Call, before: &[u8], answer: &Numbers, after: &[u8]) {
    let Ok(bytes) = before.try_into() else {
        return;
    };
    let mut demands = Demands::from_bytes(bytes);
    let none = |queued| Taken {
        demand: None,
        queued,
    };
    let result = match call {
        Call::Add(demand) => {
            let demands::Demand { crate_number, sgl } = *demand;
            demands.add(Demand { crate_number, sgl }).map(none)
        }
        Call::Row(row) => demands.add_row(row).map(none),
        Call::Take => demands.take(),
        Call::Clear => demands.clear().map(none),
    };
    assert!(demands.bytes()[..] == *after);
    let numbers = match result {
        Ok(Taken { demand, queued }) => {
            let Queued { waiting, overflow } = queued;
            let taken = demand.map_or([0; 3], |one| [1, one.crate_number, one.sgl]);
            let [found, crate_number, sgl] = taken.map(u64::from);
            let overflow = u64::from(overflow);
            [0, 0, waiting as u64, overflow, found, crate_number, sgl]
        }
        Err(Refusal { reason, place }) => [reason.number(), place as u64, 0, 0, 0, 0, 0],
    };
    assert_eq!(numbers, *answer);
}

/// Lists of calls: each call, the law over the lists from empty, and each call on queues beyond
/// a limit.
fn lists_of_calls(seed: u64) {
    let mut coverage = Coverage::of_demands();
    for (number, mut list) in lists(seed, CALLS).enumerate() {
        let (mut ledger, mut at) = (Ledger::default(), 0);
        while let Some(call) = list.next_call() {
            at += 1;
            let what = format_args!("call {at} of list {number} of {seed}, {call:?}");
            coverage.observe_demands(&call, &list.queue);
            let (answer, after) = compare_demands(&call, &list.queue, what);
            if at < 2_000 {
                compare_types(&call, &list.queue, &answer, &after);
            }
            if list.from_empty {
                ledger.note(&call, &list.queue, &answer);
            } else {
                let broken = list.broken();
                coverage.observe_demands(&call, &broken);
                let (answer, after) = compare_demands(&call, &broken, what);
                assert_eq!(answer, REFUSED, "{what}");
                compare_types(&call, &broken, &answer, &after);
            }
            list.queue = after;
        }
        if list.from_empty {
            ledger.check(&list.queue);
        }
    }
    let missing = coverage.missing();
    let table = coverage.table();
    assert!(missing.is_empty(), "never met: {missing:?}\n{table}");
}

#[test]
fn fixed_seed() {
    lists_of_calls(FIXED_SEED);
}

#[test]
fn fresh_seed() {
    lists_of_calls(seed::fresh(CALLS, "calls on a queue in each long list"));
}

/// A number by which queues are told apart, as the C program has it.
fn sum(queue: &[u8]) -> u32 {
    let add = |sum: u32, byte: &u8| (sum ^ u32::from(*byte)).wrapping_mul(16_777_619);
    queue.iter().fold(2_166_136_261, add)
}

/// What the C program takes and prints.
#[derive(Default)]
struct Lines {
    input: String,
    printed: String,
}

impl Lines {
    /// Begins with an empty queue.
    fn begin(&mut self) {
        self.input += "empty -\n";
    }

    /// Makes a call on a queue, and puts its lines down.
    fn call(&mut self, call: &Call, queue: &mut Vec<u8>) {
        let (answer, after) = compare_demands(call, queue, format_args!("{call:?}"));
        let word = format!("{:?}", call.entry()).to_lowercase();
        self.input += &format!("{word} {}\n", hex(&call.row()));
        self.printed += &paper::result(call, &answer, &after);
        if answer[0] != 0 {
            self.printed += &format!(" ({})", Reason::Demand);
        }
        self.printed += &format!(", {:08X}\n", sum(&after));
        *queue = after;
    }
}

/// The worked examples and lists of calls from empty by a program in C.
#[test]
fn calls_from_c() {
    let mut lines = Lines::default();
    for known in paper::demands() {
        for calls in paper::FILLS.map(|fill| known.calls(fill).concat()) {
            lines.begin();
            let mut queue = empty();
            for call in calls {
                lines.call(&call, &mut queue);
            }
        }
    }
    for mut list in lists(FIXED_SEED, 3_000).take_while(|list| list.from_empty) {
        lines.begin();
        while let Some(call) = list.next_call() {
            lines.call(&call, &mut list.queue);
        }
    }
    let printed = printed(program("demands", &[]), lines.input.into_bytes());
    for (number, (printed, expected)) in printed.lines().zip(lines.printed.lines()).enumerate() {
        assert_eq!(printed, expected, "line {number}");
    }
    assert_eq!(printed.len(), lines.printed.len());
}
