//! Queues of demands (document 02, E2): the law over long lists of calls, rows against single
//! demands, refusals, and the plain queues against these.

use reference::cases::coverage::Coverage;
use reference::cases::demands::{empty, lists, queue, queue_of, row};
use reference::cases::demands::{Call, Ledger, Limit, BAD_CRATES, SEPARATE};
use reference::cases::rng::Rng;
use reference::demands::{add, add_row, clear, number, take, waiting};
use reference::demands::{Demand, Queued, MOST, OVERFLOW, QUEUE_BYTES, WAITING};
use reference::{plain, Refusal};

/// Debug builds make shorter lists.
const CALLS: u64 = if cfg!(debug_assertions) {
    2_000
} else {
    20_000
};

const SEED: u64 = 81;

const REFUSED: Refusal = Refusal {
    number: 25,
    place: 0,
};

/// A call by the plain queues, which must answer and leave what the others do.
fn compare_plain(call: &Call, given: &[u8]) {
    let (mut queue, mut expected) = (given.to_vec(), given.to_vec());
    match call {
        Call::Add(demand) => assert_eq!(
            plain::demands::add(&mut queue, *demand),
            add(&mut expected, *demand)
        ),
        Call::Row(row) => assert_eq!(
            plain::demands::add_row(&mut queue, row),
            add_row(&mut expected, row)
        ),
        Call::Take => assert_eq!(plain::demands::take(&mut queue), take(&mut expected)),
        Call::Clear => assert_eq!(plain::demands::clear(&mut queue), clear(&mut expected)),
    }
    assert!(queue == expected, "{call:?}");
}

/// "For every list of add, add-row, take and clear from empty" the law holds.
#[test]
fn lists_of_calls() {
    let mut coverage = Coverage::of_demands();
    for mut list in lists(SEED, CALLS) {
        let mut ledger = Ledger::default();
        while let Some(call) = list.next_call() {
            coverage.observe_demands(&call, &list.queue);
            compare_plain(&call, &list.queue);
            let before = list.queue.clone();
            let answer = SEPARATE.make(&call, &mut list.queue);
            assert!(answer[0] == 0 || list.queue == before, "refused, changed");
            if list.from_empty {
                ledger.note(&call, &before, &answer);
            } else {
                let broken = list.broken();
                coverage.observe_demands(&call, &broken);
                assert_refused(&call, &broken);
            }
        }
        if list.from_empty {
            ledger.check(&list.queue);
        }
    }
    println!("{}", coverage.table());
    assert_eq!(coverage.missing(), []);
}

/// "A row that is accepted must leave what adding its demands singly leaves, overflow included."
#[test]
fn rows_and_single_demands() {
    let mut rng = Rng::new(SEED);
    for _ in 0..CALLS / 100 {
        let given = queue(&mut rng);
        let room = MOST - number(&given, WAITING);
        let any = rng.index(2 * MOST);
        let demands = rng.pick(&[room, room + 1, any]);
        let row = row(&mut rng, demands);
        let (mut by_row, mut singly) = (given.clone(), given);
        let answer = add_row(&mut by_row, &row).expect("a good row");
        let mut last = add_row(&mut singly, &[]).expect("an empty row");
        for &demand in row.as_chunks().0 {
            last = add(&mut singly, Demand::of(demand)).expect("a good demand");
        }
        assert_eq!(answer, last);
        assert!(by_row == singly);
    }
}

/// Demands come out in the order in which they came, round the cells from each of them on.
#[test]
fn every_first_cell() {
    for first in 0..MOST {
        let mut given = queue_of(&[0xEE; 2 * MOST], first, 0, false);
        let three = [
            Demand::of([1, 10]),
            Demand::of([2, 20]),
            Demand::of([3, 30]),
        ];
        for demand in three {
            add(&mut given, demand).expect("a good demand");
        }
        assert_eq!(waiting(&given), Ok(three.to_vec()));
        for (number, demand) in three.into_iter().enumerate() {
            let queued = Queued {
                waiting: 2 - number,
                overflow: false,
            };
            assert_eq!(take(&mut given), Ok((Some(demand), queued)));
        }
        let mut cells = [0xEE; 2 * MOST];
        for (number, demand) in three.into_iter().enumerate() {
            let cell = 2 * ((first + number) % MOST);
            cells[cell..cell + 2].copy_from_slice(&demand.bytes());
        }
        assert!(given == queue_of(&cells, (first + 3) % MOST, 0, false));
    }
}

/// "which only the clear call takes off; clear also empties".
#[test]
fn the_mark() {
    let mut given = empty();
    let full = |overflow| Queued {
        waiting: MOST,
        overflow,
    };
    let one = Demand::of([1, 0]);
    assert_eq!(add_row(&mut given, &[1, 0].repeat(MOST)), Ok(full(false)));
    assert_eq!(add(&mut given, Demand::of([63, 0])), Err(REFUSED));
    assert_eq!(add_row(&mut given, &[]), Ok(full(false)));
    assert_eq!(add(&mut given, one), Ok(full(true)));
    assert_eq!(take(&mut given).expect("one").0, Some(one));
    assert_eq!(add(&mut given, one), Ok(full(true)));
    let none = Queued {
        waiting: 0,
        overflow: false,
    };
    assert_eq!(clear(&mut given), Ok(none));
    assert_eq!(take(&mut given), Ok((None, none)));
    assert_eq!(given[OVERFLOW], 0);
}

/// "25 for a queue handed in that breaks its layout's limits, a demand whose crate isn't 1 to
/// 62, or a row of odd length"; "a call so refused changes neither queue nor mark."
#[test]
fn refusals() {
    let mut rng = Rng::new(SEED);
    for _ in 0..50 {
        let given = queue(&mut rng);
        assert_eq!(given.len(), QUEUE_BYTES);
        let broken = Limit::ALL.map(|limit| limit.broken(&given));
        let all = broken
            .iter()
            .flat_map(|queue| Call::each().map(|call| (queue, call)));
        for (queue, call) in all {
            assert_refused(&call, queue);
        }
        for bad in BAD_CRATES {
            assert_refused(&Call::Add(Demand::of([bad, 1])), &given);
            let mut row = row(&mut rng, MOST + 3);
            row.extend([bad, 1, 1, 1]);
            assert_refused(&Call::Row(row), &given);
        }
        assert_refused(&Call::Row(vec![1, 1, 1]), &given);
    }
}

fn assert_refused(call: &Call, given: &[u8]) {
    let mut queue = given.to_vec();
    let answer = SEPARATE.make(call, &mut queue);
    assert_eq!(answer, [25, 0, 0, 0, 0, 0, 0], "{call:?}");
    assert!(queue == given, "{call:?}");
    compare_plain(call, given);
}
