//! Writes libFuzzer's first inputs to the folder that it is given.

use fuzz::{seed, short_seed};
use reference::cases::rng::Rng;
use reference::cases::scalers::{row, Way};
use reference::cases::{case, paper};
use std::path::PathBuf;
use std::{env, fs};

const RANDOM_CASES: u64 = 2_000;
const RANDOM_ROWS: u64 = 200;
const RANDOM_QUEUES: u64 = 200;
/// Longer inputs are left to the tests.
const MOST_BYTES: usize = 4_096;

fn main() {
    let folder = PathBuf::from(env::args().nth(1).expect("a folder"));
    fs::create_dir_all(&folder).expect("a folder that can be made");
    let papers = [paper::document_01(), paper::document_02(), paper::manual()];
    let known = papers.into_iter().flatten();
    let known = known.map(|known| (known.list, known.row));
    let random = (0..RANDOM_CASES).map(|number| case(1, number));
    let random = random.map(|case| (case.list, case.row));
    for (number, (list, row)) in known.chain(random).enumerate() {
        let mut inputs = vec![("raw", seed(&list, &row))];
        if reference::reply::read_row(&row).is_some() {
            inputs.push(("short", short_seed(&list, &row)));
        }
        for (manner, input) in inputs {
            if input.len() <= MOST_BYTES {
                fs::write(folder.join(format!("{number}-{manner}")), input).expect("a file");
            }
        }
    }
    for (number, row) in scalers().enumerate() {
        let input = seed(&[], &row);
        fs::write(folder.join(format!("{number}-scalers")), input).expect("a file");
    }
    for (number, calls) in demands().enumerate() {
        let input = seed(&[], &calls);
        fs::write(folder.join(format!("{number}-demands")), input).expect("a file");
    }
}

/// Queues of demands and calls on them; every second queue is empty, and its first call brings
/// 2,047 demands.
fn demands() -> impl Iterator<Item = Vec<u8>> {
    (0..RANDOM_QUEUES).map(|number| {
        let mut rng = Rng::of_case(2, number);
        let length = 5 + rng.index(200);
        let mut input = rng.bytes(length);
        if number % 2 == 0 {
            input[..5].copy_from_slice(&[0, 0, 0, 0, 0]);
            input.splice(5..5, full_row());
        }
        input
    })
}

/// The call of that row, all of crate 1.
fn full_row() -> [u8; 5] {
    let [low, high] = u16::to_le_bytes(4_094);
    [144, low, high, 0, 1]
}

/// Rows of scalers.
fn scalers() -> impl Iterator<Item = Vec<u8>> {
    let known = paper::rows().into_iter().map(|known| known.row);
    let random = (0..RANDOM_ROWS).map(|number| {
        let way = Way::BOTH[number as usize % 2];
        row(&mut Rng::of_case(1, number), way)
    });
    known.chain(random)
}
