//! Every row of some replies, up to its run's end, for every small list of a family.

#![cfg(library)]

mod common;
#[path = "common/family.rs"]
mod family;

use common::{compare_admission, compare_run};
use family::{family, Small};
use reference::cases::by_hand::{answer, answers, double, kind, ok, one, single};
use reference::cases::by_hand::{DERR, ERR, LPE, Q, TPE, X};
use reference::cases::coverage::Coverage;
use reference::walk::{admission, Admitted};
use reference::{reply, Record};

/// As long as a run of the family can be: three words of three tries. Debug builds look at
/// shorter rows.
const DEPTH: usize = if cfg!(debug_assertions) { 3 } else { 9 };

/// What the runs met.
struct Met {
    compared: u64,
    coverage: Coverage,
}

/// The runs of one list, compared row by row.
struct Runs<'a> {
    list: &'a [u8],
    admitted: Admitted,
    incoming: Vec<u8>,
    outgoing: Vec<u8>,
    letters: &'a [[u8; 8]],
    met: &'a mut Met,
}

impl Runs<'_> {
    /// Compares the run over a row and, unless it ends there, over every longer row of up
    /// to `depth` more letters. `before` is the record before the row's last letter.
    fn compare(&mut self, row: &mut Vec<u8>, before: Option<&Record>, depth: usize) {
        let (list, incoming, outgoing) = (self.list, &self.incoming, &self.outgoing);
        let what = format_args!("list {list:02X?}, row {row:02X?}");
        let [_, _, _, numbers @ ..] = compare_run(list, incoming, outgoing, row, what);
        let record = Record::from_numbers(&numbers).expect("a record");
        self.met.compared += 1;
        if let (Some(before), Some(letter)) = (before, row.last_chunk::<8>()) {
            let letter = reply::read(letter).expect("well formed");
            let coverage = &mut self.met.coverage;
            coverage.observe_operation(&self.admitted, before, &letter, &record);
        }
        if record.ended || depth == 0 {
            return;
        }
        let length = row.len();
        for letter in self.letters {
            row.extend(letter);
            if letter[0] == 0 {
                // Each answer brings other data.
                row[length + 4..length + 7].copy_from_slice(&[length as u8, 0xA5, 0x5A]);
            }
            self.compare(row, Some(&record), depth - 1);
            row.truncate(length);
        }
    }
}

/// Compares every list of the family, and the scans that leave, over every row of these
/// letters; lists refused count none. All events of the counters must be met.
fn compare_family(letters: &[[u8; 8]], depth: usize, coverage: Coverage) {
    let mut met = Met {
        compared: 0,
        coverage,
    };
    let behind = |Small { list, before }| (list, ok(0x12_3456).repeat(before));
    for (list, mut row) in family().into_iter().map(behind).chain(leaving()) {
        let [number, _, _, b, o] = camlist::ffi::admit(&list, u64::MAX, u64::MAX);
        for (b, o) in [(b, o), (b.saturating_sub(1), o), (b, o.saturating_sub(1))] {
            compare_admission(&list, b, o, format_args!("list {list:02X?}"));
        }
        if number != 0 {
            continue;
        }
        let mut runs = Runs {
            list: &list,
            admitted: admission(&list, b, o).expect("admitted"),
            incoming: vec![0xEE; b as usize],
            outgoing: (1..=o as u8).collect(),
            letters,
            met: &mut met,
        };
        runs.compare(&mut row, None, depth);
    }
    println!("{} runs", met.compared);
    assert!(met.compared > 10_000);
    let table = met.coverage.table();
    println!("{table}");
    assert_eq!(met.coverage.missing(), [], "never met:\n{table}");
}

/// Scans of 17 words from 22/15 that missed the first and stand at 23/15, two words left: the
/// next word is stored with code 9. Behind a 16-bit word of the same direction, and without.
fn leaving() -> Vec<(Vec<u8>, Vec<u8>)> {
    let mut lists = Vec::new();
    for bits in 0..8 {
        let (low, function) = (bits & 3, if bits < 4 { 2 } else { 16 });
        let first = 22 << 25 | 15 << 21 | function << 16 | 5 << 8 | 1 << 5 | 3 << 3 | low;
        let halfwords: u32 = if low & 2 == 0 { 34 } else { 17 };
        let scan = double(first, halfwords.wrapping_neg());
        let before = single(0x0200_0102 | function << 16);
        let missed = [answers(&[X]), ok(0x12_3456).repeat(15)].concat();
        lists.push((one(&scan), missed.clone()));
        lists.push((one(&(before + &scan)), [ok(1).to_vec(), missed].concat()));
    }
    lists
}

/// Rows of a few telling replies: ERR where it ends a run with AD = 0, and beside X = 0.
#[test]
fn long_rows_of_few_replies() {
    let answers = [Q | X, X, Q, ERR, Q | X | TPE, X | LPE, Q | X | ERR | DERR];
    let mut letters: Vec<_> = answers.map(|flags| answer(flags, 0)).to_vec();
    letters.extend([1, 2, 3].map(kind));
    compare_family(&letters, DEPTH, Coverage::of_long_rows());
}

/// Rows of any two replies.
#[test]
fn short_rows_of_all_replies() {
    let mut letters: Vec<_> = (0..64).map(|flags| answer(flags, 0)).collect();
    letters.extend([1, 2, 3].map(kind));
    compare_family(&letters, 2, Coverage::of_short_rows());
}
