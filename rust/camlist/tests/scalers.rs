//! Decimal scalers (document 02's E10), the proved conversions beside those of the separate
//! build. Every row lies between fences, and a refused one must keep every byte.

#![cfg(library)]

mod common;
#[path = "common/fed.rs"]
mod fed;
#[path = "common/program.rs"]
mod program;
#[path = "common/seed.rs"]
mod seed;

use camlist::{ffi, scalers, Reason, Refusal};
use common::{compare_scalers, convert, hex};
use fed::printed;
use program::program;
use reference::cases::coverage::Coverage;
use reference::cases::paper;
use reference::cases::rng::Rng;
use reference::cases::scalers::{bytes, row, Way, TOPS, VALUES};

/// Debug builds look at fewer cases.
const CASES: u64 = if cfg!(debug_assertions) {
    10_000
} else {
    200_000
};
const STRIDE: usize = if cfg!(debug_assertions) { 89 } else { 1 };

const FIXED_SEED: u64 = 90;

/// Rows of every length up to this one.
const MOST_LONGWORDS: usize = 70;

/// Longwords that pass.
fn passing(rng: &mut Rng, way: Way, length: usize) -> Vec<u32> {
    (0..length).map(|_| way.passing(rng)).collect()
}

/// Every value in one row, with each of bits 31 and 30, there and back.
#[test]
fn every_value() {
    for way in Way::BOTH {
        for top in TOPS {
            let values = (0..VALUES).map(|value| top | way.with_value(value));
            let row = bytes(&values.collect::<Vec<u32>>());
            let what = format_args!("{way:?}, {top:08X}");
            let (answer, after) = compare_scalers(way, &row, 1, what);
            assert_eq!(answer, [0, 0], "{what}");
            let (answer, again) = compare_scalers(way.back(), &after, 2, what);
            assert_eq!(answer, [0, 0], "{what}");
            assert!(again == row, "{what}");
        }
    }
}

fn call(way: Way, longwords: &mut [[u8; 4]]) -> [u64; ffi::SCALERS_NUMBERS] {
    convert(way, longwords.as_flattened_mut())
}

const FENCE: [u8; 4] = [0xC5; 4];

/// A longword alone in a row.
fn compare_alone(way: Way, longword: u32) {
    let (given, expected) = (longword.to_le_bytes(), way.converted(longword));
    let mut fenced = [FENCE, given, FENCE];
    let answer = call(way, &mut fenced[1..2]);
    let left = expected.map_or(given, u32::to_le_bytes);
    assert_eq!(fenced, [FENCE, left, FENCE], "{way:?} {longword:08X}");
    let number = if expected.is_some() { 0 } else { 32 };
    assert_eq!(answer, [number, 0], "{way:?} {longword:08X}");
}

/// Longwords that pass, between fences, and what they are afterwards.
struct Others {
    way: Way,
    before: [[u8; 4]; OTHERS + 2],
    after: [[u8; 4]; OTHERS + 2],
}

const OTHERS: usize = 19;

impl Others {
    fn of(way: Way) -> Others {
        let mut rng = Rng::new(FIXED_SEED);
        let (mut before, mut after) = ([FENCE; OTHERS + 2], [FENCE; OTHERS + 2]);
        for at in 1..=OTHERS {
            let longword = way.passing(&mut rng);
            let converted = way.converted(longword).expect("it passes");
            (before[at], after[at]) = (longword.to_le_bytes(), converted.to_le_bytes());
        }
        Others { way, before, after }
    }

    /// A longword at some place among these.
    fn compare(&self, longword: u32, at: usize) {
        let mut fenced = self.before;
        fenced[1 + at] = longword.to_le_bytes();
        let (mut left, mut expected) = (fenced, [32, 4 * at as u64]);
        if let Some(converted) = self.way.converted(longword) {
            (left, expected) = (self.after, [0, 0]);
            left[1 + at] = converted.to_le_bytes();
        }
        let answer = call(self.way, &mut fenced[1..=OTHERS]);
        assert_eq!(answer, expected, "{:?} {longword:08X} at {at}", self.way);
        assert!(fenced == left, "{:?} {longword:08X} at {at}", self.way);
    }
}

/// Any 24 bits: alone with each of bits 31 and 30, and with one of these at some place of a row.
fn every_24_bits(way: Way) {
    let others = Others::of(way);
    for data in (0..1 << 24).step_by(STRIDE) {
        for top in TOPS {
            compare_alone(way, top | data);
        }
        let at = data as usize % OTHERS;
        others.compare(TOPS[at % 4] | data, at);
    }
}

#[test]
fn every_24_bits_to_binary() {
    every_24_bits(Way::ToBinary);
}

#[test]
fn every_24_bits_to_decimal() {
    every_24_bits(Way::ToDecimal);
}

/// Every top byte over data that passes and data that doesn't, at the first, a middle and the
/// last place.
#[test]
fn every_top_byte() {
    let mut rng = Rng::new(FIXED_SEED);
    for way in Way::BOTH {
        let edges = [0, 1, 9, 10, 123_456, 500_000, 999_999].map(|value| way.with_value(value));
        let mut lows = edges.to_vec();
        lows.extend(way.spoilt(0).iter().map(|longword| longword & 0xFF_FFFF));
        for longword in (0..=0xFF).flat_map(|top| lows.iter().map(move |low| top << 24 | low)) {
            for (at, length) in [(0, 1), (0, 9), (4, 9), (8, 9)] {
                let mut longwords = passing(&mut rng, way, length);
                longwords[at] = longword;
                let what = format_args!("{way:?} {longwords:08X?}");
                let (answer, after) = compare_scalers(way, &bytes(&longwords), at, what);
                match way.converted(longword) {
                    Some(_) => assert_eq!(after[4 * at + 3], (longword >> 24) as u8, "{what}"),
                    None => assert_eq!(answer, [32, 4 * at as u64], "{what}"),
                }
            }
        }
    }
}

/// Rows that pass, of every length and at every address modulo 8, there and back.
#[test]
fn every_length_and_address() {
    let mut rng = Rng::new(FIXED_SEED);
    for way in Way::BOTH {
        for length in 0..=MOST_LONGWORDS {
            let row = bytes(&passing(&mut rng, way, length));
            for shift in 0..8 {
                let what = format_args!("{way:?} {row:02X?} at {shift}");
                let (answer, after) = compare_scalers(way, &row, shift, what);
                assert_eq!(answer, [0, 0], "{what}");
                let (answer, again) = compare_scalers(way.back(), &after, shift, what);
                assert_eq!((answer, &again), ([0, 0], &row), "{what}");
                assert_eq!(one_by_one(way, &row), after, "{what}");
            }
        }
    }
}

/// A row by a call for each longword.
fn one_by_one(way: Way, row: &[u8]) -> Vec<u8> {
    let mut row = row.to_vec();
    for longword in row.chunks_mut(4) {
        assert_eq!(convert(way, longword), [0, 0]);
    }
    row
}

/// Each fault at each place of rows of every length.
#[test]
fn one_fault_everywhere() {
    let mut rng = Rng::new(FIXED_SEED);
    for way in Way::BOTH {
        for length in 1..=MOST_LONGWORDS {
            let mut longwords = passing(&mut rng, way, length);
            for at in 0..length {
                let passing = longwords[at];
                for spoilt in way.spoilt(passing) {
                    longwords[at] = spoilt;
                    let what = format_args!("{way:?} {longwords:08X?}");
                    let (answer, _) = compare_scalers(way, &bytes(&longwords), at, what);
                    assert_eq!(answer, [32, 4 * at as u64], "{what}");
                }
                longwords[at] = passing;
            }
        }
    }
}

/// Two faults at any two places: the first counts.
#[test]
fn two_faults_everywhere() {
    let mut rng = Rng::new(FIXED_SEED);
    for way in Way::BOTH {
        for length in [2, 3, 8, 9, 17, 33, MOST_LONGWORDS] {
            let longwords = passing(&mut rng, way, length);
            for (first, second) in pairs(length) {
                let mut longwords = longwords.clone();
                for at in [first, second] {
                    longwords[at] = rng.pick(&way.spoilt(longwords[at]));
                }
                let what = format_args!("{way:?} {longwords:08X?}");
                let (answer, _) = compare_scalers(way, &bytes(&longwords), second, what);
                assert_eq!(answer, [32, 4 * first as u64], "{what}");
            }
        }
    }
}

fn pairs(length: usize) -> impl Iterator<Item = (usize, usize)> {
    (0..length).flat_map(move |first| (first + 1..length).map(move |second| (first, second)))
}

/// Rows that aren't whole longwords, with faults and without.
#[test]
fn every_part_of_a_longword() {
    let mut rng = Rng::new(FIXED_SEED);
    for way in Way::BOTH {
        let spoilt = way.spoilt(0);
        for length in (0..4 * MOST_LONGWORDS).filter(|length| length % 4 != 0) {
            let longwords = passing(&mut rng, way, MOST_LONGWORDS);
            let mut faulty = longwords.clone();
            faulty[rng.index(1 + length / 4)] = rng.pick(&spoilt);
            for row in [&bytes(&longwords), &bytes(&faulty), &vec![0xFF; length]] {
                let what = format_args!("{way:?} {row:02X?} up to {length}");
                let (answer, _) = compare_scalers(way, &row[..length], length, what);
                assert_eq!(answer, [31, 0], "{what}");
            }
        }
    }
}

/// A row as long as the largest block of 24-bit words, with a fault here and there.
#[test]
fn long_rows() {
    let mut rng = Rng::new(FIXED_SEED);
    for way in Way::BOTH {
        let longwords = passing(&mut rng, way, 32_768);
        let row = bytes(&longwords);
        for at in (0..longwords.len()).step_by(997).chain([32_767]) {
            let mut row = row.clone();
            let spoilt = rng.pick(&way.spoilt(longwords[at]));
            row[4 * at..4 * at + 4].copy_from_slice(&spoilt.to_le_bytes());
            let what = format_args!("{way:?}, {spoilt:08X} at {at}");
            let (answer, _) = compare_scalers(way, &row, at, what);
            assert_eq!(answer, [32, 4 * at as u64], "{what}");
        }
    }
}

/// The reason has the refusal's number, and its text the place where there is one.
fn compare_types(way: Way, row: &[u8], answer: [u64; 2], after: &[u8]) {
    let mut converted = row.to_vec();
    let result = match way {
        Way::ToBinary => scalers::to_binary(&mut converted),
        Way::ToDecimal => scalers::to_decimal(&mut converted),
    };
    assert_eq!(converted, after);
    let Err(refusal @ Refusal { reason, place }) = result else {
        return assert_eq!(answer, [0, 0]);
    };
    assert_eq!([reason.number(), place as u64], answer);
    let at = match reason {
        Reason::Scaler => format!(" at byte {place} of the row"),
        _ => String::new(),
    };
    let text = format!("refusal {}{at}: {reason}", answer[0]);
    assert_eq!(refusal.to_string(), text);
}

fn random_rows(seed: u64) {
    let mut coverage = Coverage::of_scalers();
    for number in 0..CASES {
        let way = Way::BOTH[number as usize % 2];
        let row = row(&mut Rng::of_case(seed, number), way);
        coverage.observe_scalers(way, &row);
        let what = format_args!("row({seed}, {number}), {way:?} {row:02X?}");
        let (answer, after) = compare_scalers(way, &row, number as usize / 2, what);
        compare_types(way, &row, answer, &after);
        if answer[0] == 0 {
            let (back, again) = compare_scalers(way.back(), &after, 0, what);
            assert_eq!((back, &again), ([0, 0], &row), "{what}");
        }
    }
    let missing = coverage.missing();
    let table = coverage.table();
    assert!(missing.is_empty(), "never met: {missing:?}\n{table}");
}

#[test]
fn fixed_seed() {
    random_rows(FIXED_SEED);
}

#[test]
fn fresh_seed() {
    random_rows(seed::fresh(CASES, "rows of scalers"));
}

/// The lines that the C program takes and prints for a row.
fn lines(way: Way, row: &[u8], [number, place]: [u64; 2], after: &[u8]) -> (String, String) {
    let word = match way {
        Way::ToBinary => "bin",
        Way::ToDecimal => "dec",
    };
    let reason = Reason::ALL.into_iter().find(|one| one.number() == number);
    let printed = match reason {
        Some(reason) => format!("refused {number} {place} ({reason}) {}\n", hex(after)),
        None => format!("ok {}\n", hex(after)),
    };
    (format!("{word} {}\n", hex(row)), printed)
}

/// The worked examples and rows at random by a program in C.
#[test]
fn rows_from_c() {
    let known = paper::rows();
    let known = known
        .iter()
        .map(|known| lines(known.way, &known.row, known.answer, &known.after));
    let random = (0..2_000).map(|number| {
        let way = Way::BOTH[number as usize % 2];
        let mut row = row(&mut Rng::of_case(FIXED_SEED, number), way);
        row.truncate(512);
        let (answer, after) = compare_scalers(way, &row, 0, format_args!("{row:02X?}"));
        lines(way, &row, answer, &after)
    });
    let (input, expected): (String, String) = known.chain(random).unzip();
    let printed = printed(program("scalers", &[]), input.into_bytes());
    for (printed, expected) in printed.lines().zip(expected.lines()) {
        assert_eq!(printed, expected);
    }
    assert_eq!(printed.len(), expected.len());
}
