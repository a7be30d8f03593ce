//! Decimal scalers (document 02, E10): every value and every 24 bits against their text, rows
//! against their longwords, and the plain conversions against these.

use reference::cases::coverage::Coverage;
use reference::cases::rng::Rng;
use reference::cases::scalers::{bytes, row, Way, TOPS, VALUES};
use reference::scalers::{binary_of, decimal_of, to_binary, to_decimal};
use reference::{plain, Refusal};

/// Debug builds look at fewer cases.
const CASES: u64 = if cfg!(debug_assertions) {
    10_000
} else {
    200_000
};
const STRIDE: usize = if cfg!(debug_assertions) { 89 } else { 1 };

const SEED: u64 = 80;

type Convert = fn(&mut [u8]) -> Result<(), Refusal>;

fn convert(way: Way) -> Convert {
    match way {
        Way::ToBinary => to_binary,
        Way::ToDecimal => to_decimal,
    }
}

fn plain(way: Way) -> Convert {
    match way {
        Way::ToBinary => plain::scalers::to_binary,
        Way::ToDecimal => plain::scalers::to_decimal,
    }
}

fn converted(convert: Convert, row: &[u8]) -> (Result<(), Refusal>, Vec<u8>) {
    let mut row = row.to_vec();
    let answer = convert(&mut row);
    (answer, row)
}

/// "Values are 0 to 999,999."
#[test]
fn every_value() {
    for value in (0..VALUES).step_by(STRIDE) {
        let digits = Way::ToBinary.with_value(value);
        for top in TOPS {
            assert_eq!(binary_of(top | digits), Some(top | value));
            assert_eq!(decimal_of(top | value), Some(top | digits));
        }
    }
}

/// Six hexadecimal digits are six decimal ones if they read as a decimal number.
#[test]
fn every_24_bits() {
    for data in (0..1 << 24).step_by(STRIDE) {
        let value = format!("{data:06X}").parse().ok();
        assert_eq!(binary_of(data), value, "{data:06X}");
        let is_value = data < VALUES;
        assert_eq!(decimal_of(data).is_some(), is_value, "{data:06X}");
    }
}

/// "bits 29–24 set".
#[test]
fn every_top_byte() {
    for top in 0..=0xFF {
        let kept = top & 0x3F == 0;
        let top = top << 24;
        for data in [0, 1, 0x01_2345, 0x09_9999] {
            assert_eq!(binary_of(top | data).is_some(), kept, "{top:08X}");
            assert_eq!(decimal_of(top | data).is_some(), kept, "{top:08X}");
        }
        assert_eq!(binary_of(top | 0x0A), None);
        assert_eq!(decimal_of(top | VALUES), None);
    }
}

/// "For a row that passes, both routes return the original row, and a single call equals
/// converting each longword"; "in each case the row is unconverted".
#[test]
fn random_rows() {
    let mut coverage = Coverage::of_scalers();
    for number in 0..CASES {
        let way = Way::BOTH[number as usize % 2];
        let row = row(&mut Rng::of_case(SEED, number), way);
        coverage.observe_scalers(way, &row);
        let (answer, after) = converted(convert(way), &row);
        match answer {
            Ok(()) => {
                assert_eq!(
                    converted(convert(way.back()), &after),
                    (Ok(()), row.clone())
                );
                assert_eq!(one_by_one(way, &row), Some(after.clone()));
            }
            Err(_) => assert_eq!((&after, one_by_one(way, &row)), (&row, None)),
        }
        assert_eq!(converted(plain(way), &row), (answer, after), "{row:02X?}");
    }
    println!("{}", coverage.table());
    assert_eq!(coverage.missing(), []);
}

/// A row by a call for each longword; none if one is refused.
fn one_by_one(way: Way, row: &[u8]) -> Option<Vec<u8>> {
    let mut row = row.to_vec();
    for longword in row.chunks_mut(4) {
        convert(way)(longword).ok()?;
    }
    Some(row)
}

/// "31 for a row that isn't whole longwords; then 32, with the first such longword's byte
/// offset in the row".
#[test]
fn refusals() {
    for way in Way::BOTH {
        let passing = way.with_value(987_654);
        for spoilt in way.spoilt(passing) {
            let longwords = [passing, spoilt, passing, spoilt];
            let row = bytes(&longwords);
            for (length, answer) in [
                (0, Ok(())),
                (4, Ok(())),
                (7, Err(Refusal::plain(31))),
                (8, Err(Refusal::at(32, 4))),
                (13, Err(Refusal::plain(31))),
                (16, Err(Refusal::at(32, 4))),
            ] {
                let given = &row[..length];
                assert_eq!(converted(convert(way), given).0, answer, "{given:02X?}");
                assert_eq!(converted(plain(way), given).0, answer, "{given:02X?}");
            }
        }
    }
}

/// The plain conversions of every value and of every 24 bits.
#[test]
fn plain_converts_alike() {
    for way in Way::BOTH {
        let values = (0..VALUES).step_by(STRIDE);
        let values: Vec<u32> = values
            .map(|value| TOPS[value as usize % 4] | way.with_value(value))
            .collect();
        let row = bytes(&values);
        assert!(converted(plain(way), &row) == converted(convert(way), &row));
        for data in (0..1 << 24).step_by(STRIDE) {
            let mut longword = u32::to_le_bytes(data);
            let answer = plain(way)(&mut longword).is_ok();
            let expected = way.converted(data);
            assert_eq!(answer, expected.is_some(), "{data:06X}");
            let expected = expected.unwrap_or(data);
            assert_eq!(u32::from_le_bytes(longword), expected, "{data:06X}");
        }
    }
}
