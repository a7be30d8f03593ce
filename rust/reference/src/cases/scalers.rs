//! Rows of decimal scalers (document 02's E10) for either way: longwords that pass, longwords
//! with one fault, rows at random.

use super::rng::Rng;
use crate::scalers;

/// The way that a row is converted.
#[derive(Clone, Copy, Debug, PartialEq, Eq, PartialOrd, Ord)]
pub enum Way {
    ToBinary,
    ToDecimal,
}

pub const VALUES: u32 = 1_000_000;

/// The four of bits 31 and 30, which no way changes.
pub const TOPS: [u32; 4] = [0, 1 << 30, 2 << 30, 3 << 30];

/// Values at which a digit more is needed, or the highest.
const EDGES: [u32; 12] = [
    0, 9, 10, 99, 100, 999, 1_000, 9_999, 10_000, 99_999, 100_000, 999_999,
];

/// Values above 999,999: the next ones, those with one bit or digit, and 999,999 in digits.
const ABOVE: [u32; 11] = [
    1_000_000, 1_000_001, 0x0F_4280, 0x0F_FFFF, 0x10_0000, 0x20_0000, 0x40_0000, 0x80_0000,
    0x99_9999, 0xF0_0000, 0xFF_FFFF,
];

impl Way {
    pub const BOTH: [Way; 2] = [Way::ToBinary, Way::ToDecimal];

    pub fn back(self) -> Way {
        match self {
            Way::ToBinary => Way::ToDecimal,
            Way::ToDecimal => Way::ToBinary,
        }
    }

    /// What the separate build makes of one longword.
    pub fn converted(self, longword: u32) -> Option<u32> {
        match self {
            Way::ToBinary => scalers::binary_of(longword),
            Way::ToDecimal => scalers::decimal_of(longword),
        }
    }

    /// The longword that has this value before it is converted, its digits by their text.
    pub fn with_value(self, value: u32) -> u32 {
        match self {
            Way::ToBinary => {
                u32::from_str_radix(&value.to_string(), 16).expect("six digits at most")
            }
            Way::ToDecimal => value,
        }
    }

    /// A longword that passes.
    pub fn passing(self, rng: &mut Rng) -> u32 {
        let value = match rng.below(4) {
            0 => rng.pick(&EDGES),
            _ => rng.below(u64::from(VALUES)) as u32,
        };
        rng.pick(&TOPS) | self.with_value(value)
    }

    /// A longword that passes with one fault put into it: each bit of 29 to 24; each digit above
    /// 9 in each place, or values above 999,999.
    pub fn spoilt(self, longword: u32) -> Vec<u32> {
        let bits = (24..30).map(|bit| longword | 1 << bit);
        match self {
            Way::ToBinary => {
                let digits = (0..36).map(|number| (number / 6 * 4, 10 + number % 6));
                let digits = digits.map(|(low, digit)| longword & !(0xF << low) | digit << low);
                bits.chain(digits).collect()
            }
            Way::ToDecimal => {
                let values = ABOVE.map(|value| longword & TOPS[3] | value);
                bits.chain(values).collect()
            }
        }
    }
}

/// The bytes of longwords, low byte first.
pub fn bytes(longwords: &[u32]) -> Vec<u8> {
    let bytes = longwords.iter().flat_map(|longword| longword.to_le_bytes());
    bytes.collect()
}

/// A row at random: some pass, some have one fault or a few, some aren't whole longwords, and
/// some are any bytes.
pub fn row(rng: &mut Rng, way: Way) -> Vec<u8> {
    let most = rng.pick(&[1, 4, 20, 80, 400]);
    let length = rng.index(most + 1);
    if rng.once_in(16) {
        return rng.bytes(4 * length);
    }
    let mut longwords: Vec<u32> = (0..length).map(|_| way.passing(rng)).collect();
    let faults = rng.pick(&[0, 0, 0, 1, 1, 1, 2, 4]);
    for _ in 0..faults.min(length) {
        let at = rng.index(length);
        let at = rng.pick(&[0, length - 1, at, at]);
        let spoilt = way.spoilt(way.passing(rng));
        longwords[at] = rng.pick(&spoilt);
    }
    let mut row = bytes(&longwords);
    if rng.once_in(8) {
        let part = 1 + rng.index(3);
        row.extend(rng.bytes(part));
    }
    row
}
