//! Decimal scalers (document 02, E10): "Convert a row of stored longwords .. to binary, keeping
//! bits 31 and 30, and from binary back."

use super::Engine;
use crate::cases::by_hand::hex;
use crate::cases::scalers::Way;

/// A row, the way that it is converted, and what comes of it.
pub struct KnownRow {
    pub way: Way,
    pub row: Vec<u8>,
    /// Number and place.
    pub answer: [u64; 2],
    pub after: Vec<u8>,
}

impl KnownRow {
    /// Holds an engine against the row.
    pub fn check(&self, engine: &Engine) {
        let convert = match self.way {
            Way::ToBinary => engine.to_binary,
            Way::ToDecimal => engine.to_decimal,
        };
        let mut row = self.row.clone();
        let answer = convert(&mut row);
        assert_eq!(
            (answer, &row),
            (self.answer, &self.after),
            "{:02X?}",
            self.row
        );
    }
}

fn binary(row: &str, after: &str) -> KnownRow {
    KnownRow {
        way: Way::ToBinary,
        row: hex(row),
        answer: [0, 0],
        after: hex(after),
    }
}

fn decimal(row: &str, after: &str) -> KnownRow {
    KnownRow {
        way: Way::ToDecimal,
        ..binary(row, after)
    }
}

/// Refused with this number and place, and unconverted.
fn refused(way: Way, row: &str, answer: [u64; 2]) -> KnownRow {
    KnownRow {
        way,
        answer,
        ..binary(row, row)
    }
}

/// Rows that pass.
pub fn converted() -> Vec<KnownRow> {
    vec![
        binary("56 34 12 C0", "40 E2 01 C0"),
        binary("99 99 99 00 00 00 00 80", "3F 42 0F 00 00 00 00 80"),
        binary("09 00 00 40 10 00 00 80", "09 00 00 40 0A 00 00 80"),
        binary("", ""),
        decimal("3F 42 0F 40", "99 99 99 40"),
        decimal("40 E2 01 C0", "56 34 12 C0"),
        decimal("09 00 00 40 0A 00 00 80", "09 00 00 40 10 00 00 80"),
        decimal("", ""),
    ]
}

/// Rows that 32 refuses: the first such longword's offset counts.
pub fn bad_longwords() -> Vec<KnownRow> {
    use Way::{ToBinary, ToDecimal};
    vec![
        refused(ToBinary, "56 34 12 00 A0 00 00 00", [32, 4]),
        refused(ToBinary, "56 34 12 00 00 00 00 01 0A 00 00 00", [32, 4]),
        refused(ToBinary, "00 00 A0 C0", [32, 0]),
        refused(ToBinary, "00 00 00 20", [32, 0]),
        refused(ToBinary, "00 00 00 00 00 00 00 00 00 0F 00 00", [32, 8]),
        refused(ToDecimal, "40 42 0F 00", [32, 0]),
        refused(ToDecimal, "00 00 00 00 00 00 00 01 40 42 0F 00", [32, 4]),
        refused(ToDecimal, "0A 00 00 00 00 00 00 E0", [32, 4]),
        refused(ToDecimal, "99 99 99 00", [32, 0]),
    ]
}

/// Rows that aren't whole longwords: 31, whatever they hold.
pub fn parts() -> Vec<KnownRow> {
    use Way::{ToBinary, ToDecimal};
    vec![
        refused(ToBinary, "56 34 12 0A 00 00 00", [31, 0]),
        refused(ToBinary, "00", [31, 0]),
        refused(ToBinary, "56 34 12 00 0A 00", [31, 0]),
        refused(ToDecimal, "40 42 0F 01 00", [31, 0]),
        refused(ToDecimal, "40 E2 01", [31, 0]),
    ]
}
