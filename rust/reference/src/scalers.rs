//! Decimal scalers (document 02, E10): "six packed decimal digits in 24 bits, the highest in
//! bits 23–20", to binary and back.

use crate::refusal::Refusal;

/// "keeping bits 31 and 30".
const KEPT: u32 = 3 << 30;

/// Refused if set.
const BITS_29_TO_24: u32 = 0x3F << 24;

const DATA: u32 = 0xFF_FFFF;

/// "Values are 0 to 999,999."
const MOST: u32 = 999_999;

/// Where the digits lie, the highest first.
const LOW_BITS: [u32; 6] = [20, 16, 12, 8, 4, 0];

/// Converts a row of stored longwords to binary. Refused, it is unconverted.
pub fn to_binary(row: &mut [u8]) -> Result<(), Refusal> {
    convert(row, binary_of)
}

/// Converts a row from binary back. Refused, it is unconverted.
pub fn to_decimal(row: &mut [u8]) -> Result<(), Refusal> {
    convert(row, decimal_of)
}

/// "31 for a row that isn't whole longwords; then 32, with the first such longword's byte
/// offset in the row".
fn convert(row: &mut [u8], one: fn(u32) -> Option<u32>) -> Result<(), Refusal> {
    let (longwords, rest) = row.as_chunks();
    if !rest.is_empty() {
        return Err(Refusal::plain(31));
    }
    let mut converted = Vec::new();
    for (number, bytes) in longwords.iter().enumerate() {
        let longword = one(u32::from_le_bytes(*bytes)).ok_or(Refusal::at(32, 4 * number))?;
        converted.extend(longword.to_le_bytes());
    }
    row.copy_from_slice(&converted);
    Ok(())
}

/// One longword to binary; none for "bits 29–24 set" and "a digit above 9".
pub fn binary_of(longword: u32) -> Option<u32> {
    let digits = LOW_BITS.map(|low| longword >> low & 0xF);
    if longword & BITS_29_TO_24 != 0 || digits.iter().any(|&digit| digit > 9) {
        return None;
    }
    let value = digits.iter().fold(0, |value, digit| 10 * value + digit);
    Some(longword & KEPT | value)
}

/// One longword to six digits; none for "bits 29–24 set" and "a value above 999,999".
pub fn decimal_of(longword: u32) -> Option<u32> {
    let value = longword & DATA;
    if longword & BITS_29_TO_24 != 0 || value > MOST {
        return None;
    }
    let (mut rest, mut digits) = (value, 0);
    for low in LOW_BITS.into_iter().rev() {
        digits |= (rest % 10) << low;
        rest /= 10;
    }
    Some(longword & KEPT | digits)
}
