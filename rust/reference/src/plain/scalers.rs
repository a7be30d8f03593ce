//! Rows of decimal scalers, as `scalers` converts them: one pass looks for faults, another
//! converts, both without a branch for each longword, so that the compiler takes four at once.

use crate::refusal::Refusal;

type Longword = [u8; 4];

const KEPT: u32 = 3 << 30;
const ZEROS: u32 = 0x3F << 24;
const DATA: u32 = 0xFF_FFFF;
const MOST: u32 = 999_999;

/// The highest bit of each digit, which a digit above 9 has set with one of the next two.
const EIGHTS: u32 = 0x88_8888;
/// The upper digit of each pair, shifted to the lower.
const TENS: u32 = 0x0F_0F0F;

pub fn to_binary(row: &mut [u8]) -> Result<(), Refusal> {
    convert(row, decimal_faults, binary)
}

pub fn to_decimal(row: &mut [u8]) -> Result<(), Refusal> {
    convert(row, binary_faults, decimal)
}

fn convert(
    row: &mut [u8],
    faults: impl Fn(u32) -> u32,
    converted: impl Fn(u32) -> u32,
) -> Result<(), Refusal> {
    let (longwords, rest) = row.as_chunks_mut();
    if !rest.is_empty() {
        return Err(Refusal::plain(31));
    }
    let faults = |longword: &Longword| faults(u32::from_le_bytes(*longword));
    if longwords.iter().fold(0, |all, one| all | faults(one)) != 0 {
        let first = longwords.iter().position(|one| faults(one) != 0);
        return Err(Refusal::at(32, 4 * first.unwrap_or_default()));
    }
    for longword in longwords {
        *longword = converted(u32::from_le_bytes(*longword)).to_le_bytes();
    }
    Ok(())
}

/// Not 0 where a longword of digits is refused.
fn decimal_faults(longword: u32) -> u32 {
    longword & ZEROS | longword & EIGHTS & (longword << 1 | longword << 2)
}

/// Not 0 where a longword with a value is refused.
fn binary_faults(longword: u32) -> u32 {
    longword & ZEROS | u32::from(longword & DATA > MOST)
}

/// Two digits are their number and 6 for each ten.
fn binary(longword: u32) -> u32 {
    let pairs = longword - 6 * (longword >> 4 & TENS);
    let [low, middle, high, _] = pairs.to_le_bytes().map(u32::from);
    let value = 10_000 * high + 100 * middle + low;
    longword & KEPT | value
}

fn decimal(longword: u32) -> u32 {
    let value = longword & DATA;
    let (high, low) = (value / 10_000, value % 10_000);
    // 103 / 1,024 instead of a tenth is exact below 100.
    let pair = |number: u32| number + 6 * ((number * 103) >> 10);
    longword & KEPT | pair(high) << 16 | pair(low / 100) << 8 | pair(low % 100)
}
