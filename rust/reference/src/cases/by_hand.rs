//! Lists and replies written by hand.

/// Bytes from hexadecimal text.
pub fn hex(text: &str) -> Vec<u8> {
    text.split_whitespace()
        .map(|byte| u8::from_str_radix(byte, 16).expect("a hexadecimal byte"))
        .collect()
}

/// The first field with R = 3, then the fields of `text`.
pub fn list(text: &str) -> Vec<u8> {
    list_with(3, text)
}

/// The first field with the try limit `r`, then the fields of `text`.
pub fn list_with(r: u16, text: &str) -> Vec<u8> {
    let mut bytes = hex("01 04 00 01 00");
    bytes.extend(r.to_le_bytes());
    bytes.extend(hex(text));
    bytes
}

/// The text of a halt.
pub const HALT: &str = "2F 00 00 ";

/// The first field with R = 3, the field of `text` and a halt.
pub fn one(text: &str) -> Vec<u8> {
    list(&format!("{text} {HALT}"))
}

/// A CAMAC field of one longword.
pub fn single(first: u32) -> String {
    format!("10 04 00 {} ", longword(first))
}

/// A CAMAC field of two longwords.
pub fn double(first: u32, second: u32) -> String {
    format!("10 08 00 {} {} ", longword(first), longword(second))
}

fn longword(value: u32) -> String {
    let [a, b, c, d] = value.to_le_bytes();
    format!("{a:02X} {b:02X} {c:02X} {d:02X}")
}

/// The manual's worked list as printed, with its counts read as FFFFF800h (M01).
pub const M01: &str = "
    10 08 00 68 03 11 0C 01 00 00 00  10 08 00 68 03 1A 0C 00 00 00 00
    10 08 00 30 03 03 0C 00 F8 FF FF  10 08 00 68 03 18 0C 00 00 00 00
    10 08 00 68 03 11 0C 02 00 00 00  10 08 00 68 03 1A 0C 00 00 00 00
    10 08 00 30 03 02 0C 00 F8 FF FF  10 08 00 68 03 18 0C 00 00 00 00  2F 00 00";

/// M01 with its controls as singles.
pub const M02: &str = "
    10 08 00 68 03 11 0C 01 00 00 00  10 04 00 08 03 1A 0C
    10 08 00 30 03 03 0C 00 F8 FF FF  10 04 00 08 03 18 0C
    10 08 00 68 03 11 0C 02 00 00 00  10 04 00 08 03 1A 0C
    10 08 00 30 03 02 0C 00 F8 FF FF  10 04 00 08 03 18 0C  2F 00 00";

/// M02 with F 2 in both blocks, as the manual's text says.
pub const M03: &str = "
    10 08 00 68 03 11 0C 01 00 00 00  10 04 00 08 03 1A 0C
    10 08 00 30 03 02 0C 00 F8 FF FF  10 04 00 08 03 18 0C
    10 08 00 68 03 11 0C 02 00 00 00  10 04 00 08 03 1A 0C
    10 08 00 30 03 02 0C 00 F8 FF FF  10 04 00 08 03 18 0C  2F 00 00";

/// The manual's timer list, its jump to instruction 0.
pub const M07: &str = "
    10 08 00 68 01 10 02 56 34 12 00  10 08 00 68 01 10 04 EF CD AB 00
    2F 00 00  20 02 00 00 00";

/// Three 16-bit, one 24-bit and two 16-bit words read (M12, K8).
pub const M12: &str = "
    10 08 00 22 03 02 0C FD FF FF FF  10 08 00 20 03 02 0C FE FF FF FF
    10 08 00 22 03 02 0C FE FF FF FF  2F 00 00";

/// The same written (M15).
pub const M15: &str = "
    10 08 00 22 03 10 0C FD FF FF FF  10 08 00 20 03 10 0C FE FF FF FF
    10 08 00 22 03 10 0C FE FF FF FF  2F 00 00";

/// One 16-bit word and a literal (M17, K9).
pub const M17: &str = "10 04 00 02 03 02 0C  21 04 00 5A 5A 00 00  2F 00 00";

/// The bits of a reply's byte 1.
pub const Q: u8 = 1;
pub const X: u8 = 2;
pub const ERR: u8 = 4;
pub const DERR: u8 = 8;
pub const TPE: u8 = 16;
pub const LPE: u8 = 32;

/// An answer with the bits `flags` in byte 1.
pub fn answer(flags: u8, data: u32) -> [u8; 8] {
    let [low, middle, high, _] = data.to_le_bytes();
    [0, flags, 0, 0, low, middle, high, 0]
}

/// An answer with Q = X = 1.
pub fn ok(data: u32) -> [u8; 8] {
    answer(Q | X, data)
}

/// A reply of kind 1, 2 or 3.
pub fn kind(kind: u8) -> [u8; 8] {
    [kind, 0, 0, 0, 0, 0, 0, 0]
}

/// A row of answers with data 0, one for each byte 1.
pub fn answers(flags: &[u8]) -> Vec<u8> {
    flags.iter().flat_map(|&flags| answer(flags, 0)).collect()
}
