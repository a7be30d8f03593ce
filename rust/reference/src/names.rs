//! The names of the codes (document 01: "Sixteen codes have a name table, 001's, for
//! printing").

/// The names by code, after the chart of error codes in 001, "Control/Status Register".
pub const CODE_NAMES: [&[u8]; 16] = [
    b"NO ERROR",
    b"ILLEGAL COMMAND",
    b"RESERVED",
    b"RESERVED",
    b"SERIAL ERROR",
    b"RESERVED",
    b"RESERVED",
    b"NO-Q",
    b"NO-X",
    b"N>23",
    b"STE",
    b"TIMEOUT",
    b"ADNR",
    b"NO SYNC",
    b"RESERVED",
    b"RESERVED",
];

/// The name of a code; only its low four bits count.
pub fn code_name(code: u8) -> &'static [u8] {
    CODE_NAMES[usize::from(code & 0xF)]
}
