//! Status (document 01, "Status"): its bits and the codes that end a run.

use crate::reply::Response;

pub const DERR: u32 = 1 << 26;
/// "timeout or tries spent".
pub const TIMEOUT: u32 = 1 << 25;
pub const NO_SYNC: u32 = 1 << 24;
pub const ERR: u32 = 1 << 23;
/// "scan left station 23, even under a greater code".
pub const SCAN_LEFT: u32 = 1 << 22;
pub const LPE: u32 = 1 << 21;
pub const TPE: u32 = 1 << 20;
pub const NOT_RECOGNISED: u32 = 1 << 19;
/// "TPE, LPE or ERR".
pub const TRANSMISSION: u32 = 1 << 18;
pub const NO_X: u32 = 1 << 17;
pub const NO_Q: u32 = 1 << 16;
pub const ENDED: u32 = 1 << 7;

/// The bits of a run that goes on: "status has only bits 16–18, 20, 21, 23, 26".
pub const FLAGS: u32 = NO_Q | NO_X | TRANSMISSION | TPE | LPE | ERR | DERR;

/// "31–28 code".
pub fn code(status: u32) -> u8 {
    (status >> 28) as u8
}

/// The status of a run that ends with `code`.
pub fn ended(status: u32, code: u8) -> u32 {
    status | u32::from(code) << 28 | ENDED
}

/// The flags of one answer. "Flags gather over all answers."
pub fn flags(response: &Response) -> u32 {
    let transmission = response.tpe || response.lpe || response.err;
    [
        (response.derr, DERR),
        (response.err, ERR),
        (response.lpe, LPE),
        (response.tpe, TPE),
        (transmission, TRANSMISSION),
        (!response.x, NO_X),
        (!response.q, NO_Q),
    ]
    .into_iter()
    .filter(|(set, _)| *set)
    .fold(0, |status, (_, bit)| status | bit)
}
