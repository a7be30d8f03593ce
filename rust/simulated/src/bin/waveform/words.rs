//! Why a run ended, in words.

use camlist::{Code, Record, Status};

const BITS: [(Status, &str); 12] = [
    (Status::DERR, "delayed error"),
    (Status::TIMEOUT, "timeout or tries spent"),
    (Status::NO_SYNC, "no sync"),
    (Status::ERR, "ERR"),
    (Status::SCAN_LEFT, "scan left station 23"),
    (Status::LPE, "longitudinal parity error"),
    (Status::TPE, "transverse parity error"),
    (Status::NOT_RECOGNISED, "address not recognised"),
    (Status::TRANSMISSION, "TPE, LPE or ERR"),
    (Status::NO_X, "X = 0"),
    (Status::NO_Q, "Q = 0"),
    (Status::ENDED, "ended"),
];

/// What a code of the status means.
fn code_words(code: Code) -> &'static str {
    match code {
        Code::NO_ERROR => "the list came to its halt",
        Code::SERIAL_ERROR => "a command reached its crate damaged",
        Code::NO_Q => "a command that wants Q = 1 got Q = 0",
        Code::NO_X => "no module accepted the command, X = 0",
        Code::N_ABOVE_23 => "a scan left station 23",
        Code::STE => "the answer had a parity error",
        Code::TIMEOUT => "no answer came in time, or all tries were made in vain",
        Code::ADNR => "no crate recognised the address",
        Code::NO_SYNC => "the highway was not in sync",
        _ => "a code that no run ends with",
    }
}

/// The code of a record that has ended: its number, its name and its meaning.
pub fn code(record: &Record) -> String {
    let code = record.status().code();
    format!("code {:X}, {code}: {}", code.number(), code_words(code))
}

/// The status and its bits.
pub fn status(record: &Record) -> String {
    let status = record.status();
    let met = BITS.iter().filter(|(bit, _)| status.has(*bit));
    let words: Vec<&str> = met.map(|(_, words)| *words).collect();
    format!("status {:08X}: {}", status.0, words.join("; "))
}

/// The instruction, the operations, the code and the status bits, on two lines.
pub fn ending(record: &Record) -> String {
    format!(
        "  ended at instruction {} after {} operations with {}\n  {}",
        record.instruction(),
        record.operations(),
        code(record),
        status(record)
    )
}
