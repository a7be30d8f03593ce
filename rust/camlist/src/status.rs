//! The status word and the codes that a run ends with.

use crate::ffi;
use std::fmt;

/// The status word of the driver manual.
///
/// ```
/// use camlist::{Code, Status};
///
/// let status = Status(0xA014_0080);
/// assert!(status.ended() && status.has(Status::TPE) && !status.has(Status::NO_Q));
/// assert_eq!(status.code(), Code::STE);
/// assert_eq!(status.to_string(), "A0140080 (STE)");
/// ```
#[derive(Clone, Copy, Debug, Default, PartialEq, Eq)]
pub struct Status(pub u32);

impl Status {
    /// Delayed error.
    pub const DERR: Status = Status(1 << 26);
    /// Timeout or tries spent.
    pub const TIMEOUT: Status = Status(1 << 25);
    pub const NO_SYNC: Status = Status(1 << 24);
    pub const ERR: Status = Status(1 << 23);
    /// A scan left station 23, even under a greater code.
    pub const SCAN_LEFT: Status = Status(1 << 22);
    /// Longitudinal parity error.
    pub const LPE: Status = Status(1 << 21);
    /// Transverse parity error.
    pub const TPE: Status = Status(1 << 20);
    pub const NOT_RECOGNISED: Status = Status(1 << 19);
    /// TPE, LPE or ERR.
    pub const TRANSMISSION: Status = Status(1 << 18);
    /// X = 0.
    pub const NO_X: Status = Status(1 << 17);
    /// Q = 0, of an answer that closed a block too.
    pub const NO_Q: Status = Status(1 << 16);
    pub const ENDED: Status = Status(1 << 7);

    /// Whether all these bits are set.
    pub fn has(self, bits: Status) -> bool {
        self.0 & bits.0 == bits.0
    }

    pub fn ended(self) -> bool {
        self.has(Status::ENDED)
    }

    /// Bits 31 to 28: why the run ended, or 0.
    pub fn code(self) -> Code {
        Code((self.0 >> 28) as u8)
    }
}

impl fmt::Display for Status {
    fn fmt(&self, formatter: &mut fmt::Formatter) -> fmt::Result {
        write!(formatter, "{:08X} ({})", self.0, self.code())
    }
}

/// Why a run ended: a number below 16, shown by the manual's name.
#[derive(Clone, Copy, Debug, PartialEq, Eq, PartialOrd, Ord)]
pub struct Code(u8);

impl Code {
    /// Halt, whether or not blocks were short.
    pub const NO_ERROR: Code = Code(0);
    /// Never: admission refuses such lists.
    pub const ILLEGAL_COMMAND: Code = Code(1);
    /// A command that reached its crate damaged: ERR with X = 1 and AD = 0.
    pub const SERIAL_ERROR: Code = Code(4);
    /// Q = 0 in stop, of a single or an inline write; it closes a stop block.
    pub const NO_Q: Code = Code(7);
    /// X = 0 with AD = 0, not in scan.
    pub const NO_X: Code = Code(8);
    /// A scan left station 23.
    pub const N_ABOVE_23: Code = Code(9);
    /// Parity error (TPE or LPE) with AD = 0.
    pub const STE: Code = Code(0xA);
    /// Timeout, or tries spent in repeat.
    pub const TIMEOUT: Code = Code(0xB);
    /// Address not recognised.
    pub const ADNR: Code = Code(0xC);
    pub const NO_SYNC: Code = Code(0xD);

    pub fn number(self) -> u8 {
        self.0
    }
}

impl fmt::Display for Code {
    fn fmt(&self, formatter: &mut fmt::Formatter) -> fmt::Result {
        let name = ffi::code_name(u64::from(self.0));
        formatter.write_str(String::from_utf8_lossy(&name).trim_end())
    }
}
