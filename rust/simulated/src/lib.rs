//! A simulated CAMAC crate for hosts in Rust. Its modules, and what they answer, are those of
//! `examples/crate/crate.h`.
//!
//! ```
//! use simulated::{Crate, Operation};
//!
//! // N 14, A 2, F 0 of crate 3: a switch.
//! let mut simulated = Crate::new(3);
//! let read = Operation { crate_number: 3, station: 14, subaddress: 2, ..Operation::default() };
//! assert_eq!(simulated.operate(read), [0, 0b11, 0, 0, 0x7A, 0x05, 0, 0]);
//! ```

#[cfg(library)]
pub mod examples;
mod ffi;

pub use ffi::{Fault, Operation};

/// The digitizer's station.
pub const DIGITIZER: u32 = 3;
/// The ADC's station.
pub const ADC: u32 = 5;
/// The 24-bit scaler's station.
pub const SCALER: u32 = 8;
/// The decimal scaler's station.
pub const DECIMAL: u32 = 10;
/// The first of the stations with switches.
pub const SWITCHES: u32 = 14;
/// The most samples that a trigger takes.
pub const SAMPLES: u32 = 2_048;
/// Channels of the scaler.
pub const CHANNELS: u32 = 4;
/// Channels of the decimal scaler.
pub const DECIMALS: u32 = 2;
/// Demands that a crate keeps until they are handed out.
pub const DEMANDS: usize = 32;

/// A crate on a highway.
#[derive(Clone, Debug, PartialEq, Eq)]
pub struct Crate {
    /// The structure in C; none of its parts has a wider alignment.
    state: Box<[u64]>,
}

impl Crate {
    /// A crate as it is after power up. Its number is 1 to 62.
    pub fn new(number: u8) -> Crate {
        // SAFETY: the call takes nothing.
        let bytes = unsafe { ffi::crate_bytes() };
        let mut state = vec![0; bytes.div_ceil(8)].into_boxed_slice();
        // SAFETY: the state has the size and the alignment of the structure.
        unsafe { ffi::crate_init(state.as_mut_ptr().cast(), u32::from(number)) };
        Crate { state }
    }

    /// Makes an operation on the highway: the eight bytes of its reply.
    pub fn operate(&mut self, operation: Operation) -> [u8; 8] {
        let mut reply = [0; 8];
        // SAFETY: the state is one that `crate_init` has made, the other two are ours.
        unsafe { ffi::crate_operate(self.state.as_mut_ptr().cast(), &operation, &mut reply) };
        reply
    }

    /// Asks for a fault of one operation to come, 1 for the next. It takes the place of one
    /// asked for before; 0 asks for none.
    pub fn ask_fault(&mut self, fault: Fault, operation: u32) {
        // SAFETY: as of `operate`.
        unsafe { ffi::crate_ask_fault(self.state.as_mut_ptr().cast(), fault, operation) };
    }

    /// The demands sent since, the oldest first, crate and SGL byte of each.
    pub fn demands(&mut self) -> Vec<u8> {
        let mut row = vec![0; 2 * DEMANDS];
        let used = self.demands_into(&mut row);
        row.truncate(used);
        row
    }

    /// The same into a row of the caller, as many as it has room for; the bytes used.
    pub fn demands_into(&mut self, row: &mut [u8]) -> usize {
        // SAFETY: as of `operate`; the row has the length said.
        unsafe { ffi::crate_demands(self.state.as_mut_ptr().cast(), row.as_mut_ptr(), row.len()) }
    }
}

/// What the engine wants and takes.
#[cfg(library)]
mod adapter {
    use super::{Crate, Operation};
    use camlist::Reply;

    impl From<camlist::Operation> for Operation {
        fn from(wanted: camlist::Operation) -> Operation {
            Operation {
                crate_number: u32::from(wanted.crate_number),
                station: u32::from(wanted.station),
                subaddress: u32::from(wanted.subaddress),
                function: u32::from(wanted.function),
                data: wanted.data,
                enhanced: u32::from(wanted.enhanced),
            }
        }
    }

    impl Crate {
        /// Makes an operation that the engine wants.
        pub fn reply_to(&mut self, wanted: camlist::Operation) -> Reply {
            let bytes = self.operate(wanted.into());
            Reply::from_bytes(bytes).expect("the crate's replies are well formed")
        }
    }
}
