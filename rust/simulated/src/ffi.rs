//! The functions of `examples/crate/crate.h`.

use std::ffi::c_void;

/// An operation on the highway: the six numbers that the engine wants.
#[repr(C)]
#[derive(Clone, Copy, Debug, Default, PartialEq, Eq)]
pub struct Operation {
    pub crate_number: u32,
    /// N.
    pub station: u32,
    /// A.
    pub subaddress: u32,
    /// F.
    pub function: u32,
    pub data: u32,
    /// 1 by an enhanced message, else 0.
    pub enhanced: u32,
}

/// What can go wrong with an operation.
#[repr(C)]
#[derive(Clone, Copy, Debug, PartialEq, Eq)]
pub enum Fault {
    None,
    /// Transverse parity error: the operation is made, a bit of the answer's data is wrong.
    Tpe,
    /// Longitudinal parity error: the same.
    Lpe,
    /// Delayed error: the operation is made, the answer has DERR.
    Derr,
    /// The command reaches the crate damaged: ERR with X = 1 and Q = 0, nothing is done.
    Err,
    /// The crate is silent, nothing is done; of the next two neither.
    Timeout,
    /// No crate recognises the address.
    NotRecognised,
    /// The highway is not in sync.
    NoSync,
}

extern "C" {
    pub fn crate_bytes() -> usize;
    pub fn crate_init(state: *mut c_void, number: u32);
    pub fn crate_operate(state: *mut c_void, wanted: *const Operation, reply: *mut [u8; 8]);
    pub fn crate_ask_fault(state: *mut c_void, fault: Fault, operation: u32);
    pub fn crate_demands(state: *mut c_void, row: *mut u8, room: usize) -> usize;
}
