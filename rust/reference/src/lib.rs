//! The crate list engine of document 01, written a second time as plain Rust.
//!
//! The machine-proved engine is compared with this library. It follows document 01
//! heading by heading, with document 02's requests that have landed, and is meant to be
//! read beside it; it shares no code with the proved engine.

#![forbid(unsafe_code)]

pub mod camrun;
pub mod cases;
pub mod demands;
pub mod equations;
pub mod fit;
pub mod host;
pub mod list;
pub mod names;
pub mod packing;
pub mod plain;
pub mod record;
pub mod refusal;
pub mod reply;
pub mod run;
pub mod scalers;
pub mod scan;
pub mod status;
pub mod walk;
pub mod words;

pub use record::{last_moved, Note, Record};
pub use refusal::Refusal;
pub use run::{run_row, start, step, steps, Answer, Operation, RunAnswer, StepsAnswer};
pub use walk::{admit, Counts};
