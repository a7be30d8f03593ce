// First, so that the example below is left out without the library, too.
#![cfg(library)]
//! The proved crate list engine for hosts in Rust: safe calls over its static library.
//!
//! A [`List`] is written, [`admit`] says whether it is well formed and what it can need at
//! most, and a [`Run`] asks for one CAMAC operation after another and takes the replies.
//! [`run()`] takes a row of replies that were collected before. A call that is refused
//! changes nothing and says why ([`Refusal`]). A [`Word`] takes a stored longword apart, and
//! [`scalers`] converts rows of them between decimal and binary. [`Demands`] keeps the demands
//! that crates send while a list runs.
//!
//! ```
//! use camlist::{admit, Camac, List, Reply, Run};
//!
//! let list = List::new(3).single(Camac::at(1, 1, 0, 0).bits16()).halt();
//! let counts = admit(&list, 2, 0)?;
//! let mut incoming = vec![0; counts.incoming as usize];
//! let mut run = Run::start(&list, &mut incoming, &[])?;
//! let operation = run.wanted().unwrap();
//! assert_eq!((operation.crate_number, operation.station, operation.function), (1, 1, 0));
//! assert_eq!(run.step(Reply::answer(0x1234))?, None);
//! assert_eq!(run.status().to_string(), "00000080 (NO ERROR)");
//! assert_eq!(incoming, [0x34, 0x12]);
//! # Ok::<(), camlist::Refusal>(())
//! ```

mod demands;
pub mod ffi;
mod list;
mod record;
mod refusal;
mod reply;
mod run;
pub mod scalers;
mod status;
mod word;

pub use demands::{Demand, Demands, Queued, Taken};
pub use list::{Camac, List};
pub use record::{Buffer, Note, Record};
pub use refusal::{Reason, Refusal};
pub use reply::{row, Reply};
pub use run::{admit, run, Counts, Operation, Ran, Run};
pub use status::{Code, Status};
pub use word::Word;
