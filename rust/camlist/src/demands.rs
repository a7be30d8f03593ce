//! Demands kept beside the run, each a crate's number and an SGL byte.

use crate::ffi;
use crate::refusal::{refused_or, Refusal};

/// A demand: a crate, and its graded look-at-me signals.
#[derive(Clone, Copy, Debug, PartialEq, Eq)]
pub struct Demand {
    /// 1 to 62.
    pub crate_number: u8,
    pub sgl: u8,
}

/// What a call left in the queue.
#[derive(Clone, Copy, Debug, PartialEq, Eq)]
pub struct Queued {
    /// How many demands wait, up to [`Demands::MOST`].
    pub waiting: usize,
    /// Whether one was dropped since the queue was made or cleared.
    pub overflow: bool,
}

/// What taking yields.
#[derive(Clone, Copy, Debug, PartialEq, Eq)]
pub struct Taken {
    /// The oldest demand; none exactly if none waited.
    pub demand: Option<Demand>,
    pub queued: Queued,
}

/// A queue of up to 2,048 demands, the oldest out first. One more when it is full is dropped and
/// sets the overflow mark, which only [`Demands::clear`] takes off.
///
/// A call that is refused, by [`Reason::Demand`](crate::Reason::Demand), changes nothing: for a
/// crate that is not 1 to 62, for half a demand, and for bytes that are no queue. Where demands
/// come in one thread and are taken in another, the queue wants a lock; it may be a static.
///
/// ```
/// use camlist::{Demand, Demands, Queued};
/// use std::sync::Mutex;
///
/// static DEMANDS: Mutex<Demands> = Mutex::new(Demands::new());
///
/// let mut demands = DEMANDS.lock().unwrap();
/// let first = Demand { crate_number: 1, sgl: 0x05 };
/// demands.add(first)?;
/// let queued = demands.add_row(&[3, 0x01, 62, 0x1F])?;
/// assert_eq!(queued, Queued { waiting: 3, overflow: false });
/// assert_eq!(demands.take()?.demand, Some(first));
/// while let Some(demand) = demands.take()?.demand {
///     assert_ne!(demand, first);
/// }
/// # Ok::<(), camlist::Refusal>(())
/// ```
#[derive(Clone, Debug, PartialEq, Eq)]
pub struct Demands {
    bytes: [u8; ffi::QUEUE_BYTES],
}

impl Demands {
    /// The most demands that wait.
    pub const MOST: usize = 2_048;

    /// An empty queue.
    pub const fn new() -> Demands {
        Demands {
            bytes: [0; ffi::QUEUE_BYTES],
        }
    }

    /// The queue that a host has kept as bytes. Whether they are one is asked by every call.
    ///
    /// ```
    /// use camlist::{Demands, Reason};
    ///
    /// let mut kept = *Demands::new().bytes();
    /// kept[4_100] = 2;
    /// assert_eq!(Demands::from_bytes(kept).take().unwrap_err().reason, Reason::Demand);
    /// ```
    pub const fn from_bytes(bytes: [u8; ffi::QUEUE_BYTES]) -> Demands {
        Demands { bytes }
    }

    pub const fn bytes(&self) -> &[u8; ffi::QUEUE_BYTES] {
        &self.bytes
    }

    /// Adds a demand, or drops it if 2,048 wait.
    ///
    /// ```
    /// use camlist::{Demand, Demands};
    ///
    /// let mut demands = Demands::new();
    /// demands.add_row(&[1, 7].repeat(Demands::MOST))?;
    /// assert!(demands.add(Demand { crate_number: 63, sgl: 7 }).is_err());
    /// assert!(!demands.add_row(&[])?.overflow);
    /// assert!(demands.add(Demand { crate_number: 62, sgl: 7 })?.overflow);
    /// assert!(demands.take()?.queued.overflow);
    /// assert!(!demands.clear()?.overflow);
    /// # Ok::<(), camlist::Refusal>(())
    /// ```
    pub fn add(&mut self, demand: Demand) -> Result<Queued, Refusal> {
        let Demand { crate_number, sgl } = demand;
        queued(ffi::demand_add(&mut self.bytes, crate_number, sgl))
    }

    /// Adds a row of demands, two bytes each, as [`Demands::add`] would one after the other.
    /// Refused for any of them, it adds none.
    ///
    /// ```
    /// use camlist::{Demands, Reason};
    ///
    /// let mut demands = Demands::new();
    /// let refusal = demands.add_row(&[1, 7, 0, 7]).unwrap_err();
    /// assert_eq!(refusal.reason, Reason::Demand);
    /// assert_eq!(demands.add_row(&[1, 7, 1]), Err(refusal));
    /// assert_eq!(demands, Demands::new());
    /// ```
    pub fn add_row(&mut self, row: &[u8]) -> Result<Queued, Refusal> {
        queued(ffi::demand_row(&mut self.bytes, row))
    }

    /// Takes the oldest demand.
    pub fn take(&mut self) -> Result<Taken, Refusal> {
        let [number, place, waiting, overflow, found, crate_number, sgl] =
            ffi::demand_take(&mut self.bytes);
        let queued = queued([number, place, waiting, overflow])?;
        let demand = (found != 0).then_some(Demand {
            crate_number: crate_number as u8,
            sgl: sgl as u8,
        });
        Ok(Taken { demand, queued })
    }

    /// Empties the queue and takes the overflow mark off.
    pub fn clear(&mut self) -> Result<Queued, Refusal> {
        queued(ffi::demand_clear(&mut self.bytes))
    }
}

impl Default for Demands {
    fn default() -> Demands {
        Demands::new()
    }
}

fn queued(answer: [u64; ffi::DEMAND_NUMBERS]) -> Result<Queued, Refusal> {
    let [number, place, waiting, overflow] = answer;
    refused_or(number, place)?;
    Ok(Queued {
        waiting: waiting as usize,
        overflow: overflow != 0,
    })
}
