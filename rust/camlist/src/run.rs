//! Admission, runs by steps, and whole runs.

use crate::ffi;
use crate::record::{Buffer, Note, Record};
use crate::refusal::{refused_or, Refusal};
use crate::reply::Reply;
use crate::status::Status;

/// What a list can need at most.
#[derive(Clone, Copy, Debug, PartialEq, Eq)]
pub struct Counts {
    /// W, the most operations that a run can make.
    pub operations: u64,
    /// B, the most incoming bytes that a run can store.
    pub incoming: u64,
    /// O, the most outgoing bytes that a run can take.
    pub outgoing: u64,
}

/// Whether the list is well formed and fits buffers of these two lengths.
///
/// ```
/// use camlist::{admit, Camac, List, Reason};
///
/// let list = List::new(3).single(Camac::at(1, 1, 0, 0).bits16()).halt();
/// assert_eq!(admit(&list, 2, 0).unwrap().operations, 1);
/// assert_eq!(admit(&list, 1, 0).unwrap_err().reason, Reason::Incoming);
/// ```
pub fn admit(list: &[u8], incoming_len: u64, outgoing_len: u64) -> Result<Counts, Refusal> {
    let [number, place, operations, incoming, outgoing] =
        ffi::admit(list, incoming_len, outgoing_len);
    refused_or(number, place)?;
    Ok(Counts {
        operations,
        incoming,
        outgoing,
    })
}

/// A CAMAC operation for the adapter to make.
#[derive(Clone, Copy, Debug, PartialEq, Eq)]
pub struct Operation {
    pub crate_number: u8,
    /// N.
    pub station: u8,
    /// A.
    pub subaddress: u8,
    /// F. The sequencer's is 12: its subaddress 0 or 1 reads, 2 or 3 writes.
    pub function: u8,
    /// What a write sends, else 0.
    pub data: u32,
    /// By an enhanced message: a word of an enhanced block or of the list sequencer.
    pub enhanced: bool,
}

impl Operation {
    /// The operation of an answer's six numbers; a crate's number is never 0.
    fn of([crate_number, n, a, f, data, enhanced]: [u64; 6]) -> Option<Operation> {
        (crate_number != 0).then_some(Operation {
            crate_number: crate_number as u8,
            station: n as u8,
            subaddress: a as u8,
            function: f as u8,
            data: data as u32,
            enhanced: enhanced == 1,
        })
    }
}

/// A run by steps: it says which operation it wants, and takes the reply to it. Each call
/// reads the whole list again; many replies at once are cheaper by [`steps`](Run::steps).
///
/// ```
/// use camlist::{Camac, Code, List, Operation, Reply, Run};
///
/// // Sends the two bytes of the outgoing buffer to crate 2, N 4, then reads two words.
/// let list = List::new(3)
///     .single(Camac::at(2, 4, 0, 16).bits16())
///     .block(Camac::at(2, 5, 1, 0).bits16().repeat(), 2)
///     .halt();
/// let (mut incoming, outgoing) = ([0; 4], [0xCD, 0xAB]);
/// let mut run = Run::start(&list, &mut incoming, &outgoing)?;
/// let mut word = 0;
/// while let Some(operation) = run.wanted() {
///     // Here the adapter makes the operation.
///     let reply = match operation {
///         Operation { station: 4, data, .. } => {
///             assert_eq!(data, 0xABCD);
///             Reply::answer(0)
///         }
///         _ => {
///             word += 1;
///             Reply::answer(word)
///         }
///     };
///     run.step(reply)?;
/// }
/// assert_eq!(run.status().code(), Code::NO_ERROR);
/// assert_eq!(run.record().operations(), 3);
/// assert_eq!(incoming, [1, 0, 2, 0]);
/// # Ok::<(), camlist::Refusal>(())
/// ```
#[derive(Debug)]
pub struct Run<'a> {
    list: &'a [u8],
    incoming: &'a mut [u8],
    outgoing: &'a [u8],
    record: Record,
    wanted: Option<Operation>,
}

impl<'a> Run<'a> {
    /// Runs to the first operation or the end.
    pub fn start(
        list: &'a [u8],
        incoming: &'a mut [u8],
        outgoing: &'a [u8],
    ) -> Result<Run<'a>, Refusal> {
        let mut record = Record::default();
        let [number, place, operation @ ..] = ffi::start(list, incoming, outgoing, &mut record.0);
        refused_or(number, place)?;
        Ok(Run {
            list,
            incoming,
            outgoing,
            record,
            wanted: Operation::of(operation),
        })
    }

    /// Goes on from a record that was kept, with the buffers as they were.
    ///
    /// ```
    /// use camlist::{Camac, List, Reason, Reply, Run};
    ///
    /// let list = List::new(3).block(Camac::at(1, 2, 3, 0).bits16(), 2).halt();
    /// let mut incoming = [0; 4];
    /// let mut run = Run::start(&list, &mut incoming, &[])?;
    /// run.step(Reply::answer(1))?;
    /// let kept = run.record();
    ///
    /// let mut run = Run::resume(&list, kept, &mut incoming, &[])?;
    /// assert_eq!(run.wanted().unwrap().subaddress, 3);
    /// run.step(Reply::answer(2))?;
    /// let ended = run.record();
    /// let refusal = Run::resume(&list, ended, &mut incoming, &[]).unwrap_err();
    /// assert_eq!(refusal.reason, Reason::Ended);
    /// assert_eq!(incoming, [1, 0, 2, 0]);
    /// # Ok::<(), camlist::Refusal>(())
    /// ```
    pub fn resume(
        list: &'a [u8],
        record: Record,
        incoming: &'a mut [u8],
        outgoing: &'a [u8],
    ) -> Result<Run<'a>, Refusal> {
        let mut run = Run {
            list,
            incoming,
            outgoing,
            record,
            wanted: None,
        };
        run.steps(&[])?;
        Ok(run)
    }

    /// The operation wanted next; `None` after the end.
    pub fn wanted(&self) -> Option<Operation> {
        self.wanted
    }

    /// Takes the reply to the operation wanted. After the end it is refused.
    pub fn step(&mut self, reply: Reply) -> Result<Option<Operation>, Refusal> {
        let [number, place, operation @ ..] = ffi::step(
            self.list,
            &mut self.record.0,
            self.incoming,
            self.outgoing,
            &reply.bytes(),
        );
        refused_or(number, place)?;
        self.wanted = Operation::of(operation);
        Ok(self.wanted)
    }

    /// Takes a row of replies until the run ends or they run out; how many it took. The
    /// whole row is checked first.
    ///
    /// ```
    /// use camlist::{row, Camac, List, Reason, Reply, Run};
    ///
    /// let list = List::new(3).block(Camac::at(1, 2, 3, 0), 5).halt();
    /// let mut incoming = [0; 20];
    /// let mut run = Run::start(&list, &mut incoming, &[])?;
    /// assert_eq!(run.steps(&row((1..=3).map(Reply::answer)))?, 3);
    /// assert_eq!(run.steps(&[0; 7]).unwrap_err().reason, Reason::Reply);
    /// assert_eq!(run.steps(&row((4..=9).map(Reply::answer)))?, 2);
    /// assert!(run.status().ended());
    /// # Ok::<(), camlist::Refusal>(())
    /// ```
    pub fn steps(&mut self, replies: &[u8]) -> Result<usize, Refusal> {
        let [number, place, taken, operation @ ..] = ffi::steps(
            self.list,
            &mut self.record.0,
            self.incoming,
            self.outgoing,
            replies,
        );
        refused_or(number, place)?;
        self.wanted = Operation::of(operation);
        Ok(taken as usize)
    }

    pub fn record(&self) -> Record {
        self.record
    }

    pub fn status(&self) -> Status {
        self.record.status()
    }

    /// What was stored so far. A 24-bit word that was read is a [`Word`](crate::Word).
    pub fn stored(&self) -> &[u8] {
        &self.incoming[..self.record.incoming_mark() as usize]
    }

    /// The bytes of the last moved word, in the buffer that carried it.
    pub fn last_moved(&self) -> Option<(Buffer, &[u8])> {
        let Note {
            buffer,
            offset,
            length,
        } = self.record.note()?;
        let bytes = match buffer {
            Buffer::Incoming => &*self.incoming,
            Buffer::Outgoing => self.outgoing,
        };
        let bytes = &bytes[offset as usize..(offset + length) as usize];
        Some((buffer, bytes))
    }
}

/// What a whole run came to.
#[derive(Clone, Copy, Debug, PartialEq, Eq)]
pub struct Ran {
    /// Replies taken; those past the run's end are not.
    pub taken: usize,
    pub record: Record,
}

/// Starts the list and takes a row of replies until the run ends or they run out.
///
/// ```
/// use camlist::{row, run, Camac, Code, List, Reply};
///
/// let list = List::new(3).block(Camac::at(1, 22, 14, 2).bits16().scan(), 4).halt();
/// let replies = [Reply::answer(1), Reply::answer(2).no_q(), Reply::answer(3).no_x()];
/// let mut incoming = [0; 8];
/// let ran = run(&list, &mut incoming, &[], &row(replies))?;
/// assert_eq!(ran.taken, 3);
/// assert_eq!(ran.record.status().code(), Code::N_ABOVE_23);
/// assert_eq!(ran.record.incoming_mark(), 2);
/// # Ok::<(), camlist::Refusal>(())
/// ```
pub fn run(
    list: &[u8],
    incoming: &mut [u8],
    outgoing: &[u8],
    replies: &[u8],
) -> Result<Ran, Refusal> {
    let [number, place, taken, record @ ..] = ffi::run(list, incoming, outgoing, replies);
    refused_or(number, place)?;
    Ok(Ran {
        taken: taken as usize,
        record: Record(record),
    })
}
