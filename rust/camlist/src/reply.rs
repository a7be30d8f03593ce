//! Writing replies.

use crate::list::List;
use crate::refusal::Refusal;
use crate::run::run;

/// A reply of the highway to one operation: eight bytes.
///
/// ```
/// use camlist::Reply;
///
/// assert_eq!(Reply::answer(0x12_3456).bytes(), [0, 3, 0, 0, 0x56, 0x34, 0x12, 0]);
/// assert_eq!(Reply::answer(0).no_q().tpe().bytes(), [0, 0b1_0010, 0, 0, 0, 0, 0, 0]);
/// assert_eq!(Reply::timeout().bytes(), [1, 0, 0, 0, 0, 0, 0, 0]);
/// ```
#[derive(Clone, Copy, Debug, PartialEq, Eq)]
pub struct Reply([u8; 8]);

impl Reply {
    /// An answer with Q = X = 1 and the low 24 bits of the data.
    pub fn answer(data: u32) -> Reply {
        let [low, middle, high, _] = data.to_le_bytes();
        Reply([0, 0b11, 0, 0, low, middle, high, 0])
    }

    pub fn timeout() -> Reply {
        Reply::kind(1)
    }

    /// Address not recognised.
    pub fn not_recognised() -> Reply {
        Reply::kind(2)
    }

    pub fn no_sync() -> Reply {
        Reply::kind(3)
    }

    /// The reply of eight bytes that a highway brought, where they are well formed. The engine
    /// says so, at the cost of a small admission.
    ///
    /// ```
    /// use camlist::{Reason, Reply};
    ///
    /// assert_eq!(Reply::from_bytes([0, 3, 0, 0, 7, 0, 0, 0]), Ok(Reply::answer(7)));
    /// let refusal = Reply::from_bytes([1, 3, 0, 0, 0, 0, 0, 0]).unwrap_err();
    /// assert_eq!(refusal.reason, Reason::Reply);
    /// ```
    pub fn from_bytes(bytes: [u8; 8]) -> Result<Reply, Refusal> {
        // A run that halts at once takes no reply, but checks its row.
        run(&List::new(1).halt(), &mut [], &[], &bytes)?;
        Ok(Reply(bytes))
    }

    /// Q = 0, which closes a stop block. This and the flags below are for answers.
    pub fn no_q(self) -> Reply {
        self.flags(!1, 0)
    }

    /// X = 0.
    pub fn no_x(self) -> Reply {
        self.flags(!2, 0)
    }

    /// ERR. With X = 1 and AD = 0 the run ends and no word is moved: the command reached its
    /// crate damaged.
    pub fn err(self) -> Reply {
        self.flags(!0, 4)
    }

    /// Delayed error.
    pub fn derr(self) -> Reply {
        self.flags(!0, 8)
    }

    /// Transverse parity error.
    pub fn tpe(self) -> Reply {
        self.flags(!0, 16)
    }

    /// Longitudinal parity error.
    pub fn lpe(self) -> Reply {
        self.flags(!0, 32)
    }

    pub fn bytes(self) -> [u8; 8] {
        self.0
    }

    fn kind(kind: u8) -> Reply {
        Reply([kind, 0, 0, 0, 0, 0, 0, 0])
    }

    fn flags(mut self, keep: u8, set: u8) -> Reply {
        self.0[1] = self.0[1] & keep | set;
        self
    }
}

/// A row of replies, as [`run`](crate::run) and [`Run::steps`](crate::Run::steps) take it.
///
/// ```
/// use camlist::{row, Reply};
///
/// let row = row([Reply::answer(7), Reply::no_sync()]);
/// assert_eq!(row, [0, 3, 0, 0, 7, 0, 0, 0, 3, 0, 0, 0, 0, 0, 0, 0]);
/// ```
pub fn row(replies: impl IntoIterator<Item = Reply>) -> Vec<u8> {
    replies.into_iter().flat_map(Reply::bytes).collect()
}
