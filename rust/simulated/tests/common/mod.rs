//! A highway with one simulated crate, number 3.

#![allow(dead_code)] // each of the tests uses some of it

use simulated::{Crate, Operation};

pub const CRATE: u8 = 3;

/// Q, X and data of an answer without other flags.
#[derive(Clone, Copy, Debug, PartialEq, Eq)]
pub struct Answer {
    q: u8,
    x: u8,
    data: u32,
}

pub const DONE: Answer = Answer {
    q: 1,
    x: 1,
    data: 0,
};
pub const NOT_DONE: Answer = Answer {
    q: 0,
    x: 1,
    data: 0,
};
pub const NOT_ACCEPTED: Answer = Answer {
    q: 0,
    x: 0,
    data: 0,
};

impl Answer {
    pub fn read(data: u32) -> Answer {
        Answer { q: 1, x: 1, data }
    }

    /// The data of an answer with Q = X = 1.
    pub fn data_of_read(self) -> u32 {
        assert_eq!(self, Answer::read(self.data));
        self.data
    }

    fn of(reply: [u8; 8]) -> Answer {
        let [kind, flags, zero, other_zero, low, middle, high, last_zero] = reply;
        assert_eq!(
            [kind, flags >> 2, zero, other_zero, last_zero],
            [0; 5],
            "{reply:?}"
        );
        let data = u32::from_le_bytes([low, middle, high, 0]);
        Answer {
            q: flags & 1,
            x: flags >> 1,
            data,
        }
    }
}

pub struct Highway {
    pub simulated: Crate,
    /// Operations made.
    pub made: u32,
}

impl Highway {
    pub fn new() -> Highway {
        let simulated = Crate::new(CRATE);
        Highway { simulated, made: 0 }
    }

    /// The reply to an operation.
    pub fn reply(&mut self, operation: Operation) -> [u8; 8] {
        self.made += 1;
        self.simulated.operate(operation)
    }

    /// The answer to a standard message.
    pub fn command(&mut self, n: u32, a: u32, f: u32, data: u32) -> Answer {
        Answer::of(self.reply(operation(n, a, f, data)))
    }

    /// The answer to an enhanced message.
    pub fn enhanced(&mut self, n: u32, a: u32, f: u32, data: u32) -> Answer {
        let operation = Operation {
            enhanced: 1,
            ..operation(n, a, f, data)
        };
        Answer::of(self.reply(operation))
    }
}

/// An operation for the crate, by a standard message.
pub fn operation(station: u32, subaddress: u32, function: u32, data: u32) -> Operation {
    Operation {
        crate_number: u32::from(CRATE),
        station,
        subaddress,
        function,
        data,
        enhanced: 0,
    }
}
