//! Damaged commands (document 02, E4): "ERR with X = 1 and AD = 0 ends the run with code 4".

use super::{oks, repeat, scan, Known, KnownStep};
use crate::cases::by_hand::*;

/// Byte 1 of an answer to a command that came damaged, with Q = 1.
const DAMAGED: u8 = Q | X | ERR;

/// The end of a run whose first reply is such an answer.
const AT_ONCE: &str = "end 4 40840080 1 0";

/// A list of one field, R = 1.
fn of(name: &str, field: String, admission: &str) -> Known {
    Known::new(name, list_with(1, &(field + HALT)), admission)
}

/// Clean words of the data, then an answer.
fn after_words(data: &[u32], flags: u8) -> Vec<u8> {
    [oks(data), answer(flags, 0xFF_FFFF).to_vec()].concat()
}

/// Words of one operation: read, written, control and inline.
pub fn singles() -> Vec<Known> {
    let read = |name, first, flags, ending| {
        of(name, single(first), "admitted 1 2 0").run(answer(flags, 0x1234).to_vec(), ending)
    };
    let write = of("E4, write", single(0x0210_0102), "admitted 1 0 2");
    let control = of("E4, control", single(0x0218_0102), "admitted 1 0 0");
    let inline = double(0x0210_0162, 0xABCD);
    let saved = "end 0 00840080 1 2";
    vec![
        read("E4, stop", 0x0200_0102, DAMAGED, AT_ONCE).wants([0; 6]),
        read("E4, AD = 1", 0x0200_0103, DAMAGED, saved).stores("34 12"),
        read("E4, X = 0", 0x0200_0102, Q | ERR, "end 8 80860080 1 0"),
        read(
            "E4, DERR too",
            0x0200_0102,
            DAMAGED | DERR,
            "end 4 44840080 1 0",
        ),
        read(
            "E4, ignore, Q = 0",
            0x0200_010A,
            X | ERR,
            "end 4 40850080 1 0",
        ),
        write.outgoing(vec![0; 2]).run(answers(&[DAMAGED]), AT_ONCE),
        control.run(answers(&[DAMAGED]), AT_ONCE),
        of("E4, inline", inline, "admitted 1 0 0").run(answers(&[DAMAGED]), AT_ONCE),
    ]
}

/// Blocks, repeats and the list sequencer, some behind words that were moved.
pub fn words() -> Vec<Known> {
    let second = |name, field, admission, ending, stored| {
        let row = after_words(&[0x56_1234], DAMAGED);
        of(name, field, admission).run(row, ending).stores(stored)
    };
    let narrow =
        |name, field, admission| second(name, field, admission, "end 4 40840080 2 2", "34 12");
    let wide = |name, field, admission| {
        second(name, field, admission, "end 4 40840080 2 4", "34 12 56 C0")
    };
    let three = |first| double(first, 0xFFFF_FFFD);
    let two = |first| double(first, 0xFFFF_FFFC);
    let padded = single(0x0200_0102) + &single(0x0200_0100);
    vec![
        narrow("E4, stop block", three(0x0200_0122), "admitted 3 6 0"),
        narrow("E4, ignore block", three(0x0200_012A), "admitted 3 6 0"),
        wide("E4, enhanced block", two(0x0200_0140), "admitted 2 8 0"),
        wide("E4, list sequencer", two(0x3C0C_0158), "admitted 2 8 0"),
        of("E4, A 2", two(0x3C4C_0158), "admitted 2 0 8")
            .outgoing(vec![0; 8])
            .run(answers(&[X | ERR]), "end 4 40850080 1 0"),
        // Nor is the pad written that the word would have brought.
        narrow("E4, pad", padded, "admitted 2 8 0"),
        Known::new("E4, repeat", repeat(), "admitted 6 8 0")
            .run(answers(&[X | ERR]), "end 4 40850080 1 0"),
        Known::new("E4, repeat, Q = 1", repeat(), "admitted 6 8 0")
            .run(answers(&[X, DAMAGED]), "end 4 40850080 2 0"),
    ]
}

/// "in scan as well"; ERR with X = 0 is a skip.
pub fn scans() -> Vec<Known> {
    let last = double(0x2FE0_013A, 0xFFFF_FFFF);
    let skip = double(0x2CA0_013A, 0xFFFF_FFFF);
    let four = |name, flags: &[u8], ending| {
        Known::new(name, scan(4), "admitted 5 16 0").run(answers(flags), ending)
    };
    vec![
        // Word n at 23/15: nothing was left.
        of("E4, last word", last, "admitted 1 2 0")
            .run(answers(&[DAMAGED]), AT_ONCE)
            .at(&[(23, 15)]),
        of("E4, skip", skip, "admitted 2 2 0")
            .run(answers(&[ERR]), "waiting 1 0")
            .at(&[(22, 5)])
            .wants([1, 23, 0, 0, 0, 0]),
        four("E4, second word", &[Q | X, DAMAGED], "end 4 40840080 2 4"),
        four("E4, Q = 0", &[X | ERR], "end 4 40850080 1 0"),
        four("E4, Q without X", &[Q | ERR], "waiting 1 0"),
    ]
}

/// "The greatest code still wins."
pub fn under_greater_codes() -> Vec<Known> {
    let read = |name, flags, ending| {
        of(name, single(0x0200_0102), "admitted 1 2 0").run(answers(&[flags]), ending)
    };
    let mut leaving = [Q | X; 18];
    leaving[1] = X;
    leaving[17] = DAMAGED;
    let eighteen = Known::new("E4, 9 at 23/15", scan(18), "admitted 18 72 0");
    let four = Known::new("E4, 9, skipping", scan(4), "admitted 5 16 0");
    let repeats = Known::new("E4, B", repeat(), "admitted 6 8 0");
    vec![
        read("E4, 7", X | ERR, "end 7 70850080 1 0"),
        read("E4, A", DAMAGED | LPE, "end A A0A40080 1 0"),
        // M54 has 68 bytes: there 9 is the only cause, and the word is moved.
        eighteen.run(answers(&leaving), "end 9 90C50080 18 64"),
        four.run(answers(&[X, X | ERR]), "end 9 90C50080 2 0"),
        repeats.run(answers(&[X, X, X | ERR]), "end B B2850080 3 0"),
    ]
}

/// A scan of 17 words from 22/15 that stands at 23/15 with two words left, and a block that
/// writes two words.
pub fn steps() -> Vec<KnownStep> {
    let scan = |first| list_with(1, &(double(first, 0xFFFF_FFEF) + HALT));
    let write = list_with(1, &(double(0x0210_0122, 0xFFFF_FFFE) + HALT));
    let at_end = [0, 0, 2, 0, 23, 15, 30, 0, 16, 0, 0, 0, 2];
    vec![
        KnownStep {
            name: "E4, 23/15",
            list: scan(0x2DE0_013A),
            outgoing: Vec::new(),
            before: at_end,
            reply: answer(DAMAGED, 0x03_0201),
            answer: [0; 8],
            after: [1, 0, 0, 0, 0, 0, 30, 0, 17, 0x90C4_0080, 0, 0, 2],
            stored: None,
        },
        KnownStep {
            name: "E4, 23/15, AD = 1",
            list: scan(0x2DE0_013B),
            outgoing: Vec::new(),
            before: at_end,
            reply: answer(DAMAGED, 0x03_0201),
            answer: [0; 8],
            after: [1, 0, 0, 0, 0, 0, 32, 0, 17, 0x90C4_0080, 0, 30, 2],
            stored: Some((30, vec![1, 2])),
        },
        KnownStep {
            name: "E4, second word written",
            list: write,
            outgoing: vec![0; 4],
            before: [0, 0, 1, 0, 1, 0, 0, 2, 1, 0, 1, 0, 2],
            reply: answer(DAMAGED, 0),
            answer: [0; 8],
            after: [1, 0, 0, 0, 0, 0, 0, 2, 2, 0x4084_0080, 1, 0, 2],
            stored: None,
        },
    ]
}
