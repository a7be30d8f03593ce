//! A read's 24-bit word as it is stored (document 02, E9): "bit 31 becomes Q and bit 30 X; bits
//! 29–24 stay zero. Literals and 16-bit words don't change."

use super::{oks, scan, Known, KnownStep};
use crate::cases::by_hand::*;

const DATA: u32 = 0x03_0201;

/// Its longword with Q = X = 1, with either, with none.
const STORED: &str = "01 02 03 C0";
const STORED_Q: &str = "01 02 03 80";
const STORED_X: &str = "01 02 03 40";
const STORED_NONE: &str = "01 02 03 00";

/// A literal with bit 31 and not bit 30, and the other way round.
const LITERAL: &str = "21 04 00 DD CC BB AA ";
const OTHER_LITERAL: &str = "21 04 00 01 02 03 40 ";

/// All four of Q and X, and what they store in 24 bits.
const FOUR: [u8; 4] = [Q | X, Q, X, 0];

fn four_stored() -> String {
    [STORED, STORED_Q, STORED_X, STORED_NONE].join(" ")
}

/// Answers with the same data, one for each byte 1.
fn row(flags: &[u8]) -> Vec<u8> {
    flags
        .iter()
        .flat_map(|&flags| answer(flags, DATA))
        .collect()
}

/// A list of some fields and a halt, R = 1.
fn of(name: &str, fields: String, admission: &str) -> Known {
    Known::new(name, list_with(1, &(fields + HALT)), admission)
}

/// Ignore with AD = 1, where a word comes with any Q and X: singles, blocks of both kinds, the
/// list sequencer.
pub fn ignored() -> Vec<Known> {
    let four = |name, fields: String| {
        of(name, fields, "admitted 4 16 0")
            .run(row(&FOUR), "end 0 00030080 4 16")
            .stores(&four_stored())
    };
    let block = |first| double(first, 0xFFFF_FFF8);
    let with_literal = block(0x0200_0129) + LITERAL;
    vec![
        of("E9, ignore", with_literal, "admitted 4 20 0")
            .run(row(&FOUR), "end 0 00030080 4 20")
            .stores(&format!("{} DD CC BB AA", four_stored())),
        four("E9, singles", single(0x0200_0109).repeat(4)),
        four("E9, enhanced block", block(0x0200_0149)),
        four("E9, list sequencer", block(0x3C0C_0159)),
        four("E9, list sequencer, A 1", block(0x3C2C_0159)),
        // ERR, parity errors and DERR are not in the longword.
        of("E9, other flags", block(0x0200_0129), "admitted 4 16 0")
            .run(
                row(&FOUR.map(|flags| flags | ERR | DERR | TPE | LPE)),
                "end 0 04B70080 4 16",
            )
            .stores(&four_stored()),
        // With AD = 0 a word has X = 1.
        of("E9, AD = 0", block(0x0200_0128), "admitted 4 16 0")
            .run(row(&[X, Q | X, Q]), "end 8 80030080 3 8")
            .stores(&format!("{STORED_X} {STORED}")),
        // Eight words at a time, and one by one behind them.
        of(
            "E9, twelve",
            double(0x0200_0129, 0xFFFF_FFE8),
            "admitted 12 48 0",
        )
        .run(row(&FOUR.repeat(3)), "end 0 00030080 12 48")
        .stores(&[four_stored(), four_stored(), four_stored()].join(" ")),
    ]
}

/// Stop, repeat and scan, where a stored word has Q = 1.
pub fn words() -> Vec<Known> {
    let one_word = |name, field, flags: &[u8], ending, stored| {
        of(name, field, "admitted 1 4 0")
            .run(row(flags), ending)
            .stores(stored)
    };
    let block = |first| double(first, 0xFFFF_FFFE);
    let no_x = "end 0 00020080 1 4";
    let waits = list_with(3, &(block(0x0200_0131) + HALT));
    let padded = single(0x0200_0102) + &single(0x0200_0101);
    vec![
        one_word("E9, stop, X = 0", block(0x0200_0121), &[Q], no_x, STORED_Q),
        one_word(
            "E9, stop",
            block(0x0200_0120),
            &[Q | X],
            "end 0 00000080 1 4",
            STORED,
        ),
        one_word(
            "E9, single, X = 0",
            single(0x0200_0101),
            &[Q],
            no_x,
            STORED_Q,
        ),
        one_word(
            "E9, enhanced, X = 0",
            block(0x0200_0141),
            &[Q],
            no_x,
            STORED_Q,
        ),
        // Flags of the tries in vain before it are not the word's.
        Known::new("E9, repeat", waits.clone(), "admitted 3 4 0")
            .run(row(&[0, X, Q]), "end 0 00030080 3 4")
            .stores(STORED_Q),
        Known::new("E9, repeat, X = 1", waits, "admitted 3 4 0")
            .run(row(&[0, 0, Q | X]), "end 0 00030080 3 4")
            .stores(STORED),
        Known::new("E9, scan", scan(4), "admitted 5 16 0")
            .run(row(&[Q | X, Q, Q | X]), "waiting 3 8")
            .stores(&format!("{STORED} {STORED}")),
        of("E9, pad", padded, "admitted 2 8 0")
            .run(row(&[Q | X, Q]), "end 0 00020080 2 8")
            .stores(&format!("01 02 00 00 {STORED_Q}")),
    ]
}

/// 16-bit words, literals, outgoing words and inline words.
pub fn unchanged() -> Vec<Known> {
    let narrow = |name, flags, ending| {
        of(name, double(0x0200_012B, 0xFFFF_FFFF), "admitted 1 2 0")
            .run(row(&[flags]), ending)
            .stores("01 02")
    };
    let literals = single(0x0200_0109) + LITERAL + OTHER_LITERAL + &single(0x0200_010B);
    let write = of("E9, write", single(0x0210_0109), "admitted 1 0 4");
    let inline = double(0x0210_0169, 0x00AB_CDEF);
    vec![
        narrow("E9, 16-bit, none", 0, "end 0 00030080 1 2"),
        narrow("E9, 16-bit, Q", Q, "end 0 00020080 1 2"),
        narrow("E9, 16-bit, X", X, "end 0 00010080 1 2"),
        narrow("E9, 16-bit, both", Q | X, "end 0 00000080 1 2"),
        of("E9, literals", literals.clone(), "admitted 2 14 0")
            .run(row(&[0, 0]), "end 0 00030080 2 14")
            .stores(&format!("{STORED_NONE} DD CC BB AA 01 02 03 40 01 02")),
        of("E9, literals, both", literals, "admitted 2 14 0")
            .run(row(&[Q | X, Q | X]), "end 0 00000080 2 14")
            .stores(&format!("{STORED} DD CC BB AA 01 02 03 40 01 02")),
        write
            .outgoing(hex(STORED))
            .run(Vec::new(), "waiting 0 0")
            .wants([1, 1, 0, 16, DATA.into(), 0]),
        of("E9, inline", inline, "admitted 1 0 0")
            .run(oks(&[]), "waiting 0 0")
            .wants([1, 1, 0, 16, 0xAB_CDEF, 0]),
    ]
}

/// The word that is stored with code 9: a scan of 17 words from 22/15, behind a 16-bit word,
/// stands at 23/15.
pub fn steps() -> Vec<KnownStep> {
    let fields = single(0x0200_0102) + &double(0x2DE0_0138, 0xFFFF_FFDE);
    vec![KnownStep {
        name: "E9, 23/15",
        list: list_with(1, &(fields + HALT)),
        outgoing: Vec::new(),
        before: [0, 1, 17, 0, 23, 15, 2, 0, 17, 0, 0, 0, 2],
        reply: answer(Q | X, DATA),
        answer: [0; 8],
        after: [1, 1, 0, 0, 0, 0, 8, 0, 18, 0x9040_0080, 0, 4, 4],
        stored: Some((2, hex(&format!("00 00 {STORED}")))),
    }]
}
