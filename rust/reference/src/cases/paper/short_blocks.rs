//! Short blocks (document 02, E8): at Q = 0 a stop block "finishes without moving that word, read
//! or write, and the list goes on unless another cause ends it; bit 16 is set."

use super::{oks, repeat, Known, KnownStep};
use crate::cases::by_hand::*;

/// Blocks of 16-bit words in stop: standard and enhanced, read and written.
const READ: u32 = 0x0200_0122;
const WRITE: u32 = 0x0210_0122;
const ENHANCED_READ: u32 = 0x0200_0142;
/// The same of 24-bit words.
const WIDE_READ: u32 = 0x0200_0120;
const WIDE_WRITE: u32 = 0x0210_0120;
const WIDE_ENHANCED_READ: u32 = 0x0200_0140;
const WIDE_ENHANCED_WRITE: u32 = 0x0210_0140;
/// In a block's word, AD = 1.
const ABORT_DISABLE: u32 = 1;

const LITERAL: &str = "21 04 00 DD CC BB AA ";

/// A 24-bit word and its longword with Q = X = 1.
const DATA: u32 = 0x03_0201;
const STORED: &str = "01 02 03 C0";

/// A block of so many words.
fn block(first: u32, words: u32) -> String {
    let halfwords = if first & 2 == 0 { 2 * words } else { words };
    double(first, halfwords.wrapping_neg())
}

/// A list of some fields and a halt, R = 1.
fn list_of(fields: &str) -> Vec<u8> {
    list_with(1, &format!("{fields} {HALT}"))
}

fn of(name: &str, fields: String, admission: &str) -> Known {
    Known::new(name, list_of(&fields), admission)
}

/// Words, an answer without Q, more words.
fn row(before: &[u32], flags: u8, after: &[u32]) -> Vec<u8> {
    let without_q = answer(flags, 0x99_9999).to_vec();
    [oks(before), without_q, oks(after)].concat()
}

/// Closed at the first, a later and the last word; what follows begins at the mark reached.
pub fn reads() -> Vec<Known> {
    let wide_behind = block(READ, 3) + &block(WIDE_READ, 2);
    let single_behind = block(WIDE_ENHANCED_READ, 2) + &single(0x0200_0102);
    let saved = block(READ | ABORT_DISABLE, 3) + &single(0x0200_0102);
    let over_literal = block(READ, 3) + "20 02 00 03 00 " + LITERAL + &single(0x0200_0102);
    let behind_single = single(0x0200_0102) + &block(WIDE_READ, 2);
    let literals = block(READ, 1) + LITERAL + LITERAL + &single(0x0200_0100);
    vec![
        // The pad comes from mark 2: 12 bytes instead of 16.
        of("E8, second word", wide_behind.clone(), "admitted 5 16 0")
            .run(
                row(&[0x1111], X, &[0x33_3333, 0x44_4444]),
                "end 0 00010080 4 12",
            )
            .stores("11 11 00 00 33 33 33 C0 44 44 44 C0"),
        of("E8, second block waits", wide_behind, "admitted 5 16 0")
            .run(row(&[0x1111], X, &[]), "waiting 2 2")
            .wants([1, 1, 0, 0, 0, 0])
            .leaves([0, 1, 2, 0, 1, 0, 2, 0, 2, 0x1_0000, 0, 0, 2]),
        of(
            "E8, block of one, literal",
            block(READ, 1) + LITERAL,
            "admitted 1 8 0",
        )
        .run(row(&[], X, &[]), "end 0 00010080 1 4")
        .stores("DD CC BB AA")
        .leaves([1, 2, 0, 0, 0, 0, 4, 0, 1, 0x1_0080, 0, 0, 0]),
        of(
            "E8, literal with a pad",
            block(READ, 2) + LITERAL,
            "admitted 2 8 0",
        )
        .run(row(&[0x1111], X, &[]), "end 0 00010080 2 8")
        .stores("11 11 00 00 DD CC BB AA")
        .leaves([1, 2, 0, 0, 0, 0, 8, 0, 2, 0x1_0080, 0, 0, 2]),
        of("E8, two literals", literals, "admitted 2 16 0")
            .run(row(&[], X, &[]), "waiting 1 8")
            .stores("DD CC BB AA DD CC BB AA")
            .wants([1, 1, 0, 0, 0, 0]),
        of("E8, jump", over_literal, "admitted 4 8 0")
            .run(row(&[], X, &[0x1234]), "end 0 00010080 2 2")
            .stores("34 12"),
        // W operations and code 0, yet less than B.
        of("E8, last word", block(READ, 3), "admitted 3 6 0")
            .run(row(&[0x1111, 0x2222], X, &[]), "end 0 00010080 3 4")
            .stores("11 11 22 22")
            .leaves([1, 1, 0, 0, 0, 0, 4, 0, 3, 0x1_0080, 0, 2, 2]),
        // Nor is the pad written that the word would have brought.
        of("E8, pad", behind_single, "admitted 3 12 0")
            .run(row(&[0x1234], X, &[]), "end 0 00010080 2 2")
            .stores("34 12"),
        of("E8, DERR", block(READ, 3), "admitted 3 6 0")
            .run(answers(&[X | DERR]), "end 0 04010080 1 0"),
        // AD = 1: parity errors and X = 0 pass, and the block is closed.
        of("E8, AD = 1", saved, "admitted 4 8 0")
            .run(answers(&[TPE | LPE]), "waiting 1 0")
            .wants([1, 1, 0, 0, 0, 0])
            .leaves([0, 1, 1, 0, 1, 0, 0, 0, 1, 0x37_0000, 0, 0, 0]),
        of(
            "E8, AD = 1, ERR",
            block(READ | ABORT_DISABLE, 3),
            "admitted 3 6 0",
        )
        .run(answers(&[X | ERR]), "end 0 00850080 1 0"),
        of("E8, enhanced", block(ENHANCED_READ, 3), "admitted 3 6 0")
            .run(answers(&[X]), "end 0 00010080 1 0"),
        of("E8, enhanced, 24-bit", single_behind, "admitted 3 10 0")
            .run(row(&[DATA], X, &[0x1234]), "end 0 00010080 3 6")
            .stores(&format!("{STORED} 34 12"))
            .leaves([1, 2, 0, 0, 0, 0, 6, 0, 3, 0x1_0080, 0, 4, 2]),
        // Behind eight words that may be taken together.
        of("E8, tenth word", block(WIDE_READ, 12), "admitted 12 48 0")
            .run(row(&[DATA; 9], X, &[]), "end 0 00010080 10 36")
            .stores(&[STORED; 9].join(" ")),
    ]
}

/// "read or write": the word that was offered stays at the mark.
pub fn writes() -> Vec<Known> {
    let again = block(WRITE, 2) + &single(0x0210_0102);
    let wide_behind = block(WRITE, 3) + &single(0x0210_0100);
    let inline_behind =
        block(WIDE_ENHANCED_WRITE, 2) + &double(0x0210_0162, 0xABCD) + &single(0x0210_0102);
    vec![
        of("E8, offered again", again, "admitted 3 0 6")
            .outgoing(hex("11 11 22 22 33 33"))
            .run(answers(&[Q | X, X]), "waiting 2 0")
            .wants([1, 1, 0, 16, 8_738, 0])
            .leaves([0, 1, 1, 0, 1, 0, 0, 2, 2, 0x1_0000, 1, 0, 2]),
        // From mark 2, not from mark 6.
        of("E8, 24-bit word behind", wide_behind, "admitted 4 0 12")
            .outgoing(hex("11 11 99 99 56 34 12 99 01 01 01 01"))
            .run(answers(&[Q | X, X]), "waiting 2 0")
            .wants([1, 1, 0, 16, 0x12_3456, 0]),
        of("E8, nothing written", inline_behind, "admitted 4 0 10")
            .outgoing(hex("21 43 65 87 99 99 99 99 99 99"))
            .run(answers(&[X, Q | X]), "waiting 2 0")
            .wants([1, 1, 0, 16, 0x4321, 0])
            .leaves([0, 2, 1, 0, 1, 0, 0, 0, 2, 0x1_0000, 0, 0, 0]),
    ]
}

/// "Singles and inline writes still end with 7", other causes end a block too, and other
/// Q-modes go on as before.
pub fn unclosed() -> Vec<Known> {
    let without_q = |name, field, admission| {
        of(name, field, admission)
            .outgoing(vec![0; 2])
            .run(answers(&[X]), "end 7 70010080 1 0")
    };
    let inline = |first| double(first, 0xABCD);
    let three = |name, first, replies: Vec<u8>, ending| {
        of(name, block(first, 3), "admitted 3 6 0").run(replies, ending)
    };
    vec![
        without_q("E8, single", single(0x0200_0102), "admitted 1 2 0"),
        without_q("E8, single, AD = 1", single(0x0200_0103), "admitted 1 2 0"),
        without_q("E8, single write", single(0x0210_0102), "admitted 1 0 2"),
        without_q("E8, control", single(0x0218_0102), "admitted 1 0 0"),
        without_q("E8, inline", inline(0x0210_0162), "admitted 1 0 0"),
        without_q("E8, inline, AD = 1", inline(0x0210_0163), "admitted 1 0 0"),
        three("E8, 8", READ, answers(&[0]), "end 8 80030080 1 0"),
        three(
            "E8, 8, second word",
            READ,
            row(&[0x1111], 0, &[]),
            "end 8 80030080 2 2",
        ),
        three("E8, A", READ, answers(&[X | TPE]), "end A A0150080 1 0"),
        // E4 with E8; 7 was the greater code before.
        three("E8, 4", READ, answers(&[X | ERR]), "end 4 40850080 1 0"),
        three(
            "E8, 4, enhanced",
            ENHANCED_READ,
            answers(&[X | ERR]),
            "end 4 40850080 1 0",
        ),
        three("E8, B", READ, kind(1).to_vec(), "end B B2000080 1 0"),
        three("E8, C", READ, kind(2).to_vec(), "end C C0080080 1 0"),
        three("E8, D", READ, kind(3).to_vec(), "end D D1000080 1 0"),
        of("E8, ignore", block(READ | 1 << 3, 3), "admitted 3 6 0")
            .run(answers(&[X, X, X]), "end 0 00010080 3 6"),
        Known::new("E8, repeat", repeat(), "admitted 6 8 0")
            .run(answers(&[X]), "waiting 1 0")
            .leaves([0, 0, 2, 1, 6, 0, 0, 0, 1, 0x1_0000, 0, 0, 0]),
    ]
}

/// The step that closes a block stores the literal behind it; the note stays.
pub fn steps() -> Vec<KnownStep> {
    let literal_behind = single(0x0200_0102) + &block(WRITE, 3) + LITERAL;
    let write_behind = block(ENHANCED_READ, 3) + &single(0x0210_0102);
    vec![
        KnownStep {
            name: "E8, second word written",
            list: list_of(&literal_behind),
            outgoing: vec![0; 6],
            before: [0, 1, 2, 0, 1, 0, 2, 2, 2, 0, 1, 0, 2],
            reply: answer(X, 0xFF_FFFF),
            answer: [0; 8],
            after: [1, 3, 0, 0, 0, 0, 8, 2, 3, 0x1_0080, 1, 0, 2],
            stored: Some((2, hex("00 00 DD CC BB AA"))),
        },
        KnownStep {
            name: "E8, second word read",
            list: list_of(&write_behind),
            outgoing: vec![0x34, 0x12],
            before: [0, 0, 2, 0, 1, 0, 2, 0, 1, 0, 0, 0, 2],
            reply: answer(X, 0xFF_FFFF),
            answer: [0, 0, 1, 1, 0, 16, 0x1234, 0],
            after: [0, 1, 1, 0, 1, 0, 2, 0, 2, 0x1_0000, 0, 0, 2],
            stored: None,
        },
    ]
}

/// "to fit, each mark need only be even and no greater than the old one at its place": a 16-bit
/// word and a block of two 24-bit words, of which one is left, so that the old mark is 8.
pub fn marks() -> Vec<KnownStep> {
    let zeros = [0; 3];
    let read = single(0x0200_0102) + &block(WIDE_READ, 2);
    let ignore = single(0x0200_0102) + &block(WIDE_READ | 1 << 3, 2);
    let write = single(0x0210_0102) + &block(WIDE_WRITE, 2);
    let of = |name, fields: &str, marks: [u64; 2], note: [u64; 3]| {
        let [incoming, outgoing] = marks;
        let [buffer, offset, length] = note;
        let before = [
            0, 1, 1, 0, 1, 0, incoming, outgoing, 2, 0, buffer, offset, length,
        ];
        KnownStep {
            name,
            list: list_of(fields),
            outgoing: vec![0; 12],
            before,
            reply: answer(Q | X, DATA),
            answer: [23, 0, 0, 0, 0, 0, 0, 0],
            after: before,
            stored: None,
        }
    };
    let refused = |name, mark, note| of(name, &read, [mark, 0], note);
    let refused_write = |name, mark, note| of(name, &write, [0, mark], note);
    let stored = |name, mark: u64, end: u64, text: &str| KnownStep {
        answer: [0; 8],
        after: [1, 2, 0, 0, 0, 0, end, 0, 3, 0x80, 0, end - 4, 4],
        stored: Some((mark as usize, hex(text))),
        ..of(name, &read, [mark, 0], zeros)
    };
    let written = |name, mark, end| KnownStep {
        answer: [0; 8],
        after: [1, 2, 0, 0, 0, 0, 0, end, 3, 0x80, 1, end - 4, 4],
        ..of(name, &write, [0, mark], zeros)
    };
    let padded = format!("00 00 {STORED}");
    vec![
        stored("E8, mark 8", 8, 12, STORED),
        stored("E8, mark 6", 6, 12, &padded),
        stored("E8, mark 4", 4, 8, STORED),
        stored("E8, mark 2", 2, 8, &padded),
        stored("E8, mark 0", 0, 4, STORED),
        // Without a stop block too.
        KnownStep {
            list: list_of(&ignore),
            ..stored("E8, mark 4, ignore", 4, 8, STORED)
        },
        refused("E8, mark 0 with a note", 0, [0, 0, 2]),
        refused("E8, mark 4, a note below 8", 4, [0, 4, 4]),
        refused("E8, mark 7", 7, zeros),
        refused("E8, mark 1", 1, zeros),
        refused("E8, mark 9", 9, zeros),
        refused("E8, mark 10", 10, zeros),
        written("E8, outgoing mark 8", 8, 12),
        written("E8, outgoing mark 6", 6, 12),
        written("E8, outgoing mark 4", 4, 8),
        written("E8, outgoing mark 2", 2, 8),
        written("E8, outgoing mark 0", 0, 4),
        refused_write("E8, outgoing mark 0 with a note", 0, [1, 0, 2]),
        refused_write("E8, outgoing mark 7", 7, zeros),
        refused_write("E8, outgoing mark 10", 10, zeros),
        // Nothing was read: the other mark is 0.
        of("E8, incoming mark 2, writes", &write, [2, 8], zeros),
        of("E8, outgoing mark 2, reads", &read, [8, 2], zeros),
        refused_write("E8, the other mark is 0", 8, [0, 0, 2]),
    ]
}
