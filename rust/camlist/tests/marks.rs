//! A 24-bit word, a literal and a block of 24-bit words behind every number of 16-bit words up
//! to 2,048, so at every mark up to 4,096: the engine's sum beside the separate build's test.
//! The words before are a whole block, or a block that asks for more and is closed.

#![cfg(library)]

mod common;

use camlist::ffi;
use common::{compare_admission, compare_run};
use reference::cases::by_hand::{answer, double, list, ok, single, HALT, X};

const MOST_WORDS: u32 = 2_048;
/// Crate 1, N 1, A 0, a 24-bit word read or written; the same in 16 bits; in blocks.
const READ: u32 = 0x0202_0100;
const WRITE: u32 = 0x0210_0100;
const BITS_16: u32 = 0x02;
const BLOCK: u32 = 0x20;
const LITERAL: &str = "21 04 00 DD CC BB AA ";

/// What comes behind so many words, in the same direction.
fn mixed(first: u32, words: u32) -> Vec<u8> {
    let block = |bits, count: u32| double(first | BLOCK | bits, count.wrapping_neg());
    let before = match words {
        0 => String::new(),
        words => block(BITS_16, words),
    };
    let (wide, narrow) = (single(first), single(first | BITS_16));
    let wides = block(0, 2 * 2);
    list(&(before + &wide + &narrow + LITERAL + &narrow + &wides + HALT))
}

/// Replies for so many words and what comes behind, the words closed by Q = 0 or not.
fn row(words: u32, closed: bool) -> Vec<u8> {
    let word = |number: u32| ok(number * 0x01_0203);
    let before = (1..=words).map(word);
    let closing = closed.then(|| answer(X, 0x99_9999));
    let behind = (words + 1..=words + 5).map(word);
    before.chain(closing).chain(behind).flatten().collect()
}

/// The outgoing buffer of a list.
fn outgoing(length: u64) -> Vec<u8> {
    (0..length).map(|at| at as u8 | 1).collect()
}

/// B and O of a list.
fn counts(list: &[u8]) -> (u64, u64) {
    let [number, _, _, b, o] = ffi::admit(list, u64::MAX, u64::MAX);
    assert_eq!(number, 0);
    (b, o)
}

#[test]
fn every_mark_up_to_4096() {
    for words in 0..=MOST_WORDS {
        let row = row(words, false);
        for first in [READ, WRITE] {
            let list = mixed(first, words);
            let what = format_args!("{words} words, {first:08X}");
            let (b, o) = counts(&list);
            compare_admission(&list, b, o, what);
            let answer = compare_run(&list, &vec![0xEE; b as usize], &outgoing(o), &row, what);
            assert_eq!((answer[3], answer[9], answer[10]), (1, b, o), "{what}");
        }
    }
}

/// The same behind a block of one word more than the most, closed at every word: the run ends
/// with the marks of the list that asks for the words before.
#[test]
fn every_mark_behind_a_short_block() {
    for first in [READ, WRITE] {
        let list = mixed(first, MOST_WORDS + 1);
        let (b, o) = counts(&list);
        let (incoming, outgoing) = (vec![0xEE; b as usize], outgoing(o));
        for words in 0..=MOST_WORDS {
            let what = format_args!("closed behind {words} words, {first:08X}");
            let answer = compare_run(&list, &incoming, &outgoing, &row(words, true), what);
            let [.., mark, outgoing_mark, operations, status, _, _, _] = answer;
            assert_eq!(
                (mark, outgoing_mark),
                counts(&mixed(first, words)),
                "{what}"
            );
            assert_eq!(
                (operations, status),
                (u64::from(words) + 6, 0x1_0080),
                "{what}"
            );
        }
    }
}
