//! Packing: cases K8 and K9 and the manual's three figures (digest 4.3, 4.4).

use reference::packing::{fetch, mark_after, mark_after_words, offset, store};

/// Stores words, each a length and data, into 0xEE bytes; returns the bytes used.
fn pack(words: &[(u64, u32)]) -> Vec<u8> {
    let mut buffer = vec![0xEE; 64];
    let mut mark = 0;
    for &(length, data) in words {
        let start = store(&mut buffer, mark, length, data);
        assert_eq!(start, offset(mark, length));
        mark = mark_after(mark, length);
    }
    assert!(buffer[mark as usize..].iter().all(|&byte| byte == 0xEE));
    buffer.truncate(mark as usize);
    buffer
}

/// The data of words that lie in `buffer` one after another.
fn unpack(buffer: &[u8], lengths: &[u64]) -> Vec<u32> {
    let mut mark = 0;
    let mut words = Vec::new();
    for &length in lengths {
        words.push(fetch(buffer, mark, length));
        mark = mark_after(mark, length);
    }
    words
}

const MIXED: [(u64, u32); 6] = [
    (2, 0x1101),
    (2, 0x1202),
    (2, 0x1303),
    (4, 0xA1_1101),
    (2, 0x1404),
    (2, 0x1505),
];

#[test]
fn figure_of_16_bit_words() {
    let words: Vec<_> = (1..=8).map(|i| (2, 0x1000 + 0x101 * i)).collect();
    let expected = [
        0x01, 0x11, 0x02, 0x12, 0x03, 0x13, 0x04, 0x14, 0x05, 0x15, 0x06, 0x16, 0x07, 0x17, 0x08,
        0x18,
    ];
    assert_eq!(pack(&words), expected);
}

#[test]
fn figure_of_24_bit_words() {
    let words: Vec<_> = (1..=4).map(|i| (4, 0xA0_1000 + 0x1_0101 * i)).collect();
    let expected = [
        0x01, 0x11, 0xA1, 0, 0x02, 0x12, 0xA2, 0, 0x03, 0x13, 0xA3, 0, 0x04, 0x14, 0xA4, 0,
    ];
    assert_eq!(pack(&words), expected);
}

/// M12, which is K8: B 16.
#[test]
fn figure_of_mixed_words() {
    let expected = [
        0x01, 0x11, 0x02, 0x12, 0x03, 0x13, 0, 0, 0x01, 0x11, 0xA1, 0, 0x04, 0x14, 0x05, 0x15,
    ];
    assert_eq!(pack(&MIXED), expected);
}

/// M15: pad bytes and top bytes of the outgoing buffer are ignored.
#[test]
fn mixed_words_come_back() {
    let outgoing = [
        0x01, 0x11, 0x02, 0x12, 0x03, 0x13, 0x99, 0x99, 0x01, 0x11, 0xA1, 0x77, 0x04, 0x14, 0x05,
        0x15,
    ];
    let lengths: Vec<_> = MIXED.iter().map(|word| word.0).collect();
    let expected: Vec<_> = MIXED.iter().map(|word| word.1).collect();
    assert_eq!(unpack(&outgoing, &lengths), expected);
}

/// K9 and M17: one 16-bit word, a literal: B 8.
#[test]
fn a_literal_after_a_16_bit_word() {
    let expected = [0x34, 0x12, 0, 0, 0x5A, 0x5A, 0, 0];
    assert_eq!(pack(&[(2, 0x1234), (4, 0x5A5A)]), expected);
}

/// M18 to M20: no pad follows the last word, and none comes where none is needed.
#[test]
fn pads_come_with_the_word_that_needs_them() {
    assert_eq!(pack(&[(2, 1), (2, 2), (2, 3), (4, 4)]).len(), 12);
    assert_eq!(pack(&[(2, 1), (2, 2), (2, 3)]).len(), 6);
    assert_eq!(pack(&[(2, 1), (2, 2), (4, 3)]).len(), 8);
}

#[test]
fn a_16_bit_word_is_the_low_half_of_the_data() {
    assert_eq!(pack(&[(2, 0xAB_CDEF)]), [0xEF, 0xCD]);
}

#[test]
fn marks_after_many_words_are_those_of_one_by_one() {
    for length in [2, 4] {
        for start in 0..9 {
            let mut mark = start;
            for words in 0..6 {
                assert_eq!(mark_after_words(start, length, words), mark);
                mark = mark_after(mark, length);
            }
        }
    }
}

/// The sum is "the least multiple of 4 not below an even mark" (E3), and what the test gives.
#[test]
fn the_sum_is_the_test_for_even_marks() {
    for mark in (0..=4_096).step_by(2) {
        let sum = mark + mark % 4;
        assert_eq!(sum, offset(mark, 4));
        assert_eq!(sum, mark.next_multiple_of(4));
    }
}

/// E8: a mark no greater stays so: the padding keeps the order of even marks. Of odd ones it
/// doesn't: 6 has its word at 8, 7 at 7.
#[test]
fn pads_keep_the_order_of_even_marks() {
    for length in [2, 4] {
        for old in (0..=64).step_by(2) {
            for mark in (0..=old).step_by(2) {
                for words in 0..=3 {
                    let after = mark_after_words(mark, length, words);
                    assert!(after <= mark_after_words(old, length, words));
                    assert_eq!(after % 2, 0);
                }
            }
        }
    }
    assert!(offset(6, 4) > offset(7, 4));
}
