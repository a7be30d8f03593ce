//! Replies made of eight bytes, beside those that the separate build reads.

#![cfg(library)]

use camlist::{Reason, Refusal, Reply};
use reference::cases::by_hand::{answer, kind, ok};
use reference::reply;

/// Of some bytes: whether they are a reply, which has them again.
fn is_reply(bytes: [u8; 8]) -> bool {
    let expected = match reply::read(&bytes) {
        Some(_) => Ok(bytes),
        None => Err(Refusal {
            reason: Reason::Reply,
            place: 0,
        }),
    };
    let made = Reply::from_bytes(bytes).map(Reply::bytes);
    assert_eq!(made, expected, "{bytes:02X?}");
    made.is_ok()
}

/// Every kind with every byte of flags: 64 answers and three others, and with data the answers.
#[test]
fn kinds_and_flags() {
    for (data, replies) in [([0; 3], 64 + 3), ([0x56, 0x34, 0x12], 64)] {
        let [low, middle, high] = data;
        let bytes = (0..=u16::MAX).map(|both| {
            let [kind, flags] = both.to_le_bytes();
            [kind, flags, 0, 0, low, middle, high, 0]
        });
        assert_eq!(bytes.filter(|bytes| is_reply(*bytes)).count(), replies);
    }
}

/// Each byte of a reply changed to every value: how many of the 256 are replies.
fn compare_changed(reply: [u8; 8], expected: [usize; 8]) {
    for (place, expected) in expected.into_iter().enumerate() {
        let changed = (0..=u8::MAX).map(|value| {
            let mut bytes = reply;
            bytes[place] = value;
            bytes
        });
        let replies = changed.filter(|bytes| is_reply(*bytes)).count();
        assert_eq!(replies, expected, "byte {place} of {reply:02X?}");
    }
}

#[test]
fn changed_bytes() {
    for reply in [ok(0x12_3456), ok(0), answer(0, 0xFF_FFFF), answer(63, 1)] {
        compare_changed(reply, [1, 64, 1, 1, 256, 256, 256, 1]);
    }
    for number in 1..=3 {
        compare_changed(kind(number), [4, 1, 1, 1, 1, 1, 1, 1]);
    }
}
