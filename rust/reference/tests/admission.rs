//! Admission: every refusal with its place and in its order.

use reference::cases::by_hand::{double, hex, list, list_with, single, HALT};
use reference::{admit, Counts, Refusal};

const ROOM: u64 = 1 << 20;

fn admitted(list: &[u8]) -> [u64; 3] {
    let Counts { w, b, o } = admit(list, ROOM, ROOM).expect("admitted");
    [w, b, o]
}

fn refused(list: &[u8]) -> (u8, usize) {
    let Refusal { number, place } = admit(list, ROOM, ROOM).expect_err("refused");
    (number, place)
}

/// Admission of one field and a halt.
fn one(field: &str) -> [u64; 3] {
    admitted(&list(&format!("{field} {HALT}")))
}

/// The number that refuses one field; its place must be 7.
fn one_refused(field: &str) -> u8 {
    let (number, place) = refused(&list(&format!("{field} {HALT}")));
    assert_eq!(place, 7);
    number
}

#[test]
fn n_is_one_for_control_and_inline_too() {
    assert_eq!(one(&single(0x0C18_0312)), [3, 0, 0]);
    assert_eq!(one(&double(0x0C10_0372, 5)), [3, 0, 0]);
    // N 6 scans at most min(P, S) = 18 positions for one word.
    assert_eq!(one(&single(0x0C18_031A)), [18, 0, 0]);
    assert_eq!(one(&double(0x0C10_037A, 5)), [18, 0, 0]);
}

#[test]
fn refusal_1() {
    for short in [
        "01",
        "01 04",
        "01 04 00",
        "01 04 00 01 00 03",
        "7F FF FF 00",
    ] {
        assert_eq!(refused(&hex(short)), (1, 0), "{short}");
    }
    for short in [
        "2F",
        "2F 00",
        "10 04 00 02 01 00",
        "20 02 00 00",
        "99 01 00",
    ] {
        assert_eq!(refused(&list(short)), (1, 7), "{short}");
    }
    assert_eq!(refused(&list("2F 00 00 2F 00")), (1, 10));
}

#[test]
fn refusal_2() {
    for first in [
        "01 04 00 02 00 03 00",
        "01 04 00 00 00 03 00",
        "01 04 00 01 01 03 00",
        "01 04 00 01 00 00 00",
        "01 03 00 01 00 03",
        "01 05 00 01 00 03 00 00",
        "2F 00 00",
        "00 04 00 01 00 03 00",
    ] {
        assert_eq!(
            refused(&hex(&format!("{first} 2F 00 00"))),
            (2, 0),
            "{first}"
        );
    }
    for r in [1, 255, 256, 65_535] {
        assert_eq!(admitted(&list_with(r, HALT)), [0, 0, 0]);
    }
}

#[test]
fn refusals_3_and_4() {
    for field in [
        "00 00 00",
        "01 04 00 01 00 03 00",
        "01 00 00",
        "2E 00 00",
        "11 04 00 02 01 00 02",
    ] {
        assert_eq!(one_refused(field), 3, "{field}");
    }
    for field in [
        "10 00 00",
        "10 05 00 02 01 00 02 00",
        "10 0C 00 02 01 00 02 00 00 00 00 00 00 00 00",
        "20 01 00 00",
        "20 04 00 00 00 00 00",
        "21 02 00 00 00",
        "2F 01 00 00",
    ] {
        assert_eq!(one_refused(field), 4, "{field}");
    }
}

#[test]
fn refusal_5() {
    let full = HALT.repeat(4_096);
    let place = 7 + 3 * 4_096;
    assert_eq!(admitted(&list(&full)), [0, 0, 0]);
    assert_eq!(refused(&list(&(full.clone() + HALT))), (5, place));
    // 5 comes before 3, 4 and 6, after 1; an earlier wrong field keeps its number.
    assert_eq!(refused(&list(&(full.clone() + "99 00 00"))), (5, place));
    assert_eq!(refused(&list(&(full.clone() + "10 01 00 00"))), (5, place));
    assert_eq!(refused(&list(&(full.clone() + "2F 01 00"))), (1, place));
    assert_eq!(refused(&list(&(format!("99 00 00 {full}")))), (3, 7));
}

#[test]
fn refusals_6_to_9_come_at_their_field() {
    let good = single(0x0200_0102);
    let second = |field: String| refused(&list(&format!("{good} {field} {HALT}")));
    assert_eq!(second(single(0x0200_0106)), (6, 14));
    assert_eq!(second(single(0x0200_0002)), (7, 14));
    assert_eq!(second(single(0x0200_0122)), (8, 14));
    assert_eq!(second(double(0x0200_0122, 0)), (9, 14));
    // Unreached fields are checked too.
    assert_eq!(
        refused(&list(&format!("{HALT} {}", single(0x0200_0002)))),
        (7, 10)
    );
}

#[test]
fn refusal_10() {
    // The count itself is not an instruction; an unreached jump is checked too.
    assert_eq!(refused(&list("2F 00 00 20 02 00 02 00")), (10, 10));
    assert_eq!(refused(&list("20 02 00 FF FF 20 02 00 FF FF")), (10, 7));
    assert_eq!(admitted(&list("2F 00 00 20 02 00 01 00")), [0, 0, 0]);
    // 10 comes after 1 to 9 of all fields, and before 11.
    assert_eq!(refused(&list("20 02 00 09 00 99 00 00")), (3, 12));
    assert_eq!(refused(&list("20 02 00 00 00 20 02 00 02 00")), (10, 12));
}

#[test]
fn refusal_11() {
    let word = single(0x0200_0102);
    assert_eq!(refused(&list(&word)), (11, 0));
    assert_eq!(refused(&list(&format!("{word} 20 02 00 00 00"))), (11, 0));
    assert_eq!(
        refused(&list("20 02 00 01 00 21 04 00 01 02 03 04")),
        (11, 0)
    );
    // A loop that the walk never enters.
    assert_eq!(
        admitted(&list("2F 00 00 20 02 00 02 00 20 02 00 01 00")),
        [0, 0, 0]
    );
}

#[test]
fn refusals_20_and_21() {
    let both = list(&format!(
        "{}{}{HALT}",
        single(0x0200_0100),
        single(0x0210_0102)
    ));
    let counts = Counts { w: 2, b: 4, o: 2 };
    assert_eq!(admit(&both, 4, 2), Ok(counts));
    assert_eq!(admit(&both, u64::MAX, u64::MAX), Ok(counts));
    assert_eq!(admit(&both, 3, 0), Err(Refusal::plain(20)));
    assert_eq!(admit(&both, 4, 1), Err(Refusal::plain(21)));
    assert_eq!(
        admit(&list("20 02 00 00 00"), 0, 0),
        Err(Refusal::plain(11))
    );
}

/// The walk may take the instructions in any order; B follows the walk.
#[test]
fn the_walk_follows_jumps() {
    // 0: jump 3; 1: a 24-bit word; 2: halt; 3: a 16-bit word; 4: jump 1.
    let text = format!(
        "20 02 00 03 00 {} {HALT} {} 20 02 00 01 00",
        single(0x0200_0100),
        single(0x0200_0102)
    );
    assert_eq!(admitted(&list(&text)), [2, 8, 0]);
}

#[test]
fn largest_counts() {
    let block = double(0x0C02_0332, 0xFFFF_0000);
    let text = format!("{} {HALT}", block.repeat(4_095));
    let counts = admit(&list_with(65_535, &text), u64::MAX, 0).expect("admitted");
    assert_eq!(counts.w, 4_095 * 65_536 * 65_535);
    assert_eq!(counts.b, 4_095 * 131_072);
}
