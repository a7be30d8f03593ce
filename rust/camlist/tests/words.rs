//! Admission and start of every CAMAC word, and an answer with Q = 0: each N, A, F, Q-mode and
//! transfer mode, in both lengths; and with every word size, AD and many second longwords where
//! N, A and F are at their limits.

#![cfg(library)]

mod common;

use common::{compare_admission, compare_start, compare_step, Given};
use reference::cases::by_hand::{answer, X};
use reference::cases::lists::{Draft, DraftField, BLOCK, ENHANCED, MODE};

/// One word in so many is looked at, in debug builds.
const STRIDE: usize = if cfg!(debug_assertions) { 31 } else { 1 };

/// Crate 5.
const CRATE: u32 = 5 << 8;

/// H of right and wrong counts, and inline data of right and wrong widths.
const SECONDS: [u32; 10] = [
    0,
    1,
    0xFFFF,
    0x1_0000,
    0xFF_FFFF,
    0x100_0000,
    0xFFFE_FFFF,
    0xFFFF_0000,
    0xFFFF_FFFE,
    0xFFFF_FFFF,
];

/// How many lists were compared, how many of those were admitted and wanted an enhanced
/// operation, and how many blocks Q = 0 closed.
#[derive(Default)]
struct Compared {
    lists: u64,
    enhanced: u64,
    closed: u64,
}

impl Compared {
    fn print(&self) {
        let (lists, enhanced, closed) = (self.lists, self.enhanced, self.closed);
        println!("{lists} lists, {enhanced} of them enhanced, {closed} blocks closed");
    }

    /// Compares a list of one CAMAC instruction, with room for four bytes of words. A block that
    /// Q = 0 closes has moved no word at the halt.
    fn word(&mut self, first: u32, second: Option<u32>) {
        let fields = vec![DraftField::camac(first, second), DraftField::halt()];
        let list = Draft::new(3, fields).bytes();
        let what = format_args!("{first:08X} {second:X?}");
        compare_admission(&list, u64::MAX, u64::MAX, what);
        let given = Given {
            list: &list,
            record: [0x77; 13],
            incoming: &[0xEE; 4],
            outgoing: &[0x12, 0x34, 0x56, 0x78],
        };
        let started = compare_start(&given, what);
        self.lists += 1;
        self.enhanced += started.answer[7];
        if started.answer[0] == 0 {
            let record = started.record;
            let after = compare_step(&Given { record, ..given }, &answer(X, 0x56_1234), what);
            let is_block = matches!(first & MODE, BLOCK | ENHANCED);
            let [ended, .., status, _, _, note_length] = after.record;
            let halted = ended == 1 && status >> 28 == 0;
            self.closed += u64::from(is_block && halted && note_length == 0);
        }
    }
}

/// N, A and F in their places.
fn naf(station: u32, subaddress: u32, function: u32) -> u32 {
    station << 25 | subaddress << 21 | function << 16
}

#[test]
fn every_station_subaddress_function_and_mode() {
    let mut compared = Compared::default();
    for bits in (0..1_u32 << 18).step_by(STRIDE) {
        let (naf, modes) = (bits >> 4 << 16, (bits & 15) << 3);
        // Word size and AD in turn.
        let flags = (bits >> 4 ^ bits >> 9 ^ bits >> 13) & 3;
        let first = naf | CRATE | modes | flags;
        compared.word(first, None);
        compared.word(first, Some(0xFFFF_FFFE));
    }
    compared.print();
    // Of transfer mode 2 and length 8: 24 stations, 16 subaddresses, in stop and ignore 16
    // functions, in repeat 8; and the sequencer's 4. Those in stop are closed, and as many of
    // transfer mode 1.
    if STRIDE == 1 {
        assert_eq!(compared.lists, 2 << 18);
        assert_eq!(compared.enhanced, 24 * 16 * (2 * 16 + 8) + 4);
        assert_eq!(compared.closed, 24 * 16 * 16 * 2);
    }
}

#[test]
fn second_longwords_word_sizes_and_ad() {
    let mut compared = Compared::default();
    let mut words = Vec::new();
    for station in [0, 1, 22, 23, 24, 29, 30, 31] {
        for subaddress in [0, 1, 2, 3, 4, 15] {
            for function in [0, 7, 8, 11, 12, 13, 16, 23, 24, 28] {
                words.push(naf(station, subaddress, function));
            }
        }
    }
    for naf in words.into_iter().step_by(STRIDE) {
        for low in (0..128).filter(|low| low & 4 == 0) {
            compared.word(naf | CRATE | low, None);
            for second in SECONDS {
                compared.word(naf | CRATE | low, Some(second));
            }
        }
    }
    compared.print();
    // At N 1, 22, 23 and 30, six subaddresses: in stop and ignore four functions, in repeat two;
    // and the sequencer's four lists. With either AD, two counts of 16-bit words have room and
    // one of 24-bit words. In stop blocks of either kind are closed.
    if STRIDE == 1 {
        assert_eq!(compared.enhanced, (4 * 6 * (2 * 4 + 2) + 4) * 2 * 3);
        assert_eq!(compared.closed, 4 * 6 * 4 * 2 * 2 * 3);
    }
}
