//! Steps from every record that fits a small list, and from records beside it: each number
//! one below, at and one above its bound, each status bit, notes around both marks, every two
//! marks, numbers too wide for their part.

#![cfg(library)]

mod common;
#[path = "common/family.rs"]
mod family;

use common::{compare_step, compare_steps, Given, Record};
use family::family;
use reference::cases::by_hand::{answer, kind, ok, DERR, ERR, LPE, Q, TPE, X};
use reference::cases::calls::NARROW;
use reference::cases::records::{all_fitting, all_places};
use reference::list::Instruction;
use reference::walk::{admission, Admitted};

/// One list in so many is looked at, in debug builds.
const LISTS: usize = if cfg!(debug_assertions) { 25 } else { 1 };

/// What a record is compared for.
struct Around {
    admitted: Admitted,
    record: Record,
}

impl Around {
    /// Values of one number: its neighbours, those of its bounds, and one too wide.
    fn values(&self, at: usize) -> Vec<u64> {
        let number = self.record[at];
        let instructions = self.admitted.list.instructions.len() as u64;
        let try_limit = self.admitted.list.try_limit;
        let worst = self.admitted.counts.w;
        let mut values = match at {
            0 => vec![1, 2, 255, 1 << 32],
            1 => (0..=instructions + 1).collect(),
            2 => (0..=5).collect(),
            3 => vec![0, 1, try_limit - 1, try_limit, try_limit + 1],
            4 => vec![0, 1, 22, 23, 24, 30, 31],
            5 => vec![0, 1, 14, 15, 16],
            6 | 7 => vec![0, 2, 4, number.wrapping_sub(2), number + 2],
            8 => vec![0, worst - 1, worst, worst + 1],
            9 => (0..64).map(|bit| number ^ 1 << bit).collect(),
            _ => vec![0, 1, 2, 4],
        };
        let (below, above) = (number.wrapping_sub(1), number.wrapping_add(1));
        values.extend([below, above, u64::MAX, number | 1 << 32, number | 1 << 63]);
        if let Some((_, bits)) = NARROW.iter().find(|narrow| narrow.0 == at) {
            values.extend([number + (1 << bits), (1 << bits) - 1, 1 << bits]);
        }
        values
    }

    /// Notes of every length in both buffers, around the marks.
    fn notes(&self) -> Vec<Record> {
        let mut records = Vec::new();
        for buffer in [0, 1, 2, 255, 256, 257] {
            let mark = self.record[if buffer % 2 == 0 { 6 } else { 7 }];
            for offset in (0..=mark + 1).chain([u64::MAX - 1, u64::MAX]) {
                for length in [0, 1, 2, 3, 4, 5, u64::MAX] {
                    let mut record = self.record;
                    record[10..].copy_from_slice(&[buffer, offset, length]);
                    records.push(record);
                }
            }
        }
        records
    }
}

/// Replies of every consequence.
fn replies() -> Vec<[u8; 8]> {
    let flags = [Q | X, X, Q, 0, Q | X | TPE, X | LPE, Q | ERR | DERR];
    let mut replies = flags.map(|flags| answer(flags, 0x12_3456)).to_vec();
    replies.push(answer(Q | X | ERR, 0x65_4321));
    replies.extend([1, 2, 3].map(kind));
    replies
}

/// How many steps were compared, and how many of those were not refused.
#[derive(Default)]
struct Compared {
    steps: u64,
    taken: u64,
}

impl Compared {
    fn step(&mut self, given: &Given, reply: &[u8]) {
        let Given { list, record, .. } = given;
        let what = format_args!("list {list:02X?}, record {record:?}, reply {reply:02X?}");
        let after = compare_step(given, reply, what);
        self.steps += 1;
        self.taken += u64::from(after.answer[0] == 0);
    }
}

fn compare_list(list: &[u8], compared: &mut Compared) {
    let Ok(admitted) = admission(list, u64::MAX, u64::MAX) else {
        return;
    };
    let incoming = vec![0xEE; admitted.counts.b as usize];
    let outgoing: Vec<u8> = (1..=admitted.counts.o as u8).collect();
    let given = |record| Given {
        list,
        record,
        incoming: &incoming,
        outgoing: &outgoing,
    };
    let numbers = |record: reference::Record| record.numbers();
    let replies = replies();
    for record in all_fitting(&admitted).into_iter().map(numbers) {
        for reply in &replies {
            compared.step(&given(record), reply);
        }
        let row = replies[..8].concat();
        compare_steps(&given(record), &row, format_args!("{list:02X?} {record:?}"));
    }
    let places = all_places(&admitted).into_iter().map(numbers);
    for (count, record) in places.enumerate() {
        let around = Around {
            admitted: admitted.clone(),
            record,
        };
        for at in 0..record.len() {
            for value in around.values(at) {
                let mut record = record;
                record[at] = value;
                compared.step(&given(record), &ok(7));
            }
        }
        if count % 4 == 0 {
            for record in around.notes() {
                compared.step(&given(record), &ok(7));
            }
        }
    }
}

#[test]
fn around_every_bound() {
    let mut compared = Compared::default();
    for small in family().into_iter().step_by(LISTS) {
        compare_list(&small.list, &mut compared);
    }
    let Compared { steps, taken } = compared;
    println!("{steps} steps, {taken} of them taken");
    assert!(taken > 10_000 && steps > 3 * taken);
}

/// The places of a list, of a scan only those at its first position.
fn first_places(admitted: &Admitted) -> Vec<Record> {
    let is_first = |record: &reference::Record| {
        let Instruction::Camac(camac) = admitted.list.instructions[record.instruction as usize]
        else {
            panic!("a place is at a CAMAC instruction");
        };
        record.position() == camac.position()
    };
    let places = all_places(admitted).into_iter().filter(is_first);
    places.map(|record| record.numbers()).collect()
}

/// No note, and notes of both lengths in both buffers that end one below, at and one above the
/// record's own mark and at the old one.
fn notes_at_marks(marks: [u64; 2], old: [u64; 2]) -> Vec<[u64; 3]> {
    let mut notes = vec![[0; 3]];
    for buffer in [0, 1] {
        let mark = marks[buffer];
        for end in [mark.wrapping_sub(1), mark, mark + 1, old[buffer]] {
            for length in [2, 4] {
                let offset = end.checked_sub(length);
                notes.extend(offset.map(|offset| [buffer as u64, offset, length]));
            }
        }
    }
    notes
}

/// Compares steps with every two marks up to three above those of a place, which are the old
/// ones; how many were taken, and how many refused.
fn compare_marks(given: &Given, taken: &mut [u64; 2]) {
    let old = [given.record[6], given.record[7]];
    let marks = (0..=old[0] + 3).flat_map(|mark| (0..=old[1] + 3).map(move |other| [mark, other]));
    for marks in marks {
        for note in notes_at_marks(marks, old) {
            let mut record = given.record;
            record[6..8].copy_from_slice(&marks);
            record[10..].copy_from_slice(&note);
            let what = format_args!("{record:?} {:02X?}", given.list);
            let after = compare_step(&Given { record, ..*given }, &ok(7), what);
            let even = marks.iter().all(|mark| mark % 2 == 0);
            let below = marks[0] <= old[0] && marks[1] <= old[1];
            let [buffer, offset, length] = note;
            let noted = offset + length <= marks[buffer as usize];
            let fits = even && below && noted;
            assert_eq!(after.answer[0], if fits { 0 } else { 23 }, "{what}");
            taken[usize::from(fits)] += 1;
        }
    }
}

/// E8: "to fit, each mark need only be even and no greater than the old one at its place"; the
/// note is held against the record's own marks.
#[test]
fn every_two_marks() {
    let mut taken = [0, 0];
    for small in family().into_iter().step_by(LISTS) {
        let list = &small.list;
        let Ok(admitted) = admission(list, u64::MAX, u64::MAX) else {
            continue;
        };
        for record in first_places(&admitted) {
            let given = Given {
                list,
                record,
                incoming: &vec![0xEE; admitted.counts.b as usize],
                outgoing: &vec![0x12; admitted.counts.o as usize],
            };
            compare_marks(&given, &mut taken);
        }
    }
    println!("{} steps taken, {} refused", taken[1], taken[0]);
    assert!(taken.into_iter().all(|steps| steps > 1_000));
}
