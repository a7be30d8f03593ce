//! What the header promises a host in C: buffers, sizes of answers and records, constants,
//! texts and names, and the example program. The types of this crate repeat its constants.

#![cfg(library)]

use camlist::ffi::TAKE_NUMBERS;
use camlist::ffi::{self, raw, ADMIT_NUMBERS, CALL_NUMBERS, DEMAND_NUMBERS, RUN_NUMBERS};
use camlist::ffi::{NAME_BYTES, QUEUE_BYTES, RECORD_NUMBERS, SCALERS_NUMBERS, STEPS_NUMBERS};
use camlist::{Camac, Code, Demands, Reason, Record, Reply, Status, Word};
use reference::cases::by_hand::{double, list, ok, one, M15, M17};
use reference::host::{admission_numbers, run_numbers, start_numbers, step_numbers, steps_numbers};
use reference::names::CODE_NAMES;
use std::collections::BTreeMap;
use std::fs;
use std::path::{Path, PathBuf};
use std::process::Command;
use std::ptr::{null, null_mut};

/// A folder of the repository.
fn repository(folder: &str) -> PathBuf {
    Path::new(env!("CARGO_MANIFEST_DIR"))
        .join("../..")
        .join(folder)
}

fn header() -> String {
    fs::read_to_string(repository("include/camlist.h")).expect("the header")
}

/// "NULL is fine where the length is 0."
#[test]
fn null_buffers() {
    for list in [vec![], list("2F 00 00"), list(M15), list(M17)] {
        let bytes = if list.is_empty() {
            null()
        } else {
            list.as_ptr()
        };
        let mut admitted = [7; ADMIT_NUMBERS];
        let (mut run, mut called) = ([7; RUN_NUMBERS], [7; CALL_NUMBERS]);
        let (mut stepped, mut record) = ([7; STEPS_NUMBERS], [0; RECORD_NUMBERS]);
        let (mut expected, length) = ([0; RECORD_NUMBERS], list.len());
        let (none, no_bytes) = (null_mut(), null());
        // SAFETY: every length is 0 but that of the list, which is valid for the calls.
        unsafe {
            raw::camlist_admit_v2(bytes, length, 0, 0, &mut admitted);
            raw::camlist_run_v2(bytes, length, none, 0, no_bytes, 0, no_bytes, 0, &mut run);
        }
        assert_eq!(admitted, admission_numbers(&list, 0, 0));
        assert_eq!(run, run_numbers(&list, &mut [], &[], &[]));
        for _ in 0..2 {
            let answer = step_numbers(&list, &mut expected, &mut [], &[], &[]);
            // SAFETY: as above; the arrays are ours.
            unsafe {
                raw::camlist_step_v2(
                    bytes,
                    length,
                    &mut record,
                    none,
                    0,
                    no_bytes,
                    0,
                    no_bytes,
                    0,
                    &mut called,
                );
            }
            assert_eq!((record, called), (expected, answer));
            let answer = steps_numbers(&list, &mut expected, &mut [], &[], &[]);
            // SAFETY: as above.
            unsafe {
                raw::camlist_steps_v2(
                    bytes,
                    length,
                    &mut record,
                    none,
                    0,
                    no_bytes,
                    0,
                    no_bytes,
                    0,
                    &mut stepped,
                );
            }
            assert_eq!((record, stepped), (expected, answer));
            // SAFETY: as above.
            unsafe {
                raw::camlist_start_v2(
                    bytes,
                    length,
                    none,
                    0,
                    no_bytes,
                    0,
                    &mut record,
                    &mut called,
                );
            }
            let answer = start_numbers(&list, &mut [], &[]);
            assert_eq!((record, called), answer);
            expected = answer.0;
        }
    }
}

/// The same of a row of scalers.
#[test]
fn null_rows() {
    for convert in [raw::camlist_to_binary_v2, raw::camlist_to_decimal_v2] {
        let mut answer = [7; SCALERS_NUMBERS];
        // SAFETY: the length is 0, and the array is ours.
        unsafe { convert(null_mut(), 0, &mut answer) };
        assert_eq!(answer, [0, 0]);
    }
}

/// The same of a queue of demands, which is none, and of a row of demands.
#[test]
fn null_queues() {
    let (mut answer, mut taken) = ([7; DEMAND_NUMBERS], [7; TAKE_NUMBERS]);
    let refused = [25, 0, 0, 0];
    let (none, row) = (null_mut(), [1, 2]);
    // SAFETY: every length is 0 but that of the row, which is valid for the call; the arrays
    // are ours.
    unsafe {
        raw::camlist_demand_add_v2(none, 0, 1, 2, &mut answer);
        assert_eq!(answer, refused);
        raw::camlist_demand_row_v2(none, 0, row.as_ptr(), 2, &mut answer);
        assert_eq!(answer, refused);
        raw::camlist_demand_take_v2(none, 0, &mut taken);
        assert_eq!(taken, [25, 0, 0, 0, 0, 0, 0]);
        raw::camlist_demand_clear_v2(none, 0, &mut answer);
        assert_eq!(answer, refused);
    }
    let mut queue = [0; QUEUE_BYTES];
    let bytes = queue.as_mut_ptr();
    // SAFETY: the queue and the array are valid for the call, and ours.
    unsafe { raw::camlist_demand_row_v2(bytes, QUEUE_BYTES, null(), 0, &mut answer) };
    assert_eq!(answer, [0; 4]);
}

/// The numbers written are those of the named sizes and no more.
#[test]
fn sizes_of_the_answers() {
    let list = list(M17);
    let (bytes, length) = (list.as_ptr(), list.len());
    let (mut incoming, reply) = ([0; 8], ok(1));
    let mut admitted = [[7; ADMIT_NUMBERS]; 3];
    let mut run = [[7; RUN_NUMBERS]; 3];
    let mut records = [[7; RECORD_NUMBERS]; 3];
    let mut called = [[7; CALL_NUMBERS]; 3];
    let mut stepped = [[7; STEPS_NUMBERS]; 3];
    let mut name = [[7; NAME_BYTES]; 3];
    // SAFETY: list, buffers and arrays are valid for the calls, and ours.
    unsafe {
        let (buffer, none) = (incoming.as_mut_ptr(), null());
        raw::camlist_admit_v2(bytes, length, 8, 0, &mut admitted[1]);
        raw::camlist_run_v2(bytes, length, null_mut(), 0, none, 0, none, 0, &mut run[1]);
        let (record, answer) = (&mut records[1], &mut called[1]);
        raw::camlist_start_v2(bytes, length, buffer, 8, none, 0, record, answer);
        let row = reply.as_ptr();
        raw::camlist_steps_v2(
            bytes,
            length,
            record,
            buffer,
            8,
            none,
            0,
            row,
            0,
            &mut stepped[1],
        );
        assert_eq!(called, [[7; 8], [0, 0, 3, 6, 0, 2, 0, 0], [7; 8]]);
        assert_eq!(stepped, [[7; 9], [0, 0, 0, 3, 6, 0, 2, 0, 0], [7; 9]]);
        let (record, answer) = (&mut records[1], &mut called[1]);
        raw::camlist_step_v2(bytes, length, record, buffer, 8, none, 0, row, 8, answer);
        raw::camlist_code_name_v2(13, &mut name[1]);
    }
    assert_eq!(admitted, [[7; 5], [0, 0, 1, 8, 0], [7; 5]]);
    let mut refused = [0; RUN_NUMBERS];
    (refused[0], refused[3]) = (20, 1);
    assert_eq!(run, [[7; 16], refused, [7; 16]]);
    let ended = [1, 2, 0, 0, 0, 0, 8, 0, 1, 0x80, 0, 0, 2];
    assert_eq!(records, [[7; 13], ended, [7; 13]]);
    assert_eq!(called, [[7; 8], [0; 8], [7; 8]]);
    assert_eq!(name, [[7; 16], *b"NO SYNC         ", [7; 16]]);
    assert_eq!(incoming, [1, 0, 0, 0, 0x5A, 0x5A, 0, 0]);
}

/// The same of a row of scalers, converted and refused.
#[test]
fn sizes_of_the_answers_on_rows() {
    let mut row = [0, 0, 0, 0, 0, 0, 0, 1];
    let cases = [
        (0..4, [0, 0]),
        (0..8, [32, 4]),
        (4..8, [32, 0]),
        (0..7, [31, 0]),
    ];
    for convert in [raw::camlist_to_binary_v2, raw::camlist_to_decimal_v2] {
        for (part, expected) in cases.clone() {
            let part = &mut row[part];
            let mut answers = [[7; SCALERS_NUMBERS]; 3];
            // SAFETY: the row and the array are valid for the call, and ours.
            unsafe { convert(part.as_mut_ptr(), part.len(), &mut answers[1]) };
            assert_eq!(answers, [[7; 2], expected, [7; 2]]);
        }
    }
}

/// The same of a queue of demands: added, by a row that is dropped in part, taken, cleared, and
/// none there.
#[test]
fn sizes_of_the_answers_on_queues() {
    let mut queue = [[0xEE; QUEUE_BYTES], [0; QUEUE_BYTES], [0xEE; QUEUE_BYTES]];
    let row = [3, 9].repeat(2_048);
    let mut added = [[7; DEMAND_NUMBERS]; 3];
    let mut dropped = [[7; DEMAND_NUMBERS]; 3];
    let mut taken = [[7; TAKE_NUMBERS]; 3];
    let mut cleared = [[7; DEMAND_NUMBERS]; 3];
    let mut none = [[7; TAKE_NUMBERS]; 3];
    let (bytes, length) = (queue[1].as_mut_ptr(), QUEUE_BYTES);
    // SAFETY: queue, row and arrays are valid for the calls, and ours.
    unsafe {
        raw::camlist_demand_add_v2(bytes, length, 62, 255, &mut added[1]);
        raw::camlist_demand_row_v2(bytes, length, row.as_ptr(), row.len(), &mut dropped[1]);
        raw::camlist_demand_take_v2(bytes, length, &mut taken[1]);
        raw::camlist_demand_clear_v2(bytes, length, &mut cleared[1]);
        raw::camlist_demand_take_v2(bytes, length, &mut none[1]);
    }
    assert_eq!(added, [[7; 4], [0, 0, 1, 0], [7; 4]]);
    assert_eq!(dropped, [[7; 4], [0, 0, 2_048, 1], [7; 4]]);
    assert_eq!(taken, [[7; 7], [0, 0, 2_047, 1, 1, 62, 255], [7; 7]]);
    assert_eq!(cleared, [[7; 4], [0; 4], [7; 4]]);
    assert_eq!(none, [[7; 7], [0; 7], [7; 7]]);
    assert!(queue[0] == [0xEE; QUEUE_BYTES] && queue[2] == queue[0]);
    let kept = [&[62, 255][..], &row[..4_094], &[1, 0, 0, 0, 0]].concat();
    assert!(queue[1][..] == kept);
}

/// "slices that are only read may overlap each other": the outgoing words are the list's own
/// bytes and the replies behind it.
#[test]
fn slices_that_overlap() {
    let list = list(M15);
    let all = [list.clone(), ok(1).to_vec(), ok(2).to_vec()].concat();
    let (list, row) = all.split_at(list.len());
    let run = ffi::run(list, &mut [], &all, row);
    assert_eq!(run, run_numbers(list, &mut [], &all, row));
    let mut record = [0; RECORD_NUMBERS];
    let started = ffi::start(list, &mut [], &all, &mut record);
    assert_eq!((record, started), start_numbers(list, &mut [], &all));
    let mut expected = record;
    let stepped = ffi::step(list, &mut record, &mut [], &all, &all[list.len()..][..8]);
    let answer = step_numbers(list, &mut expected, &mut [], &all, &row[..8]);
    assert_eq!((record, stepped), (expected, answer));
    let stepped = ffi::steps(list, &mut record, &mut [], &all, row);
    let answer = steps_numbers(list, &mut expected, &mut [], &all, row);
    assert_eq!((record, stepped), (expected, answer));
    assert_eq!(stepped[2], 2);
}

/// The lengths that admission takes are numbers, and may be as large as numbers are.
#[test]
fn any_lengths() {
    let list = list(M17);
    for length in [0, 7, 8, 1 << 32, 1 << 63, u64::MAX] {
        let answer = ffi::admit(&list, length, u64::MAX - length);
        assert_eq!(answer, admission_numbers(&list, length, u64::MAX - length));
    }
}

/// The header's constants by name, those of one prefix.
fn constants(prefix: &str) -> BTreeMap<String, u64> {
    let constant = |line: &str| {
        let mut words = line
            .split_whitespace()
            .skip_while(|word| *word != "#define");
        let (name, value) = (words.nth(1)?, words.next()?.trim_end_matches('u'));
        let value = match value.strip_prefix("0x") {
            Some(digits) => u64::from_str_radix(digits, 16),
            None => value.parse(),
        };
        let name = name.strip_prefix("CAMLIST_")?.strip_prefix(prefix)?;
        Some((name.to_string(), value.ok()?))
    };
    header().lines().filter_map(constant).collect()
}

/// Asserts that the header has these constants of one prefix and no other.
fn assert_constants(prefix: &str, expected: &[(&str, u64)]) {
    let expected = expected
        .iter()
        .map(|(name, value)| (name.to_string(), *value));
    assert_eq!(constants(prefix), expected.collect::<BTreeMap<_, _>>());
}

#[test]
fn sizes_of_the_header() {
    let sizes: BTreeMap<_, _> = constants("")
        .into_iter()
        .filter(|(name, _)| {
            name.ends_with("_NUMBERS") || name == "NAME_BYTES" || name == "QUEUE_BYTES"
        })
        .collect();
    let expected = [
        ("ADMIT_NUMBERS", ADMIT_NUMBERS),
        ("CALL_NUMBERS", CALL_NUMBERS),
        ("STEPS_NUMBERS", STEPS_NUMBERS),
        ("RUN_NUMBERS", RUN_NUMBERS),
        ("SCALERS_NUMBERS", SCALERS_NUMBERS),
        ("RECORD_NUMBERS", RECORD_NUMBERS),
        ("DEMAND_NUMBERS", DEMAND_NUMBERS),
        ("TAKE_NUMBERS", TAKE_NUMBERS),
        ("NAME_BYTES", NAME_BYTES),
        ("QUEUE_BYTES", QUEUE_BYTES),
    ];
    let expected = expected.map(|(name, size)| (name.to_string(), size as u64));
    assert_eq!(sizes, BTreeMap::from(expected));
}

/// The names of the calls stand for symbols of the header's version.
#[test]
fn symbols_of_the_header() {
    let version = constants("VERSION")[""];
    let header = header();
    let names = [
        "admit",
        "start",
        "step",
        "steps",
        "run",
        "code_name",
        "to_binary",
        "to_decimal",
        "demand_add",
        "demand_row",
        "demand_take",
        "demand_clear",
    ];
    for name in names {
        let define = format!("#define camlist_{name} camlist_{name}_v{version}\n");
        assert!(header.contains(&define), "{define}");
    }
    assert_eq!(header.matches("#define camlist_").count(), names.len());
}

/// The operation's numbers stand where the header says: a sequencer's write, whose six numbers
/// all differ.
#[test]
fn operation_of_the_header() {
    let list = one(&double(0x3C4C_035A, 0xFFFF_FFFF));
    let (mut incoming, outgoing) = ([], [0x34, 0x12]);
    let mut record = [0; RECORD_NUMBERS];
    let started = ffi::start(&list, &mut incoming, &outgoing, &mut record);
    let stepped = ffi::steps(&list, &mut record, &mut incoming, &outgoing, &[]);
    let operation = [
        ("CRATE", 3),
        ("N", 30),
        ("A", 2),
        ("F", 12),
        ("DATA", 0x1234),
        ("ENHANCED", 1),
    ];
    for (prefix, answer) in [("CALL_", &started[..]), ("STEPS_", &stepped[..])] {
        let constants = constants(prefix);
        for (name, number) in operation {
            let place = constants[name] as usize;
            assert_eq!(answer[place], number, "{prefix}{name}");
        }
    }
    assert_eq!(constants("CALL_").len(), 7);
    assert_eq!(constants("STEPS_").len(), 8);
}

/// The numbers of what a queue answers stand where the header says, and all differ: the mark is
/// set and 2,047 wait behind the one taken.
#[test]
fn demands_of_the_header() {
    let mut queue = [0; QUEUE_BYTES];
    ffi::demand_row(&mut queue, &[62, 9].repeat(Demands::MOST));
    let added = ffi::demand_add(&mut queue, 1, 2);
    let taken = ffi::demand_take(&mut queue);
    let queued = constants("DEMAND_");
    let answers = [(&added[..], 2_048), (&taken[..], 2_047)];
    for (answer, waiting) in answers {
        assert_eq!(answer[queued["WAITING"] as usize], waiting);
        assert_eq!(answer[queued["OVERFLOW"] as usize], 1);
    }
    assert_eq!(queued.len(), 3);
    let places = constants("TAKE_");
    for (name, number) in [("FOUND", 1), ("CRATE", 62), ("SGL", 9)] {
        assert_eq!(taken[places[name] as usize], number, "{name}");
    }
    assert_eq!(places.len(), 4);
}

#[test]
fn status_bits_of_the_header() {
    let bits = [
        ("DERR", Status::DERR),
        ("TIMEOUT", Status::TIMEOUT),
        ("NO_SYNC", Status::NO_SYNC),
        ("ERR", Status::ERR),
        ("SCAN_LEFT", Status::SCAN_LEFT),
        ("LPE", Status::LPE),
        ("TPE", Status::TPE),
        ("NOT_RECOGNISED", Status::NOT_RECOGNISED),
        ("TRANSMISSION", Status::TRANSMISSION),
        ("NO_X", Status::NO_X),
        ("NO_Q", Status::NO_Q),
        ("ENDED", Status::ENDED),
    ];
    assert_constants("STATUS_", &bits.map(|(name, bit)| (name, u64::from(bit.0))));
}

#[test]
fn codes_of_the_header() {
    let codes = [
        ("NO_ERROR", Code::NO_ERROR),
        ("ILLEGAL_COMMAND", Code::ILLEGAL_COMMAND),
        ("SERIAL_ERROR", Code::SERIAL_ERROR),
        ("NO_Q", Code::NO_Q),
        ("NO_X", Code::NO_X),
        ("N_ABOVE_23", Code::N_ABOVE_23),
        ("STE", Code::STE),
        ("TIMEOUT", Code::TIMEOUT),
        ("ADNR", Code::ADNR),
        ("NO_SYNC", Code::NO_SYNC),
    ];
    let codes = codes.map(|(name, code)| (name, u64::from(code.number())));
    assert_constants("CODE_", &codes);
}

/// The reasons have the header's names, numbers and texts.
#[test]
fn refusals_of_the_header() {
    let header = header();
    let mut expected = BTreeMap::new();
    for reason in Reason::ALL {
        let mut name = String::new();
        for letter in format!("{reason:?}").chars() {
            if letter.is_uppercase() && !name.is_empty() {
                name.push('_');
            }
            name.push(letter.to_ascii_uppercase());
        }
        let text = format!("case CAMLIST_REFUSED_{name}: return \"{reason}\";");
        assert!(header.contains(&text), "{text}");
        expected.insert(name, reason.number());
    }
    assert_eq!(constants("REFUSED_"), expected);
}

/// The record's numbers stand where the header says.
#[test]
fn record_of_the_header() {
    let mut numbers = [0; RECORD_NUMBERS];
    for (place, number) in numbers.iter_mut().enumerate() {
        *number = place as u64;
    }
    let record = Record::from_numbers(numbers);
    let note = record.note().expect("a note");
    let places = [
        ("ENDED", 0),
        ("INSTRUCTION", record.instruction()),
        ("WORDS_LEFT", record.words_left()),
        ("TRIES", record.tries()),
        ("N", record.station()),
        ("A", record.subaddress()),
        ("INCOMING_MARK", record.incoming_mark()),
        ("OUTGOING_MARK", record.outgoing_mark()),
        ("OPERATIONS", record.operations()),
        ("STATUS", u64::from(record.status().0)),
        ("NOTE_BUFFER", 10),
        ("NOTE_OFFSET", note.offset),
        ("NOTE_LENGTH", note.length),
        ("NUMBERS", RECORD_NUMBERS as u64),
    ];
    assert_constants("RECORD_", &places);
    assert!(!record.ended());
    numbers[0] = 1;
    assert!(Record::from_numbers(numbers).ended());
}

/// The builders set the header's bits.
#[test]
fn builders_of_the_header() {
    let constants = constants("");
    let camac = Camac::at(1, 2, 3, 4);
    let with = |camac: Camac| u64::from(camac.first_longword());
    let options = [
        ("STOP", with(camac.scan().stop())),
        ("IGNORE", with(camac.ignore())),
        ("REPEAT", with(camac.repeat())),
        ("SCAN", with(camac.scan())),
        ("16_BIT", with(camac.bits16())),
        ("ABORT_DISABLE", with(camac.abort_disable())),
    ];
    for (name, first) in options {
        assert_eq!(first, with(camac) | constants[name], "{name}");
    }
    let answer = Reply::answer(0).bytes()[1];
    let flags = [
        ("Q", Reply::answer(0).no_q()),
        ("X", Reply::answer(0).no_x()),
        ("ERR", Reply::answer(0).err()),
        ("DERR", Reply::answer(0).derr()),
        ("TPE", Reply::answer(0).tpe()),
        ("LPE", Reply::answer(0).lpe()),
    ];
    for (name, reply) in flags {
        let changed = answer ^ reply.bytes()[1];
        assert_eq!(u64::from(changed), constants[name], "{name}");
    }
}

/// The parts of a stored longword are the header's bits.
#[test]
fn longwords_of_the_header() {
    let bits = [("Q", Word::Q), ("X", Word::X), ("DATA", Word::DATA)];
    assert_constants("WORD_", &bits.map(|(name, bits)| (name, u64::from(bits))));
}

/// The proved names are the manual's, and blanks above 15.
#[test]
fn names_of_the_header() {
    for (code, name) in CODE_NAMES.iter().enumerate() {
        let mut filled = [b' '; NAME_BYTES];
        filled[..name.len()].copy_from_slice(name);
        assert_eq!(ffi::code_name(code as u64), filled);
    }
    for code in [16, 255, 256, 1 << 32, u64::MAX] {
        assert_eq!(ffi::code_name(code), [b' '; NAME_BYTES]);
    }
    assert_eq!(Code::N_ABOVE_23.to_string(), "N>23");
}

/// Builds the examples in C and compares what they print and draw with their files.
#[test]
fn c_example() {
    let example = repository("examples/c");
    let out = Path::new(env!("CARGO_TARGET_TMPDIR")).join("c");
    let make = Command::new("make")
        .args(["--silent", "--directory"])
        .arg(&example)
        .arg(format!("OUT={}", out.display()))
        .arg("check")
        .output()
        .expect("make");
    let said = [make.stdout, make.stderr].concat();
    assert!(make.status.success(), "{}", String::from_utf8_lossy(&said));
}
