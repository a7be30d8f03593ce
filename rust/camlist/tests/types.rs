//! The types say what the numbers say, on random cases; the builders write what the separate
//! build's drafts write.

#![cfg(library)]

use camlist::{admit, ffi, run, Buffer, Camac, List, Operation, Reason, Record, Refusal};
use camlist::{Reply, Run};
use reference::cases::calls::call_case;
use reference::cases::lists::{Draft, DraftField, BITS_16, BLOCK, ENHANCED, INLINE};
use reference::cases::rng::Rng;
use reference::cases::rows;

const CASES: u64 = 20_000;
const SEED: u64 = 40;

/// Number and place of a refusal; zeros where nothing was refused.
fn refusal_numbers<Answer>(answer: &Result<Answer, Refusal>) -> [u64; 2] {
    match answer {
        Ok(_) => [0, 0],
        Err(Refusal { reason, place }) => [reason.number(), *place as u64],
    }
}

/// The six numbers of an operation; zeros for none.
fn operation_numbers(operation: Option<Operation>) -> [u64; 6] {
    let Some(operation) = operation else {
        return [0; 6];
    };
    let Operation {
        crate_number,
        station,
        subaddress,
        function,
        data,
        enhanced,
    } = operation;
    let naf = [crate_number, station, subaddress, function].map(u64::from);
    let [crate_number, n, a, f] = naf;
    [crate_number, n, a, f, u64::from(data), u64::from(enhanced)]
}

#[test]
fn calls() {
    for number in 0..CASES {
        let case = call_case(SEED, number);
        let (list, outgoing) = (&case.list, &case.outgoing);
        let lengths = (case.incoming.len() as u64, outgoing.len() as u64);
        let [refused, place, w, b, o] = ffi::admit(list, lengths.0, lengths.1);
        let counts = admit(list, lengths.0, lengths.1);
        assert_eq!(refusal_numbers(&counts), [refused, place]);
        let counts = counts.map_or([0; 3], |c| [c.operations, c.incoming, c.outgoing]);
        assert_eq!(counts, [w, b, o]);

        let (mut incoming, mut expected) = (case.incoming.clone(), case.incoming.clone());
        let [refused, place, taken, record @ ..] =
            ffi::run(list, &mut expected, outgoing, &case.row);
        let ran = run(list, &mut incoming, outgoing, &case.row);
        assert_eq!(
            (refusal_numbers(&ran), &incoming),
            ([refused, place], &expected)
        );
        if let Ok(ran) = ran {
            assert_eq!((ran.taken as u64, ran.record.numbers()), (taken, record));
        }

        let mut record = case.record;
        let given = Record::from_numbers(record);
        let mut expected = case.incoming.clone();
        let [refused, place, taken, wanted @ ..] =
            ffi::steps(list, &mut record, &mut expected, outgoing, &case.row);
        let mut incoming = case.incoming.clone();
        let stepped = Run::resume(list, given, &mut incoming, outgoing).and_then(|mut run| {
            let taken = run.steps(&case.row)? as u64;
            Ok((
                taken,
                run.record().numbers(),
                operation_numbers(run.wanted()),
            ))
        });
        assert_eq!(refusal_numbers(&stepped), [refused, place]);
        if let Ok(stepped) = stepped {
            assert_eq!(stepped, (taken, record, wanted));
        }
        assert_eq!(incoming, expected);
    }
}

/// A run by steps along replies of every manner: what is wanted, stored and moved last.
#[test]
fn runs() {
    for number in 0..CASES / 10 {
        let case = call_case(SEED, number);
        let mut expected = case.incoming.clone();
        let mut record = [0; ffi::RECORD_NUMBERS];
        let started = ffi::start(&case.list, &mut expected, &case.outgoing, &mut record);
        let mut incoming = case.incoming.clone();
        let run = Run::start(&case.list, &mut incoming, &case.outgoing);
        assert_eq!(refusal_numbers(&run)[..], started[..2]);
        let Ok(mut run) = run else {
            continue;
        };
        assert_eq!(operation_numbers(run.wanted())[..], started[2..]);
        let mut rng = Rng::of_case(SEED, number);
        while run.wanted().is_some() && run.record().operations() < 50 {
            let bytes = rows::any_reply(&mut rng);
            let stepped = ffi::step(
                &case.list,
                &mut record,
                &mut expected,
                &case.outgoing,
                &bytes,
            );
            let wanted = run.step(reply(bytes)).expect("not refused");
            assert_eq!(wanted, run.wanted());
            assert_eq!(operation_numbers(wanted)[..], stepped[2..]);
            assert_eq!(run.record().numbers(), record);
            let stored = &expected[..record[6] as usize];
            assert_eq!(run.stored(), stored);
            let [.., buffer, offset, length] = record.map(|number| number as usize);
            let moved = match run.last_moved() {
                None => (0, &expected[..0]),
                Some((Buffer::Incoming, bytes)) => (0, bytes),
                Some((Buffer::Outgoing, bytes)) => (1, bytes),
            };
            let buffers = [&expected, &case.outgoing];
            assert_eq!(moved, (buffer, &buffers[buffer][offset..offset + length]));
        }
        if run.status().ended() {
            assert_eq!(run.step(Reply::timeout()).unwrap_err().reason.number(), 24);
        }
    }
}

/// A place is in the list for 1 to 10, in the row for 32, and not said for others.
#[test]
fn places() {
    for reason in Reason::ALL {
        let number = reason.number();
        let at = match number {
            1..=10 => " at byte 12 of the list",
            32 => " at byte 12 of the row",
            _ => "",
        };
        let refusal = Refusal { reason, place: 12 };
        let text = format!("refusal {number}{at}: {reason}");
        assert_eq!(refusal.to_string(), text);
    }
}

type Change = fn(Reply) -> Reply;

/// The reply that the builders make of these bytes.
fn reply(bytes: [u8; 8]) -> Reply {
    let [kind, flags, _, _, low, middle, high, _] = bytes;
    let mut reply = match kind {
        0 => Reply::answer(u32::from_le_bytes([low, middle, high, 0])),
        1 => Reply::timeout(),
        2 => Reply::not_recognised(),
        _ => Reply::no_sync(),
    };
    if kind == 0 {
        let set = |bit: u8| flags & bit != 0;
        let changes: [(bool, Change); 6] = [
            (!set(1), Reply::no_q),
            (!set(2), Reply::no_x),
            (set(4), Reply::err),
            (set(8), Reply::derr),
            (set(16), Reply::tpe),
            (set(32), Reply::lpe),
        ];
        for (_, change) in changes.into_iter().filter(|(is_set, _)| *is_set) {
            reply = change(reply);
        }
    }
    assert_eq!(reply.bytes(), bytes);
    reply
}

/// An instruction at crate, N, A and F with these low bits.
fn camac_of([crate_number, n, a, f]: [u32; 4], low: u32) -> Camac {
    let camac = Camac::at(crate_number, n, a, f);
    let camac = match low >> 3 {
        0 => camac.scan().stop(),
        1 => camac.ignore(),
        2 => camac.repeat(),
        _ => camac.scan(),
    };
    let camac = match low & BITS_16 {
        0 => camac.bits16().bits24(),
        _ => camac.bits16(),
    };
    match low & 1 {
        0 => camac,
        _ => camac.abort_disable(),
    }
}

/// Lists of every field, written by both.
#[test]
fn lists() {
    let mut rng = Rng::new(SEED);
    for _ in 0..CASES / 10 {
        let limit = rng.below(65_536) as u16;
        let parts = [64, 32, 16, 32].map(|bound| rng.below(bound) as u32);
        let [crate_number, n, a, f] = parts;
        let low = rng.below(32) as u32 & !4;
        let first = n << 25 | a << 21 | f << 16 | crate_number << 8 | low;
        let camac = camac_of(parts, low);
        let (words, data) = (rng.below(40_000) as u32, rng.number() as u32);
        let sixteen = low & BITS_16 != 0;
        let halfwords = if sixteen { words } else { 2 * words };
        let count = Some(halfwords.wrapping_neg());
        let fields = vec![
            DraftField::camac(first, None),
            DraftField::camac(first | BLOCK, count),
            DraftField::camac(first | ENHANCED, count),
            DraftField::camac(first | INLINE, Some(data)),
            DraftField::jump(usize::from(limit)),
            DraftField::literal(data),
            DraftField::halt(),
        ];
        let list = List::new(limit).single(camac).block(camac, words);
        let list = list.enhanced(camac, words).inline(camac, data);
        let list = list.jump(limit).literal(data).halt();
        assert_eq!(list.bytes(), Draft::new(limit, fields).bytes());
    }
}

/// "N 30, F 12, A 0 or 1 reading and 2 or 3 writing", Q-mode 3 in transfer mode 2.
#[test]
fn sequencers() {
    let firsts = [0x3C0C_0158, 0x3C2C_0158, 0x3C4C_0158, 0x3C6C_0158];
    for (number, first) in (0..).zip(firsts) {
        let sequencer = Camac::sequencer(1, number);
        let short = sequencer.bits16().abort_disable();
        let list = List::new(9).enhanced(sequencer, 5).enhanced(short, 5);
        let fields = vec![
            DraftField::camac(first, Some(0xFFFF_FFF6)),
            DraftField::camac(first | 3, Some(0xFFFF_FFFB)),
        ];
        assert_eq!(list.bytes(), Draft::new(9, fields).bytes());
    }
}

#[test]
#[should_panic(expected = "the sequencer has no list 4")]
fn a_list_that_the_sequencer_lacks() {
    Camac::sequencer(1, 4);
}

#[test]
#[should_panic(expected = "64 has more than 6 bits")]
fn a_crate_too_wide() {
    Camac::at(64, 1, 0, 0);
}
