//! Step: records at the bounds of every clause of fit, and one beyond each.

use std::collections::BTreeSet;

use super::bounds::{bounds_at, Bound, Change};
use super::instructions::{filled, refused_lists, Kind, Word};
use super::{Call, Group, Module};
use crate::cases::by_hand::{answer, hex, ok, Q, X};
use crate::cases::coverage::Mode;
use crate::cases::lists::{Draft, DraftField};
use crate::fit::{fits, most_still_possible, old_marks, Clause};
use crate::record::{Note, Record};
use crate::status;
use crate::walk::{admission, Admitted};
use crate::words::Direction;

pub fn module() -> Module {
    let mut seen = BTreeSet::new();
    let mut groups: Vec<Group> = places().iter().map(|p| at_bounds(p, &mut seen)).collect();
    groups.extend([
        instructions(),
        statuses(),
        notes(),
        scans_with_few_positions(),
        order(),
        order_of_lists(),
        replies(),
    ]);
    Module {
        name: "Fits",
        about: "Step: records at each clause's bound of fit and beyond (23), 24, 22, their order.",
        groups,
    }
}

/// A record that fits a list, with as many operations as fit.
#[derive(Clone)]
struct Place {
    name: String,
    list: Vec<u8>,
    record: Record,
}

impl Place {
    fn admitted(&self) -> Admitted {
        admission(&self.list, u64::MAX, u64::MAX).expect("a list that is admitted")
    }

    fn step(&self, record: Record, reply: &[u8]) -> Call {
        let counts = self.admitted().counts;
        Call::Step {
            list: self.list.clone(),
            record,
            incoming: filled(counts.b, 0x11),
            outgoing: filled(counts.o, 0x81),
            reply: reply.to_vec(),
        }
    }
}

const TRY_LIMIT: u16 = 3;

/// A literal, a block of three words, a halt, and a field that no walk comes to: the block's
/// neighbours are no CAMAC instructions.
fn list(kind: &Kind) -> Vec<u8> {
    let fields = vec![
        DraftField::literal(0xA1B2_C3D4),
        kind.field(3, false),
        DraftField::jump(4),
        Word::K1.field(None),
        DraftField::halt(),
    ];
    Draft::new(TRY_LIMIT, fields).bytes()
}

/// The record before one of the block's words, the marks those of the walk.
fn record(list: &[u8], words_left: u64, tries: u64, (n, a): (u32, u32)) -> Record {
    let admitted = admission(list, u64::MAX, u64::MAX).expect("a list that is admitted");
    let mut record = Record {
        instruction: 1,
        words_left,
        tries,
        n: u64::from(n),
        a: u64::from(a),
        ..Record::default()
    };
    let marks = old_marks(&admitted, &record).expect("a place on the walk");
    record.incoming_mark = marks.incoming;
    record.outgoing_mark = marks.outgoing;
    record.operations = admitted.counts.w - most_still_possible(&admitted, &record);
    record
}

/// Places by Q-mode and direction: before the first word and the last one, and where the
/// tries and a scan's positions are at their ends.
fn places() -> Vec<Place> {
    let mut places = Vec::new();
    for (q_mode, direction) in (0..4).flat_map(|q| [(q, Direction::Read), (q, Direction::Write)]) {
        let kind = Kind {
            mode: Mode::Block,
            q_mode,
            direction,
            wide: direction == Direction::Write,
        };
        let list = list(&kind);
        let tries = if q_mode == 2 {
            u64::from(TRY_LIMIT) - 1
        } else {
            0
        };
        let own = kind.position();
        let last = if q_mode == 3 { (23, 15) } else { own };
        for (name, words_left, position) in [("first", 3, own), ("last", 1, last)] {
            let mut record = record(&list, words_left, tries, position);
            record.note = note(&record, direction);
            places.push(Place {
                name: format!("{}-{name}-word", kind.name()),
                list: list.clone(),
                record,
            });
        }
    }
    places
}

/// A note of the last bytes below the mark, if there are any.
fn note(record: &Record, direction: Direction) -> Note {
    let (buffer, mark) = match direction {
        Direction::Write => (1, record.outgoing_mark),
        _ => (0, record.incoming_mark),
    };
    if mark < 4 {
        return Note::default();
    }
    Note {
        buffer,
        offset: mark - 4,
        length: 4,
    }
}

/// The record, and those beyond its bounds: of marks and operations at every place, of the
/// others where no place before was at them. The status has a group of its own.
fn at_bounds(place: &Place, seen: &mut BTreeSet<Bound>) -> Group {
    let about = "a record that fits, and those that one number makes unfit";
    let mut group = Group::new(&place.name, about);
    let reply = ok(0x34_5678);
    group.add("fits", place.step(place.record, &reply));
    for bound in bounds_at(&place.admitted(), &place.record) {
        let is_taken = match bound.clause {
            Clause::Status => false,
            Clause::Marks | Clause::Operations => true,
            _ => seen.insert(bound),
        };
        if let Some(beyond) = bound.change.made(&place.record).filter(|_| is_taken) {
            group.add(&bound.change.name(), place.step(beyond, &reply));
        }
    }
    group
}

/// A record at every instruction of a list, and past the last; one is a CAMAC instruction that
/// no walk comes to, and the record is as that one would have it.
fn instructions() -> Group {
    let about = "instruction: a CAMAC one on the walk, and no other";
    let mut group = Group::new("instructions", about);
    let place = &places()[0];
    let names = ["literal", "block", "jump", "unreached", "halt", "past-last"];
    for (instruction, name) in (0..).zip(names) {
        let mut record = Record {
            instruction,
            ..place.record
        };
        if name == "unreached" {
            record = Record {
                instruction,
                words_left: 1,
                n: 1,
                ..Record::default()
            };
        }
        let name = format!("at-{name}");
        group.add(&name, place.step(record, &ok(0x34_5678)));
    }
    group
}

/// Every bit of the status alone, and all that fit.
fn statuses() -> Group {
    let about = "status: bits 16–18, 20, 21, 23 and 26 fit, alone and together, and are kept; no \
                 other does";
    let mut group = Group::new("statuses", about);
    let place = &places()[0];
    let reply = ok(0x34_5678);
    let with = |status| Record {
        status,
        ..place.record
    };
    for bit in 0..32 {
        group.add(&format!("bit-{bit}"), place.step(with(1 << bit), &reply));
    }
    group.add("all-that-fit", place.step(with(status::FLAGS), &reply));
    let flags = answer(Q, 0x34_5678);
    group.add(
        "gathered",
        place.step(with(status::DERR | status::NO_Q), &flags),
    );
    group
}

/// Before the third of three singles, with incoming mark 2 and outgoing mark 4.
fn third_word() -> Place {
    let single = || Word::K1.field(None);
    let write = Word::K1.f(16).wide(true).field(None);
    let fields = vec![single(), write, single(), DraftField::halt()];
    let record = Record {
        instruction: 2,
        words_left: 1,
        n: 1,
        incoming_mark: 2,
        outgoing_mark: 4,
        operations: 2,
        ..Record::default()
    };
    Place {
        name: "notes".to_string(),
        list: Draft::new(TRY_LIMIT, fields).bytes(),
        record,
    }
}

/// Notes: zeros, two or four bytes of a buffer below its mark, and others.
fn notes() -> Group {
    let about = "note: zeros, or two or four bytes of its buffer below that buffer's mark";
    let mut group = Group::new("notes", about);
    let place = third_word();
    let lengths = (0..3).flat_map(|buffer| (0..6).map(move |length| (buffer, length)));
    for (buffer, length) in lengths {
        for offset in 0..3 {
            let note = Note {
                buffer,
                offset,
                length,
            };
            let record = Record {
                note,
                ..place.record
            };
            let is_telling = fits(&place.admitted(), &record) || offset + length < 5;
            if is_telling && (buffer < 2 || offset == 0) {
                let name = format!("buffer-{buffer}-offset-{offset}-length-{length}");
                group.add(&name, place.step(record, &ok(0x34_5678)));
            }
        }
    }
    group
}

/// A scan with as many words left as positions, and with more: nothing after it counts.
fn scans_with_few_positions() -> Group {
    let about = "operations and the most still possible: a scan with more words left than \
                 positions has its positions and nothing after it";
    let mut group = Group::new("few-positions", about);
    let scan = Kind {
        mode: Mode::Block,
        q_mode: 3,
        direction: Direction::Read,
        wide: false,
    };
    let fields = vec![
        DraftField::literal(7),
        scan.field(3, false),
        Word::K1.field(None),
        DraftField::halt(),
    ];
    let list = Draft::new(TRY_LIMIT, fields).bytes();
    for (a, words_left) in [(13, 3), (14, 3), (15, 3), (14, 2), (15, 2), (15, 1)] {
        let place = Place {
            name: String::new(),
            record: record(&list, words_left, 0, (23, a)),
            list: list.clone(),
        };
        let name = format!("at-23-{a}-left-{words_left}");
        let reply = ok(0x34_5678);
        group.add(&format!("{name}-most"), place.step(place.record, &reply));
        let beyond = Change::More(8).made(&place.record).expect("one more");
        group.add(&format!("{name}-one-more"), place.step(beyond, &reply));
    }
    group
}

/// A reply of no kind.
const BAD: &str = "04 00 00 00 00 00 00 00";

/// A record that is marked ended.
fn ended(record: Record) -> Record {
    Record {
        ended: true,
        ..record
    }
}

/// A record that doesn't fit by its tries.
fn unfit(place: &Place) -> Record {
    let tries = place.record.tries + 1;
    Record {
        tries,
        ..place.record
    }
}

/// 24, 23, 22.
fn order() -> Group {
    let about = "24: ended, before 23, before 22";
    let mut group = Group::new("order", about);
    let place = &places()[1];
    let unfit = unfit(place);
    let (good, bad) = (ok(1), hex(BAD));
    group.add("ended-record", place.step(ended(place.record), &good));
    group.add("ended-with-zeros", place.step(Record::refused(), &good));
    group.add("ended-and-unfit", place.step(ended(unfit), &bad));
    group.add("unfit-and-bad-reply", place.step(unfit, &bad));
    group.add("bad-reply", place.step(place.record, &bad));
    group
}

/// The refusals of a list and of buffers come first.
fn order_of_lists() -> Group {
    let about = "the refusals of admission, before 24, 23 and 22";
    let mut group = Group::new("refused-lists", about);
    let place = &places()[3];
    let counts = place.admitted().counts;
    let with = |list: &[u8], incoming_len, outgoing_len| Call::Step {
        list: list.to_vec(),
        record: ended(unfit(place)),
        incoming: filled(incoming_len, 0x11),
        outgoing: filled(outgoing_len, 0x81),
        reply: hex(BAD),
    };
    let (list, b, o) = (&place.list, counts.b, counts.o);
    group.add("refusal-21", with(list, b, o - 1));
    group.add("refusal-20", with(list, b - 1, o - 1));
    for (name, list) in refused_lists().into_iter().take(10) {
        group.add(name, with(&list, 0, 0));
    }
    group
}

/// Replies that aren't formed as they should be, and those next to them that are.
fn replies() -> Group {
    let about = "22: a reply not formed as document 01 has it";
    let mut group = Group::new("replies", about);
    let place = &places()[0];
    let mut of = |name: &str, reply: &[u8]| group.add(name, place.step(place.record, reply));
    let good = answer(Q | X, 0x34_5678);
    for length in 0..8 {
        of(&format!("length-{length}"), &good[..length]);
    }
    of("length-9", &[&good[..], &[0]].concat());
    of("length-16", &good.repeat(2));
    for kind in 0..6 {
        of(&format!("kind-{kind}"), &[kind, 0, 0, 0, 0, 0, 0, 0]);
    }
    for (at, value) in [
        (0, 255),
        (1, 64),
        (1, 128),
        (1, 63),
        (2, 1),
        (3, 1),
        (7, 1),
        (6, 255),
    ] {
        let mut reply = good;
        reply[at] = value;
        of(&format!("answer-byte-{at}-{value}"), &reply);
    }
    for kind in 1..4 {
        for at in 1..8 {
            let mut reply = [kind, 0, 0, 0, 0, 0, 0, 0];
            reply[at] = 1;
            of(&format!("kind-{kind}-byte-{at}"), &reply);
        }
    }
    group
}
