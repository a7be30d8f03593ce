//! One reply to an instruction of every kind: each row of the Q-modes' page.

use super::instructions::{filled, kinds, list, Kind, Word};
use super::{Call, Group, Module};
use crate::cases::by_hand::{answer, kind as reply_of_kind, DERR, ERR, LPE, Q, TPE, X};
use crate::cases::coverage::Mode;
use crate::cases::lists::DraftField;
use crate::fit::old_marks;
use crate::record::{Note, Record};
use crate::walk::admission;
use crate::words::Direction;

/// What the answers here bring.
const DATA: u32 = 0x34_5678;
/// R of the lists here.
const TRY_LIMIT: u16 = 2;

pub fn module() -> Module {
    let mut groups: Vec<Group> = kinds().iter().map(by_q_and_x).collect();
    groups.extend(places().iter().map(scan_places));
    groups.extend(words().iter().map(by_other_bits));
    groups.extend(meetings().iter().map(causes_together));
    Module {
        name: "Replies",
        about: "Step: one reply to an instruction of every kind, by AD, Q, X and the other bits.",
        groups,
    }
}

/// Where a run stands in the list of a kind.
#[derive(Clone, Copy)]
struct Place {
    kind: Kind,
    ad: bool,
    words_left: u64,
    tries: u64,
    position: (u32, u32),
}

impl Place {
    /// Before the first word.
    fn first(kind: Kind, ad: bool) -> Place {
        Place {
            kind,
            ad,
            words_left: if kind.is_block() { 2 } else { 1 },
            tries: 0,
            position: kind.position(),
        }
    }

    /// A 16-bit word comes first where a pad can follow, or a note is to be kept.
    fn has_word_before(&self) -> bool {
        self.kind.wide || self.kind.buffer().is_none()
    }

    /// The word before, the instruction, of two words in a block, and a literal.
    fn list(&self) -> Vec<u8> {
        let before = Word {
            f: if self.kind.buffer() == Some(1) { 16 } else { 0 },
            ..Word::K1
        };
        let mut fields = Vec::new();
        if self.has_word_before() {
            fields.push(before.field(None));
        }
        fields.push(self.kind.field(2, self.ad));
        fields.push(DraftField::literal(0xA1B2_C3D4));
        list(TRY_LIMIT, fields)
    }

    /// A step from here, with buffers as long as B and O.
    fn step(&self, reply: [u8; 8]) -> Call {
        let list = self.list();
        let admitted = admission(&list, u64::MAX, u64::MAX).expect("a list that is admitted");
        let mut record = Record {
            instruction: u64::from(self.has_word_before()),
            words_left: self.words_left,
            tries: self.tries,
            n: u64::from(self.position.0),
            a: u64::from(self.position.1),
            operations: u64::from(self.has_word_before()),
            ..Record::default()
        };
        let marks = old_marks(&admitted, &record).expect("a place on the walk");
        record.incoming_mark = marks.incoming;
        record.outgoing_mark = marks.outgoing;
        if self.has_word_before() {
            record.note = Note {
                buffer: self.kind.buffer().unwrap_or(0),
                offset: 0,
                length: 2,
            };
        }
        Call::Step {
            list,
            record,
            incoming: filled(admitted.counts.b, 0x11),
            outgoing: filled(admitted.counts.o, 0x81),
            reply: reply.to_vec(),
        }
    }
}

/// Q and X as bits of byte 1, with a name.
fn q_and_x() -> [(String, u8); 4] {
    [0, Q, X, Q | X].map(|bits| {
        let (q, x) = (bits & Q, (bits & X) / X);
        (format!("q-{q}-x-{x}"), bits)
    })
}

const BOTH: [bool; 2] = [false, true];

fn by_q_and_x(kind: &Kind) -> Group {
    let about = format!("{}, by AD, Q and X", kind.words());
    let mut group = Group::new(&kind.name(), &about);
    for ad in BOTH {
        let place = Place::first(*kind, ad);
        let ad = u8::from(ad);
        for (name, bits) in q_and_x() {
            let reply = answer(bits, DATA);
            group.add(&format!("ad-{ad}-{name}"), place.step(reply));
            if kind.repeats() && bits & Q == 0 {
                let tries = u64::from(TRY_LIMIT) - 1;
                let last = Place { tries, ..place };
                group.add(&format!("last-try-ad-{ad}-{name}"), last.step(reply));
            }
            if kind.is_block() && ad == 0 && bits & X != 0 {
                let last = Place {
                    words_left: 1,
                    ..place
                };
                group.add(&format!("last-word-ad-{ad}-{name}"), last.step(reply));
            }
        }
    }
    group
}

fn kind(mode: Mode, q_mode: u32, direction: Direction, wide: bool) -> Kind {
    Kind {
        mode,
        q_mode,
        direction,
        wide,
    }
}

/// The scans whose places are gone through.
fn places() -> [Kind; 4] {
    [
        kind(Mode::Block, 3, Direction::Read, true),
        kind(Mode::Block, 3, Direction::Write, false),
        kind(Mode::Single, 3, Direction::Read, true),
        kind(Mode::Inline, 3, Direction::Write, true),
    ]
}

fn scan_places(kind: &Kind) -> Group {
    let name = format!("{}-places", kind.name());
    let about = format!(
        "{}: at a station's last subaddress, in station 23, at its last position",
        kind.words()
    );
    let mut group = Group::new(&name, &about);
    let both_ad = kind.is_block() && kind.wide;
    for ad in BOTH.into_iter().filter(|ad| !ad || both_ad) {
        for position in [(22, 15), (23, 3), (23, 15)] {
            let first = Place::first(*kind, ad);
            for words_left in (1..=first.words_left).rev() {
                let place = Place {
                    position,
                    words_left,
                    ..first
                };
                let (n, a) = position;
                let ad = u8::from(ad);
                for (bits, flags) in q_and_x() {
                    let name = format!("at-{n}-{a}-left-{words_left}-ad-{ad}-{bits}");
                    group.add(&name, place.step(answer(flags, DATA)));
                }
            }
        }
    }
    group
}

/// A kind of each transfer mode and Q-mode.
fn words() -> Vec<Kind> {
    let of_words =
        |kind: &Kind| kind.wide && (kind.direction == Direction::Read || kind.mode == Mode::Inline);
    kinds().into_iter().filter(of_words).collect()
}

fn by_other_bits(kind: &Kind) -> Group {
    let name = format!("{}-other", kind.name());
    let about = format!(
        "{}: ERR, DERR, TPE and LPE, and replies of the kinds 1 to 3, by AD",
        kind.words()
    );
    let mut group = Group::new(&name, &about);
    let marks = [
        ("err", Q | X | ERR),
        ("err-x-0", Q | ERR),
        ("err-q-0", X | ERR),
        ("derr", Q | X | DERR),
        ("tpe", Q | X | TPE),
        ("lpe", Q | X | LPE),
    ];
    for ad in BOTH {
        let place = Place::first(*kind, ad);
        let ad = u8::from(ad);
        for (name, flags) in marks {
            group.add(&format!("ad-{ad}-{name}"), place.step(answer(flags, DATA)));
        }
        for kind in 1..4 {
            let reply = reply_of_kind(kind);
            group.add(&format!("ad-{ad}-kind-{kind}"), place.step(reply));
        }
    }
    group
}

/// Places where the most causes can meet: a single and a block in stop, a last try, a scan's
/// last position.
fn meetings() -> [(&'static str, Place); 4] {
    let at = |mode, q_mode| Place::first(kind(mode, q_mode, Direction::Read, true), false);
    let last_try = Place {
        tries: u64::from(TRY_LIMIT) - 1,
        ..at(Mode::Single, 2)
    };
    let last_position = Place {
        position: (23, 15),
        ..at(Mode::Block, 3)
    };
    [
        ("causes-in-a-stop-single", at(Mode::Single, 0)),
        ("causes-in-a-stop-block", at(Mode::Block, 0)),
        ("causes-on-a-last-try", last_try),
        ("causes-at-a-last-position", last_position),
    ]
}

fn causes_together((name, place): &(&'static str, Place)) -> Group {
    let mut group = Group::new(name, "several causes at once: the greatest code wins");
    let bits = [(Q, "q"), (X, "x"), (ERR, "err"), (LPE, "lpe")];
    for ad in BOTH {
        let place = Place { ad, ..*place };
        for choice in 0..16 {
            let chosen = bits.iter().enumerate();
            let chosen = chosen.filter(|(number, _)| choice >> number & 1 == 1);
            let (flags, names) = chosen.fold((0, String::new()), |(flags, names), (_, bit)| {
                (flags | bit.0, format!("{names}-{}", bit.1))
            });
            let names = if choice == 0 { "-none" } else { &names };
            let name = format!("ad-{}{names}", u8::from(ad));
            group.add(&name, place.step(answer(flags, DATA)));
        }
    }
    group
}
