//! Start: the first operation of every kind, runs that end at once, and refusals.

use super::instructions::{filled, kinds, list, refused_lists, Word};
use super::{Call, Group, Module};
use crate::cases::lists::{Draft, DraftField};
use crate::walk::admit;

pub fn module() -> Module {
    Module {
        name: "Starts",
        about: "Start: the first operation of every kind, runs that end at once, refusals.",
        groups: vec![operations(), ways(), refusals()],
    }
}

/// A start with buffers as long as B and O and no byte of them zero.
fn exact(list: Vec<u8>) -> Call {
    let counts = admit(&list, u64::MAX, u64::MAX).unwrap_or_default();
    Call::Start {
        list,
        incoming: filled(counts.b, 0x11),
        outgoing: filled(counts.o, 0x81),
    }
}

fn operations() -> Group {
    let about = "the operation wanted first: crate, N, A, F and data, whether it is enhanced";
    let mut group = Group::new("operations", about);
    for (number, kind) in kinds().iter().enumerate() {
        let field = kind.field(2, number % 2 == 1);
        group.add(&kind.name(), exact(list(2, vec![field])));
    }
    group
}

fn ways() -> Group {
    let about = "jumps and literals on the way to the first operation or to the end, with code 0";
    let mut group = Group::new("ways", about);
    let (jump, halt) = (DraftField::jump, DraftField::halt);
    let literal = || DraftField::literal(0xA1B2_C3D4);
    let write = || Word::K1.f(16).wide(true).field(None);
    let ways = [
        ("halt-alone", vec![halt()]),
        ("jump-to-a-halt", vec![jump(2), halt(), halt()]),
        ("one-literal", vec![literal(), halt()]),
        ("two-literals", vec![literal(), literal(), halt()]),
        (
            "jump-over-a-literal",
            vec![jump(2), literal(), literal(), halt()],
        ),
        ("literal-before-a-write", vec![literal(), write(), halt()]),
        (
            "literal-before-a-read",
            vec![literal(), Word::K1.field(None), halt()],
        ),
        ("jump-to-a-write", vec![jump(2), halt(), write(), halt()]),
        (
            "jump-to-a-write-and-back",
            vec![jump(2), halt(), write(), jump(1)],
        ),
    ];
    for (name, fields) in ways {
        group.add(name, exact(Draft::new(3, fields).bytes()));
    }
    let longer = Call::Start {
        list: list(3, vec![literal()]),
        incoming: filled(7, 0x11),
        outgoing: filled(3, 0x81),
    };
    group.add("longer-buffers", longer);
    group
}

fn refusals() -> Group {
    let about =
        "a refused start: number and place, a record marked ended and all else zero, buffers kept";
    let mut group = Group::new("refused-starts", about);
    for (name, list) in refused_lists() {
        let call = Call::Start {
            list,
            incoming: filled(3, 0x11),
            outgoing: filled(1, 0x81),
        };
        group.add(name, call);
    }
    group
}
