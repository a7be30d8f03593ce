//! The whole run: every end code, rows cut short, longer than the run and of no reply, packing,
//! short blocks and the worst count.

use super::instructions::{filled, list, refused_lists, Kind, Word};
use super::{Call, Group, Module};
use crate::cases::by_hand::{answer, hex, kind, ok, DERR, ERR, LPE, Q, TPE, X};
use crate::cases::coverage::Mode;
use crate::cases::lists::DraftField;
use crate::walk::admit;
use crate::words::Direction;

pub fn module() -> Module {
    Module {
        name: "Runs",
        about: "The whole run: end codes, rows of all lengths, packing, short blocks, W, refusals.",
        groups: vec![
            end_codes(),
            rows(),
            bad_rows(),
            packing(),
            short_blocks(),
            worst_counts(),
            refusals(),
        ],
    }
}

/// A run with buffers as long as B and O and no byte of them zero.
pub fn exact(list: Vec<u8>, row: Vec<u8>) -> Call {
    let counts = admit(&list, u64::MAX, u64::MAX).unwrap_or_default();
    Call::Run {
        list,
        incoming: filled(counts.b, 0x11),
        outgoing: filled(counts.o, 0x81),
        row,
    }
}

fn read(q_mode: u32, mode: u32) -> Word {
    Word::of(mode, q_mode).at(23, 13)
}

/// A word read, then a single, or a block of two words; one good reply comes first.
fn behind_a_word(word: Word, replies: &[[u8; 8]]) -> Call {
    let second = (word.mode == 1).then_some(2_u32.wrapping_neg());
    let fields = vec![Word::K1.field(None), word.field(second)];
    let row = [vec![ok(0x1122)], replies.to_vec()].concat().concat();
    exact(list(2, fields), row)
}

fn end_codes() -> Group {
    let mut group = Group::new("end-codes", "each end code, behind a word that was moved");
    let (good, no_q) = (ok(0x3344), answer(X, 0x5566));
    let bad = |bits| answer(bits, 5);
    let (stop, repeat, scan) = (read(0, 1), read(2, 1), read(3, 1));
    let ends: [(&str, Word, &[[u8; 8]]); 15] = [
        ("code-0", read(0, 0), &[good]),
        ("code-4", read(1, 1), &[good, bad(Q | X | ERR)]),
        ("code-4-in-scan", scan, &[good, bad(Q | X | ERR)]),
        ("code-7", read(0, 0), &[no_q]),
        ("code-8", read(1, 1), &[good, bad(Q)]),
        ("code-8-in-repeat", repeat, &[no_q, bad(Q)]),
        ("code-9-skipping", scan, &[good, no_q]),
        ("code-9-single", read(3, 0).at(23, 15), &[no_q]),
        ("code-A-tpe", read(1, 1), &[good, bad(Q | X | TPE)]),
        ("code-A-lpe", repeat, &[good, bad(Q | X | LPE)]),
        ("code-B-timeout", stop, &[good, kind(1)]),
        ("code-B-tries-spent", repeat, &[good, no_q, no_q]),
        (
            "code-0-tries-of-each-word",
            repeat,
            &[no_q, good, no_q, good],
        ),
        ("code-C", stop, &[good, kind(2)]),
        ("code-D", stop, &[good, kind(3)]),
    ];
    for (name, word, replies) in ends {
        group.add(name, behind_a_word(word, replies));
    }
    group.add("code-0-halt-alone", exact(list(2, vec![]), Vec::new()));
    group
}

/// Two words read, then a halt.
fn two_words() -> Vec<u8> {
    list(3, vec![read(1, 1).of_halfwords(2)])
}

fn rows() -> Group {
    let about = "rows of no reply, of fewer than the run takes, of as many, of more; rows with a \
                 part of 8 bytes";
    let mut group = Group::new("rows", about);
    let replies = [ok(0x1122), ok(0x3344), ok(0x5566), kind(3)].concat();
    for count in 0..=4 {
        let row = replies[..8 * count].to_vec();
        group.add(&format!("replies-{count}"), exact(two_words(), row));
    }
    for count in 0..=3 {
        for part in 1..8 {
            let row = replies[..8 * count + part].to_vec();
            let name = format!("replies-{count}-and-{part}-bytes");
            group.add(&name, exact(two_words(), row));
        }
    }
    group.add(
        "halt-and-replies",
        exact(list(3, vec![]), replies[..16].to_vec()),
    );
    group.add(
        "halt-and-3-bytes",
        exact(list(3, vec![]), replies[..3].to_vec()),
    );
    group
}

/// A row with one reply spoilt.
fn bad_rows() -> Group {
    let about = "22: a reply anywhere that isn't formed as it should be, past the run's end too";
    let mut group = Group::new("bad-rows", about);
    let spoilt = [
        ("kind-4", hex("04 00 00 00 00 00 00 00")),
        ("bit-6", hex("00 43 00 00 01 00 00 00")),
        ("byte-2", hex("00 03 01 00 01 00 00 00")),
        ("byte-7", hex("00 03 00 00 01 00 00 01")),
        ("kind-1-byte-1", hex("01 01 00 00 00 00 00 00")),
        ("kind-3-byte-4", hex("03 00 00 00 01 00 00 00")),
    ];
    for (name, bad) in spoilt {
        for at in 0..3 {
            let mut row = [ok(0x1122), ok(0x3344), ok(0x5566)].concat();
            row[8 * at..8 * at + 8].copy_from_slice(&bad);
            let name = format!("{name}-in-reply-{at}");
            group.add(&name, exact(two_words(), row));
        }
    }
    group
}

/// The orders of 16-bit and 24-bit words that are moved, with their names.
const ORDERS: [(&str, &[bool]); 5] = [
    ("16-24", &[false, true]),
    ("24-16", &[true, false]),
    ("16-16-24", &[false, false, true]),
    ("16-24-16-24", &[false, true, false, true]),
    ("24-24-16", &[true, true, false]),
];

/// A single in ignore with AD = 1.
fn single(f: u32, wide: bool) -> Word {
    Word {
        ad: true,
        ..Word::of(0, 1).f(f).wide(wide)
    }
}

fn literal() -> DraftField {
    DraftField::literal(0xA1B2_C3D4)
}

fn packing() -> Group {
    let about = "words and literals in the buffers: pads, marks and notes; Q and X above a stored \
                 24-bit word";
    let mut group = Group::new("packing", about);
    let good = ok(0xF1_E2D3);
    let field = |f, wide| single(f, wide).field(None);
    for (f, way) in [(0, "read"), (16, "write")] {
        for (name, sizes) in ORDERS {
            let fields = sizes.iter().map(|&wide| field(f, wide)).collect();
            let call = exact(list(3, fields), good.repeat(sizes.len()));
            group.add(&format!("{way}-{name}"), call);
        }
        let fields = vec![field(f, false), literal(), field(f, false), literal()];
        let call = exact(list(3, fields), good.repeat(2));
        group.add(&format!("{way}-16-literal-16-literal"), call);
    }
    let words = [(0, false), (16, false), (8, false), (0, true), (16, true)];
    for count in 0..=words.len() {
        let fields = words.iter().map(|&(f, wide)| field(f, wide)).collect();
        let row = answer(X | DERR, 0xF1_E2D3).repeat(count);
        let name = format!("both-buffers-replies-{count}");
        group.add(&name, exact(list(3, fields), row));
    }
    let block = Word {
        mode: 1,
        ..single(0, true)
    };
    let fields = vec![block.of_halfwords(8), literal()];
    let row = [Q | X, Q, X, 0]
        .map(|bits| answer(bits, 0x03_0201))
        .concat();
    group.add("q-and-x-in-the-longword", exact(list(3, fields), row));
    group
}

/// What follows a block that is closed.
fn followers() -> Vec<(&'static str, DraftField)> {
    let word = |f, wide| {
        Word {
            f,
            wide,
            ..Word::K1
        }
        .field(None)
    };
    let inline = Word {
        f: 16,
        mode: 3,
        ..Word::K1
    };
    vec![
        ("read-16", word(0, false)),
        ("read-24", word(0, true)),
        ("write-16", word(16, false)),
        ("write-24", word(16, true)),
        ("control", word(8, false)),
        ("inline", inline.field(Some(0x1234))),
        ("literal", DraftField::literal(0xA1B2_C3D4)),
        ("jump", DraftField::jump(2)),
        ("halt", DraftField::halt()),
    ]
}

fn short_blocks() -> Group {
    let about = "Q = 0 closes a stop block at its first, second or last word; what follows goes \
                 on at the marks reached";
    let mut group = Group::new("short-blocks", about);
    let no_q = answer(X, 0x7788);
    for (mode, direction) in [
        (Mode::Block, Direction::Read),
        (Mode::Enhanced, Direction::Read),
        (Mode::Block, Direction::Write),
        (Mode::Enhanced, Direction::Write),
    ] {
        let block = Kind {
            mode,
            q_mode: 0,
            direction,
            wide: false,
        };
        for (at, (name, follower)) in followers().into_iter().enumerate() {
            let moved = at % 3;
            let fields = vec![block.field(3, false), follower];
            let good = ok(0x3344);
            let row = [good.repeat(moved), no_q.to_vec(), good.to_vec()].concat();
            let name = format!("{}-of-{moved}-before-{name}", block.name());
            group.add(&name, exact(list(3, fields), row));
        }
    }
    group
}

fn worst_counts() -> Group {
    let about = "runs of W operations that end with code 0, with the marks B and O and with less";
    let mut group = Group::new("worst-counts", about);
    let of = |word: Word, halfwords, row: Vec<u8>| {
        let block = Word { mode: 1, ..word };
        exact(list(2, vec![block.of_halfwords(halfwords)]), row)
    };
    let (good, no_q) = (ok(0x3344), answer(X, 0));
    group.add("stop", of(read(0, 1), 2, good.repeat(2)));
    group.add("stop-short", of(read(0, 1), 2, [good, no_q].concat()));
    group.add("ignore", of(read(1, 1), 2, no_q.repeat(2)));
    group.add(
        "repeat",
        of(read(2, 1), 2, [no_q, good, no_q, good].concat()),
    );
    let scan = |n, a| Word { n, a, ..read(3, 1) };
    group.add(
        "scan-of-one",
        of(scan(21, 15), 1, [no_q, no_q, good].concat()),
    );
    group.add(
        "scan-of-two",
        of(scan(22, 15), 2, [no_q, good, good].concat()),
    );
    group.add(
        "scan-of-three",
        of(scan(22, 14), 3, [good, no_q, good, good].concat()),
    );
    group.add("scan-of-all-positions", of(scan(23, 13), 3, good.repeat(3)));
    group
}

fn refusals() -> Group {
    let about =
        "a refused run: no reply taken, a record marked ended and all else zero, buffers kept";
    let mut group = Group::new("refused-runs", about);
    let halt = ("refusal-22", list(3, Vec::new()));
    for (name, list) in refused_lists().into_iter().chain([halt]) {
        let call = Call::Run {
            list,
            incoming: filled(3, 0x11),
            outgoing: filled(1, 0x81),
            row: hex("04 00 00"),
        };
        group.add(name, call);
    }
    group
}
