//! Admission: every refusal at its bound and with its place, their order, and W, B and O.

use super::instructions::{list, Kind, Word};
use super::{Call, Group, Module};
use crate::cases::by_hand::hex;
use crate::cases::coverage::Mode;
use crate::cases::lists::{Draft, DraftField};
use crate::list::MOST_INSTRUCTIONS;
use crate::walk::admit;
use crate::words::Direction;

pub fn module() -> Module {
    Module {
        name: "Admissions",
        about:
            "Admission: each refusal at its bound, with its place; which comes first; W, B and O.",
        groups: vec![
            cut_fields(),
            first_fields(),
            tags(),
            lengths(),
            instruction_4097(),
            zero_bits(),
            addresses(),
            modes(),
            enhanced_modes(),
            second_longwords(),
            jumps(),
            walks(),
            buffers(),
            order(),
            worst_counts(),
            marks(),
        ],
    }
}

/// Admission of a list with buffers as long as B and O, or none where it is refused.
fn exact(list: Vec<u8>) -> Call {
    let counts = admit(&list, u64::MAX, u64::MAX).unwrap_or_default();
    Call::Admission {
        list,
        incoming_len: counts.b,
        outgoing_len: counts.o,
    }
}

/// The first field with R = 3, then bytes in hexadecimal.
fn behind_first(text: &str) -> Call {
    exact(crate::cases::by_hand::list(text))
}

/// One field and a halt.
fn alone(field: DraftField) -> Call {
    exact(list(3, vec![field]))
}

/// One field behind a literal and a halt, where no walk comes to it.
fn unreached(field: DraftField) -> Call {
    let before = vec![DraftField::literal(1), DraftField::halt()];
    exact(list(3, [before, vec![field]].concat()))
}

fn cut_fields() -> Group {
    let mut group = Group::new("refusal-1", "1: a field's head or body runs past the end");
    group.add("first-head-1-byte", exact(hex("01")));
    group.add("first-head-2-bytes", exact(hex("01 04")));
    group.add("first-body-none", exact(hex("01 04 00")));
    group.add("first-body-a-byte-short", exact(hex("01 04 00 01 00 03")));
    group.add("first-of-tag-2F-cut", exact(hex("2F 01 00")));
    group.add("head-1-byte", behind_first("2F 00 00 2F"));
    group.add("head-2-bytes", behind_first("2F 00 00 2F 00"));
    group.add("head-3-bytes", behind_first("2F 00 00 2F 00 00"));
    group.add("body-a-byte-short", behind_first("2F 00 00 20 02 00 00"));
    group.add("body-whole", behind_first("2F 00 00 20 02 00 00 00"));
    group.add("body-of-an-unknown-tag-cut", behind_first("55 02 00 00"));
    group.add("longest-body-cut", behind_first("21 FF FF 00 00 00 00"));
    group
}

fn first_fields() -> Group {
    let mut group = Group::new(
        "refusal-2",
        "2: no field, or the first isn't as in the table",
    );
    group.add("no-field", exact(Vec::new()));
    group.add("halt-first", exact(hex("2F 00 00")));
    group.add(
        "camac-first",
        exact(hex("10 04 00 02 01 00 02 01 04 00 01 00 03 00 2F 00 00")),
    );
    group.add("length-3", exact(hex("01 03 00 01 00 03 2F 00 00")));
    group.add("length-5", exact(hex("01 05 00 01 00 03 00 00 2F 00 00")));
    group.add("tag-0", exact(hex("00 04 00 01 00 03 00 2F 00 00")));
    group.add("format-0", exact(hex("01 04 00 00 00 03 00 2F 00 00")));
    group.add("format-2", exact(hex("01 04 00 02 00 03 00 2F 00 00")));
    group.add("zero-byte-1", exact(hex("01 04 00 01 01 03 00 2F 00 00")));
    for limit in [0, 1, 255, 256, 65_535] {
        group.add(&format!("try-limit-{limit}"), exact(list(limit, vec![])));
    }
    group
}

fn tags() -> Group {
    let mut group = Group::new("refusal-3", "3: unknown tag, or 01h again");
    for tag in [0x00, 0x02, 0x0F, 0x11, 0x1F, 0x22, 0x23, 0x2E, 0x30, 0xFF] {
        group.add(
            &format!("tag-{tag:02X}"),
            alone(DraftField::new(tag, &[0, 0])),
        );
    }
    group.add("tag-01", alone(DraftField::new(1, &[1, 0, 3, 0])));
    group.add("unreached", unreached(DraftField::new(1, &[1, 0, 3, 0])));
    group
}

fn lengths() -> Group {
    let mut group = Group::new("refusal-4", "4: length wrong for its tag");
    let tags: [(u8, &[usize]); 4] = [
        (0x10, &[0, 3, 4, 5, 7, 8, 9]),
        (0x20, &[0, 1, 2, 3]),
        (0x21, &[0, 3, 4, 5]),
        (0x2F, &[0, 1]),
    ];
    for (tag, lengths) in tags {
        for &length in lengths {
            let body = [0, 0, 0, 0, 0xFE, 0xFF, 0xFF, 0xFF, 0];
            let mut field = DraftField::new(tag, &body[..length]);
            if tag == 0x10 && length >= 4 {
                let mode = u32::from(length > 4);
                field.set_first(Word { mode, ..Word::K1 }.longword());
            }
            group.add(&format!("tag-{tag:02X}-length-{length}"), alone(field));
        }
    }
    group.add("unreached", unreached(DraftField::new(0x2F, &[0])));
    group
}

/// A list with so many halts before some fields, and where those begin.
pub fn behind_halts(halts: usize, fields: &[u8]) -> (Vec<u8>, usize) {
    let mut list = Draft::new(3, vec![DraftField::halt(); halts]).bytes();
    let place = list.len();
    list.extend(fields);
    (list, place)
}

fn instruction_4097() -> Group {
    let about = "5: instruction 4,097. The fields are read with 4,095 instructions before them: \
                 a list of 4,097 is too long to compute at once";
    let mut group = Group::new("refusal-5", about);
    let before = MOST_INSTRUCTIONS - 1;
    let of = |text: &str| Call::Fields {
        before,
        fields: hex(text),
    };
    group.add("instruction-4096", of("2F 00 00"));
    group.add("instruction-4097", of("2F 00 00 2F 00 00"));
    group.add(
        "behind-it-nothing-is-read",
        of("2F 00 00 2F 00 00 2F 00 00"),
    );
    group.add("before-an-unknown-tag", of("2F 00 00 55 00 00"));
    group.add("behind-a-cut-field", of("2F 00 00 2F 01 00"));
    group.add("unknown-tag-4096", of("55 00 00 2F 00 00"));
    group
}

fn zero_bits() -> Group {
    let mut group = Group::new("refusal-6", "6: a zero bit is set");
    for bit in [31, 30, 15, 14, 7, 2] {
        let first = Word::K1.longword() | 1 << bit;
        group.add(&format!("bit-{bit}"), alone(DraftField::camac(first, None)));
    }
    let block = Word {
        mode: 1,
        ..Word::K1
    };
    let first = block.longword() | 1 << 2;
    group.add("block-bit-2", alone(DraftField::camac(first, Some(!0))));
    group.add("none", alone(Word::K1.field(None)));
    group.add(
        "unreached",
        unreached(DraftField::camac(Word::K1.longword() | 4, None)),
    );
    group
}

fn addresses() -> Group {
    let about = "7: crate not 1–62; N not 1–23 or 30; Q-mode 3 with N = 30, but for the sequencer";
    let mut group = Group::new("refusal-7", about);
    for crate_number in [0, 1, 62, 63] {
        let word = Word {
            crate_number,
            ..Word::K1
        };
        group.add(&format!("crate-{crate_number}"), alone(word.field(None)));
    }
    for n in [0, 1, 23, 24, 29, 30, 31] {
        let word = Word::K1.at(n, 0);
        group.add(&format!("station-{n}"), alone(word.field(None)));
    }
    for q_mode in 0..4 {
        let of = |mode, f| Word::of(mode, q_mode).at(30, 0).f(f);
        let fields = [
            ("single", of(0, 0).field(None)),
            ("block", of(1, 0).of_halfwords(1)),
            ("inline", of(3, 16).field(Some(1))),
        ];
        for (name, field) in fields {
            let name = format!("{name}-station-30-q-mode-{q_mode}");
            group.add(&name, alone(field));
        }
    }
    for n in [24, 30, 31] {
        let field = Word::of(2, 3).at(n, 0).f(12).of_halfwords(1);
        group.add(&format!("sequencer-station-{n}"), alone(field));
    }
    group.add("unreached", unreached(Word::K1.at(24, 0).field(None)));
    group
}

fn modes() -> Group {
    let about = "8: length not the mode's; block with control; inline not write";
    let mut group = Group::new("refusal-8", about);
    let word = |mode, f| Word {
        mode,
        f,
        ..Word::K1
    };
    for (mode, f) in [(0, 0), (1, 0), (2, 0), (3, 16)] {
        let word = word(mode, f);
        group.add(&format!("mode-{mode}-length-4"), alone(word.field(None)));
        group.add(
            &format!("mode-{mode}-length-8"),
            alone(word.of_halfwords(1)),
        );
    }
    let second = |mode: u32| if mode == 3 { 1 } else { !0 };
    for mode in [1, 3] {
        let name = if mode == 1 { "block" } else { "inline" };
        for f in [0, 7, 8, 15, 16, 23, 24, 31] {
            let field = word(mode, f).field(Some(second(mode)));
            group.add(&format!("{name}-function-{f}"), alone(field));
        }
    }
    for f in [7, 8, 15, 16, 23, 24, 31] {
        group.add(
            &format!("single-function-{f}"),
            alone(word(0, f).field(None)),
        );
    }
    group.add("unreached", unreached(word(1, 8).of_halfwords(1)));
    group
}

fn enhanced_modes() -> Group {
    let about =
        "8 in transfer mode 2: control outside sequencer mode, a repeat write, a sequencer \
                 instruction other than its four";
    let mut group = Group::new("refusal-8-enhanced", about);
    let word = |q_mode, n, a, f| Word {
        n,
        a,
        f,
        mode: 2,
        q_mode,
        ..Word::K1
    };
    for q_mode in 0..3 {
        for f in [0, 7, 8, 15, 16, 23, 24, 31] {
            let field = word(q_mode, 1, 0, f).of_halfwords(2);
            group.add(&format!("q-mode-{q_mode}-function-{f}"), alone(field));
        }
    }
    for a in 0..6 {
        let field = word(3, 30, a, 12).of_halfwords(2);
        group.add(&format!("sequencer-subaddress-{a}"), alone(field));
    }
    for f in [0, 4, 11, 13, 16, 28] {
        let field = word(3, 30, 0, f).of_halfwords(2);
        group.add(&format!("sequencer-function-{f}"), alone(field));
    }
    for n in [1, 23] {
        let field = word(3, n, 0, 12).of_halfwords(2);
        group.add(&format!("sequencer-station-{n}"), alone(field));
    }
    group
}

fn second_longwords() -> Group {
    let about =
        "9: second longword zero in a block; H above 65,536; H odd for 24-bit; inline bits \
                 above the word size; scan with n above P";
    let mut group = Group::new("refusal-9", about);
    for (mode, name) in [(1, "block"), (2, "enhanced")] {
        let word = Word::of(mode, 0);
        for h in [0, 1, 65_537] {
            let name = format!("{name}-16-h-{h}");
            group.add(&name, alone(word.of_halfwords(h)));
        }
        for h in [0, 1, 2, 3, 65_535, 65_537, 65_538] {
            let name = format!("{name}-24-h-{h}");
            group.add(&name, alone(word.wide(true).of_halfwords(h)));
        }
    }
    let block = Word::of(1, 0);
    group.add("block-16-h-65536", alone(block.of_halfwords(65_536)));
    group.add("block-second-longword-1", alone(block.field(Some(1))));
    for (wide, bits) in [(false, 16), (true, 24)] {
        let inline = Word::of(3, 0).f(16).wide(wide);
        for data in [(1 << bits) - 1, 1 << bits, 1 << 31] {
            let name = format!("inline-{bits}-word-{data:X}");
            group.add(&name, alone(inline.field(Some(data))));
        }
    }
    add_scans(&mut group);
    group
}

/// Scans of as many words as positions, and of one more; sequencers of more.
fn add_scans(group: &mut Group) {
    for (n, a) in [(23, 15), (23, 14), (23, 0), (22, 14)] {
        let positions = (23 - n) * 16 + 16 - a;
        for words in [positions, positions + 1] {
            let field = Word::of(1, 3).at(n, a).of_halfwords(words);
            group.add(&format!("scan-{n}-{a}-words-{words}"), alone(field));
        }
    }
    for words in [0, 1, 369] {
        let field = Word::of(2, 3).at(30, 0).f(12).of_halfwords(words);
        group.add(&format!("sequencer-words-{words}"), alone(field));
    }
    group.add("unreached", unreached(Word::of(1, 0).of_halfwords(0)));
}

fn jumps() -> Group {
    let mut group = Group::new("refusal-10", "10: jump target not an instruction");
    let jump = DraftField::jump;
    for target in 1..4 {
        let fields = vec![jump(target), DraftField::halt()];
        group.add(&format!("target-{target}-of-3"), exact(list(3, fields)));
    }
    group.add("target-65535", alone(jump(65_535)));
    for target in 0..3 {
        let fields = Draft::new(3, vec![DraftField::halt(), jump(target)]);
        group.add(
            &format!("unreached-target-{target}-of-2"),
            exact(fields.bytes()),
        );
    }
    let fields = vec![DraftField::literal(1), jump(9), jump(8)];
    group.add("first-of-two", exact(list(3, fields)));
    let word = Word { n: 0, ..Word::K1 };
    let fields = vec![jump(9), word.field(None)];
    group.add("behind-7", exact(list(3, fields)));
    group
}

fn walks() -> Group {
    let about = "11: the walk repeats or passes the last field";
    let mut group = Group::new("refusal-11", about);
    let (jump, halt) = (DraftField::jump, DraftField::halt);
    let literal = || DraftField::literal(7);
    let of = |fields: Vec<DraftField>| exact(Draft::new(3, fields).bytes());
    group.add("no-instruction", of(vec![]));
    group.add("jump-to-itself", of(vec![jump(0)]));
    group.add("jump-to-itself-before-a-halt", of(vec![jump(0), halt()]));
    group.add("two-jumps-around", of(vec![jump(1), jump(0)]));
    group.add(
        "back-to-the-middle",
        of(vec![literal(), literal(), jump(1)]),
    );
    group.add("passes-a-literal", of(vec![literal()]));
    group.add("passes-a-camac", of(vec![Word::K1.field(None)]));
    group.add("halt-not-reached", of(vec![jump(2), halt(), literal()]));
    group.add("jump-over-to-a-halt", of(vec![jump(2), jump(2), halt()]));
    group.add("back-to-a-halt", of(vec![jump(2), halt(), jump(1)]));
    group.add("loop-not-reached", of(vec![halt(), jump(1)]));
    group
}

fn buffers() -> Group {
    let about = "20: incoming shorter than B; 21: outgoing shorter than O";
    let mut group = Group::new("refusals-20-and-21", about);
    let kind = |direction| Kind {
        mode: Mode::Block,
        q_mode: 1,
        direction,
        wide: true,
    };
    let fields = vec![
        kind(Direction::Read).field(2, false),
        kind(Direction::Write).field(3, false),
    ];
    let list = list(3, fields);
    for (incoming_len, outgoing_len) in [
        (8, 12),
        (7, 12),
        (8, 11),
        (7, 11),
        (0, 12),
        (8, 0),
        (9, 13),
        (1 << 40, 1 << 40),
    ] {
        let call = Call::Admission {
            list: list.clone(),
            incoming_len,
            outgoing_len,
        };
        group.add(&format!("lengths-{incoming_len}-and-{outgoing_len}"), call);
    }
    group
}

fn order() -> Group {
    let about = "two refusals at once: in a field the order listed for 1 to 9, among fields the \
                 first, then 10, 11, 20, 21";
    let mut group = Group::new("order", about);
    let camac = |bits: u32, second| DraftField::camac(Word::K1.longword() | bits, second);
    let jump = DraftField::jump;
    let (zero_bit, bad_crate, control) = (1 << 2, 0x3F00, 1 << 5 | 8 << 16);
    let both = || camac(zero_bit | bad_crate, None);
    let rows = [
        ("zero-bit-before-crate", vec![both()]),
        ("zero-bit-before-mode", vec![camac(zero_bit, Some(0))]),
        ("crate-before-mode", vec![camac(bad_crate, Some(0))]),
        ("mode-before-count", vec![camac(control, Some(0))]),
        (
            "count-before-a-zero-bit-behind",
            vec![camac(1 << 5, Some(0)), both()],
        ),
        ("zero-bit-behind-before-jump", vec![jump(9), both()]),
        ("jump-before-walk", vec![jump(0), jump(9)]),
    ];
    for (name, fields) in rows {
        group.add(name, exact(list(3, fields)));
    }
    let texts = [
        ("cut-before-unknown-tag", "55 09 00"),
        ("tag-before-length", "55 03 00 00 00 00 2F 00 00"),
        ("length-before-zero-bit", "10 03 00 86 01 00 2F 00 00"),
        ("walk-before-incoming", "10 04 00 02 01 00 02"),
    ];
    for (name, text) in texts {
        group.add(name, behind_first(text));
    }
    let others = hex("01 04 00 02 00 03 00 55 00 00");
    group.add("first-field-before-others", exact(others));
    group
}

fn worst_counts() -> Group {
    let about = "W: stop, ignore n; repeat n × R; scan min(P, n − 1 + S); over the walk only";
    let mut group = Group::new("worst-count", about);
    let word = |mode, q_mode| Word::of(mode, q_mode).at(21, 13);
    for (q_mode, name) in (0..4).zip(["stop", "ignore", "repeat", "scan"]) {
        for words in [1, 2, 5] {
            let field = word(1, q_mode).of_halfwords(words);
            group.add(&format!("{name}-words-{words}"), alone(field));
        }
        let field = word(0, q_mode).field(None);
        group.add(&format!("{name}-single"), alone(field));
    }
    for words in [32, 33, 34, 35] {
        let field = word(1, 3).of_halfwords(words);
        group.add(&format!("scan-words-{words}"), alone(field));
    }
    for limit in [1, 2, 65_535] {
        let fields = vec![word(1, 2).of_halfwords(3), word(2, 2).of_halfwords(2)];
        let name = format!("repeat-try-limit-{limit}");
        group.add(&name, exact(list(limit, fields)));
    }
    let fields = vec![
        DraftField::jump(2),
        word(1, 0).of_halfwords(4),
        word(1, 1).of_halfwords(2),
    ];
    group.add("over-the-walk-only", exact(list(3, fields)));
    group
}

fn marks() -> Group {
    let about =
        "B and O: words of 16 and 24 bits and literals with their pads, none behind the last word";
    let mut group = Group::new("marks", about);
    let literal = || DraftField::literal(0x1234_5678);
    for (name, f) in [("read", 0), ("write", 16)] {
        let single = |wide| Word::K1.f(f).wide(wide).field(None);
        let halfwords = |h| Word::of(1, 0).f(f).of_halfwords(h);
        let rows = [
            ("24-16", vec![single(true), single(false)]),
            ("16-24", vec![single(false), single(true)]),
            (
                "16-24-16-24",
                [false, true, false, true].map(single).to_vec(),
            ),
            (
                "3-of-16-24-2-of-16",
                vec![halfwords(3), single(true), halfwords(2)],
            ),
            ("16-literal", vec![single(false), literal()]),
        ];
        for (order, fields) in rows {
            group.add(&format!("{name}-{order}"), exact(list(3, fields)));
        }
    }
    group.add("one-literal", alone(literal()));
    let control = Word::K1.f(8).field(None);
    let inline = Word::of(3, 0).f(16).field(Some(5));
    group.add("control-and-inline", exact(list(3, vec![control, inline])));
    group
}
