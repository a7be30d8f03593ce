//! The header's functions that write lists and replies, beside this crate's: parts in range
//! and too wide, with room and without.

#![cfg(library)]

#[path = "common/fed.rs"]
mod fed;
#[path = "common/program.rs"]
mod program;

use camlist::{Camac, List, Reply};
use fed::printed;
use program::program;
use reference::cases::rng::Rng;

const SCRIPTS: u64 = 3_000;
const SEED: u64 = 50;

/// One call: its name, its numbers, and the bytes that it puts if they are in range.
struct Call {
    text: String,
    bytes: Option<Vec<u8>>,
}

/// A number below `bound`, or now and then one that isn't.
fn part(rng: &mut Rng, bound: u64) -> u32 {
    let beside = [bound, bound - 1, u64::from(u32::MAX)];
    match rng.below(40) {
        0 => rng.pick(&beside) as u32,
        _ => rng.below(bound) as u32,
    }
}

/// The fields behind the first one of a list, as this crate writes them.
fn fields(put: impl FnOnce(List) -> List) -> Vec<u8> {
    let head = List::new(1);
    put(head.clone()).bytes()[head.bytes().len()..].to_vec()
}

/// A CAMAC instruction with the word size and AD of a call's options.
fn with_size_and_ad(camac: Camac, options: u32) -> Camac {
    let camac = match options & 2 {
        0 => camac,
        _ => camac.bits16(),
    };
    match options & 1 {
        0 => camac,
        _ => camac.abort_disable(),
    }
}

/// Whether options are in range: bit 2 of the longword is zero.
fn are_options(options: u32) -> bool {
    options < 32 && options & 4 == 0
}

fn camac_call(rng: &mut Rng) -> Call {
    let [crate_number, n, a, f, options] = [64, 32, 16, 32, 32].map(|bound| part(rng, bound));
    let in_range = crate_number < 64 && n < 32 && a < 16 && f < 32;
    let camac = (in_range && are_options(options)).then(|| {
        let camac = Camac::at(crate_number, n, a, f);
        let camac = match options >> 3 {
            0 => camac.stop(),
            1 => camac.ignore(),
            2 => camac.repeat(),
            _ => camac.scan(),
        };
        with_size_and_ad(camac, options)
    });
    let parts = format!("{crate_number} {n} {a} {f} {options}");
    match rng.below(4) {
        0 => Call {
            text: format!("single {parts}"),
            bytes: camac.map(|camac| fields(|list| list.single(camac))),
        },
        1 => words_call(rng, format!("block {parts}"), camac, List::block),
        2 => words_call(rng, format!("enhanced {parts}"), camac, List::enhanced),
        _ => {
            let data = rng.number() as u32;
            Call {
                text: format!("inline {parts} {data}"),
                bytes: camac.map(|camac| fields(|list| list.inline(camac, data))),
            }
        }
    }
}

/// The list sequencer, whatever Q-mode its options have.
fn sequencer_call(rng: &mut Rng) -> Call {
    let [crate_number, number, options] = [64, 4, 32].map(|bound| part(rng, bound));
    let in_range = crate_number < 64 && number < 4 && are_options(options);
    let camac = in_range.then(|| with_size_and_ad(Camac::sequencer(crate_number, number), options));
    let text = format!("sequencer {crate_number} {number} {options}");
    words_call(rng, text, camac, List::enhanced)
}

/// A call that ends in a number of words.
fn words_call(
    rng: &mut Rng,
    text: String,
    camac: Option<Camac>,
    put: fn(List, Camac, u32) -> List,
) -> Call {
    let words = part(rng, 65_537);
    let camac = camac.filter(|_| words <= 65_536);
    Call {
        text: format!("{text} {words}"),
        bytes: camac.map(|camac| fields(|list| put(list, camac, words))),
    }
}

fn list_call(rng: &mut Rng) -> Call {
    match rng.below(8) {
        0 => {
            let limit = part(rng, 65_536);
            let bytes = u16::try_from(limit).ok();
            Call {
                text: format!("head {limit}"),
                bytes: bytes.map(|limit| List::new(limit).bytes().to_vec()),
            }
        }
        1 => {
            let target = part(rng, 65_536);
            let bytes = u16::try_from(target).ok();
            Call {
                text: format!("jump {target}"),
                bytes: bytes.map(|target| fields(|list| list.jump(target))),
            }
        }
        2 => {
            let longword = rng.number() as u32;
            Call {
                text: format!("literal {longword}"),
                bytes: Some(fields(|list| list.literal(longword))),
            }
        }
        3 => Call {
            text: String::from("halt"),
            bytes: Some(fields(List::halt)),
        },
        4 => sequencer_call(rng),
        _ => camac_call(rng),
    }
}

fn reply_call(rng: &mut Rng) -> Call {
    let (name, reply) = match rng.below(6) {
        0 => ("timeout", Reply::timeout()),
        1 => ("not_recognised", Reply::not_recognised()),
        2 => ("no_sync", Reply::no_sync()),
        _ => return answer_call(rng),
    };
    Call {
        text: String::from(name),
        bytes: Some(reply.bytes().to_vec()),
    }
}

type Change = fn(Reply) -> Reply;

fn answer_call(rng: &mut Rng) -> Call {
    let (flags, data) = (part(rng, 64), part(rng, 1 << 24));
    let changes: [(u32, u32, Change); 6] = [
        (1, 0, Reply::no_q),
        (2, 0, Reply::no_x),
        (4, 4, Reply::err),
        (8, 8, Reply::derr),
        (16, 16, Reply::tpe),
        (32, 32, Reply::lpe),
    ];
    let changes = changes.into_iter();
    let reply = changes
        .filter(|(bit, value, _)| flags & bit == *value)
        .fold(Reply::answer(data), |reply, (_, _, change)| change(reply));
    Call {
        text: format!("answer {flags} {data}"),
        bytes: (flags < 64 && data < 1 << 24).then(|| reply.bytes().to_vec()),
    }
}

/// The lines for one room, and the line that the program is to print.
fn script(rng: &mut Rng) -> (String, String) {
    let room = rng.within(0..=120) as usize;
    let call = if rng.coin() { list_call } else { reply_call };
    let (mut bytes, mut failed) = (Vec::new(), false);
    let (mut lines, mut printed) = (format!("room {room}\n"), String::new());
    for _ in 0..rng.within(0..=12) {
        let call = call(rng);
        lines += &format!("{}\n", call.text);
        let put = call
            .bytes
            .filter(|put| !failed && bytes.len() + put.len() <= room);
        printed.push(if put.is_some() { '1' } else { '0' });
        failed = put.is_none();
        bytes.extend(put.unwrap_or_default());
    }
    let hex: String = bytes.iter().map(|byte| format!("{byte:02X}")).collect();
    (
        lines + "end\n",
        format!("{printed} {} {hex} 1\n", u8::from(failed)),
    )
}

#[test]
fn lists_and_replies() {
    let mut rng = Rng::new(SEED);
    let scripts = (0..SCRIPTS).map(|_| script(&mut rng));
    let (lines, expected): (String, String) = scripts.unzip();
    let printed = printed(program("builders", &[]), lines.into_bytes());
    for (number, (printed, expected)) in printed.lines().zip(expected.lines()).enumerate() {
        assert_eq!(printed, expected, "room {number}");
    }
    assert_eq!(printed.lines().count() as u64, SCRIPTS);
    let failed = expected.lines().filter(|line| line.contains(" 1 ")).count() as u64;
    assert!(
        failed > SCRIPTS / 10 && failed < SCRIPTS * 9 / 10,
        "{failed}"
    );
}
