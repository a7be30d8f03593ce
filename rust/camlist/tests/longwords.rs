//! Stored longwords taken apart, by the header's functions and by this crate's: any bytes, and
//! words that the engine stored.

#![cfg(library)]

#[path = "common/fed.rs"]
mod fed;
#[path = "common/program.rs"]
mod program;

use camlist::{row, run, Camac, List, Reply, Run, Word};
use fed::printed;
use program::program;
use reference::cases::rng::Rng;

const LONGWORDS: usize = 10_000;
const SEED: u64 = 60;

/// The line that the C program prints for a longword.
fn line(bytes: &[u8; 4]) -> String {
    let word = Word::from(*bytes);
    let (q, x) = (u8::from(word.q()), u8::from(word.x()));
    format!("{:08X} {:06X} {q} {x}\n", word.0, word.data())
}

#[test]
fn any_longwords() {
    let mut rng = Rng::new(SEED);
    let mut longwords: Vec<[u8; 4]> = (0..32).map(|bit| (1_u32 << bit).to_le_bytes()).collect();
    longwords.extend([[0; 4], [0xFF; 4]]);
    longwords.resize_with(LONGWORDS, || (rng.number() as u32).to_le_bytes());
    let printed = printed(program("longwords", &[]), longwords.concat());
    let expected: String = longwords.iter().map(line).collect();
    assert!(printed == expected);
}

/// Each part of a longword is the bits that document 02's E9 names.
#[test]
fn bits_of_a_longword() {
    for bit in 0..32 {
        let word = Word(1 << bit);
        assert_eq!(word.q(), bit == 31);
        assert_eq!(word.x(), bit == 30);
        assert_eq!(word.data(), if bit < 24 { word.0 } else { 0 });
    }
}

/// Data, Q and X of every answer come back, from whole runs and from steps.
#[test]
fn words_that_were_stored() {
    let camac = Camac::at(1, 2, 3, 0).ignore().abort_disable();
    let changes: [fn(Reply) -> Reply; 4] = [
        |reply| reply,
        |reply| reply.no_q(),
        |reply| reply.no_x(),
        |reply| reply.no_q().no_x().err().tpe(),
    ];
    let expected = [(true, true), (false, true), (true, false), (false, false)];
    let list = List::new(1).block(camac, 4).halt();
    for data in [0, 0x12_3456, 0x80_0001, 0xFF_FFFF] {
        let replies = changes.map(|change| change(Reply::answer(data)));
        let mut ran = [0xEE; 16];
        run(&list, &mut ran, &[], &row(replies)).expect("a run");
        let mut stepped = [0xEE; 16];
        let mut run = Run::start(&list, &mut stepped, &[]).expect("a start");
        for (reply, (q, x)) in replies.into_iter().zip(expected) {
            run.step(reply).expect("a step");
            let (_, bytes) = run.last_moved().expect("a word");
            let word = Word::from(*bytes.first_chunk().expect("four bytes"));
            assert_eq!((word.data(), word.q(), word.x()), (data, q, x));
        }
        assert_eq!(ran, stepped);
    }
}
