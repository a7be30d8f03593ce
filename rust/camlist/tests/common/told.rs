//! What the program explain should say, from what the separate build computes.

use super::explained::{Command, Effect, Function, Kind, Moves, Parts, Place, Rule, Said};
use super::explained::{Second, Share, Visit, Walk, WalkEnd};
use reference::camrun::MOST_BYTES;
use reference::list::{FieldReader, Instruction, List};
use reference::packing;
use reference::reply::Reply;
use reference::run::{begin, take, wanted, Operation};
use reference::status;
use reference::walk::{most_operations, Admitted, Marks};
use reference::words::{Address, Camac, Direction, QMode, Transfer, WordSize};
use reference::{Counts, Record};

/// The bits of the status in words.
pub const BITS: [(u32, &str); 12] = [
    (26, "delayed error"),
    (25, "timeout or tries spent"),
    (24, "no sync"),
    (23, "ERR met"),
    (22, "scan left station 23"),
    (21, "longitudinal parity error met"),
    (20, "transverse parity error met"),
    (19, "address not recognised"),
    (18, "parity error or ERR met"),
    (17, "X = 0 met"),
    (16, "Q = 0 met"),
    (7, "ended"),
];

/// What a code means.
pub fn cause(code: u8, by_timeout: bool) -> &'static str {
    match code {
        0 => "the run came to its halt",
        4 => "the command reached the crate damaged, ERR while X = 1",
        7 => "Q = 0 in stop",
        8 => "X = 0, no module took the command",
        9 => "the scan left station 23 before all its words were done",
        0xA => "a parity error, TPE or LPE",
        0xB if by_timeout => "no reply came in time",
        0xB => "a word was tried R times, and Q = 0 on the last",
        0xC => "no crate recognised the address",
        0xD => "the highway was not in sync",
        _ => panic!("no run ends with {code:X}"),
    }
}

/// What 22 expected.
pub const REPLY: &str = concat!(
    "eight bytes; kind 0 to 3; flags 0 to 3Fh; two zero bytes; three of data; a zero byte; ",
    "of kinds 1 to 3 all others zero"
);

const LENGTHS: &str = concat!(
    "length 4 or 8 for tag 10h (CAMAC), 2 for 20h (jump), 4 for 21h (literal), ",
    "0 for 2Fh (halt)"
);

const ENHANCED: &str = concat!(
    "length 8 for an enhanced block; in stop and ignore a read or write function, ",
    "in repeat a read function, in Q-mode 3 (list sequencer) N 30, F 12, A 0 to 3"
);

const COUNT: &str = concat!(
    "the two's complement of 1 to 65,536 halfwords, an even number for words of 24 bits, ",
    "in scan at most (23 - N) x 16 + 16 - A words"
);

/// What a refusal expected; of 8 and 9 by the transfer mode.
pub fn expected(number: u64, mode: u8) -> &'static str {
    match (number, mode) {
        (1, _) => "a tag, a length of two bytes and a body of that length",
        (2, _) => "01 04 00 01 00, then R in two bytes, low byte first, 1 to 65,535",
        (3, _) => "tag 10h (CAMAC), 20h (jump), 21h (literal) or 2Fh (halt)",
        (4, _) => LENGTHS,
        (5, _) => "the end of the list",
        (6, _) => "bits 31, 30, 15, 14, 7 and 2 of the first longword zero",
        (7, _) => "crate 1 to 62; N 1 to 23, or 30 where the Q-mode is not scan",
        (8, 0) => "length 4 for a single",
        (8, 1) => "length 8 and a read or write function for a block",
        (8, 2) => ENHANCED,
        (8, _) => "length 8 and a write function for an inline write",
        (9, 3) => "data that fits the word size",
        (9, _) => COUNT,
        (11, _) => "a halt, reached before an instruction comes again or the last field is passed",
        _ => panic!("{number} is not of a list"),
    }
}

/// What 20 and 21 expected.
pub fn room(number: u64, counts: &Counts, outgoing_len: usize) -> String {
    let expected = match number {
        20 => format!("room for B bytes, where {MOST_BYTES} are here"),
        _ => format!("O bytes, where run.out has {outgoing_len}"),
    };
    let plural = |n: u64, what: &str| format!("{n} {what}{}", if n == 1 { "" } else { "s" });
    let worst = plural(counts.w, "operation");
    let [stored, taken] = [counts.b, counts.o].map(|n| plural(n, "byte"));
    format!(
        "{expected}; W = {worst} at most, B = {stored} stored at most, O = {taken} taken at most"
    )
}

/// What is shown of a refused field: of its bytes as many as a head and two longwords have.
pub fn shown(rest: &[u8]) -> &[u8] {
    let length = match rest {
        [_, low, high, ..] => 3 + usize::from(u16::from_le_bytes([*low, *high])),
        _ => rest.len(),
    };
    &rest[..length.min(11).min(rest.len())]
}

/// The fields of a list, the first among them.
pub fn field_count(list: &[u8]) -> usize {
    let mut reader = FieldReader::new(list);
    let mut count = 0;
    while let Ok(Some(_)) = reader.next_field() {
        count += 1;
    }
    count
}

/// What is said of an instruction.
pub fn said(instruction: &Instruction, limit: u64) -> Said {
    match instruction {
        Instruction::Camac(camac) => Said::Camac(Command {
            moves: moves(camac),
            address: camac.address,
            function: function(camac),
            rule: rule(camac, limit),
            abort_disable: camac.abort_disable,
        }),
        Instruction::Jump(target) => Said::Jump(*target as u64),
        Instruction::Literal(data) => Said::Literal(*data),
        Instruction::Halt => Said::Halt,
    }
}

/// The parts of a CAMAC field that is refused.
pub fn parts(field: &[u8]) -> Parts {
    let longword = |at: usize| {
        let bytes = [field[at], field[at + 1], field[at + 2], field[at + 3]];
        u32::from_le_bytes(bytes)
    };
    let first = longword(3);
    let bits = |low: u32, count: u32| u64::from(first >> low & ((1 << count) - 1));
    let mode = bits(5, 2);
    Parts {
        mode,
        q_mode: bits(3, 2),
        address: Address {
            crate_number: bits(8, 6),
            station: bits(25, 5),
            subaddress: bits(21, 4),
            function: bits(16, 5),
        },
        size: match bits(1, 1) {
            0 => WordSize::Bits24,
            _ => WordSize::Bits16,
        },
        second: (field[1..3] == [8, 0]).then(|| match mode {
            0 => Second::Longword(longword(7)),
            3 => Second::Data(longword(7)),
            _ => Second::Count((1 << 32) - u64::from(longword(7))),
        }),
    }
}

/// The walk up to its halt, or to where it comes to an instruction again or to none.
pub fn walk(list: &List) -> Walk {
    let mut visits: Vec<Visit> = Vec::new();
    let mut met = vec![false; list.instructions.len()];
    let (mut number, mut marks) = (0, Marks::default());
    let end = loop {
        let Some(instruction) = list.instructions.get(number) else {
            break WalkEnd::Passes;
        };
        if met[number] {
            break WalkEnd::Again(number as u64);
        }
        if *instruction == Instruction::Halt {
            break WalkEnd::Halt(number as u64);
        }
        met[number] = true;
        visits.push(visit(list, number, marks));
        marks = marks.after(instruction);
        number = match instruction {
            Instruction::Jump(target) => *target,
            _ => number + 1,
        };
    };
    Walk { visits, end }
}

fn visit(list: &List, number: usize, marks: Marks) -> Visit {
    let instruction = &list.instructions[number];
    let after = marks.after(instruction);
    Visit {
        instruction: number as u64,
        operations: most_operations(list, number),
        incoming: [marks.incoming, after.incoming],
        outgoing: [marks.outgoing, after.outgoing],
        share: share(instruction, list.try_limit),
        has_pad: has_pad(instruction, marks),
    }
}

/// How the share of W comes about.
fn share(instruction: &Instruction, tries: u64) -> Option<Share> {
    let Instruction::Camac(camac) = instruction else {
        return None;
    };
    let words = camac.words();
    Some(match camac.q_mode {
        QMode::Stop | QMode::Ignore => Share::Words(words),
        QMode::Repeat => Share::Repeat { words, tries },
        QMode::Scan => Share::Scan {
            words,
            stations: camac.position().stations(),
            positions: camac.position().positions(),
        },
    })
}

/// Whether the first word of an instruction has a pad before it.
fn has_pad(instruction: &Instruction, marks: Marks) -> bool {
    let pads = |mark: u64, length: u64| packing::offset(mark, length) > mark;
    match instruction {
        Instruction::Camac(camac) => {
            let (after, length) = (marks.after(instruction), camac.size.bytes());
            let stores = after.incoming > marks.incoming && pads(marks.incoming, length);
            let takes = after.outgoing > marks.outgoing && pads(marks.outgoing, length);
            stores || takes
        }
        Instruction::Literal(_) => pads(marks.incoming, packing::LITERAL_BYTES),
        Instruction::Jump(_) | Instruction::Halt => false,
    }
}

fn moves(camac: &Camac) -> Moves {
    let kind = match camac.transfer {
        Transfer::Inline { data } => return Moves::Own(camac.size, data),
        Transfer::Single if camac.direction() == Direction::Control => return Moves::Nothing,
        Transfer::Single => Kind::Single,
        Transfer::Block { .. } => Kind::Block,
        Transfer::Enhanced { .. } | Transfer::Sequencer { .. } => Kind::Enhanced,
    };
    Moves::Words(kind, camac.direction(), camac.words(), camac.size)
}

fn function(camac: &Camac) -> Function {
    match (camac.transfer, camac.direction()) {
        (Transfer::Sequencer { .. }, _) => Function::Sequencer,
        (_, Direction::Control) => Function::Control,
        (_, Direction::Write) => Function::Write,
        (_, Direction::Read) => Function::Read,
    }
}

fn rule(camac: &Camac, limit: u64) -> Rule {
    match camac.q_mode {
        QMode::Stop if camac.is_stop_block() => Rule::StopCloses,
        QMode::Stop => Rule::StopEnds,
        QMode::Ignore => Rule::Ignore,
        QMode::Repeat => Rule::Repeat(limit),
        QMode::Scan => Rule::Scan,
    }
}

/// An operation that was made, and what came of its reply.
pub struct Event {
    pub instruction: u64,
    pub crate_number: u64,
    /// N and A.
    pub position: [u64; 2],
    pub function: u64,
    pub size: WordSize,
    pub written: Option<u32>,
    /// Kind and flags.
    pub reply: [u8; 2],
    pub read: Option<u32>,
    pub effect: Effect,
    /// Where the word is that was moved.
    pub place: Option<Place>,
    /// Whether the run ended there, by no halt.
    pub ends: bool,
}

/// A run: its events, and what it came to.
pub struct Ran {
    pub events: Vec<Event>,
    pub record: Record,
    pub incoming: Vec<u8>,
    pub wanted: Address,
}

impl Ran {
    /// A run over a row of replies.
    pub fn over(admitted: &Admitted, row: &[u8], replies: &[Reply], outgoing: &[u8]) -> Ran {
        let mut incoming = vec![0; MOST_BYTES];
        let mut record = begin(admitted, &mut incoming);
        let mut events = Vec::new();
        for (bytes, reply) in row.chunks(8).zip(replies) {
            if record.ended {
                break;
            }
            let operation = wanted(admitted, &record, outgoing);
            let after = take(admitted, &record, &mut incoming, reply);
            events.push(event(admitted, &operation, bytes, [&record, &after]));
            record = after;
        }
        let next = wanted(admitted, &record, outgoing);
        Ran {
            events,
            record,
            incoming,
            wanted: Address {
                crate_number: next.crate_number,
                station: next.n,
                subaddress: next.a,
                function: next.f,
            },
        }
    }
}

fn event(
    admitted: &Admitted,
    operation: &Operation,
    reply: &[u8],
    [before, after]: [&Record; 2],
) -> Event {
    let Instruction::Camac(camac) = &admitted.list.instructions[before.instruction as usize] else {
        panic!("an operation of no CAMAC instruction");
    };
    let data = u32::from_le_bytes([reply[4], reply[5], reply[6], 0]);
    let is_read = before.note != after.note && after.note.buffer == 0;
    let writes = camac.direction() == Direction::Write;
    Event {
        instruction: before.instruction,
        crate_number: operation.crate_number,
        position: [operation.n, operation.a],
        function: operation.f,
        size: camac.size,
        written: writes.then_some(operation.data as u32),
        reply: [reply[0], reply[1]],
        read: is_read.then_some(data & camac.size.mask()),
        effect: effect(camac, before, after),
        place: place(before, after),
        ends: status::code(after.status) != 0,
    }
}

/// The place of a word that was moved, from its note; its pad, from the mark before it.
fn place(before: &Record, after: &Record) -> Option<Place> {
    let note = after.note;
    if before.note == note {
        return None;
    }
    let mark = match note.buffer {
        0 => before.incoming_mark,
        _ => before.outgoing_mark,
    };
    let pad = note.offset - mark;
    assert!(pad == 0 || pad == 2, "a pad of {pad} bytes");
    Some(Place {
        from: note.offset,
        to: note.offset + note.length - 1,
        behind_pad: pad == 2,
    })
}

/// What came of a reply, as the record shows it.
fn effect(camac: &Camac, before: &Record, after: &Record) -> Effect {
    let is_moved = before.note != after.note;
    if status::code(after.status) != 0 && !is_moved {
        return Effect::Nothing;
    }
    let stays = !after.ended && after.instruction == before.instruction;
    match (is_moved, after.note.buffer) {
        (true, 0) if camac.size == WordSize::Bits24 => Effect::StoredWithQAndX,
        (true, 0) => Effect::Stored,
        (true, _) => Effect::Taken,
        (false, _) if stays && after.tries > before.tries => Effect::TriedAgain,
        (false, _) if stays => Effect::NextStation,
        (false, _) if camac.is_stop_block() => Effect::Closed,
        (false, _) => Effect::Done,
    }
}
