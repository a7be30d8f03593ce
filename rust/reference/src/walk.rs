//! The walk and admission (document 01, "Worst count"; refusals 11, 20, 21).

use crate::list::{self, Instruction, List};
use crate::packing::{mark_after, mark_after_words, LITERAL_BYTES};
use crate::refusal::Refusal;
use crate::words::{Camac, Direction, QMode, Transfer};

/// "Admission carries W, B, O."
#[derive(Clone, Copy, Debug, Default, PartialEq, Eq)]
pub struct Counts {
    /// The most operations.
    pub w: u64,
    /// The incoming mark after every word of the walk, "the most that can be stored" (E8).
    pub b: u64,
    /// The outgoing mark after every word of the walk, the most that can be taken.
    pub o: u64,
}

/// Both fill marks.
#[derive(Clone, Copy, Debug, Default, PartialEq, Eq)]
pub struct Marks {
    pub incoming: u64,
    pub outgoing: u64,
}

impl Marks {
    /// The marks after `words` words of an instruction. "Inline and control move neither
    /// mark."
    pub fn after_words(self, camac: &Camac, words: u64) -> Marks {
        let length = camac.size.bytes();
        match (camac.transfer, camac.direction()) {
            (Transfer::Inline { .. }, _) | (_, Direction::Control) => self,
            (_, Direction::Read) => Marks {
                incoming: mark_after_words(self.incoming, length, words),
                ..self
            },
            (_, Direction::Write) => Marks {
                outgoing: mark_after_words(self.outgoing, length, words),
                ..self
            },
        }
    }

    /// The marks after a whole instruction.
    pub fn after(self, instruction: &Instruction) -> Marks {
        match instruction {
            Instruction::Camac(camac) => self.after_words(camac, camac.words()),
            Instruction::Literal(_) => Marks {
                incoming: mark_after(self.incoming, LITERAL_BYTES),
                ..self
            },
            Instruction::Jump(_) | Instruction::Halt => self,
        }
    }
}

/// A list with its walk: the numbers of the instructions met from instruction 0 to the
/// halt, in the order they are met.
#[derive(Clone, Debug)]
pub struct Admitted {
    pub list: List,
    pub walk: Vec<usize>,
    pub counts: Counts,
}

/// Admission: refusals "up to 21, in the order given", then W, B and O.
pub fn admit(list: &[u8], incoming_len: u64, outgoing_len: u64) -> Result<Counts, Refusal> {
    admission(list, incoming_len, outgoing_len).map(|admitted| admitted.counts)
}

/// Admission with all that it found out.
pub fn admission(list: &[u8], incoming_len: u64, outgoing_len: u64) -> Result<Admitted, Refusal> {
    let list = list::read(list)?;
    let Some(walk) = walk(&list) else {
        return Err(Refusal::plain(11));
    };
    let counts = counts(&list, &walk);
    // "20 incoming shorter than B; 21 outgoing shorter than O."
    if incoming_len < counts.b {
        return Err(Refusal::plain(20));
    }
    if outgoing_len < counts.o {
        return Err(Refusal::plain(21));
    }
    Ok(Admitted { list, walk, counts })
}

/// "The walk starts at instruction 0 and follows jumps." `None` is 11: "the walk repeats
/// or passes the last field."
fn walk(list: &List) -> Option<Vec<usize>> {
    let mut met = vec![false; list.instructions.len()];
    let mut walk = Vec::new();
    let mut number = 0;
    loop {
        let instruction = list.instructions.get(number)?;
        if met[number] {
            return None;
        }
        met[number] = true;
        walk.push(number);
        number = match instruction {
            Instruction::Halt => return Some(walk),
            Instruction::Jump(target) => *target,
            Instruction::Camac(_) | Instruction::Literal(_) => number + 1,
        };
    }
}

/// "W is the sum over the walk"; "B and O are the incoming and outgoing marks after every
/// word of the walk."
fn counts(list: &List, walk: &[usize]) -> Counts {
    let w = walk
        .iter()
        .map(|&number| most_operations(list, number))
        .sum();
    let marks = marks_before(list, walk, walk.len());
    Counts {
        w,
        b: marks.incoming,
        o: marks.outgoing,
    }
}

/// Both marks when the run comes to visit `visit` of the walk.
pub fn marks_before(list: &List, walk: &[usize], visit: usize) -> Marks {
    walk[..visit]
        .iter()
        .fold(Marks::default(), |marks, &number| {
            marks.after(&list.instructions[number])
        })
}

/// An instruction's part of W: "stop, ignore n; repeat n × R; scan min(P, n − 1 + S)".
pub fn most_operations(list: &List, number: usize) -> u64 {
    let Instruction::Camac(camac) = &list.instructions[number] else {
        return 0;
    };
    let words = camac.words();
    match camac.q_mode {
        QMode::Stop | QMode::Ignore => words,
        QMode::Repeat => words * list.try_limit,
        QMode::Scan => camac.position().most_operations(words),
    }
}
