//! The list file (document 01, "The list file"; refusals 1 to 10).

use crate::refusal::Refusal;
use crate::words::{decode, Camac};

/// "Instructions are the fields after the first, numbered from 0, at most 4,096."
pub const MOST_INSTRUCTIONS: usize = 4_096;

/// One field: "one-byte tag, two-byte length, body".
#[derive(Clone, Copy, Debug, PartialEq, Eq)]
pub struct Field<'a> {
    /// Offset of the field's first byte.
    pub place: usize,
    pub tag: u8,
    pub body: &'a [u8],
}

/// "A field reader keeps the list and the offset of the next field together."
pub struct FieldReader<'a> {
    list: &'a [u8],
    offset: usize,
}

impl<'a> FieldReader<'a> {
    pub fn new(list: &'a [u8]) -> FieldReader<'a> {
        FieldReader { list, offset: 0 }
    }

    /// The next field, or `None` at the list's end. "1: a field's head or body runs past
    /// the end."
    pub fn next_field(&mut self) -> Result<Option<Field<'a>>, Refusal> {
        let place = self.offset;
        let rest = &self.list[place..];
        if rest.is_empty() {
            return Ok(None);
        }
        if rest.len() < 3 {
            return Err(Refusal::at(1, place));
        }
        let tag = rest[0];
        let length = usize::from(halfword(&rest[1..3]));
        let Some(body) = rest.get(3..3 + length) else {
            return Err(Refusal::at(1, place));
        };
        self.offset = place + 3 + length;
        Ok(Some(Field { place, tag, body }))
    }
}

/// What a field after the first says.
#[derive(Clone, Copy, Debug, PartialEq, Eq)]
pub enum Instruction {
    Camac(Camac),
    /// Number of the target instruction.
    Jump(usize),
    /// Longword for the incoming buffer.
    Literal(u32),
    Halt,
}

/// A list that passed refusals 1 to 10.
#[derive(Clone, Debug, PartialEq, Eq)]
pub struct List {
    /// "R is the try limit."
    pub try_limit: u64,
    pub instructions: Vec<Instruction>,
}

/// Reads a list: "Fields go front to back, each in the order listed for 1 to 9; then 10
/// over all fields".
pub fn read(list: &[u8]) -> Result<List, Refusal> {
    let mut reader = FieldReader::new(list);
    let Some(first) = reader.next_field()? else {
        return Err(Refusal::plain(2));
    };
    let try_limit = first_field(&first)?;
    let mut instructions = Vec::new();
    let mut places = Vec::new();
    while let Some(field) = reader.next_field()? {
        // "5: instruction 4,097."
        if instructions.len() == MOST_INSTRUCTIONS {
            return Err(Refusal::at(5, field.place));
        }
        instructions.push(instruction(&field)?);
        places.push(field.place);
    }
    check_jumps(&instructions, &places)?;
    Ok(List {
        try_limit,
        instructions,
    })
}

/// The first field's R. "2: no field, or the first isn't as in the table": tag 01h,
/// length 4, "format 1, a zero byte, R (two bytes, 1 to 65,535)".
fn first_field(field: &Field) -> Result<u64, Refusal> {
    match (field.tag, field.body) {
        (0x01, &[1, 0, low, high]) if (low, high) != (0, 0) => {
            Ok(u64::from(u16::from_le_bytes([low, high])))
        }
        _ => Err(Refusal::at(2, field.place)),
    }
}

/// A later field's instruction. "3: unknown tag, or 01h again." "4: length wrong for its
/// tag."
pub fn instruction(field: &Field) -> Result<Instruction, Refusal> {
    match (field.tag, field.body.len()) {
        (0x10, 4 | 8) => camac(field),
        (0x20, 2) => Ok(Instruction::Jump(usize::from(halfword(field.body)))),
        (0x21, 4) => Ok(Instruction::Literal(longword(field.body))),
        (0x2F, 0) => Ok(Instruction::Halt),
        (0x10 | 0x20 | 0x21 | 0x2F, _) => Err(Refusal::at(4, field.place)),
        _ => Err(Refusal::at(3, field.place)),
    }
}

/// Tag 10h, length 4 or 8: "CAMAC instruction, one or two longwords".
fn camac(field: &Field) -> Result<Instruction, Refusal> {
    let first = longword(&field.body[..4]);
    let second = field.body.get(4..8).map(longword);
    match decode(first, second) {
        Ok(camac) => Ok(Instruction::Camac(camac)),
        Err(number) => Err(Refusal::at(number, field.place)),
    }
}

/// "10: jump target not an instruction."
fn check_jumps(instructions: &[Instruction], places: &[usize]) -> Result<(), Refusal> {
    for (instruction, &place) in instructions.iter().zip(places) {
        match instruction {
            Instruction::Jump(target) if *target >= instructions.len() => {
                return Err(Refusal::at(10, place));
            }
            _ => {}
        }
    }
    Ok(())
}

/// "Multi-byte values are little-endian".
fn halfword(bytes: &[u8]) -> u16 {
    u16::from_le_bytes([bytes[0], bytes[1]])
}

fn longword(bytes: &[u8]) -> u32 {
    u32::from_le_bytes([bytes[0], bytes[1], bytes[2], bytes[3]])
}
