//! Bytes, fields, replies and records as the statements write them (`specs/Forms`).

use crate::cases::by_hand::{DERR, ERR, LPE, Q, TPE, X};
use crate::record::Record;
use crate::run::Operation;

/// The operation wanted next.
pub fn operation(wanted: &Operation) -> String {
    let Operation {
        crate_number,
        n,
        a,
        f,
        data,
        enhanced,
    } = wanted;
    format!("(operation {crate_number} {n} {a} {f} 0x{data:06X} {enhanced})")
}

/// A record with both buffers.
pub fn state(record: &Record, (incoming, outgoing): (&[u8], &[u8])) -> String {
    let record = record_form(record);
    format!("(state_of {record} {} {})", hex(incoming), hex(outgoing))
}

/// A record, by its numbers.
pub fn record_form(record: &Record) -> String {
    let word = if record.ended { "ended" } else { "waiting" };
    let [_, before @ .., status, buffer, offset, length] = record.numbers();
    let before = before.map(|number| number.to_string()).join(" ");
    format!("({word} {before} 0x{status:08X} {buffer} {offset} {length})")
}

/// Bytes as one hexadecimal number.
pub fn hex(bytes: &[u8]) -> String {
    if bytes.is_empty() {
        return "[]".to_string();
    }
    format!("({})", bare_hex(bytes))
}

fn bare_hex(bytes: &[u8]) -> String {
    let digits: String = bytes.iter().map(|byte| format!("{byte:02X}")).collect();
    format!("hex {} 0x{digits}", bytes.len())
}

/// A list as its fields; what is no whole field, and all behind it, as bytes.
pub fn fields(list: &[u8]) -> String {
    let mut parts: Vec<String> = Vec::new();
    let mut rest = list;
    while let Some((part, behind)) = one_field(rest) {
        parts.push(part);
        rest = behind;
    }
    if !rest.is_empty() {
        parts.push(bare_hex(rest));
    }
    joined(&parts)
}

/// Parts in a row.
fn joined(parts: &[String]) -> String {
    match parts {
        [] => "[]".to_string(),
        [one] if !one.contains(' ') => one.clone(),
        several => format!("({})", several.join(" ++ ")),
    }
}

/// The field that bytes begin with, and the bytes behind it.
fn one_field(bytes: &[u8]) -> Option<(String, &[u8])> {
    let word = |bytes: [u8; 4]| format!("0x{:08X}", u32::from_le_bytes(bytes));
    let short = |bytes: [u8; 2]| u16::from_le_bytes(bytes);
    match *bytes {
        [1, 4, 0, 1, 0, a, b, ref rest @ ..] => {
            Some((format!("first_field {}", short([a, b])), rest))
        }
        [0x10, 4, 0, a, b, c, d, ref rest @ ..] => {
            Some((format!("camac_4 {}", word([a, b, c, d])), rest))
        }
        [0x10, 8, 0, a, b, c, d, e, f, g, h, ref rest @ ..] => {
            let (first, second) = (word([a, b, c, d]), word([e, f, g, h]));
            Some((format!("camac_8 {first} {second}"), rest))
        }
        [0x20, 2, 0, a, b, ref rest @ ..] => Some((format!("jump {}", short([a, b])), rest)),
        [0x21, 4, 0, a, b, c, d, ref rest @ ..] => {
            Some((format!("literal {}", word([a, b, c, d])), rest))
        }
        [0x2F, 0, 0, ref rest @ ..] => Some(("halt".to_string(), rest)),
        _ => None,
    }
}

/// One reply, in brackets.
pub fn one_reply(reply: &[u8]) -> String {
    if reply.is_empty() {
        return "[]".to_string();
    }
    format!("({})", reply_form(reply))
}

/// A row of replies.
pub fn replies(row: &[u8]) -> String {
    let parts: Vec<String> = row.chunks(8).map(reply_form).collect();
    joined(&parts)
}

fn reply_form(reply: &[u8]) -> String {
    match *reply {
        [0, flags, 0, 0, a, b, c, 0] if flags < 64 => {
            let data = u32::from_le_bytes([a, b, c, 0]);
            format!("answer {} 0x{data:06X}", flags_form(flags))
        }
        [kind @ 1..=3, 0, 0, 0, 0, 0, 0, 0] => format!("kind {kind}"),
        _ => bare_hex(reply),
    }
}

/// Byte 1 of an answer.
fn flags_form(flags: u8) -> String {
    let bits = [
        (Q, "Q"),
        (X, "X"),
        (ERR, "ERR"),
        (DERR, "DERR"),
        (TPE, "TPE"),
        (LPE, "LPE"),
    ];
    let set = bits.into_iter().filter(|(bit, _)| flags & bit != 0);
    let names: Vec<&str> = set.map(|(_, name)| name).collect();
    match names.as_slice() {
        [] => "0".to_string(),
        [one] => one.to_string(),
        several => format!("({})", several.join(" + ")),
    }
}
