//! What program camrun prints (document 01, "Cases").

use std::fmt::Write;

use crate::record::Record;
use crate::reply;
use crate::run::{begin, take, wanted, Operation};
use crate::status;
use crate::walk::admission;

/// "Each file is read up to 65,536 bytes", and the incoming buffer has as many zeros.
pub const MOST_BYTES: usize = 65_536;

/// The text that camrun prints for the bytes of run.lst, run.rep and run.out.
pub fn render(run_lst: &[u8], run_rep: &[u8], run_out: &[u8]) -> String {
    let list = cut(run_lst);
    let row = cut(run_rep);
    let outgoing = cut(run_out);
    let mut incoming = vec![0; MOST_BYTES];
    let mut text = String::new();
    let admitted = match admission(list, MOST_BYTES as u64, outgoing.len() as u64) {
        Ok(admitted) => admitted,
        Err(refusal) => {
            // "An admission refused prints its line alone".
            line(
                &mut text,
                "refused",
                &[refusal.number.into(), refusal.place as u64],
            );
            return text;
        }
    };
    let counts = admitted.counts;
    line(&mut text, "admitted", &[counts.w, counts.b, counts.o]);
    let Some(replies) = reply::read_row(row) else {
        // "a 22 follows the `admitted` line, with no `op` line."
        line(&mut text, "refused", &[22, 0]);
        return text;
    };
    let mut record = begin(&admitted, &mut incoming);
    for reply in &replies {
        if record.ended {
            break;
        }
        let operation = wanted(&admitted, &record, outgoing);
        record = take(&admitted, &record, &mut incoming, reply);
        operation_line(&mut text, record.operations, &operation);
    }
    ending(&mut text, &record);
    text
}

fn cut(file: &[u8]) -> &[u8] {
    &file[..file.len().min(MOST_BYTES)]
}

/// A word and decimal numbers, with a space before each.
fn line(text: &mut String, word: &str, numbers: &[u64]) {
    text.push_str(word);
    for number in numbers {
        write!(text, " {number}").expect("a string takes any text");
    }
    text.push('\n');
}

/// "for each reply taken, operation number, crate, N, A, F".
fn operation_line(text: &mut String, number: u64, operation: &Operation) {
    let Operation {
        crate_number,
        n,
        a,
        f,
        ..
    } = *operation;
    line(text, "op", &[number, crate_number, n, a, f]);
}

/// "code in one and status in eight upper-case hexadecimal digits, operations, incoming
/// mark", or "`waiting`, operations, incoming mark".
fn ending(text: &mut String, record: &Record) {
    let word = if record.ended {
        let code = status::code(record.status);
        format!("end {code:X} {:08X}", record.status)
    } else {
        String::from("waiting")
    };
    line(text, &word, &[record.operations, record.incoming_mark]);
}
