//! Prints READING.md's tables and FIGURES.md's sizes anew, into the documents.

use std::process::ExitCode;

use acceptance::printed::{Part, RULES, SIZES};
use acceptance::{files, repository};

/// Writes a part; a line where the document changed.
fn write(part: &Part) -> Result<(), String> {
    let root = repository::root();
    let (stored, printed) = part.both(&root)?;
    if stored != printed {
        files::write(&root.join(part.document), &printed)?;
        println!("{} changed", part.document);
    }
    Ok(())
}

fn main() -> ExitCode {
    match write(&RULES).and_then(|()| write(&SIZES)) {
        Ok(()) => ExitCode::SUCCESS,
        Err(why) => {
            eprintln!("tables: {why}");
            ExitCode::FAILURE
        }
    }
}
