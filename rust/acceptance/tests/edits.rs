//! A fact refuses each wrong engine, not a proof that no longer fits its text: the must-fail
//! edits by what `rt ci` or `rt must-fail` said of them, kept in target/edits.log, and where
//! that does not show the fact, as those of `acceptance/code`, by a check over what is proved.
//! Where the must-fail edits were not tried since crates/ last changed, the test says so and
//! leaves both out. The gate sets ALL_EDITS to 1, and then it fails; with 0 both are left out.
//! Words on the command line choose the edits whose names contain one of them.

use std::process::ExitCode;

use acceptance::verdict::Verdict;
use acceptance::{further, must_fail, repository};

fn print(label: &str, verdict: &Verdict) -> bool {
    let is_fact = verdict.is_fact();
    let word = if is_fact { "refused" } else { "FAILED" };
    println!("{label} .. {word}: {verdict}");
    is_fact
}

/// Whether the command line asks for an edit.
fn is_chosen(label: &str) -> bool {
    let mut words = std::env::args()
        .skip(1)
        .filter(|word| !word.starts_with('-'))
        .peekable();
    words.peek().is_none() || words.any(|word| label.contains(&word))
}

/// How many are refused for a fact and how many are not; none where nothing was tried.
fn tally() -> Result<Option<(usize, usize)>, String> {
    let root = repository::root();
    if !must_fail::are_tried(&root)? {
        return Ok(None);
    }
    let (mut rows, open) = must_fail::judged(&root)?;
    rows.retain(|(label, _)| is_chosen(label));
    let mut edits = [open, further::edits(&root)?].concat();
    for (name, own) in &mut edits {
        own.retain(|edit| is_chosen(&format!("{name}/{}", edit.label)));
    }
    rows.extend(further::tried_all(&root, edits)?);
    let facts = rows.iter().filter(|(label, v)| print(label, v)).count();
    Ok(Some((facts, rows.len() - facts)))
}

fn main() -> ExitCode {
    const WITHOUT: &str = "not every must-fail edit was tried since crates/ last changed";
    let wanted = std::env::var("ALL_EDITS").unwrap_or_default();
    let is_gate = wanted == "1";
    let counts = if wanted == "0" { Ok(None) } else { tally() };
    let (passed, failed) = match counts {
        Ok(Some(counts)) => counts,
        Ok(None) if !is_gate => {
            println!("LEFT OUT: the wrong engines; {WITHOUT}: run `rt ci` or `rt must-fail` first");
            (0, 0)
        }
        Ok(None) => {
            println!("{WITHOUT}");
            (0, 1)
        }
        Err(why) => {
            println!("{why}");
            (0, 1)
        }
    };
    let word = if failed == 0 { "ok" } else { "FAILED" };
    println!("test result: {word}. {passed} passed; {failed} failed");
    ExitCode::from(u8::from(failed != 0))
}
