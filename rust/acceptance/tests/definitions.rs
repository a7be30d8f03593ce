//! A theorem refuses each edit of `acceptance/definitions` for a fact. First the
//! definitions alone are proved; then the edits are tried, one to a processor, a line each.
//! Words on the command line choose the edits whose names contain one of them.

use std::process::ExitCode;
use std::time::Instant;

use acceptance::definitions::{self, Base};
use acceptance::edit::Edit;
use acceptance::{jobs, repository};

fn is_chosen(edit: &Edit) -> bool {
    let mut words = std::env::args()
        .skip(1)
        .filter(|word| !word.starts_with('-'))
        .peekable();
    words.peek().is_none() || words.any(|word| edit.label.contains(&word))
}

/// Tries an edit and says what came of it, in a line.
fn is_refused(base: &Base, edit: &Edit) -> bool {
    let began = Instant::now();
    let tried = base.try_edit(edit);
    let seconds = began.elapsed().as_secs();
    let said = match &tried {
        Ok(verdict) => verdict.to_string(),
        Err(why) => why.clone(),
    };
    let is_fact = tried.is_ok_and(|verdict| verdict.is_fact());
    let word = if is_fact { "refused" } else { "FAILED" };
    println!("{} .. {word} ({seconds} s): {said}", edit.label);
    is_fact
}

/// How many held and how many did not; the definitions without an edit count as one.
fn tally() -> Result<(usize, usize), String> {
    let root = repository::root();
    let edits = definitions::edits(&root)?;
    let base = Base::prove(&root)?;
    println!("the definitions alone .. proved");
    let chosen: Vec<Edit> = edits.into_iter().filter(is_chosen).collect();
    let refused = jobs::side_by_side(&chosen, |edit| is_refused(&base, edit));
    let refused = refused.into_iter().filter(|is_refused| *is_refused).count();
    Ok((refused + 1, chosen.len() - refused))
}

fn main() -> ExitCode {
    let (passed, failed) = tally().unwrap_or_else(|why| {
        println!("{why}");
        (0, 1)
    });
    let word = if failed == 0 { "ok" } else { "FAILED" };
    println!("test result: {word}. {passed} passed; {failed} failed");
    ExitCode::from(u8::from(failed != 0))
}
