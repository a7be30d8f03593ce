//! Tries every wrong engine and lists the fact that refuses each: the must-fail edits of
//! all crates, then the edits of `acceptance/code` and of `acceptance/definitions`. The must-fail edits are tried
//! anew by `rt must-fail`, unless `rt ci` or `rt must-fail` tried them all since crates/
//! last changed. The exit status is 0 only where a fact refuses every one of them.

use std::path::Path;
use std::process::ExitCode;

use acceptance::verdict::Verdict;
use acceptance::{definitions, further, must_fail, repository};

type Row = (String, Verdict);

fn print(title: &str, rows: &[Row]) {
    let width = rows.iter().map(|row| row.0.chars().count()).max();
    let width = width.unwrap_or_default();
    println!("{title}");
    for (label, verdict) in rows {
        println!("  {label:width$}  {verdict}");
    }
    println!();
}

fn definition_rows(root: &Path) -> Result<Vec<Row>, String> {
    let base = definitions::Base::prove(root)?;
    let mut rows = Vec::new();
    for edit in definitions::edits(root)? {
        eprintln!("acceptance: {}", edit.label);
        rows.push((edit.label.clone(), base.try_edit(&edit)?));
    }
    Ok(rows)
}

fn list(root: &Path) -> Result<bool, String> {
    let must_fail = must_fail::outcomes(root)?;
    print(
        "Must-fail edits, and the law that refuses each:",
        &must_fail,
    );
    let further = further::outcomes(root)?;
    print("Further edits, and the law that refuses each:", &further);
    let definitions = definition_rows(root)?;
    print(
        "Edits of the definitions, and the law that refuses each:",
        &definitions,
    );
    let all = [must_fail, further, definitions].concat();
    let facts = all.iter().filter(|row| row.1.is_fact()).count();
    println!("{facts} refused for a fact, {} not", all.len() - facts);
    Ok(facts == all.len())
}

fn main() -> ExitCode {
    match list(&repository::root()) {
        Ok(true) => ExitCode::SUCCESS,
        Ok(false) => ExitCode::FAILURE,
        Err(why) => {
            eprintln!("acceptance: {why}");
            ExitCode::FAILURE
        }
    }
}
