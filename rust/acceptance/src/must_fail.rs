//! The crates' own must-fail edits, which `rt must-fail` and `rt ci` try.

use std::fs;
use std::path::{Path, PathBuf};
use std::process::{Command, Stdio};

use crate::edit::{self, Edit};
use crate::files;
use crate::further::{self, Edits, Row};
use crate::repository;
use crate::verdict::{self, Verdict};

/// Where what `rt ci` or `rt must-fail` said is kept: by the gate, and by `run`.
fn log(root: &Path) -> PathBuf {
    root.join("target/edits.log")
}

/// The edits of a crate.
fn paths(root: &Path, name: &str) -> Result<Vec<PathBuf>, String> {
    let folder = root.join("crates").join(name).join("must-fail");
    files::with_ending(&folder, "edit")
}

/// How `rt` begins what it says of an edit.
fn head(name: &str, label: &str) -> String {
    format!("rt: must-fail {name}/{label}.edit: ")
}

/// What `rt` said of an edit, in its first line; none where it was not tried.
fn said<'a>(log: &'a str, name: &str, label: &str) -> Option<&'a str> {
    let head = head(name, label);
    log.lines()
        .find_map(|line| line.strip_prefix(head.as_str()))
}

/// Whether every edit was tried after the last change below crates/.
pub fn are_tried(root: &Path) -> Result<bool, String> {
    let log = log(root);
    let last_change = files::newest(&root.join("crates"))?;
    if !files::changed(&log).is_ok_and(|time| time > last_change) {
        return Ok(false);
    }
    let text = files::read(&log)?;
    for c in repository::listed(root)? {
        for path in paths(root, &c.name)? {
            if said(&text, &c.name, &files::stem(&path)).is_none() {
                return Ok(false);
            }
        }
    }
    Ok(true)
}

/// Tries every edit anew, and keeps what `rt` says.
fn run(root: &Path) -> Result<(), String> {
    let output = Command::new("rt")
        .arg("must-fail")
        .current_dir(root)
        .stderr(Stdio::inherit())
        .output()
        .map_err(|e| format!("rt must-fail: {e}"))?;
    let text = String::from_utf8_lossy(&output.stdout);
    files::write(&log(root), &text)?;
    match output.status.code() {
        Some(0 | 1) => Ok(()),
        _ => Err("rt must-fail could not tell".to_string()),
    }
}

/// What comes of an edit by the line that `rt` wrote of it; none where the whole log has to
/// be read.
fn by_line(line: &str) -> Option<Verdict> {
    const REFUSED: &str = "refused, as it must be: ";
    let Some(cause) = line.strip_prefix(REFUSED) else {
        let is_open = line.starts_with("refused, ");
        let why = line.trim_start_matches("NOT REFUSED: ").to_string();
        return (!is_open).then_some(Verdict::NotRefused(why));
    };
    let report = verdict::reports(cause, Path::new(""))
        .into_iter()
        .find(verdict::is_false_at_some_values)?;
    Some(Verdict::Fact(report))
}

/// The verdicts that what `rt` said shows, and the edits of which the whole log has to be
/// read.
pub fn judged(root: &Path) -> Result<(Vec<Row>, Vec<Edits>), String> {
    let log = fs::read_to_string(log(root)).unwrap_or_default();
    let (mut found, mut open) = (Vec::new(), Vec::new());
    for c in repository::listed(root)? {
        let mut own: Vec<Edit> = Vec::new();
        for path in paths(root, &c.name)? {
            let edit = edit::read_with_remarks(&path)?;
            let line = said(&log, &c.name, &edit.label);
            let line = line.unwrap_or("it was not tried: its crate is not proved");
            match by_line(line) {
                Some(verdict) => found.push((format!("{}/{}", c.name, edit.label), verdict)),
                None => own.push(edit),
            }
        }
        open.push((c.name, own));
    }
    Ok((found, open))
}

/// Each edit, as CRATE/LABEL, with its verdict; tried anew unless each was tried since the
/// last change.
pub fn outcomes(root: &Path) -> Result<Vec<Row>, String> {
    if !are_tried(root)? {
        run(root)?;
    }
    let (mut found, open) = judged(root)?;
    found.extend(further::tried_all(root, open)?);
    found.sort_by(|a, b| a.0.cmp(&b.0));
    Ok(found)
}

#[cfg(test)]
mod tests {
    use super::*;

    #[test]
    fn what_was_said_of_an_edit() {
        let log = "rt: a proved\nrt: must-fail a/b.edit: NOT REFUSED: proved\nrt: must-fail a/bc.edit: BAD EDIT: it\nmore\n";
        assert_eq!(said(log, "a", "b"), Some("NOT REFUSED: proved"));
        assert_eq!(said(log, "a", "bc"), Some("BAD EDIT: it"));
        assert_eq!(said(log, "a", "c"), None);
    }

    #[test]
    fn verdicts_by_a_line() {
        let fact = "refused, as it must be: note: src/lib.rt:5:1: it is not proved that it holds (`returns`); the facts known there allow values at which this goa";
        assert!(by_line(fact).is_some_and(|v| v.is_fact()));
        for open in [
            "refused, as it must be: note: src/lib.rt:5:1: it is not proved that it holds (`returns`)",
            "refused, as it must be: ./proofs/f/Answers.antt:3:1: error: `returns`: `omega`: no",
            "refused, as it must be (only because a proof file names what the edit took away): x",
            "refused, as it must be (only by a limit of the prover, which gave no verdict): x",
            "refused, as it must be",
        ] {
            assert_eq!(by_line(open), None, "{open}");
        }
        for not in [
            "NOT REFUSED: the crate is still proved",
            "BAD EDIT: it",
            "NOT TRIED: it",
        ] {
            let verdict = by_line(not).expect("a verdict");
            assert!(matches!(verdict, Verdict::NotRefused(_)), "{not}");
        }
    }
}
