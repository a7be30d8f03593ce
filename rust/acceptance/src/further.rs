//! Edits of one crate each, tried over what is proved: `acceptance/code/CRATE/LABEL.edit`,
//! with paths from the crate's folder. What an edit does not touch is not proved again.

use std::path::Path;

use crate::edit::{self, Edit};
use crate::files;
use crate::jobs;
use crate::repository;
use crate::trial::{Checked, Trial};
use crate::verdict::Verdict;

/// An edit, as CRATE/LABEL, with its verdict.
pub type Row = (String, Verdict);

/// A crate and its edits.
pub type Edits = (String, Vec<Edit>);

/// The crates that have edits, the highest first: these take longest.
pub fn edits(root: &Path) -> Result<Vec<Edits>, String> {
    let folder = root.join("acceptance/code");
    let mut found = Vec::new();
    for c in repository::listed(root)?.into_iter().rev() {
        let paths = files::with_ending(&folder.join(&c.name), "edit")?;
        let own: Result<Vec<Edit>, String> = paths.iter().map(|path| edit::read(path)).collect();
        found.push((c.name, own?));
    }
    found.retain(|(_, own)| !own.is_empty());
    if found.len() != files::entries(&folder)?.len() {
        return Err("acceptance/code: a folder is no crate's, or has no edit".to_string());
    }
    Ok(found)
}

fn verdict_of(checked: Checked) -> Verdict {
    match checked {
        Checked::NotProved(verdict) => verdict,
        Checked::Proved => Verdict::NotRefused("the crate is still proved".to_string()),
        Checked::NoProgram => Verdict::NotRefused("the compiler takes it for none".to_string()),
    }
}

/// Makes an edit, says what came of it, and takes it back.
fn tried(trial: &Trial, name: &str, edit: &Edit) -> Result<Verdict, String> {
    let folder = trial.crate_folder(name);
    let mut before = Vec::new();
    for pair in &edit.pairs {
        let path = folder.join(&pair.file);
        before.push((files::read(&path)?, path));
    }
    let made = edit.apply(&folder);
    let checked = made.and_then(|_| trial.check(name));
    for (text, path) in &before {
        files::write(path, text)?;
    }
    checked.map(verdict_of)
}

fn try_crate(root: &Path, (name, edits): &Edits) -> Result<Vec<Row>, String> {
    let trial = Trial::new(root, &[name])?;
    trial.prove(name)?;
    let mut rows = Vec::new();
    for edit in edits {
        let label = format!("{name}/{}", edit.label);
        let verdict = tried(&trial, name, edit).map_err(|why| format!("{label}: {why}"))?;
        rows.push((label, verdict));
    }
    Ok(rows)
}

/// The edits of each crate together, and only crates that have some.
fn by_crate(edits: Vec<Edits>) -> Vec<Edits> {
    let mut found: Vec<Edits> = Vec::new();
    for (name, own) in edits.into_iter().filter(|(_, own)| !own.is_empty()) {
        match found.iter_mut().find(|(other, _)| *other == name) {
            Some((_, before)) => before.extend(own),
            None => found.push((name, own)),
        }
    }
    found
}

/// The verdicts on some edits. Crates are taken side by side, each in a copy of its own.
pub fn tried_all(root: &Path, edits: Vec<Edits>) -> Result<Vec<Row>, String> {
    let crates = by_crate(edits);
    let rows = jobs::side_by_side(&crates, |own| try_crate(root, own));
    let rows: Result<Vec<Vec<Row>>, String> = rows.into_iter().collect();
    Ok(rows?.into_iter().flatten().collect())
}

/// The verdicts on all edits of `acceptance/code`.
pub fn outcomes(root: &Path) -> Result<Vec<Row>, String> {
    tried_all(root, edits(root)?)
}

#[cfg(test)]
mod tests {
    use super::*;

    #[test]
    fn edits_by_their_crates() {
        let edit = |label: &str| Edit {
            label: label.to_string(),
            pairs: Vec::new(),
        };
        let of = |name: &str, labels: &[&str]| -> Edits {
            let own = labels.iter().map(|label| edit(label)).collect();
            (name.to_string(), own)
        };
        let some = vec![
            of("a", &["x"]),
            of("b", &[]),
            of("c", &["y"]),
            of("a", &["z"]),
        ];
        assert_eq!(by_crate(some), [of("a", &["x", "z"]), of("c", &["y"])]);
    }
}
