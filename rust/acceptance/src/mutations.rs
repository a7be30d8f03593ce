//! Every change of one operator, constant or field in a function's body, and what the prover
//! says of it.

use std::fmt;
use std::path::{Path, PathBuf};

use crate::changes::{self, Change, Fields};
use crate::files;
use crate::repository;
use crate::trial::{Checked, Trial};
use crate::verdict::Verdict;

#[derive(Clone, Copy, Debug, PartialEq, Eq)]
pub enum Outcome {
    /// The prover says which fact no longer holds.
    Refused,
    /// The proof names a goal that the changed code has not, or lacks one.
    Misfit,
    /// The crate is still proved.
    Survived,
    /// The compiler takes it for no program.
    NoProgram,
}

impl fmt::Display for Outcome {
    fn fmt(&self, f: &mut fmt::Formatter) -> fmt::Result {
        f.write_str(match self {
            Outcome::Refused => "refused",
            Outcome::Misfit => "proof does not fit",
            Outcome::Survived => "SURVIVED",
            Outcome::NoProgram => "no program",
        })
    }
}

fn sources(folder: &Path) -> Result<Vec<PathBuf>, String> {
    files::with_ending(&folder.join("src"), "rt")
}

/// The structs of all crates.
pub fn structs(root: &Path) -> Result<Vec<Fields>, String> {
    let mut found = Vec::new();
    for c in repository::listed(root)? {
        for source in sources(&root.join("crates").join(&c.name))? {
            found.extend(changes::structs(&files::read(&source)?));
        }
    }
    Ok(found)
}

/// At most so many changes of each function of a crate, each with its file.
pub fn changes(
    folder: &Path,
    structs: &[Fields],
    most: usize,
) -> Result<Vec<(PathBuf, Change)>, String> {
    let mut found = Vec::new();
    for source in sources(folder)? {
        let own = changes::of(&files::read(&source)?, structs);
        let own = changes::spread(own, most);
        found.extend(own.into_iter().map(|change| (source.clone(), change)));
    }
    Ok(found)
}

fn outcome(checked: Checked) -> (Outcome, String) {
    match checked {
        Checked::Proved => (Outcome::Survived, String::new()),
        Checked::NoProgram => (Outcome::NoProgram, String::new()),
        Checked::NotProved(Verdict::Fact(fact)) => (Outcome::Refused, fact.to_string()),
        Checked::NotProved(other) => (Outcome::Misfit, other.to_string()),
    }
}

/// A crate of a trial, proved.
pub struct Subject<'a> {
    trial: &'a Trial,
    pub name: &'a str,
}

impl<'a> Subject<'a> {
    pub fn new(trial: &'a Trial, name: &'a str) -> Result<Self, String> {
        trial.prove(name)?;
        Ok(Subject { trial, name })
    }

    /// Tries a change, and takes it back.
    pub fn tried(&self, file: &Path, change: &Change) -> Result<(Outcome, String), String> {
        let text = files::read(file)?;
        files::write(file, &change.applied(&text))?;
        let checked = self.trial.check(self.name);
        files::write(file, &text)?;
        checked.map(outcome)
    }
}
