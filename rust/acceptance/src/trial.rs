//! A copy of crates of the repository in which one crate at a time is changed and checked.
//! What a change does not touch is not proved again: `rt check` keeps what it has checked, and
//! begins with what checks in other copies on this machine kept.

use std::path::{Path, PathBuf};

use crate::files::{self, Temporary};
use crate::refit;
use crate::repository;
use crate::verdict::{self, Report, Verdict};

/// What came of a check.
#[derive(Clone, Debug, PartialEq, Eq)]
pub enum Checked {
    Proved,
    NotProved(Verdict),
    /// The compiler takes it for no program.
    NoProgram,
}

pub struct Trial {
    folder: Temporary,
}

/// The exit status of a check that came to a limit of the prover.
const LIMIT: i32 = 3;

impl Trial {
    /// A copy of some crates and those below them, with the libraries that `rt` has built.
    pub fn new(root: &Path, tops: &[&str]) -> Result<Trial, String> {
        let folder = Temporary::new()?;
        let crates = repository::reached(&repository::listed(root)?, tops);
        let lines: Vec<&str> = crates.iter().map(|c| c.line.as_str()).collect();
        files::write(
            &folder.path().join("crates.txt"),
            &(lines.join("\n") + "\n"),
        )?;
        for c in &crates {
            let (from, to) = (crate_in(root, &c.name), crate_in(folder.path(), &c.name));
            for part in ["src", "specs", "proofs"] {
                if from.join(part).is_dir() {
                    files::copy_folder(&from.join(part), &to.join(part))?;
                }
            }
            if from.join("out/rlib").is_dir() {
                files::link_folder(&from.join("out/rlib"), &to.join("out/rlib"))?;
            }
        }
        Ok(Trial { folder })
    }

    pub fn crate_folder(&self, name: &str) -> PathBuf {
        crate_in(self.folder.path(), name)
    }

    /// Checks a crate as it stands, and what is reported of it.
    fn reported(&self, name: &str) -> Result<(Checked, Vec<Report>), String> {
        let output = repository::rt(&self.crate_folder(name), &["check"])?;
        let log = [output.stdout, output.stderr].concat();
        let log = String::from_utf8_lossy(&log).into_owned();
        let has = |word: &str| log.lines().any(|line| line.starts_with(word));
        let reports = verdict::reports(&log, &self.crate_folder(name));
        let checked = match output.status.code() {
            Some(0) if has("logic=proved") => Checked::Proved,
            Some(1) if has("logic=not-proved") => Checked::NotProved(verdict::judge(&reports)),
            Some(1) => Checked::NoProgram,
            Some(LIMIT) => Checked::NotProved(Verdict::NotRefused(
                "the prover came to a limit of its own".to_string(),
            )),
            _ => return Err(format!("rt could not tell\n{log}")),
        };
        Ok((checked, reports))
    }

    /// Checks a changed crate. Where a proof names a goal that the changed code has under
    /// another name, it is checked once more with that name in the proof.
    pub fn check(&self, name: &str) -> Result<Checked, String> {
        let (checked, reports) = self.reported(name)?;
        let function = match &checked {
            Checked::NotProved(Verdict::Misfit(report)) => function_of(report),
            _ => None,
        };
        match function {
            Some(function) => {
                let goals = refit::moved(&reports, &function);
                let refitted = self.refitted(name, &function, &goals)?;
                Ok(refitted.unwrap_or(checked))
            }
            None => Ok(checked),
        }
    }

    /// Checks a crate that has to be proved before anything in it is changed.
    pub fn prove(&self, name: &str) -> Result<(), String> {
        match self.reported(name)?.0 {
            Checked::Proved => Ok(()),
            _ => Err(format!("{name} is not proved without a change")),
        }
    }

    /// Checks a crate with goals' new names in a function's proof; none where it has none of
    /// these goals.
    fn refitted(
        &self,
        name: &str,
        function: &str,
        goals: &[(String, String)],
    ) -> Result<Option<Checked>, String> {
        let folder = self.crate_folder(name).join("proofs").join(function);
        let mut texts = Vec::new();
        for path in files::with_ending(&folder, "antt")? {
            let proof = files::read(&path)?;
            if let Some(text) = refit::refitted(&proof, goals) {
                texts.push((path, proof, text));
            }
        }
        if texts.is_empty() {
            return Ok(None);
        }
        for (path, _, text) in &texts {
            files::write(path, text)?;
        }
        let checked = self.reported(name);
        for (path, proof, _) in &texts {
            files::write(path, proof)?;
        }
        Ok(Some(checked?.0))
    }
}

fn crate_in(folder: &Path, name: &str) -> PathBuf {
    folder.join("crates").join(name)
}

/// The folder of a function's proof below the crate's proofs/, by a report of it.
fn function_of(report: &Report) -> Option<String> {
    let path = report.file.strip_prefix("proofs/")?;
    let (function, file) = path.rsplit_once('/')?;
    let is_of_function = ["Answers.antt", "Invariants.antt", "Proof.antt"].contains(&file);
    is_of_function.then(|| function.to_string())
}
