//! Edits of the definitions that the theorems are about, tried where there is no code.
//!
//! The definitions-only repository has of each crate that the theorems' crates reach the
//! definitions, the types and the law files that the theorems cite. No function is in it,
//! so that a wrong definition is refused by a theorem or by a law that it cites.

use std::collections::BTreeSet;
use std::path::{Path, PathBuf};

use crate::edit::{self, Edit};
use crate::files::{self, Temporary};
use crate::repository::{self, Listed};
use crate::types;
use crate::verdict::{self, Report, Verdict};

/// A theorem: its crate, the file of the crate's proofs that has it, and its name.
pub struct Theorem(&'static str, &'static str, &'static str);

/// The name of worked examples, each an equation whose sides are computed.
const EXAMPLES: &str = "examples";

/// The worst count; where the words behind a short block lie; both routes of decimal
/// scalers return the row; what a queue of demands keeps; worked examples of these two.
pub const THEOREMS: [Theorem; 6] = [
    Theorem("worst_count", "Bound", "worst_count"),
    Theorem("worst_count", "ShortBlocks", "short_blocks"),
    Theorem("scalers", "BothRoutes", "both_routes"),
    Theorem("scalers", "Examples", EXAMPLES),
    Theorem("demands", "Kept", "kept"),
    Theorem("demands", "Examples", EXAMPLES),
];

/// The crates of the theorems.
fn owners() -> BTreeSet<&'static str> {
    THEOREMS.iter().map(|theorem| theorem.0).collect()
}

/// A law file: `crates/CRATE/proofs/MODULE.antt`.
type Law = (String, String);

fn law_path(root: &Path, law: &Law) -> PathBuf {
    let proofs = root.join("crates").join(&law.0).join("proofs");
    proofs.join(format!("{}.antt", law.1))
}

/// The law file that a line cites: `use Rattle.CRATE.proofs.MODULE..`; the kit's library has
/// its own.
fn cited(line: &str) -> Option<Law> {
    let name = line.strip_prefix("use Rattle.")?.split([' ', '{']).next()?;
    let (owner, path) = name.split_once('.')?;
    let module = path.strip_prefix("proofs.")?.trim_end_matches('.');
    (owner != "std").then(|| (owner.to_string(), module.to_string()))
}

/// The law files that the theorems' files cite, whatever lies between, and themselves.
fn laws(root: &Path) -> Result<BTreeSet<Law>, String> {
    let mut found = BTreeSet::new();
    let own = |theorem: &Theorem| (theorem.0.to_string(), theorem.1.to_string());
    let mut open: Vec<Law> = THEOREMS.iter().map(own).collect();
    while let Some(law) = open.pop() {
        if found.contains(&law) {
            continue;
        }
        let text = files::read(&law_path(root, &law))?;
        open.extend(text.lines().filter_map(cited));
        found.insert(law);
    }
    Ok(found)
}

/// The lines of a `proofs/Lib.antt` that declare these modules.
fn declarations(lib: &str, modules: &[&str]) -> String {
    let is_kept = |line: &&str| {
        let module = line.split_once("mod ").map_or("", |(_, m)| m.trim());
        modules.contains(&module)
    };
    let kept: Vec<&str> = lib.lines().filter(is_kept).collect();
    kept.join("\n") + "\n"
}

fn build_laws(root: &Path, to: &Path, name: &str, laws: &BTreeSet<Law>) -> Result<(), String> {
    let own: Vec<&Law> = laws.iter().filter(|law| law.0 == name).collect();
    if own.is_empty() {
        return Ok(());
    }
    for law in &own {
        let text = files::read(&law_path(root, law))?;
        files::write(&law_path(to, law), &text)?;
    }
    let modules: Vec<&str> = own.iter().map(|law| law.1.as_str()).collect();
    let lib = (name.to_string(), "Lib".to_string());
    let text = files::read(&law_path(root, &lib))?;
    files::write(&law_path(to, &lib), &declarations(&text, &modules))
}

fn build_crate(root: &Path, to: &Path, name: &str, laws: &BTreeSet<Law>) -> Result<(), String> {
    let (from_crate, to_crate) = (root.join("crates").join(name), to.join("crates").join(name));
    if from_crate.join("specs").is_dir() {
        files::copy_folder(&from_crate.join("specs"), &to_crate.join("specs"))?;
    }
    for source in files::with_ending(&from_crate.join("src"), "rt")? {
        let target = to_crate
            .join("src")
            .join(source.file_name().unwrap_or_default());
        files::write(&target, &types::of(&files::read(&source)?))?;
    }
    build_laws(root, to, name, laws)
}

fn line_of(c: &Listed) -> String {
    format!("{}: {}\n", c.name, c.deps.join(" "))
}

/// Writes the definitions-only repository of the one at `root` to a folder.
pub fn build(root: &Path, to: &Path) -> Result<(), String> {
    let tops: Vec<&str> = owners().into_iter().collect();
    let crates = repository::reached(&repository::listed(root)?, &tops);
    let laws = laws(root)?;
    for c in &crates {
        build_crate(root, to, &c.name, &laws)?;
    }
    let lines: String = crates.iter().map(line_of).collect();
    files::write(&to.join("crates.txt"), &lines)
}

/// The unedited definitions-only repository, proved.
pub struct Base {
    folder: Temporary,
}

/// Whether a crate is proved in a folder, and the log.
fn check_crate(folder: &Path, name: &str) -> Result<(bool, String), String> {
    let output = repository::rt(&folder.join("crates").join(name), &["check"])?;
    let log = [output.stdout, output.stderr].concat();
    let log = String::from_utf8_lossy(&log).into_owned();
    match output.status.code() {
        Some(0) => Ok((true, log)),
        Some(1) => Ok((false, log)),
        _ => Err(format!("rt could not tell\n{log}")),
    }
}

/// What is reported of a crate, with paths from the repository's root.
fn reports_of(folder: &Path, name: &str, log: &str) -> Vec<Report> {
    let own = folder.join("crates").join(name);
    let mut found = verdict::reports(log, &own);
    for report in &mut found {
        report.file = format!("crates/{name}/{}", report.file);
    }
    found
}

/// Checks the crates of a folder, the lowest first, that one of these names or that stand on
/// such a one; a crate above one that is not proved is left out. None where all are proved.
fn check(folder: &Path, touched: &BTreeSet<&str>) -> Result<Option<Vec<Report>>, String> {
    let (mut found, mut is_proved) = (Vec::new(), true);
    let mut moved = touched.clone();
    let mut lost = BTreeSet::new();
    let crates = repository::listed(folder)?;
    for c in &crates {
        let stands_on =
            |some: &BTreeSet<&str>| c.deps.iter().any(|dep| some.contains(dep.as_str()));
        if stands_on(&lost) {
            lost.insert(&c.name);
        } else if moved.contains(c.name.as_str()) || stands_on(&moved) {
            moved.insert(&c.name);
            let (is_well, log) = check_crate(folder, &c.name)?;
            if !is_well {
                is_proved = false;
                lost.insert(&c.name);
                let own = reports_of(folder, &c.name, &log);
                if own.is_empty() {
                    return Err(format!("{}: the prover reports nothing\n{log}", c.name));
                }
                found.extend(own);
            }
        }
    }
    Ok((!is_proved).then_some(found))
}

impl Base {
    /// Builds and proves it. Everything that is proved here is not proved again for an
    /// edit that doesn't touch it.
    pub fn prove(root: &Path) -> Result<Base, String> {
        let folder = Temporary::new()?;
        build(root, folder.path())?;
        let crates = repository::listed(folder.path())?;
        let every = crates.iter().map(|c| c.name.as_str()).collect();
        match check(folder.path(), &every)? {
            None => Ok(Base { folder }),
            Some(reports) => {
                let all: Vec<String> = reports.iter().map(Report::to_string).collect();
                let all = all.join("\n");
                Err(format!("without an edit a theorem is not proved\n{all}"))
            }
        }
    }

    /// Tries an edit on a copy.
    pub fn try_edit(&self, edit: &Edit) -> Result<Verdict, String> {
        let copy = Temporary::new()?;
        files::copy_folder(self.folder.path(), copy.path())?;
        edit.apply(copy.path())?;
        let files = edit.pairs.iter().map(|pair| pair.file.as_str());
        let touched = files.filter_map(|file| file.split('/').nth(1)).collect();
        match check(copy.path(), &touched)? {
            None => Ok(Verdict::NotRefused(
                "the theorems are still proved".to_string(),
            )),
            Some(reports) => Ok(judge(&reports)),
        }
    }
}

/// Whether a theorem falls with what was refused: itself, or in a crate below theirs,
/// whose law files are those that the theorems cite.
fn falls(reports: &[Report]) -> bool {
    let is_lower = |r: &Report| !owners().iter().any(|owner| is_in(r, owner));
    let is_theorem = |r: &Report| THEOREMS.iter().any(|theorem| is(r, theorem));
    reports.iter().any(|r| is_lower(r) || is_theorem(r))
}

fn is_in(report: &Report, owner: &str) -> bool {
    report.file.starts_with(&format!("crates/{owner}/"))
}

fn is(report: &Report, theorem: &Theorem) -> bool {
    is_in(report, theorem.0)
        && (report.law == theorem.2 || report.lost().any(|name| name == theorem.2))
}

/// An example that computes to something else is a fact, whatever else is refused. If there
/// is none, the first error must be a fact, and a theorem must fall with it.
fn judge(reports: &[Report]) -> Verdict {
    let causes = verdict::causes(reports);
    let example = causes.iter().find(|r| r.law == EXAMPLES);
    if let Some(&example) = example {
        return verdict::judge(std::slice::from_ref(example));
    }
    match (verdict::judge(reports), causes.first()) {
        (Verdict::Fact(fact), Some(&first)) if *first != fact => Verdict::Misfit(first.clone()),
        (Verdict::Fact(fact), _) if !falls(reports) => {
            Verdict::NotRefused(format!("no theorem rests on {}", fact.law))
        }
        (judged, _) => judged,
    }
}

/// The edits of `acceptance/definitions`, each of definitions alone.
pub fn edits(root: &Path) -> Result<Vec<Edit>, String> {
    let mut found = Vec::new();
    for path in files::with_ending(&root.join("acceptance/definitions"), "edit")? {
        let edit = edit::read(&path)?;
        let is_definition = |file: &str| file.starts_with("crates/") && file.contains("/specs/");
        if !edit.pairs.iter().all(|pair| is_definition(&pair.file)) {
            return Err(format!("{}: a file is not below specs/", edit.label));
        }
        found.push(edit);
    }
    Ok(found)
}

#[cfg(test)]
mod tests {
    use super::*;

    fn law(owner: &str, module: &str) -> Option<Law> {
        Some((owner.to_string(), module.to_string()))
    }

    #[test]
    fn cited_law_files() {
        assert_eq!(
            cited("use Rattle.walk.proofs.Halting.{Walk, walked}"),
            law("walk", "Halting")
        );
        assert_eq!(
            cited("use Rattle.worst_count.proofs.Live.{Live}"),
            law("worst_count", "Live")
        );
        assert_eq!(
            cited("use Rattle.reply.proofs.Fits as fits"),
            law("reply", "Fits")
        );
        assert_eq!(cited("use Rattle.calls.specs.Fit.{fits}"), None);
        assert_eq!(cited("use Rattle.worst_count.specs.Slowest.{misses}"), None);
        assert_eq!(cited("use Rattle.std.proofs.Math.Option.{some}"), None);
    }

    #[test]
    fn declared_modules() {
        let lib = "pub mod Laws\npub mod Fits\nmod Own\n";
        assert_eq!(
            declarations(lib, &["Own", "Laws"]),
            "pub mod Laws\nmod Own\n"
        );
    }

    #[test]
    fn a_law_that_no_theorem_rests_on() {
        let report = |file: &str, law: &str, message: &str| Report {
            file: file.to_string(),
            line: 1,
            law: law.to_string(),
            message: message.to_string(),
            detail: String::new(),
            automatic: false,
        };
        let own = report("crates/worst_count/proofs/A.antt", "a", "`omega`: no");
        let theorem = report(
            "crates/worst_count/proofs/Bound.antt",
            "",
            &format!("1 declaration that depends on `a`, which was rejected, was not checked: b, {} (via b)", THEOREMS[0].2),
        );
        let lower = report("crates/walk/proofs/B.antt", "b", "`omega`: no");
        assert!(!judge(std::slice::from_ref(&own)).is_fact());
        assert!(judge(&[own, theorem]).is_fact());
        assert!(judge(&[lower]).is_fact());
    }

    #[test]
    fn an_example_that_computes_to_something_else() {
        let report = |module: &str, law: &str, message: &str| Report {
            file: format!("crates/scalers/proofs/{module}.antt"),
            line: 1,
            law: law.to_string(),
            message: message.to_string(),
            detail: String::new(),
            automatic: false,
        };
        let lost = report("Laws", "a", "`x` is not in scope");
        let follows = report("BothRoutes", "both_routes", "`a` was not admitted");
        let example = report("Examples", "examples", "expected type `1 ≡ 2`");
        assert!(!judge(&[lost.clone(), follows.clone()]).is_fact());
        assert_eq!(
            judge(&[lost, follows, example.clone()]),
            Verdict::Fact(example)
        );
    }
}
