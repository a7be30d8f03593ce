//! What the prover said of an edit: the first error, and whether a fact refuses the edit.

use std::fmt;
use std::path::Path;

use crate::needs;

/// How much is shown of what the prover said.
const SHORT: usize = 200;

/// One declaration or function that the prover does not admit.
#[derive(Clone, Debug, PartialEq, Eq)]
pub struct Report {
    pub file: String,
    pub line: usize,
    /// The declaration; empty where none was reached.
    pub law: String,
    pub message: String,
    /// The lines under it.
    pub detail: String,
    /// A goal that the prover leaves open at a place of the code, and not an error in a file.
    pub automatic: bool,
}

/// The prover's words for values at which a goal is false, as far as `rt ci` quotes them.
const COUNTEREXAMPLE: &str = "; the facts known there ";

/// Whether a goal is false at some values of what is known.
pub fn is_false_at_some_values(report: &Report) -> bool {
    report.automatic && report.message.contains(COUNTEREXAMPLE)
}

impl Report {
    /// What does not hold, where the report is of a function's proof.
    fn meaning(&self) -> Option<&'static str> {
        is_of_function(self)
            .then(|| needs::meaning(&self.law))
            .flatten()
    }

    /// Names of declarations that fell with what this is about.
    pub fn lost(&self) -> impl Iterator<Item = &str> {
        let names = self.message.split_once("not checked: ");
        let names = names.map_or("", |(_, names)| names);
        names.split(", ").filter_map(|name| name.split(' ').next())
    }

    /// What the prover said; what it advises to write is left out.
    fn said(&self) -> String {
        let advice = ["give a proof of that", "list the missing equation"];
        let is_advice = advice.iter().any(|words| self.message.starts_with(words));
        if is_advice && !self.detail.is_empty() {
            self.detail.trim_start().to_string()
        } else {
            format!("{}{}", self.message, self.detail)
        }
    }
}

impl fmt::Display for Report {
    fn fmt(&self, f: &mut fmt::Formatter) -> fmt::Result {
        write!(f, "{}:{} ", self.file, self.line)?;
        if !self.law.is_empty() {
            write!(f, "{}: ", self.law)?;
        }
        if let Some(meaning) = self.meaning() {
            write!(f, "{meaning}: ")?;
        }
        let short: String = self.said().chars().take(SHORT).collect();
        f.write_str(short.trim_end())
    }
}

#[derive(Clone, Debug, PartialEq, Eq)]
pub enum Verdict {
    /// Refused, by this law.
    Fact(Report),
    /// Refused, but only since a text no longer fits another.
    Misfit(Report),
    NotRefused(String),
}

impl Verdict {
    pub fn is_fact(&self) -> bool {
        matches!(self, Verdict::Fact(_))
    }
}

impl fmt::Display for Verdict {
    fn fmt(&self, f: &mut fmt::Formatter) -> fmt::Result {
        match self {
            Verdict::Fact(report) => write!(f, "{report}"),
            Verdict::Misfit(report) => write!(f, "NO FACT: {report}"),
            Verdict::NotRefused(why) => write!(f, "NOT REFUSED: {why}"),
        }
    }
}

/// `PATH:LINE:COLUMN`, the path taken from a folder.
fn place(text: &str, folder: &Path) -> Option<(String, usize)> {
    let mut parts = text.rsplitn(3, ':');
    parts.next()?.parse::<usize>().ok()?;
    let line = parts.next()?.parse().ok()?;
    let path = parts.next()?;
    let path = Path::new(path.strip_prefix("./").unwrap_or(path));
    let path = path.strip_prefix(folder).unwrap_or(path);
    Some((path.display().to_string(), line))
}

/// A message's law, `` `LAW`: .. ``, and the rest.
fn law(message: &str) -> (&str, &str) {
    let parts = message.strip_prefix('`').and_then(|m| m.split_once("`: "));
    parts.unwrap_or(("", message))
}

/// A report at `PATH:LINE:COLUMN`, with no lines under it yet.
fn report_at(at: &str, folder: &Path, law: &str, message: String) -> Option<Report> {
    let (file, line) = place(at, folder)?;
    Some(Report {
        file,
        line,
        law: law.to_string(),
        message,
        detail: String::new(),
        automatic: false,
    })
}

fn error_in(line: &str, folder: &Path) -> Option<Report> {
    let (at, message) = line.split_once(": error: ")?;
    let (law, message) = law(message);
    report_at(at, folder, law, message.to_string())
}

/// `note: PLACE: it is not proved that .. (`GOAL`)`, and maybe what is known of it
fn unproved_in(line: &str, folder: &Path) -> Option<Report> {
    let (at, message) = line
        .strip_prefix("note: ")?
        .split_once(": it is not proved that ")?;
    let law = message.split_once("(`").map_or("", |(_, goal)| goal);
    let law = law.split('`').next().unwrap_or_default();
    let message = format!("it is not proved that {message}");
    let report = report_at(at, folder, law, message)?;
    Some(Report {
        automatic: true,
        ..report
    })
}

/// What a log reports, in its order, with paths taken from a folder.
pub fn reports(log: &str, folder: &Path) -> Vec<Report> {
    let mut found: Vec<Report> = Vec::new();
    let mut is_under = false;
    for line in log.lines() {
        let report = error_in(line, folder).or_else(|| unproved_in(line, folder));
        is_under = report.is_some() || is_under && line.starts_with("  ");
        match (report, found.last_mut()) {
            (Some(report), _) => found.push(report),
            (None, Some(last)) if is_under => last.detail += &format!(" {}", line.trim()),
            _ => {}
        }
    }
    found
}

/// What another report brought about.
fn is_consequence(report: &Report) -> bool {
    let signs = ["was not admitted", "which was rejected"];
    signs.iter().any(|sign| report.message.contains(sign))
}

/// Of a function's proof, and not of a law.
fn is_of_function(report: &Report) -> bool {
    let files = ["/Answers.antt", "/Invariants.antt", "/Proof.antt"];
    files.iter().any(|file| report.file.ends_with(file))
}

fn is_in_proofs(report: &Report) -> bool {
    report.file.split('/').any(|part| part == "proofs")
}

/// The edited text itself is no definition, clause or code.
fn is_malformed(report: &Report) -> bool {
    !report.automatic && !is_in_proofs(report)
}

/// A proof that speaks of another text than the one at hand: a name, a goal or a place that
/// is no longer there, one that is new, or one of another kind.
fn is_misfit(report: &Report) -> bool {
    let signs = [
        "is not in scope",
        "that can be named from here",
        "has no field",
        "expected a type, but",
    ];
    let text = format!("{}{}", report.message, report.detail);
    let has_sign = signs.iter().any(|sign| text.contains(sign));
    let has_new_goal = report.said().contains("this has type `goal.");
    !report.automatic && (report.law.is_empty() || has_sign || has_new_goal)
}

/// An open goal of a module's code whose answer may stand under another name, since the
/// proof of one of the module's functions speaks of another text. That a goal is false at
/// some values is a fact all the same.
fn may_be_renamed(report: &Report, causes: &[&Report]) -> bool {
    let source = report.file.rsplit_once("src/").map_or("", |(_, file)| file);
    let module = source.trim_end_matches(".rt");
    let is_root = ["lib", "main"].contains(&module);
    let is_own = |other: &&&Report| is_root || other.file.contains(&format!("proofs/{module}/"));
    let mut misfits = causes.iter().filter(|o| is_of_function(o) && is_misfit(o));
    report.automatic && !is_false_at_some_values(report) && misfits.any(|o| is_own(&o))
}

/// The reports that decide: those that no other brought about.
pub fn causes(reports: &[Report]) -> Vec<&Report> {
    reports.iter().filter(|r| !is_consequence(r)).collect()
}

/// The verdict on an edit that was refused with these reports. A fact is a report of a
/// file that fits: where a goal is gone, the others of its file may have moved.
pub fn judge(reports: &[Report]) -> Verdict {
    let causes = causes(reports);
    let Some(first) = causes.first() else {
        return Verdict::NotRefused("the log has no error".to_string());
    };
    if let Some(report) = causes.iter().find(|r| is_malformed(r)) {
        return Verdict::Misfit((*report).clone());
    }
    let is_bad = |r: &Report| causes.iter().any(|o| o.file == r.file && is_misfit(o));
    let fits = |r: &&&Report| !is_bad(r) && !may_be_renamed(r, &causes);
    match causes.iter().find(fits) {
        Some(report) => Verdict::Fact((*report).clone()),
        None => Verdict::Misfit((*first).clone()),
    }
}

#[cfg(test)]
mod tests {
    use super::*;

    fn judged(log: &str) -> Verdict {
        judge(&reports(log, Path::new("/x")))
    }

    /// The place and the law of the fact that refuses.
    fn fact(log: &str) -> Option<String> {
        match judged(log) {
            Verdict::Fact(r) => Some(format!("{}:{} {}", r.file, r.line, r.law)),
            _ => None,
        }
    }

    #[test]
    fn a_law_refuses() {
        let log = "library a: ok\n./proofs/f/Answers.antt:11:13: error: `returns`: `search`: no proof\n  more\n";
        assert_eq!(
            fact(log).as_deref(),
            Some("proofs/f/Answers.antt:11 returns")
        );
    }

    #[test]
    fn a_goal_that_is_left_open_refuses() {
        let log = "note: src/lib.rt:5:1: it is not proved that the sum holds (`returns-in-A`); the facts known there allow values at which this goal is false\n";
        assert_eq!(fact(log).as_deref(), Some("src/lib.rt:5 returns-in-A"));
        let log = "note: /x/src/lib.rt:5:1: it is not proved that the sum holds (`returns`)\n";
        assert_eq!(fact(log).as_deref(), Some("src/lib.rt:5 returns"));
    }

    #[test]
    fn a_file_that_no_longer_fits() {
        let gone = "./proofs/f/Answers.antt:7:14: error: `a`: `goal.a`: module `T` has no `a` that can be named from here\n./proofs/f/Answers.antt:9:1: error: `returns`: `search`: no proof\n";
        let more = "./proofs/f/Proof.antt:14:26: error: `f-spec`: expected type `lts.Closed ?0`, but this has type `goal.a → lts.Closed ?1`\n";
        let shifted = "./proofs/f/Answers.antt:9:25: error: `returns`: record `f.Lts.After-a` has no field `args`\n";
        let wrapped = "./proofs/f/Answers.antt:7:14: error: `a`: `goal.a`: module `T` has no `a`\n  that can be named from here\n";
        for log in [gone, more, shifted, wrapped] {
            assert!(!judged(log).is_fact(), "{log}");
        }
        let other = format!("{gone}./proofs/g/Answers.antt:3:1: error: `returns`: `omega`: no\n");
        assert_eq!(
            fact(&other).as_deref(),
            Some("proofs/g/Answers.antt:3 returns")
        );
    }

    /// A goal that has another name with the edit has no answer, and so is left open.
    #[test]
    fn a_goal_with_another_name() {
        let gone = "./proofs/m/f/Answers.antt:7:14: error: `returns-lt5`: module `T` has no `returns-lt5` that can be named from here\n";
        let open = "note: src/m.rt:5:1: it is not proved that it holds (`returns-lt6`)";
        assert!(!judged(&format!("{gone}{open}\n")).is_fact());
        assert!(judged(&format!("{gone}{open}{COUNTEREXAMPLE}allow values\n")).is_fact());
        let elsewhere = open.replace("src/m", "src/n");
        assert!(judged(&format!("{gone}{elsewhere}\n")).is_fact());
        let of_root = gone.replace("proofs/m/f", "proofs/f");
        let in_root = open.replace("src/m", "src/lib");
        assert!(!judged(&format!("{of_root}{in_root}\n")).is_fact());
    }

    #[test]
    fn an_edit_that_is_no_text() {
        let parse = "./specs/Lib.antt:4:10: error: expected an expression, found `=`\n";
        assert!(!judged(parse).is_fact());
        let scope = "./specs/Lib.antt:4:10: error: `next`: `y` is not in scope\n./proofs/Laws.antt:3:1: error: `law`: `omega`: no\n";
        assert!(!judged(scope).is_fact());
    }

    #[test]
    fn what_follows_from_another() {
        for why in [
            "`f-spec`: `returns` was not admitted, so this cannot be checked",
            "1 declaration that depends on `a`, which was rejected, was not checked: b",
        ] {
            let log = format!("./proofs/f/Answers.antt:14:1: error: {why}\n");
            assert_eq!(
                judged(&log),
                Verdict::NotRefused("the log has no error".to_string())
            );
        }
        let log = "./proofs/L.antt:14:1: error: 3 declarations that depend on `a`, which was not admitted, were not checked: b, c (via b), d\n";
        let found = reports(log, Path::new("/x"));
        assert_eq!(found[0].lost().collect::<Vec<_>>(), ["b", "c", "d"]);
    }
}
