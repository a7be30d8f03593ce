//! This repository: its root, its crates, and the command `rt`.

use std::path::{Path, PathBuf};
use std::process::{Command, Output};

use crate::files;

/// The root of the repository that this package lies in.
pub fn root() -> PathBuf {
    let here = Path::new(env!("CARGO_MANIFEST_DIR"));
    here.join("../..").canonicalize().expect("a root")
}

/// A line of crates.txt: `NAME: DEP DEP ..`; behind the name may stand what it is, as
/// `staticlib`.
#[derive(Clone, Debug, PartialEq, Eq)]
pub struct Listed {
    pub line: String,
    pub name: String,
    pub deps: Vec<String>,
}

fn listed_in(line: &str) -> Option<Listed> {
    let line = line.split('#').next().unwrap_or_default();
    let (name, deps) = line.split_once(':')?;
    Some(Listed {
        line: line.trim().to_string(),
        name: name.split_whitespace().next()?.to_string(),
        deps: deps.split_whitespace().map(str::to_string).collect(),
    })
}

pub fn listed(root: &Path) -> Result<Vec<Listed>, String> {
    let text = files::read(&root.join("crates.txt"))?;
    Ok(text.lines().filter_map(listed_in).collect())
}

/// Crates with those that they reach, in the order of crates.txt.
pub fn reached(listed: &[Listed], tops: &[&str]) -> Vec<Listed> {
    let mut names: Vec<String> = tops.iter().map(|top| top.to_string()).collect();
    let mut at = 0;
    while at < names.len() {
        let found = listed.iter().find(|c| c.name == names[at]);
        for dep in found.map(|c| c.deps.clone()).unwrap_or_default() {
            if !names.contains(&dep) {
                names.push(dep);
            }
        }
        at += 1;
    }
    let is_reached = |c: &&Listed| names.contains(&c.name);
    listed.iter().filter(is_reached).cloned().collect()
}

/// Runs `rt` in a folder and hands back what it wrote.
pub fn rt(folder: &Path, words: &[&str]) -> Result<Output, String> {
    Command::new("rt")
        .args(words)
        .current_dir(folder)
        .output()
        .map_err(|e| format!("rt {}: {e}", words.join(" ")))
}

#[cfg(test)]
mod tests {
    use super::*;

    #[test]
    fn the_crates_that_some_reach() {
        let text = "a:\nb: a # first\n\nc staticlib: a io\nd: b\n";
        let all: Vec<Listed> = text.lines().filter_map(listed_in).collect();
        let names = |tops| -> Vec<String> {
            let found = reached(&all, tops);
            found.into_iter().map(|c| c.name).collect()
        };
        assert_eq!(names(&["d"]), ["a", "b", "d"]);
        assert_eq!(names(&["b", "c"]), ["a", "b", "c"]);
        assert_eq!(all[2].deps, ["a", "io"]);
        assert_eq!(all[2].line, "c staticlib: a io");
    }
}
