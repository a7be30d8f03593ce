//! Edits: a text in a file, and what stands there in a wrong engine.
//!
//! Lines `file: PATH`, `old: TEXT`, `new: TEXT`; a `file:` line holds for the pairs after
//! it, and a `new:` line right after another adds a line to that text. Each old text occurs
//! once in its file. Lines that start with `#` are comments.

use std::path::Path;

use crate::files;

#[derive(Clone, Debug, PartialEq, Eq)]
pub struct Pair {
    pub file: String,
    pub old: String,
    pub new: String,
}

#[derive(Clone, Debug, PartialEq, Eq)]
pub struct Edit {
    pub label: String,
    pub pairs: Vec<Pair>,
}

/// The text after a key; an empty one may lack the blank.
fn after<'a>(line: &'a str, key: &str) -> Option<&'a str> {
    let rest = line.strip_prefix(key)?;
    Some(rest.strip_prefix(' ').unwrap_or(rest))
}

/// Adds a line of an edit to its pairs.
fn add(
    pairs: &mut Vec<Pair>,
    file: &str,
    old: &mut Option<String>,
    new: &str,
) -> Result<(), String> {
    match (old.take(), pairs.last_mut()) {
        (Some(old), _) => pairs.push(Pair {
            file: file.to_string(),
            old,
            new: new.to_string(),
        }),
        (None, Some(pair)) => pair.new = format!("{}\n{new}", pair.new),
        (None, None) => return Err("a `new:` line before any `old:`".to_string()),
    }
    Ok(())
}

fn pairs(text: &str) -> Result<Vec<Pair>, String> {
    let mut file = "";
    let mut old = None;
    let mut found = Vec::new();
    for line in text.lines() {
        if let Some(path) = after(line, "file:") {
            file = path;
        } else if let Some(part) = after(line, "old:") {
            old = Some(part.to_string());
        } else if let Some(new) = after(line, "new:") {
            add(&mut found, file, &mut old, new)?;
        } else if !line.is_empty() && !line.starts_with('#') {
            return Err(format!("no line of an edit: {line}"));
        }
    }
    match old {
        None if !found.is_empty() => Ok(found),
        _ => Err("no pair of `old:` and `new:`".to_string()),
    }
}

fn edit(path: &Path, text: &str) -> Result<Edit, String> {
    let label = files::stem(path);
    let pairs = pairs(text).map_err(|why| format!("{label}: {why}"))?;
    Ok(Edit { label, pairs })
}

pub fn read(path: &Path) -> Result<Edit, String> {
    edit(path, &files::read(path)?)
}

/// An edit as `rt` reads it: lines without a key are remarks.
pub fn read_with_remarks(path: &Path) -> Result<Edit, String> {
    let text = files::read(path)?;
    let has_key = |line: &&str| {
        ["file:", "old:", "new:"]
            .iter()
            .any(|key| line.starts_with(key))
    };
    let lines: Vec<&str> = text.lines().filter(has_key).collect();
    edit(path, &lines.join("\n"))
}

fn replaced(text: &str, pair: &Pair) -> Result<String, String> {
    match text.matches(pair.old.as_str()).count() {
        _ if pair.old.is_empty() => Err(format!("{}: an empty old text", pair.file)),
        1 => Ok(text.replacen(&pair.old, &pair.new, 1)),
        times => Err(format!("{}: {times} times: {}", pair.file, pair.old)),
    }
}

impl Edit {
    /// Makes the edit in a repository's folder.
    pub fn apply(&self, folder: &Path) -> Result<(), String> {
        for pair in &self.pairs {
            let path = folder.join(&pair.file);
            let text = replaced(&files::read(&path)?, pair)?;
            files::write(&path, &text)?;
        }
        Ok(())
    }
}

#[cfg(test)]
mod tests {
    use super::*;

    #[test]
    fn pairs_of_two_files() {
        let text = "# a comment\nfile: a\nold: x\nnew: y\nold: z\nnew:\n\nfile: b\nold: 1\nnew: 2\nnew:   3\n";
        let found = pairs(text).expect("an edit");
        let found: Vec<[&str; 3]> = found
            .iter()
            .map(|p| [p.file.as_str(), p.old.as_str(), p.new.as_str()])
            .collect();
        assert_eq!(
            found,
            [["a", "x", "y"], ["a", "z", ""], ["b", "1", "2\n  3"]]
        );
    }

    #[test]
    fn what_is_no_edit() {
        assert!(pairs("file: a\nold: x\n").is_err());
        assert!(pairs("file: a\nnew: x\n").is_err());
        assert!(pairs("file: a\nold: x\nnew: y\nand more\n").is_err());
    }

    #[test]
    fn an_old_text_occurs_once() {
        let pair = |old: &str| Pair {
            file: "f".to_string(),
            old: old.to_string(),
            new: "c".to_string(),
        };
        assert_eq!(replaced("a b b", &pair("a")), Ok("c b b".to_string()));
        assert!(replaced("a b b", &pair("b")).is_err());
        assert!(replaced("a b b", &pair("d")).is_err());
        assert!(replaced("a b b", &pair("")).is_err());
    }
}
