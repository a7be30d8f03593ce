//! The names in the documents: every path and name that a document cites exists.
//!
//! In backquotes, `path:name` is an item of a file below crates/, the path without its
//! ending; anything else with a `/` is a path from the root, from crates/ or, where it
//! begins with a part of a crate such as `specs/`, from any crate.

use std::path::{Path, PathBuf};

use crate::files;

const ENDINGS: [&str; 5] = ["", ".antt", ".rt", ".edit", ".rs"];
const PARTS: [&str; 4] = ["src", "specs", "proofs", "must-fail"];

/// The backquoted words of a line.
fn quoted(line: &str) -> impl Iterator<Item = &str> {
    line.split('`').skip(1).step_by(2)
}

/// A path by its looks: names joined by `/`, the first of more than a letter.
fn is_path(text: &str) -> bool {
    let is_of_names = |c: char| c.is_alphanumeric() || "_-.*/+".contains(c);
    let first = text.split('/').next().unwrap_or_default();
    text.contains('/')
        && !text.contains("..")
        && text.chars().all(is_of_names)
        && first.chars().count() > 1
}

/// What rt and cargo make is not of the repository.
fn is_made(path: &str) -> bool {
    path.split('/')
        .any(|part| part == "target" || part == "out")
}

/// `*` and words in capitals stand for any name.
fn is_any(part: &str) -> bool {
    part == "*" || part.chars().all(|c| c.is_ascii_uppercase())
}

fn matches(part: &str, name: &str) -> bool {
    match part.split_once('*') {
        _ if is_any(part) => true,
        Some((head, tail)) => name.starts_with(head) && name.ends_with(tail),
        None => part == name,
    }
}

/// The files and folders below a folder that a path names.
fn named(folder: &Path, path: &str) -> Vec<PathBuf> {
    let mut found = vec![folder.to_path_buf()];
    for part in path.split('/').filter(|part| !part.is_empty()) {
        let within = found
            .iter()
            .filter_map(|f| files::entries(f).ok())
            .flatten();
        let is_meant = |f: &PathBuf| {
            let name = f.file_name().unwrap_or_default().to_string_lossy();
            matches(part, &name)
        };
        found = within.filter(is_meant).collect();
    }
    found
}

/// The files and folders of the repository that a document's path names.
fn meant(root: &Path, path: &str) -> Vec<PathBuf> {
    let first = path.split('/').next().unwrap_or_default();
    let from = if PARTS.contains(&first) {
        "crates/*/"
    } else {
        "crates/"
    };
    let mut found = Vec::new();
    for ending in ENDINGS {
        found.extend(named(root, &format!("{path}{ending}")));
        found.extend(named(root, &format!("{from}{path}{ending}")));
    }
    found
}

/// Whether a line of a Rattle or Rust file declares the name.
fn code_declares(line: &str, name: &str) -> bool {
    let mut words = line
        .split(|c: char| !c.is_alphanumeric() && c != '_')
        .filter(|word| !word.is_empty() && !["pub", "crate", "extern", "C"].contains(word));
    let keywords = ["fn", "struct", "enum", "type", "const", "mod"];
    words.next().is_some_and(|word| keywords.contains(&word)) && words.next() == Some(name)
}

/// Whether a line of an antt file declares the name: a signature, a type, a field or a
/// constructor.
fn antt_declares(line: &str, name: &str) -> bool {
    let marks = ["abbrev", "unfoldable", "pub"];
    let mut words = line
        .split_whitespace()
        .skip_while(|word| marks.contains(word));
    match words.next() {
        Some("record" | "data") => words.next() == Some(name),
        Some(first) => first == name && words.next() == Some(":"),
        None => false,
    }
}

/// Whether a file declares a name, `Type::method` in both parts.
fn declares(file: &Path, name: &str) -> bool {
    let text = files::read(file).unwrap_or_default();
    let is_antt = file.extension().is_some_and(|ending| ending == "antt");
    let declares = if is_antt {
        antt_declares
    } else {
        code_declares
    };
    name.split("::")
        .all(|part| text.lines().any(|line| declares(line.trim_start(), part)))
}

/// What is wrong with a backquoted word, if anything is.
fn fault(root: &Path, word: &str) -> Option<String> {
    let (path, name) = match word.split_once(':') {
        Some((path, name)) => (path, Some(name)),
        None => (word, None),
    };
    if !is_path(path) || is_made(path) {
        return None;
    }
    let found = meant(root, path);
    match name {
        _ if found.is_empty() => Some(format!("`{word}`: no such path")),
        Some(name) if !found.iter().any(|file| declares(file, name)) => {
            Some(format!("`{word}`: {name} is not declared there"))
        }
        _ => None,
    }
}

/// The faults of a document's paths and names, each with its line.
pub fn name_faults(root: &Path, text: &str) -> Vec<String> {
    let mut found = Vec::new();
    for (number, line) in (1..).zip(text.lines()) {
        let faults = quoted(line).filter_map(|word| fault(root, word));
        found.extend(faults.map(|fault| format!("line {number}: {fault}")));
    }
    found
}

/// The cells of a table's row; none of any other line. A `|` in backquotes parts nothing.
fn cells(line: &str) -> Option<Vec<String>> {
    let row = line.trim().strip_prefix('|')?;
    let row = row.strip_suffix('|').unwrap_or(row);
    let mut cells = vec![String::new()];
    let mut is_quoted = false;
    for c in row.chars() {
        is_quoted ^= c == '`';
        if c == '|' && !is_quoted {
            cells.push(String::new());
        } else if let Some(cell) = cells.last_mut() {
            cell.push(c);
        }
    }
    Some(cells)
}

/// Rows with an empty cell, or with fewer or more cells than their table's first row.
pub fn table_faults(text: &str) -> Vec<String> {
    let mut found = Vec::new();
    let mut width = None;
    for (number, line) in (1..).zip(text.lines()) {
        let Some(row) = cells(line) else {
            width = None;
            continue;
        };
        if row.iter().any(|cell| cell.trim().is_empty()) {
            found.push(format!("line {number}: an empty cell"));
        }
        if row.len() != *width.get_or_insert(row.len()) {
            found.push(format!("line {number}: {} cells", row.len()));
        }
    }
    found
}

#[cfg(test)]
mod tests {
    use super::*;

    #[test]
    fn words_that_look_like_paths() {
        for path in [
            "walk/specs/Worst",
            ".ci/run",
            "crates/*/specs/",
            "rust/reference",
        ] {
            assert!(is_path(path), "{path}");
        }
        for other in [
            "H/2",
            "_/_",
            "n − 1",
            "../shared",
            "/x/y",
            "rt check",
            "walk",
        ] {
            assert!(!is_path(other), "{other}");
        }
    }

    #[test]
    fn declarations_of_antt() {
        let declared = [
            ("unfoldable pub worst_words : ℕ → ℕ", "worst_words"),
            ("abbrev pub ◌sets◌ : Bool → ℕ → StatusBit", "◌sets◌"),
            ("pub record Plan : Type 0 where", "Plan"),
            (
                "pub data Calls (list : List ℕ) : State → Type 0 where",
                "Calls",
            ),
            ("pub within : length replies ≤ c.worst", "within"),
            ("no_call : {s : State} → Calls list s [] s", "no_call"),
        ];
        for (line, name) in declared {
            assert!(antt_declares(line, name), "{name}");
        }
        assert!(!antt_declares(
            "worst_words limit Stop p n = n",
            "worst_words"
        ));
        assert!(!antt_declares("-- worst_words : a comment", "worst_words"));
        assert!(!antt_declares(
            "use walk.Worst.{worst_words}",
            "worst_words"
        ));
    }

    #[test]
    fn declarations_of_code() {
        assert!(code_declares(
            "pub fn admit(list: &[u8]) -> Admission",
            "admit"
        ));
        assert!(code_declares(
            "pub extern \"C\" fn camlist_admit(",
            "camlist_admit"
        ));
        assert!(code_declares("pub struct Counts {", "Counts"));
        assert!(code_declares("enum Tag {", "Tag"));
        assert!(!code_declares("let admit = 1;", "admit"));
        assert!(!code_declares("// fn admit", "admit2"));
    }

    #[test]
    fn names_of_this_repository() {
        let root = crate::repository::root();
        let right = "`camac/specs/Words:words_of` `camac/src/words:decode` `.ci/run` `qmodes/src/scan:ScanPosition::after_done`";
        assert_eq!(name_faults(&root, right), Vec::<String>::new());
        let wrong =
            "`camac/specs/Words:noSuchName`\n`camac/specs/NoSuchFile:x`\n`docs/no-such-file.md`";
        assert_eq!(name_faults(&root, wrong).len(), 3);
    }

    #[test]
    fn cells_of_tables() {
        let full = "| a | b |\n|---|---|\n| `x|y` | 2 |\n\n| one |\n|---|\n| 1 |\n";
        assert_eq!(table_faults(full), Vec::<String>::new());
        let lacking = "| a | b |\n|---|---|\n| 1 | |\n| 1 |\n";
        assert_eq!(
            table_faults(lacking),
            ["line 3: an empty cell", "line 4: 1 cells"]
        );
    }
}
