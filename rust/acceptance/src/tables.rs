//! The tables of READING.md: for every quotation above a definition what puts it into
//! symbols, the functions whose contracts cite that, and the edits that change either.

use std::collections::BTreeSet;
use std::path::Path;

use crate::code;
use crate::edit::{self, Pair};
use crate::files;
use crate::pages::{self, Item, Page, Rule};
use crate::repository;

/// An edit of the repository: its path, the page or source file of its first text, and what
/// it changes.
struct Changing {
    path: String,
    file: String,
    changes: BTreeSet<String>,
}

/// The pages of equations that are computed: they are no rules, and use every definition.
const COMPUTED: &str = "equations/";

/// What the tables are made of.
pub struct Tree {
    pages: Vec<Page>,
    functions: Vec<Item>,
    /// A law that proves a statement: its name, and the statement's.
    laws: Vec<(String, String)>,
    edits: Vec<Changing>,
}

/// The laws of a file of proofs whose type is a statement of the crate's definitions.
fn laws_in(path: &str, text: &str, pages: &[Page]) -> Vec<(String, String)> {
    let items = || pages.iter().flat_map(|page| &page.items);
    let mut found = Vec::new();
    for line in text.lines() {
        let Some((name, statement)) = line.trim_start_matches("pub ").split_once(" : ") else {
            continue;
        };
        let is_statement =
            |item: &&Item| item.owner.is_none() && pages::short(&item.name) == statement;
        let statement = items().find(is_statement);
        found.extend(statement.map(|item| (format!("{path}:{name}"), item.name.clone())));
    }
    found
}

fn without_ending(file: &str) -> &str {
    file.rsplit_once('.').map_or(file, |(path, _)| path)
}

/// The constant that a line belongs to, if any: its name.
fn constant<'a>(lines: &[&'a str], at: usize) -> Option<&'a str> {
    let own = lines[..=at]
        .iter()
        .rev()
        .take_while(|line| !line.is_empty());
    let declared = |line: &&'a str| line.trim_start_matches("pub ").strip_prefix("const ");
    own.filter_map(declared).next()?.split(':').next()
}

/// Whether a part of a file has a name as a word.
fn mentions(lines: &[&str], name: &str) -> bool {
    let is_between = |c: char| !c.is_alphanumeric() && c != '_';
    lines
        .iter()
        .any(|line| line.split(is_between).any(|word| word == name))
}

/// What stands at a line: the innermost item, and the type that it is of; of a constant, the
/// functions that use it.
fn standing_at(lines: &[&str], at: usize, items: &[&Item]) -> Vec<String> {
    let there = items.iter().filter(|item| item.lines.contains(&at));
    if let Some(item) = there.max_by_key(|item| item.lines.start) {
        let names = [Some(item.name.clone()), item.owner.clone()];
        return names.into_iter().flatten().collect();
    }
    let Some(name) = constant(lines, at) else {
        return Vec::new();
    };
    let users = items
        .iter()
        .filter(|item| mentions(&lines[item.lines.clone()], name));
    users.map(|item| item.name.clone()).collect()
}

/// What an edit changes where it replaces a text.
fn changed(root: &Path, file: &str, old: &str, items: &[&Item]) -> Result<Vec<String>, String> {
    let text = files::read(&root.join("crates").join(file))?;
    let at = text.find(old).ok_or(format!("{file} has not: {old}"))?;
    let own = format!("{}:", without_ending(file));
    let items: Vec<&Item> = items
        .iter()
        .filter(|item| item.name.starts_with(&own))
        .copied()
        .collect();
    let lines: Vec<&str> = text.lines().collect();
    Ok(standing_at(
        &lines,
        text[..at].matches('\n').count(),
        &items,
    ))
}

/// The edits of a folder; their files are named from `below` crates/.
fn edits_in(
    root: &Path,
    folder: &str,
    below: &str,
    items: &[&Item],
) -> Result<Vec<Changing>, String> {
    let mut found = Vec::new();
    for path in files::with_ending(&root.join(folder), "edit")? {
        let edit = edit::read_with_remarks(&path)?;
        let file_of = |pair: &Pair| format!("{below}{}", pair.file.trim_start_matches("crates/"));
        let mut changes = BTreeSet::new();
        for pair in &edit.pairs {
            changes.extend(changed(root, &file_of(pair), &pair.old, items)?);
        }
        let file = edit.pairs.first().map(file_of).unwrap_or_default();
        let folder = folder.trim_start_matches("crates/");
        let path = format!("{folder}/{}", edit.label);
        let file = without_ending(&file).to_string();
        found.push(Changing {
            path,
            file,
            changes,
        });
    }
    Ok(found)
}

impl Tree {
    pub fn read(root: &Path) -> Result<Self, String> {
        let mut tree = Tree {
            pages: Vec::new(),
            functions: Vec::new(),
            laws: Vec::new(),
            edits: Vec::new(),
        };
        let listed = repository::listed(root)?;
        for c in &listed {
            let pages = pages::of_crate(root, &c.name)?;
            let proofs = root.join("crates").join(&c.name).join("proofs");
            for file in files::with_ending(&proofs, "antt")? {
                let path = format!("{}/proofs/{}", c.name, files::stem(&file));
                tree.laws
                    .extend(laws_in(&path, &files::read(&file)?, &pages));
            }
            tree.pages.extend(pages);
            tree.functions.extend(code::of_crate(root, &c.name)?);
        }
        let items: Vec<&Item> = tree.items().chain(&tree.functions).collect();
        let mut edits = Vec::new();
        for c in &listed {
            let below = format!("{}/", c.name);
            for folder in ["crates/{}/must-fail", "acceptance/code/{}"] {
                let folder = folder.replace("{}", &c.name);
                edits.extend(edits_in(root, &folder, &below, &items)?);
            }
        }
        edits.extend(edits_in(root, "acceptance/definitions", "", &items)?);
        tree.edits = edits;
        Ok(tree)
    }

    fn items(&self) -> impl Iterator<Item = &Item> {
        self.pages.iter().flat_map(|page| &page.items)
    }

    /// A rule's definitions; of fields and constructors, the types that they are of.
    fn definitions(&self, rule: &Rule) -> BTreeSet<&str> {
        let own = self.items().filter(|item| rule.names.contains(&item.name));
        own.map(|item| item.owner.as_deref().unwrap_or(&item.name))
            .collect()
    }

    /// The functions whose contracts cite one of the definitions.
    fn functions_of(&self, definitions: &BTreeSet<&str>) -> Vec<&str> {
        let found = self
            .functions
            .iter()
            .filter(|item| cites(item, definitions));
        found.map(|item| item.name.as_str()).collect()
    }

    /// The laws that prove one of the definitions, which are then statements.
    fn laws_of(&self, definitions: &BTreeSet<&str>) -> Vec<&str> {
        let found = self
            .laws
            .iter()
            .filter(|law| definitions.contains(law.1.as_str()));
        found.map(|law| law.0.as_str()).collect()
    }

    /// The definitions that use one of these; those that describe code only where no other does.
    fn users_of(&self, definitions: &BTreeSet<&str>) -> Vec<&str> {
        let is_other = |item: &&Item| {
            let is_computed = item.name.starts_with(COMPUTED);
            item.owner.is_none() && !is_computed && !definitions.contains(item.name.as_str())
        };
        let found = self.items().filter(is_other);
        let found = found.filter(|item| cites(item, definitions));
        let (models, users): (Vec<&str>, Vec<&str>) = found
            .map(|item| item.name.as_str())
            .partition(|name| name.contains("/specs/model/"));
        if users.is_empty() {
            models
        } else {
            users
        }
    }

    /// The edits that change one of these definitions and functions.
    fn edits_of(&self, names: &BTreeSet<&str>) -> Vec<&str> {
        let is_meant = |edit: &&Changing| {
            edit.changes
                .iter()
                .any(|name| names.contains(name.as_str()))
        };
        let found = self.edits.iter().filter(is_meant);
        found.map(|edit| edit.path.as_str()).collect()
    }

    /// Where a rule's definitions come to code: the cell, and the functions that stand there.
    fn code(&self, page: &str, rule: &Rule) -> (String, Vec<&str>) {
        let definitions = self.definitions(rule);
        let functions = self.functions_of(&definitions);
        if !functions.is_empty() {
            return (listed(page, &functions), functions);
        }
        let laws = self.laws_of(&definitions);
        if !laws.is_empty() {
            return (format!("law {}", listed(page, &laws)), Vec::new());
        }
        let users = self.users_of(&definitions);
        (format!("in {}", listed(page, &users)), Vec::new())
    }

    fn row(&self, page: &str, rule: &Rule) -> String {
        let words: Vec<String> = rule.quotations.iter().map(|q| q.to_string()).collect();
        let definitions: Vec<&str> = rule.names.iter().map(String::as_str).collect();
        let (code, places) = self.code(page, rule);
        let edits = self.edits_of(&definitions.iter().copied().chain(places).collect());
        let [words, definitions, edits] = [
            words.join("; "),
            listed(page, &definitions),
            listed(page, &edits),
        ];
        format!("| {words} | {definitions} | {code} | {edits} |")
    }

    /// What an edit has to do with the promises: what the contracts of the functions that it
    /// changes cite, or where its definitions come to code.
    fn promise(&self, edit: &Changing) -> String {
        let is_changed = |item: &&Item| edit.changes.contains(&item.name);
        let functions: Vec<&Item> = self.functions.iter().filter(is_changed).collect();
        let cited = functions.iter().flat_map(|item| &item.cites);
        let cited: BTreeSet<&str> = cited.map(String::as_str).collect();
        if !functions.is_empty() || edit.changes.is_empty() {
            return listed("", &cited.into_iter().collect::<Vec<_>>());
        }
        let names = edit.changes.iter().cloned().collect();
        let quotations = Vec::new();
        self.code("", &Rule { quotations, names }).0
    }

    /// The table of the edits that no rule's row has.
    fn other_edits(&self, rows: &str) -> String {
        let mut text = "\n### Edits of other lines\n\n".to_string();
        text += "| Edit | Changes | Contract or use |\n|---|---|---|\n";
        let is_other = |edit: &&Changing| !rows.contains(&format!("`{}`", edit.path));
        for edit in self.edits.iter().filter(is_other) {
            let changes: Vec<&str> = edit.changes.iter().map(String::as_str).collect();
            let changes = if changes.is_empty() {
                vec![edit.file.as_str()]
            } else {
                changes
            };
            text += &format!(
                "| `{}` | {} | {} |\n",
                edit.path,
                listed("", &changes),
                self.promise(edit)
            );
        }
        text
    }

    /// The tables: a heading for each page with a quotation above a definition, and a row for
    /// each comment with quotations; then the edits of which no row tells.
    pub fn rules(&self) -> String {
        let mut text = String::new();
        let has_rules = |page: &&Page| !page.rules.is_empty() && !page.path.starts_with(COMPUTED);
        for page in self.pages.iter().filter(has_rules) {
            text += &format!("\n### `{}`\n\n{}\n\n", page.path, page.subject);
            text += "| Words | Definition | Code | Edits |\n|---|---|---|---|\n";
            for rule in &page.rules {
                text += &format!("{}\n", self.row(&page.path, rule));
            }
        }
        let others = self.other_edits(&text);
        format!("{text}{others}\n")
    }
}

fn cites(item: &Item, definitions: &BTreeSet<&str>) -> bool {
    item.cites
        .iter()
        .any(|name| definitions.contains(name.as_str()))
}

/// How many names a cell has at most.
const MOST_NAMES: usize = 8;

/// Names in backquotes, those of the page itself without their path.
fn listed(page: &str, names: &[&str]) -> String {
    let own = format!("{page}:");
    let shown = names.iter().take(MOST_NAMES);
    let shown: Vec<String> = shown
        .map(|name| format!("`{}`", name.strip_prefix(&own).unwrap_or(name)))
        .collect();
    match names.len() {
        0 => "none".to_string(),
        count if count > MOST_NAMES => {
            format!("{} and {} more", shown.join(", "), count - MOST_NAMES)
        }
        _ => shown.join(", "),
    }
}

#[cfg(test)]
mod tests {
    use super::*;

    const PAGE: &str = "\
-- A page (document 01).

-- \"one\"
abbrev pub first : ℕ
first = 1

-- \"two\" (E8)
abbrev pub second : ℕ
second = first

pub record Sums : Type 0 where
  -- \"three\"
  pub sum : second ≡ 1
";

    const CODE: &str = "\
ghost use Rattle.a.specs.P.{second};

fn two() -> u8
    ensures { result ≡ second }
{
    1
}
";

    fn tree() -> Tree {
        let pages = vec![pages::page("a/specs/P", PAGE).expect("a page")];
        let edit = |name: &str, changed: &str| Changing {
            path: format!("a/must-fail/{name}"),
            file: "a/src/lib".to_string(),
            changes: [changed.to_string()].into(),
        };
        Tree {
            laws: laws_in("a/proofs/L", "pub sums : Sums\nother : ℕ\n", &pages),
            functions: code::functions("a/src/lib", CODE),
            pages,
            edits: vec![
                edit("wrong", "a/src/lib:two"),
                edit("else", "b/src/lib:two"),
            ],
        }
    }

    #[test]
    fn rows_of_a_page() {
        let text = tree().rules();
        let rows: Vec<&str> = text
            .lines()
            .filter(|line| line.starts_with("| \""))
            .collect();
        let wanted = [
            "| \"one\" | `first` | in `second` | none |",
            "| \"two\" (E8) | `second` | `a/src/lib:two` | `a/must-fail/wrong` |",
            "| \"three\" | `sum` | law `a/proofs/L:sums` | none |",
        ];
        assert_eq!(rows, wanted);
        let others = text
            .split("### Edits of other lines")
            .nth(1)
            .expect("a table");
        assert!(
            others.contains("\n| `a/must-fail/else` | `b/src/lib:two` |"),
            "{others}"
        );
        assert!(!others.contains("wrong"));
        assert!(text.starts_with("\n### `a/specs/P`\n\nA page (document 01).\n\n| Words |"));
    }

    #[test]
    fn what_stands_at_a_line() {
        let text = "const ONE: [u8; 1] = [\n    1,\n];\n\nfn two() {\n    ONE\n}\n\nfn three() {\n    1\n}\n";
        let lines: Vec<&str> = text.lines().collect();
        let functions = code::functions("a/src/lib", text);
        let items: Vec<&Item> = functions.iter().collect();
        assert_eq!(standing_at(&lines, 1, &items), ["a/src/lib:two"]);
        assert_eq!(standing_at(&lines, 9, &items), ["a/src/lib:three"]);
        assert!(standing_at(&lines, 3, &items).is_empty());
    }

    #[test]
    fn long_cells_are_cut() {
        let names = ["p:a", "q:b", "c", "d", "e", "f", "g", "h", "i"];
        let cell = listed("p", &names);
        assert!(cell.starts_with("`a`, `q:b`, `c`") && cell.ends_with("`h` and 1 more"));
        assert_eq!(listed("p", &[]), "none");
    }

    #[test]
    fn edits_of_this_repository() {
        let tree = Tree::read(&repository::root()).expect("a tree");
        let changes = |path: &str| {
            let edit = tree.edits.iter().find(|edit| edit.path == path);
            edit.expect("an edit").changes.clone()
        };
        let found = changes("camac/must-fail/repeat_write_admitted");
        assert!(
            found.contains("camac/src/words:is_bad_enhanced"),
            "{found:?}"
        );
        let found = changes("acceptance/definitions/bit_29_passes");
        assert!(
            found.contains("scalers/specs/Scalers:is_high_set"),
            "{found:?}"
        );
    }
}
