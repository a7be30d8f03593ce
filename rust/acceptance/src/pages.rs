//! Pages of definitions, by the layout of their text: what each declares, what it cites, and
//! the quotations above it.

use std::collections::{BTreeMap, BTreeSet};
use std::ops::Range;
use std::path::Path;

use crate::files;
use crate::quotations::{self, Quotation, Source};

/// A definition, a field of a record or a constructor, or a function.
#[derive(Clone, Debug, PartialEq, Eq)]
pub struct Item {
    /// `path:name`, the path below crates/ without its ending.
    pub name: String,
    /// The record or data type that a field or constructor is of.
    pub owner: Option<String>,
    /// Its lines, counted from 0.
    pub lines: Range<usize>,
    /// The definitions that it cites.
    pub cites: BTreeSet<String>,
}

/// Quotations, and what is declared right below them.
#[derive(Clone, Debug, PartialEq, Eq)]
pub struct Rule {
    pub quotations: Vec<Quotation>,
    pub names: Vec<String>,
}

/// A page of definitions.
pub struct Page {
    /// Its path below crates/ without its ending.
    pub path: String,
    /// The first sentence of its head.
    pub subject: String,
    pub items: Vec<Item>,
    pub rules: Vec<Rule>,
}

/// The library of the kit that every crate uses; it has no pages here.
const KIT: &str = "std";

/// The names that the `use` lines of a file bring in, each with its `path:name`.
pub fn brought_in(text: &str) -> BTreeMap<String, String> {
    let mut found = BTreeMap::new();
    for line in text.lines() {
        let line = line.trim_start_matches("ghost ").trim_end_matches(';');
        let used = line.strip_prefix("use Rattle.");
        let Some((path, names)) = used.and_then(|rest| rest.split_once(".{")) else {
            continue;
        };
        let (library, page) = path.split_once('.').unwrap_or((path, ""));
        if library == KIT {
            continue;
        }
        let page = page.replace('.', "/");
        for name in names.trim_end_matches('}').split(", ") {
            let (name, here) = name.split_once(" as ").unwrap_or((name, name));
            found.insert(here.to_string(), format!("{library}/{page}:{name}"));
        }
    }
    found
}

/// The names in a text of definitions; one that a `=` or `:` follows is bound there. Of
/// `x.run.spot` that is `x`.
pub fn names_in(text: &str) -> impl Iterator<Item = &str> {
    let is_between = |c: char| c.is_whitespace() || "(){}[],;|".contains(c);
    let words: Vec<&str> = text.split(is_between).filter(|w| !w.is_empty()).collect();
    let next = words.clone().into_iter().skip(1).chain([""]);
    let pairs: Vec<(&str, &str)> = words.into_iter().zip(next).collect();
    let is_bound = |next: &str| next == "=" || next == ":";
    pairs
        .into_iter()
        .filter(move |pair| !is_bound(pair.1))
        .map(|pair| pair.0.split('.').next().unwrap_or_default())
}

/// What a line declares: at its beginning in the first column, or as a field.
fn declared(line: &str) -> Option<&str> {
    let marks = ["abbrev", "unfoldable", "pub"];
    let mut words = line
        .split_whitespace()
        .skip_while(|word| marks.contains(word));
    match words.next()? {
        "record" | "data" => words.next(),
        name => (words.next() == Some(":")).then_some(name),
    }
}

/// Whether a line declares a type with fields or constructors.
fn is_type(line: &str) -> bool {
    let line = line.trim_start_matches("pub ");
    line.starts_with("record ") || line.starts_with("data ")
}

/// A line of a page.
#[derive(Clone, Debug, PartialEq, Eq)]
enum Line<'a> {
    /// A comment, or the strength of an operator, which stands between it and the operator.
    Comment,
    /// A definition or a type, and whether it is a type.
    Top(&'a str, bool),
    /// A field of a record or a constructor.
    Field(&'a str),
    /// The rest of what is declared above.
    Body,
    /// Nothing that a comment above it could be about.
    Other,
}

fn line_of(line: &str, is_in_type: bool) -> Line<'_> {
    let indent = line.len() - line.trim_start().len();
    let is_other = ["use ", "pub mod "]
        .iter()
        .any(|head| line.starts_with(head));
    match declared(line) {
        _ if line.trim_start().starts_with("--") || line.starts_with("infix ") => Line::Comment,
        _ if line.trim().is_empty() || is_other => Line::Other,
        Some(name) if indent == 0 => Line::Top(name, is_type(line)),
        Some(name) if indent == 2 && is_in_type => Line::Field(name),
        _ => Line::Body,
    }
}

fn lines_of(text: &str) -> Vec<Line<'_>> {
    let mut found = Vec::new();
    let mut is_in_type = false;
    for line in text.lines() {
        let line = line_of(line, is_in_type);
        if let Line::Top(_, is_type) = line {
            is_in_type = is_type;
        }
        found.push(line);
    }
    found
}

/// What the lines of a page declare.
fn items_of(path: &str, lines: &[Line]) -> Vec<Item> {
    let is_top = |line: &Line| matches!(line, Line::Top(..));
    let is_any = |line: &Line| is_top(line) || matches!(line, Line::Field(_));
    let mut owner = None;
    let mut found = Vec::new();
    for (at, line) in lines.iter().enumerate() {
        let behind = &lines[at + 1..];
        let (name, owner, length) = match line {
            Line::Top(name, _) => {
                owner = Some(format!("{path}:{name}"));
                (name, None, behind.iter().position(is_top))
            }
            Line::Field(name) => (name, owner.clone(), behind.iter().position(is_any)),
            _ => continue,
        };
        let end = length.map_or(lines.len(), |length| at + 1 + length);
        found.push(Item {
            name: format!("{path}:{name}"),
            owner,
            lines: at..end,
            cites: BTreeSet::new(),
        });
    }
    found
}

/// What a comment that ends before this line is about: the definition below it or around it,
/// or the fields below it up to the next comment.
fn below<'a>(lines: &'a [Line<'a>], at: usize) -> Vec<&'a str> {
    let field = |line: &'a Line<'a>| match line {
        Line::Field(name) => Some(*name),
        _ => None,
    };
    let top = |line: &'a Line<'a>| match line {
        Line::Top(name, _) => Some(*name),
        _ => None,
    };
    match lines.get(at) {
        Some(Line::Top(name, _)) => vec![name],
        Some(Line::Field(_)) => {
            let is_same = |line: &&Line| matches!(line, Line::Field(_) | Line::Body);
            lines[at..]
                .iter()
                .take_while(is_same)
                .filter_map(field)
                .collect()
        }
        Some(Line::Body) => lines[..at].iter().rev().find_map(top).into_iter().collect(),
        _ => Vec::new(),
    }
}

/// The definitions that a part of a file cites, itself aside.
pub fn cited(text: &str, names: &BTreeMap<String, String>, own: &str) -> BTreeSet<String> {
    let found = names_in(text).filter_map(|name| names.get(name));
    found.filter(|name| *name != own).cloned().collect()
}

/// The text of some lines without comments.
fn uncommented(text: &str, lines: &Range<usize>) -> String {
    let own = text.lines().skip(lines.start).take(lines.len());
    let own = own.filter(|line| !line.trim_start().starts_with("--"));
    own.collect::<Vec<_>>().join("\n")
}

/// The first sentence of a head; a quotation in it is not cut.
fn first_sentence(head: &str) -> String {
    let is_whole = |end: &usize| head[..*end].matches('"').count().is_multiple_of(2);
    let mut ends = head.match_indices(". ").map(|(at, _)| at + 1);
    let end = ends.find(is_whole).unwrap_or(head.len());
    head[..end].to_string()
}

/// The name behind the path.
pub fn short(name: &str) -> &str {
    name.rsplit_once(':').map_or(name, |(_, short)| short)
}

/// A page by its path below crates/ without its ending, and its text.
pub fn page(path: &str, text: &str) -> Result<Page, String> {
    let comments = quotations::comments(text, "--");
    let head = comments.first().map_or("", |(_, text)| text.as_str());
    let usual = Source::of_head(head);
    let lines = lines_of(text);
    let mut items = items_of(path, &lines);
    let mut names = brought_in(text);
    let own = items.iter().filter(|item| item.owner.is_none());
    names.extend(own.map(|item| (short(&item.name).to_string(), item.name.clone())));
    for item in &mut items {
        item.cites = cited(&uncommented(text, &item.lines), &names, &item.name);
    }
    let mut rules = Vec::new();
    for (number, comment) in &comments {
        let quotations =
            quotations::within(comment, usual).map_err(|why| format!("{path}: {why}"))?;
        let is_over = |line: &Line| *line != Line::Comment;
        let length = lines[number - 1..].iter().position(is_over).unwrap_or(0);
        let names = below(&lines, number - 1 + length);
        let names: Vec<String> = names.iter().map(|name| format!("{path}:{name}")).collect();
        if !quotations.is_empty() && !names.is_empty() {
            rules.push(Rule { quotations, names });
        }
    }
    let subject = first_sentence(head);
    let path = path.to_string();
    Ok(Page {
        path,
        subject,
        items,
        rules,
    })
}

/// The pages of a crate's definitions in the order of its Lib.antt, then those of its model.
pub fn of_crate(root: &Path, name: &str) -> Result<Vec<Page>, String> {
    let folder = root.join("crates").join(name).join("specs");
    let mut found = Vec::new();
    for (list, below) in [("Lib.antt", ""), ("model.antt", "model/")] {
        let Ok(text) = files::read(&folder.join(list)) else {
            continue;
        };
        let pages = text
            .lines()
            .filter_map(|line| line.strip_prefix("pub mod "));
        for own in pages.filter(|own| *own != "model") {
            let path = format!("{below}{own}");
            let text = files::read(&folder.join(format!("{path}.antt")))?;
            found.push(page(&format!("{name}/specs/{path}"), &text)?);
        }
    }
    Ok(found)
}

#[cfg(test)]
mod tests {
    use super::*;

    const PAGE: &str = "\
-- The head (document 01). More.
use Rattle.base.specs.Checks.{if◌then◌else◌, bit}
use Rattle.camac.specs.declared.words.Address.{Address}

-- Part -----

-- \"one\"; \"two\" (E1)
infix 70 first
abbrev pub first : ℕ → Bool
first n =
    -- \"inside\"
    bit 1 n

-- no quotation
pub record Kept (q : ℕ) : Type 0 where
  -- \"three\"
  pub left : first q ≡ true
  pub right :
      second ≡ record { first = 1; bit = 2 }.bit
  -- more
  pub last : ℕ
";

    #[test]
    fn names_brought_in() {
        let text = "use Rattle.std.specs.Prelude.{ℕ}\nghost use Rattle.a.specs.model.B.{one, two as other};\n";
        let found: Vec<(String, String)> = brought_in(text).into_iter().collect();
        let pair = |a: &str, b: &str| (a.to_string(), b.to_string());
        let wanted = [
            pair("one", "a/specs/model/B:one"),
            pair("other", "a/specs/model/B:two"),
        ];
        assert_eq!(found, wanted);
    }

    #[test]
    fn rules_of_a_page() {
        let page = page("a/specs/B", PAGE).expect("a page");
        assert_eq!(page.subject, "The head (document 01).");
        let rules: Vec<(String, Vec<&str>)> = page
            .rules
            .iter()
            .map(|rule| {
                let words: Vec<&str> = rule.quotations.iter().map(|q| q.words.as_str()).collect();
                (
                    words.join(";"),
                    rule.names.iter().map(|n| short(n)).collect(),
                )
            })
            .collect();
        let wanted = [
            ("one;two".to_string(), vec!["first"]),
            ("inside".to_string(), vec!["first"]),
            ("three".to_string(), vec!["left", "right"]),
        ];
        assert_eq!(rules, wanted);
    }

    #[test]
    fn items_of_a_page() {
        let page = page("a/specs/B", PAGE).expect("a page");
        let found: Vec<(&str, Range<usize>)> = page
            .items
            .iter()
            .map(|item| (short(&item.name), item.lines.clone()))
            .collect();
        assert_eq!(
            found,
            [
                ("first", 8..14),
                ("Kept", 14..21),
                ("left", 16..17),
                ("right", 17..20),
                ("last", 20..21)
            ]
        );
        let cites = |at: usize| {
            page.items[at]
                .cites
                .iter()
                .map(String::as_str)
                .collect::<Vec<_>>()
        };
        assert_eq!(cites(0), ["base/specs/Checks:bit"]);
        assert_eq!(cites(2), ["a/specs/B:first"]);
        assert_eq!(cites(3), Vec::<&str>::new());
    }
}
