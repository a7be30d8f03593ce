//! The functions of Rattle sources, and the definitions that their contracts cite.

use std::ops::Range;
use std::path::Path;

use crate::files;
use crate::pages::{self, Item};

/// The name of the function that a line declares.
fn declared(line: &str) -> Option<&str> {
    let line = line.trim_start();
    let (before, rest) = line.split_once("fn ")?;
    let is_mark = |word: &str| ["pub", "pub(crate)", "extern", "\"C\""].contains(&word);
    if !before.split_whitespace().all(is_mark) {
        return None;
    }
    rest.split(['(', '<']).next()
}

fn indent(line: &str) -> usize {
    line.len() - line.trim_start().len()
}

/// A contract without the names of its clauses.
fn clauses(contract: &[&str]) -> String {
    let clause = |line: &&str| {
        let line = line.trim_start();
        let from = line.find('{').filter(|_| is_clause(line)).unwrap_or(0);
        line[from..].to_string()
    };
    contract.iter().map(clause).collect::<Vec<_>>().join("\n")
}

fn is_clause(line: &str) -> bool {
    let line = line.trim_start();
    line.starts_with("ensures ") || line.starts_with("requires ")
}

/// Where a function that is declared in a line has its clauses, its body and its end.
fn parts(lines: &[&str], at: usize) -> [usize; 3] {
    let is_own =
        |other: &str, sign: &str| indent(other) == indent(lines[at]) && other.trim_start() == sign;
    let behind = lines.iter().enumerate().skip(at);
    let find = |sign: &str| behind.clone().find(|(_, line)| is_own(line, sign));
    let end = find("}").map_or(lines.len(), |(number, _)| number + 1);
    let body = find("{").map_or(end, |(number, _)| number);
    let body = if body < end { body } else { at };
    let clauses = lines[at..body].iter().position(|line| is_clause(line));
    [clauses.map_or(body, |length| at + length), body, end]
}

/// The bodies of a source file's functions: each function's name, and the lines of its body.
pub fn bodies(text: &str) -> Vec<(&str, Range<usize>)> {
    let lines: Vec<&str> = text.lines().collect();
    let named = lines.iter().enumerate();
    let named = named.filter_map(|(at, line)| Some((at, declared(line)?)));
    let body = |(at, name)| {
        let [_, body, end] = parts(&lines, at);
        (name, body + 1..end - 1)
    };
    named.map(body).collect()
}

/// The functions of a source file, by its path below crates/ without its ending.
pub fn functions(path: &str, text: &str) -> Vec<Item> {
    let names = pages::brought_in(text);
    let lines: Vec<&str> = text.lines().collect();
    let mut found = Vec::new();
    for (at, line) in lines.iter().enumerate() {
        let Some(name) = declared(line) else {
            continue;
        };
        let [from, body, end] = parts(&lines, at);
        let name = format!("{path}:{name}");
        found.push(Item {
            cites: pages::cited(&clauses(&lines[from..body]), &names, &name),
            name,
            owner: None,
            lines: at..end,
        });
    }
    found
}

/// The functions of a crate.
pub fn of_crate(root: &Path, name: &str) -> Result<Vec<Item>, String> {
    let folder = root.join("crates").join(name).join("src");
    let mut found = Vec::new();
    for file in files::with_ending(&folder, "rt")? {
        let path = format!("{name}/src/{}", files::stem(&file));
        found.extend(functions(&path, &files::read(&file)?));
    }
    Ok(found)
}

#[cfg(test)]
mod tests {
    use super::*;

    const SOURCE: &str = "\
ghost use Rattle.a.specs.B.{first, second, third};

impl X {
    pub fn one(self) -> u8
        requires second { third self }
        ensures { result ≡ (first self).value
            × result ≡ 0 }
    {
        if second {
            1
        }
    }
}

pub extern \"C\" fn two() {
    second();
}
";

    #[test]
    fn contracts_of_functions() {
        let found = functions("a/src/lib", SOURCE);
        let shown: Vec<(&str, Vec<&str>)> = found
            .iter()
            .map(|f| {
                (
                    f.name.as_str(),
                    f.cites.iter().map(|name| pages::short(name)).collect(),
                )
            })
            .collect();
        let wanted = [
            ("a/src/lib:one", vec!["first", "third"]),
            ("a/src/lib:two", vec![]),
        ];
        assert_eq!(shown, wanted);
        assert_eq!(found[0].lines, 3..12);
        assert_eq!(found[1].lines, 14..17);
        assert_eq!(bodies(SOURCE), [("one", 8..11), ("two", 15..16)]);
    }
}
