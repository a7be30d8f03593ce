//! The types of a Rattle source file: its structs and enums without its code.
//!
//! Goes by the layout of `rt fmt`: an item begins in the first column and ends with the
//! first line there that ends in `}` or `;`.

struct Item<'a> {
    /// Comments and attributes directly above.
    above: Vec<&'a str>,
    lines: Vec<&'a str>,
}

fn is_above(line: &str) -> bool {
    line.starts_with("//") || line.starts_with("#[")
}

/// What holds for the whole file, as `#![tactic(auto)]`.
fn is_of_file(line: &str) -> bool {
    line.starts_with("#![")
}

fn starts_in_first_column(line: &str) -> bool {
    !line.is_empty() && !line.starts_with(char::is_whitespace)
}

fn is_end(line: &str) -> bool {
    starts_in_first_column(line) && line.ends_with(['}', ';'])
}

fn items(text: &str) -> Vec<Item<'_>> {
    let mut found = Vec::new();
    let mut above = Vec::new();
    let mut lines = Vec::new();
    for line in text.lines() {
        if is_of_file(line) {
            above.clear();
        } else if lines.is_empty() && is_above(line) {
            above.push(line);
        } else if lines.is_empty() && line.is_empty() {
            above.clear();
        } else {
            lines.push(line);
            if is_end(line) {
                let (above, lines) = (std::mem::take(&mut above), std::mem::take(&mut lines));
                found.push(Item { above, lines });
            }
        }
    }
    found
}

fn words(text: &str) -> impl Iterator<Item = &str> {
    text.split(|c: char| !c.is_alphanumeric() && c != '_')
        .filter(|word| !word.is_empty())
}

/// The item's first word, `pub` aside.
fn keyword<'a>(item: &Item<'a>) -> &'a str {
    words(item.lines[0])
        .find(|word| *word != "pub")
        .unwrap_or_default()
}

fn is_type(item: &Item) -> bool {
    matches!(keyword(item), "struct" | "enum" | "type")
}

/// A `use` line cut to some of its names; none where it has none of them.
fn cut_use(line: &str, is_kept: impl Fn(&str) -> bool) -> Option<String> {
    let (path, names) = line.trim_end_matches(';').rsplit_once("::")?;
    let kept: Vec<&str> = names
        .trim_matches(['{', '}'])
        .split(',')
        .map(str::trim)
        .filter(|name| words(name).last().is_some_and(&is_kept))
        .collect();
    match kept.as_slice() {
        [] => None,
        [name] => Some(format!("{path}::{name};")),
        several => Some(format!("{path}::{{{}}};", several.join(", "))),
    }
}

/// A type's name, by its looks: a capital and then small letters.
fn is_type_name(name: &str) -> bool {
    name.starts_with(char::is_uppercase) && name.contains(char::is_lowercase)
}

/// A `ghost use` line cut to the names that the ghost fields of the types mention; of an
/// operator as `◌≡◌` its sign counts. None where it has none of them.
fn cut_ghost_use(line: &str, types: &str) -> Option<String> {
    let ghosts: Vec<&str> = types
        .lines()
        .filter(|line| line.trim_start().starts_with("ghost "))
        .collect();
    let (path, names) = line.trim_end_matches(';').split_once(".{")?;
    let is_kept = |name: &&str| {
        let sign = name.trim_matches('◌');
        let is_named = |ghost: &&str| match sign == *name {
            true => words(ghost).any(|word| word == *name),
            false => ghost.contains(sign),
        };
        ghosts.iter().any(|ghost| is_named(&ghost))
    };
    let kept: Vec<&str> = names
        .trim_end_matches('}')
        .split(',')
        .map(str::trim)
        .filter(is_kept)
        .collect();
    (!kept.is_empty()).then(|| format!("{path}.{{{}}};", kept.join(", ")))
}

/// A `use` item cut to what it hands on or brings in: to the types that a module hands on, or
/// to the names that the types mention.
fn needed_use(item: &Item, types: &str) -> Option<String> {
    let line = item.lines.iter().map(|line| line.trim());
    let line = line.collect::<Vec<_>>().join(" ");
    if line.starts_with("ghost use ") {
        cut_ghost_use(&line, types)
    } else if line.starts_with("pub use ") {
        cut_use(&line, is_type_name)
    } else {
        cut_use(&line, |name| words(types).any(|word| word == name))
    }
}

/// The types of a source file with their comments, the `use` lines that they need or that
/// hand on a type of a module, and the `mod` lines; no other item.
pub fn of(text: &str) -> String {
    let all = items(text);
    let types: Vec<String> = all
        .iter()
        .filter(|item| is_type(item))
        .map(|item| [item.above.join("\n"), item.lines.join("\n")].join("\n"))
        .map(|text| text.trim_start().to_string())
        .collect();
    let types = types.join("\n\n");
    let mut heads = Vec::new();
    for item in &all {
        match keyword(item) {
            "mod" => heads.push(item.lines.join("\n")),
            "use" | "ghost" => heads.extend(needed_use(item, &types)),
            _ => {}
        }
    }
    let of_file: String = text
        .lines()
        .filter(|line| is_of_file(line))
        .map(|line| format!("{line}\n"))
        .collect();
    format!(
        "// The types alone.\n{of_file}{}\n\n{types}\n",
        heads.join("\n")
    )
}

#[cfg(test)]
mod tests {
    use super::*;

    const HEADS: &str = "\
// The head.
#![tactic(auto)]

ghost use Rattle.a.specs.B.{c};
use camac::Command;
use camac::{Decoded, less};
mod parts;
pub use parts::Part;
pub use parts::part_of;
pub use words::{
    Address, Q_BIT, address_of,
    Word,
};
";

    const TYPES: &str = "\
// A refusal.
#[derive(Clone, Copy)]
pub struct Refusal {
    pub number: u8,
}

enum Read {
    Got(Command),
    Not(Decoded),
}

pub struct Pair(u8, u8);
";

    const REST: &str = "\
const NAMES: [u8; 2] = [
    1, 2,
];

impl Refusal {
    pub fn number(self) -> u8 {
        self.number
    }
}

// A function.
pub fn refused(
    number: u8,
) -> Refusal
    ensures { result.number ≡ number }
{
    Refusal { number: number }
}
";

    const HEADS_ALONE: &str = "\
// The types alone.
#![tactic(auto)]
use camac::Command;
use camac::Decoded;
mod parts;
pub use parts::Part;
pub use words::{Address, Word};
";

    #[test]
    fn what_ghost_fields_use() {
        let source = "\
ghost use Rattle.std.specs.Prelude.{◌≡◌, ◌<◌, true, length};
ghost use Rattle.a.specs.B.{is_queue, waiting};

// Bytes that are a queue.
pub struct Queue<'a> {
    pub bytes: &'a mut [u8],
    ghost limits: { is_queue bytes.now ≡ true },
}
";
        let alone = "\
// The types alone.
ghost use Rattle.std.specs.Prelude.{◌≡◌, true};
ghost use Rattle.a.specs.B.{is_queue};

// Bytes that are a queue.
pub struct Queue<'a> {
    pub bytes: &'a mut [u8],
    ghost limits: { is_queue bytes.now ≡ true },
}
";
        assert_eq!(of(source), alone);
    }

    #[test]
    fn types_alone() {
        let source = [HEADS, TYPES, REST].join("\n");
        assert_eq!(of(&source), [HEADS_ALONE, TYPES].join("\n"));
    }
}
