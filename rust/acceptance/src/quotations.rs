//! Quotations in comments and documents, and whether they stand in the paper they are of.
//!
//! Words in double quotes are a quotation. `(E8)` right behind one says that it is of that
//! request of document 02, `(demand 3)` that it is of the customer's demand, `(document 01)`
//! that it is of document 01. One without a mark is of document 01; on a page of definitions
//! whose head says `document 02, E8` it is of that request. `..` stands for words left out.

use std::fmt;

/// What a quotation is marked as.
#[derive(Clone, Copy, Debug, PartialEq, Eq, PartialOrd, Ord)]
pub enum Source {
    /// Document 01.
    Scope,
    /// A request of document 02.
    Request(u32),
    /// One of the customer's three demands, in READING.md.
    Demand(u32),
}

#[derive(Clone, Debug, PartialEq, Eq)]
pub struct Quotation {
    pub words: String,
    pub source: Source,
}

/// The most words that a quotation may have.
pub const MOST_WORDS: usize = 25;

impl Source {
    /// What words in parentheses mark a quotation as; none where they are no mark.
    fn of_mark(mark: &str) -> Option<Self> {
        let number = |head: &str| mark.strip_prefix(head)?.parse().ok();
        match mark {
            "document 01" => Some(Source::Scope),
            _ => number("E")
                .map(Source::Request)
                .or_else(|| number("demand ").map(Source::Demand)),
        }
    }

    /// What the quotations of a page are of, by its head.
    pub fn of_head(head: &str) -> Self {
        let request = head.split_once("document 02, E").and_then(|(_, rest)| {
            let end = rest.find(|c: char| !c.is_ascii_digit());
            rest[..end.unwrap_or(rest.len())].parse().ok()
        });
        request.map_or(Source::Scope, Source::Request)
    }
}

impl fmt::Display for Quotation {
    fn fmt(&self, f: &mut fmt::Formatter) -> fmt::Result {
        write!(f, "\"{}\"", self.words)?;
        match self.source {
            Source::Scope => Ok(()),
            Source::Request(number) => write!(f, " (E{number})"),
            Source::Demand(number) => write!(f, " (demand {number})"),
        }
    }
}

/// The words in parentheses that a text begins with, behind a blank.
fn mark(text: &str) -> Option<&str> {
    Some(text.strip_prefix(" (")?.split_once(')')?.0)
}

/// The quotations of a text without line breaks; `usual` is the source of one without a mark.
/// An error where a quotation has no end.
pub fn within(text: &str, usual: Source) -> Result<Vec<Quotation>, String> {
    let parts: Vec<&str> = text.split('"').collect();
    if parts.len().is_multiple_of(2) {
        return Err(format!("a quotation without an end: {text}"));
    }
    let mut found = Vec::new();
    for (words, behind) in parts
        .iter()
        .skip(1)
        .step_by(2)
        .zip(parts.iter().skip(2).step_by(2))
    {
        let source = mark(behind).and_then(Source::of_mark).unwrap_or(usual);
        let words = words.to_string();
        found.push(Quotation { words, source });
    }
    Ok(found)
}

/// The text of a line comment, a documenting one or not; none for a rule between parts of a
/// file.
fn comment<'a>(line: &'a str, sign: &str) -> Option<&'a str> {
    let text = line.trim_start().strip_prefix(sign)?;
    let text = text.trim_start_matches(['/', '!']);
    (!text.ends_with("----")).then_some(text.trim())
}

/// The comments of a file, each with the number of its first line, its lines joined.
pub fn comments(text: &str, sign: &str) -> Vec<(usize, String)> {
    let mut found: Vec<(usize, String)> = Vec::new();
    let mut is_open = false;
    for (number, line) in (1..).zip(text.lines()) {
        match (comment(line, sign), found.last_mut()) {
            (Some(more), Some((_, text))) if is_open => *text = format!("{text} {more}"),
            (Some(first), _) => found.push((number, first.to_string())),
            (None, _) => {}
        }
        is_open = comment(line, sign).is_some();
    }
    found
}

/// A line without its backquoted parts.
fn without_code(line: &str) -> String {
    line.split('`').step_by(2).collect::<Vec<_>>().join(" ")
}

/// Whether a line of a document stands by itself or begins a part.
fn begins_part(line: &str) -> bool {
    let line = line.trim_start();
    ["|", "#", "- ", "* "]
        .iter()
        .any(|head| line.starts_with(head))
}

/// The paragraphs, items and rows of a document, each with the number of its first line, its
/// lines joined, without code.
pub fn paragraphs(text: &str) -> Vec<(usize, String)> {
    let mut found: Vec<(usize, String)> = Vec::new();
    let (mut is_code, mut is_open) = (false, false);
    for (number, line) in (1..).zip(text.lines()) {
        let is_fence = line.starts_with("```");
        let is_text = !is_code && !is_fence && !line.trim().is_empty();
        is_code ^= is_fence;
        match found.last_mut() {
            Some((_, text)) if is_text && is_open && !begins_part(line) => {
                *text = format!("{text} {}", without_code(line.trim()));
            }
            _ if is_text => found.push((number, without_code(line))),
            _ => {}
        }
        is_open = is_text;
    }
    found
}

/// A paper's or a quotation's words with single blanks and without marks of a document.
fn plain(text: &str) -> String {
    let words = text.split(|c: char| c.is_whitespace() || "*`|".contains(c));
    let words: Vec<&str> = words.filter(|word| !word.is_empty()).collect();
    words.join(" ")
}

/// Where words end in a text, from a place on; they begin and end with whole words.
fn end_of(words: &str, text: &str, from: usize) -> Option<usize> {
    let is_letter = |c: Option<char>| c.is_some_and(char::is_alphanumeric);
    let splits = |at: usize| {
        let (before, behind) = text.split_at(at);
        is_letter(before.chars().next_back()) && is_letter(behind.chars().next())
    };
    text[from..]
        .match_indices(words)
        .map(|(at, _)| (from + at, from + at + words.len()))
        .find(|(begin, end)| !splits(*begin) && !splits(*end))
        .map(|(_, end)| end)
}

/// Whether a quotation stands in a paper, the pieces between `..` in order.
pub fn stands(words: &str, paper: &str) -> bool {
    let paper = plain(paper);
    let pieces = words.split("..").map(plain);
    let mut at = Some(0);
    for piece in pieces {
        at = at.filter(|_| !piece.is_empty());
        at = at.and_then(|from| end_of(&piece, &paper, from));
    }
    at.is_some()
}

/// The paragraphs of a request in document 02; empty where it has none of this number.
pub fn request(paper: &str, number: u32) -> String {
    let is_head = |line: &str| line.starts_with("**E");
    let own = format!("**E{number}:");
    let rest = paper.lines().skip_while(|line| !line.starts_with(&own));
    let count = |lines: &mut dyn Iterator<Item = &str>| lines.take_while(|l| !is_head(l)).count();
    let length = count(&mut rest.clone().skip(1));
    rest.take(length + 1).collect::<Vec<_>>().join("\n")
}

#[cfg(test)]
mod tests {
    use super::*;

    fn shown(text: &str, usual: Source) -> Vec<String> {
        let found = within(text, usual).expect("quotations");
        found.iter().map(|q| format!("{q}")).collect()
    }

    #[test]
    fn marks_of_quotations() {
        let text = r#"7: "one" (E8), "two .. three"; "four" (demand 3) "five" (by code)"#;
        let found = [
            "\"one\" (E8)",
            "\"two .. three\"",
            "\"four\" (demand 3)",
            "\"five\"",
        ];
        assert_eq!(shown(text, Source::Scope), found);
        let usual = Source::of_head("Scalers (document 02, E10): a row");
        assert_eq!(usual, Source::Request(10));
        let found = ["\"a\" (E10)", "\"b\""];
        assert_eq!(shown(r#""a" and "b" (document 01)"#, usual), found);
        assert!(within("a \"b", Source::Scope).is_err());
    }

    #[test]
    fn comments_and_paragraphs() {
        let file = "-- one\n-- two\nx : y\n  -- three\n\n-- Part -----\n-- four\n";
        let found = comments(file, "--");
        let texts: Vec<&str> = found.iter().map(|(_, text)| text.as_str()).collect();
        assert_eq!(texts, ["one two", "three", "four"]);
        let document = "a `\"x\"` b\nc\n| d |\n- e\n  f\n```\ng\n```\nh\n";
        let found = paragraphs(document);
        let texts: Vec<&str> = found.iter().map(|(_, text)| text.as_str()).collect();
        assert_eq!(texts, ["a   b c", "| d |", "- e f", "h"]);
    }

    #[test]
    fn words_of_a_paper() {
        let paper = "| 20h | 2 | jump: number of\nthe target |\n\n**Place**: the first byte";
        for words in [
            "20h .. jump: number of the target",
            "Place: the first",
            "20h 2 jump",
        ] {
            assert!(stands(words, &paper.replace("**", "")), "{words}");
        }
        for words in [
            "jump .. 20h",
            "the targ",
            "number of a target",
            "",
            "20h ..",
        ] {
            assert!(!stands(words, paper), "{words}");
        }
    }

    #[test]
    fn paragraphs_of_a_request() {
        let paper = "head\n\n**E1: One.** a\nb\n\n**E10: Ten.** c\n";
        assert_eq!(request(paper, 1).trim(), "**E1: One.** a\nb");
        assert_eq!(request(paper, 10), "**E10: Ten.** c");
        assert_eq!(request(paper, 2), "");
    }
}
