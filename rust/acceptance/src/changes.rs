//! Small changes of a function's body: another operator, another constant, another field.

use std::ops::Range;

use crate::code;

/// A change: the bytes of a file that go, and what stands there instead.
#[derive(Clone, Debug, PartialEq, Eq)]
pub struct Change {
    pub function: String,
    pub line: usize,
    from: usize,
    to: usize,
    pub old: String,
    pub new: String,
}

impl Change {
    pub fn applied(&self, text: &str) -> String {
        [&text[..self.from], &self.new, &text[self.to..]].concat()
    }
}

/// A struct's fields, each with its type.
pub type Fields = Vec<(String, String)>;

/// A token, and the byte that it begins at.
#[derive(Clone, Copy, Debug, PartialEq, Eq)]
struct Token<'a> {
    at: usize,
    text: &'a str,
}

const LONG: [&str; 18] = [
    "..=", "<<=", ">>=", "->", "=>", "::", "..", "==", "!=", "<=", ">=", "&&", "||", "<<", ">>",
    "+=", "-=", "*=",
];

fn is_of_word(c: char) -> bool {
    c.is_alphanumeric() || c == '_'
}

/// How long the token is that a text begins with.
fn token_length(text: &str) -> usize {
    let first = text.chars().next().unwrap_or(' ');
    let end_of = |f: fn(char) -> bool| text.find(|c| !f(c)).unwrap_or(text.len());
    if text.starts_with("//") {
        text.find('\n').unwrap_or(text.len())
    } else if first.is_whitespace() {
        end_of(char::is_whitespace)
    } else if is_of_word(first) {
        end_of(is_of_word)
    } else if first == '"' {
        text[1..].find('"').map_or(text.len(), |end| end + 2)
    } else {
        let long = LONG.iter().find(|long| text.starts_with(**long));
        long.map_or(first.len_utf8(), |long| long.len())
    }
}

/// The tokens of a part of a text; no blanks, no comments.
fn tokens(text: &str, from: usize, to: usize) -> Vec<Token<'_>> {
    let mut found = Vec::new();
    let mut at = from;
    while at < to {
        let length = token_length(&text[at..to]);
        let token = &text[at..at + length];
        if !token.starts_with(char::is_whitespace) && !token.starts_with("//") {
            found.push(Token { at, text: token });
        }
        at += length;
    }
    found
}

/// A function's name and its body.
struct Body<'a> {
    function: &'a str,
    from: usize,
    to: usize,
}

fn bodies(text: &str) -> Vec<Body<'_>> {
    let mut starts = vec![0];
    starts.extend(text.match_indices('\n').map(|(at, _)| at + 1));
    let body = |(function, lines): (_, Range<usize>)| Body {
        function,
        from: starts[lines.start],
        to: starts[lines.end],
    };
    code::bodies(text).into_iter().map(body).collect()
}

/// The structs of a source file.
pub fn structs(text: &str) -> Vec<Fields> {
    let mut found = Vec::new();
    let mut lines = text.lines();
    while let Some(line) = lines.next() {
        if line.trim_start_matches("pub ").starts_with("struct ") && line.ends_with('{') {
            let inner = lines.by_ref().take_while(|line| *line != "}");
            found.push(inner.filter_map(field_in).collect());
        }
    }
    found
}

fn field_in(line: &str) -> Option<(String, String)> {
    let line = line.trim().trim_start_matches("pub ");
    let (name, kind) = line.trim_end_matches(',').split_once(": ")?;
    Some((name.to_string(), kind.to_string()))
}

/// Another operator for one between two operands.
fn other_operator(operator: &str) -> Option<&'static str> {
    let pairs = [
        ("+", "-"),
        ("-", "+"),
        ("*", "+"),
        ("/", "%"),
        ("%", "/"),
        ("<", "<="),
        ("<=", "<"),
        (">", ">="),
        (">=", ">"),
        ("==", "!="),
        ("!=", "=="),
        ("&&", "||"),
        ("||", "&&"),
        ("&", "|"),
        ("|", "&"),
        ("^", "|"),
        ("<<", ">>"),
        (">>", "<<"),
        ("+=", "-="),
        ("-=", "+="),
    ];
    let pair = pairs.iter().find(|pair| pair.0 == operator);
    pair.map(|pair| pair.1)
}

/// Whether a token ends an operand, so that an operator after it stands between two.
fn ends_operand(token: &str) -> bool {
    let keywords = ["return", "if", "while", "match", "in", "else", "mut"];
    let last = token.chars().last().unwrap_or(' ');
    !keywords.contains(&token) && (is_of_word(last) || last == ')' || last == ']')
}

/// The constants of a source file, each with its type.
fn constants(text: &str) -> Fields {
    let declared = |line: &str| {
        let line = line.trim_start_matches("pub ");
        let (name, rest) = line.strip_prefix("const ")?.split_once(": ")?;
        Some((name.to_string(), rest.split(" =").next()?.to_string()))
    };
    text.lines().filter_map(declared).collect()
}

/// A number one greater, the other truth, or another constant of the type.
fn other_constant(token: &str, constants: &Fields) -> Option<String> {
    match token {
        "true" => return Some("false".to_string()),
        "false" => return Some("true".to_string()),
        _ => {}
    }
    if let Some(other) = beside(token, constants) {
        return Some(other.to_string());
    }
    let number = match token.strip_prefix("0x") {
        Some(digits) => u64::from_str_radix(digits, 16).ok(),
        None => token.replace('_', "").parse().ok(),
    };
    number.map(|n| (n + 1).to_string())
}

/// The next that has the type of one, behind it or else from the first on.
fn beside<'a>(name: &str, all: &'a Fields) -> Option<&'a str> {
    let own = all.iter().position(|f| f.0 == name)?;
    let mut after = all[own + 1..].iter().chain(&all[..own]);
    let other = after.find(|f| f.1 == all[own].1);
    other.map(|f| f.0.as_str())
}

/// Fields that stand beside one in a struct and have its type, each once.
fn other_fields<'a>(field: &str, structs: &'a [Fields]) -> Vec<&'a str> {
    let mut found: Vec<&str> = Vec::new();
    for other in structs.iter().filter_map(|fields| beside(field, fields)) {
        if !found.contains(&other) {
            found.push(other);
        }
    }
    found
}

/// What may stand in place of a token, by the tokens around it.
fn others(around: [&str; 3], structs: &[Fields], constants: &Fields) -> Vec<String> {
    let [before, token, after] = around;
    if before == "." && after != "(" {
        return other_fields(token, structs)
            .into_iter()
            .map(str::to_string)
            .collect();
    }
    if token == "!" {
        return vec![String::new()];
    }
    let operator = other_operator(token).filter(|_| ends_operand(before) && after != "=");
    let constant = other_constant(token, constants).filter(|_| before != "::");
    operator
        .map(str::to_string)
        .or(constant)
        .into_iter()
        .collect()
}

/// The changes of the functions of a source file, in its order.
pub fn of(text: &str, structs: &[Fields]) -> Vec<Change> {
    let constants = constants(text);
    let mut found = Vec::new();
    for body in bodies(text) {
        let own = tokens(text, body.from, body.to);
        for (number, token) in own.iter().enumerate() {
            let before = number.checked_sub(1).map_or("{", |n| own[n].text);
            let after = own.get(number + 1).map_or("}", |t| t.text);
            let line = text[..token.at].matches('\n').count() + 1;
            let change = |new: String| Change {
                function: body.function.to_string(),
                line,
                from: token.at,
                to: token.at + token.text.len(),
                old: token.text.to_string(),
                new,
            };
            found.extend(
                others([before, token.text, after], structs, &constants)
                    .into_iter()
                    .map(change),
            );
        }
    }
    found
}

/// At most so many changes of each function, spread over its body.
pub fn spread(all: Vec<Change>, most: usize) -> Vec<Change> {
    let mut found = Vec::new();
    for own in all.chunk_by(|a, b| a.function == b.function) {
        let kept = own.len().min(most);
        found.extend((0..kept).map(|n| own[n * own.len() / kept].clone()));
    }
    found
}

#[cfg(test)]
mod tests {
    use super::*;

    const SOURCE: &str = "\
pub struct Marks {
    pub incoming: usize,
    pub wide: bool,
    pub outgoing: usize,
}

const LEAST: usize = 4;

const MOST: usize = 8;

// A comment with 1 + 1.
pub fn after(m: Marks, by: usize) -> usize
    requires { by < 2 ^ 63 }
{
    // 3 + 4
    if !m.wide && by == LEAST {
        return m.incoming + 0x10;
    }
    by.len(&row[2..]) + Kind::MOST
}

fn none() {
}
";

    fn changed() -> Vec<(usize, String, String)> {
        let found = of(SOURCE, &structs(SOURCE));
        assert!(found.iter().all(|c| c.function == "after"));
        found.into_iter().map(|c| (c.line, c.old, c.new)).collect()
    }

    #[test]
    fn changes_of_a_body() {
        let expected = [
            (16, "!", ""),
            (16, "&&", "||"),
            (16, "==", "!="),
            (16, "LEAST", "MOST"),
            (17, "incoming", "outgoing"),
            (17, "+", "-"),
            (17, "0x10", "17"),
            (19, "2", "3"),
            (19, "+", "-"),
        ];
        let expected: Vec<_> = expected
            .iter()
            .map(|(l, o, n)| (*l, o.to_string(), n.to_string()))
            .collect();
        assert_eq!(changed(), expected);
    }

    #[test]
    fn some_changes_of_each_function() {
        let all = of(SOURCE, &structs(SOURCE));
        let lines = |most| -> Vec<usize> {
            let some = spread(all.clone(), most);
            some.iter().map(|c| c.line).collect()
        };
        assert_eq!(lines(3), [16, 16, 17]);
        assert_eq!(lines(100).len(), all.len());
    }

    #[test]
    fn a_change_made() {
        let found = of(SOURCE, &structs(SOURCE));
        let text = found[4].applied(SOURCE);
        assert!(text.contains("return m.outgoing + 0x10;"));
        assert_eq!(text.len(), SOURCE.len());
    }
}
