//! A proof file made to fit code of which one condition or operator was changed. A goal is
//! named after what the code asks there, so that such a change gives it another name, as
//! `returns-then-left-lt4` for `returns-then-left-lt3`. The proof then names a goal that is
//! gone, and the one in its place is left open. The proof's text stays, and the new name is
//! put into it.

use crate::verdict::{self, Report};

/// The words of a goal's name behind which its branch's test stands.
const BRANCHES: [&str; 2] = ["then-", "else-"];

/// The test in a goal's name.
fn test_in(goal: &str) -> Option<&str> {
    let behind = |branch: &&str| {
        let (before, test) = goal.split_once(*branch)?;
        let is_part = before.is_empty() || before.ends_with('-');
        is_part.then_some(test)
    };
    BRANCHES.iter().find_map(behind)
}

/// A name with another test in it, where it is a branch's, a test's or a goal's.
fn renamed<'a>(name: &'a str, old: &str, new: &str) -> Option<String> {
    let heads = ["if-", "then-", "else-"];
    let head: &'a str = name.strip_suffix(old)?;
    let is_of_test = heads.iter().any(|own| head.ends_with(own));
    let before = heads.iter().find_map(|own| head.strip_suffix(own))?;
    let is_part = before.is_empty() || before.ends_with('-');
    (is_of_test && is_part).then(|| format!("{head}{new}"))
}

/// The letters of names: what a name ends before.
fn is_of_name(c: char) -> bool {
    c.is_alphanumeric() || "-_'".contains(c)
}

/// A proof with goals' new names in place of the old ones; none where it has none of them.
pub fn refitted(proof: &str, goals: &[(String, String)]) -> Option<String> {
    let in_place = |word: &str| {
        let own = goals.iter().find(|(old, _)| old == word);
        own.map(|(_, new)| new.clone()).or_else(|| {
            let tests = goals.iter();
            let tests = tests.filter_map(|(old, new)| Some((test_in(old)?, test_in(new)?)));
            let mut found = tests.filter_map(|(old, new)| renamed(word, old, new));
            found.next()
        })
    };
    let mut text = String::new();
    let mut rest = proof;
    while let Some(first) = rest.chars().next() {
        let end = if is_of_name(first) {
            rest.find(|c| !is_of_name(c)).unwrap_or(rest.len())
        } else {
            first.len_utf8()
        };
        let (word, behind) = rest.split_at(end);
        text += in_place(word).as_deref().unwrap_or(word);
        rest = behind;
    }
    (text != proof).then_some(text)
}

/// The goals of a function that are gone, each with the one that is left open in its place,
/// by what was reported; none where their numbers differ. A function is named by the folder
/// of its proof below proofs/.
pub fn moved(reports: &[Report], function: &str) -> Vec<(String, String)> {
    let is_own = |r: &&Report| r.file == format!("proofs/{function}/Answers.antt");
    let is_gone = |r: &&Report| r.message.contains(&format!("`goal.{}`", r.law));
    let gone = reports.iter().filter(is_own).filter(is_gone);
    let gone: Vec<&str> = gone.map(|r| r.law.as_str()).collect();
    let module = function.split('/').next().filter(|own| *own != function);
    let files = match module {
        Some(module) => vec![format!("src/{module}.rt")],
        None => vec!["src/lib.rt".to_string(), "src/main.rt".to_string()],
    };
    let is_open = |r: &&Report| r.automatic && files.contains(&r.file);
    let open = reports.iter().filter(is_open);
    let open: Vec<&str> = open
        .filter(|r| !verdict::is_false_at_some_values(r))
        .map(|r| r.law.as_str())
        .collect();
    if gone.len() != open.len() {
        return Vec::new();
    }
    let pairs = gone.into_iter().zip(open);
    pairs
        .map(|(old, new)| (old.to_string(), new.to_string()))
        .collect()
}

#[cfg(test)]
mod tests {
    use super::*;
    use std::path::Path;

    fn pairs(text: &str) -> Vec<(String, String)> {
        let pair = |part: &str| {
            let (old, new) = part.split_once('>').expect("a pair");
            (old.to_string(), new.to_string())
        };
        text.split(' ').map(pair).collect()
    }

    #[test]
    fn names_of_goals_replaced() {
        let proof = "pub add-x : goal.add-x\nadd-x c = search rules\n\npub add-x-2 : goal.add-x-2\nadd-x-2 c = c.add.x\n";
        let goals = pairs("add-x>sub-x add-x-2>add-x");
        let expected = "pub sub-x : goal.sub-x\nsub-x c = search rules\n\npub add-x : goal.add-x\nadd-x c = c.add.x\n";
        assert_eq!(refitted(proof, &goals).as_deref(), Some(expected));
        assert_eq!(refitted("pub returns : x\n", &goals), None);
    }

    #[test]
    fn names_of_tests_replaced() {
        let proof = "returns-then-is_a c = c.if-is_a.true c.is_a.ensures [ then-is_a w ↦ 1 | else-is_a w ↦ x-is_a ]";
        let goals = pairs("returns-then-is_a>returns-then-is_a-b");
        let expected = "returns-then-is_a-b c = c.if-is_a-b.true c.is_a.ensures [ then-is_a-b w ↦ 1 | else-is_a-b w ↦ x-is_a ]";
        assert_eq!(refitted(proof, &goals).as_deref(), Some(expected));
    }

    #[test]
    fn goals_that_moved() {
        let log = "./proofs/m/f/Answers.antt:7:36: error: `returns-lt5`: `goal.returns-lt5`: module `G` has no `returns-lt5` that can be named from here\nnote: src/m.rt:5:1: it is not proved that it holds (`returns-lt6`)\n";
        let found = |log: &str| moved(&verdict::reports(log, Path::new("/x")), "m/f");
        assert_eq!(found(log), pairs("returns-lt5>returns-lt6"));
        let more = format!("{log}note: src/m.rt:9:1: it is not proved that it holds (`returns`)\n");
        assert_eq!(found(&more), Vec::new());
        let elsewhere =
            format!("{log}note: src/n.rt:9:1: it is not proved that it holds (`returns`)\n");
        assert_eq!(found(&elsewhere).len(), 1);
    }
}
