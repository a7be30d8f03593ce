//! Every quotation in the comments of the crates and in the documents stands in the paper that
//! it is marked as, and READING.md quotes the customer's three demands. A paper that is not
//! at hand, beside the repository in ../shared, is said to be left out.

use std::path::Path;
use std::process::ExitCode;

use acceptance::quotations::{self, Quotation, Source, MOST_WORDS};
use acceptance::{files, repository};

const DOCUMENTS: [&str; 8] = [
    "README.md",
    "docs/MANUAL.md",
    "docs/READING.md",
    "docs/WHY.md",
    "docs/ACCEPTANCE.md",
    "docs/DECISIONS.md",
    "docs/CHANGES.md",
    "docs/FIGURES.md",
];

/// A quotation, and where it stands.
struct Found {
    place: String,
    quotation: Quotation,
}

/// The parts of a crate, the ending of their files and the sign of a comment in them.
const PARTS: [(&str, &str, &str); 3] = [
    ("specs", "antt", "--"),
    ("proofs", "antt", "--"),
    ("src", "rt", "//"),
];

/// The quotations of texts, each with its line, in a file.
fn all_in(file: &str, texts: &[(usize, String)], usual: Source) -> Result<Vec<Found>, String> {
    let mut found = Vec::new();
    for (line, text) in texts {
        let place = format!("{file}:{line}");
        let own = quotations::within(text, usual).map_err(|why| format!("{place}: {why}"))?;
        found.extend(own.into_iter().map(|quotation| Found {
            place: place.clone(),
            quotation,
        }));
    }
    Ok(found)
}

/// The quotations of a file's comments.
fn in_file(root: &Path, path: &Path, sign: &str) -> Result<Vec<Found>, String> {
    let comments = quotations::comments(&files::read(path)?, sign);
    let head = comments.first().map_or("", |(_, text)| text.as_str());
    let file = path.strip_prefix(root).unwrap_or(path).display();
    all_in(&file.to_string(), &comments, Source::of_head(head))
}

fn in_crates(root: &Path) -> Result<Vec<Found>, String> {
    let mut found = Vec::new();
    for c in repository::listed(root)? {
        for (part, ending, sign) in PARTS {
            let folder = root.join("crates").join(&c.name).join(part);
            for path in files::all_with_ending(&folder, ending)? {
                found.extend(in_file(root, &path, sign)?);
            }
        }
    }
    Ok(found)
}

/// The separate build is written from the papers, and quotes them.
fn in_separate_build(root: &Path) -> Result<Vec<Found>, String> {
    let mut found = Vec::new();
    for path in files::all_with_ending(&root.join("rust/reference"), "rs")? {
        found.extend(in_file(root, &path, "//")?);
    }
    Ok(found)
}

fn in_documents(root: &Path) -> Result<Vec<Found>, String> {
    let mut found = Vec::new();
    for document in DOCUMENTS {
        let text = files::read(&root.join(document))?;
        let paragraphs = quotations::paragraphs(&text);
        found.extend(all_in(document, &paragraphs, Source::Scope)?);
    }
    Ok(found)
}

/// The quotations that do not stand in the text which their source has.
fn faults(found: &[&Found], text_of: &dyn Fn(Source) -> String) -> Vec<String> {
    let stands = |f: &&&Found| quotations::stands(&f.quotation.words, &text_of(f.quotation.source));
    let wrong = found.iter().filter(|f| !stands(f));
    wrong
        .map(|f| format!("{}: its paper does not say {}", f.place, f.quotation))
        .collect()
}

/// Looks quotations up in a paper; none where it is not at hand.
fn looked_up(
    root: &Path,
    name: &str,
    found: &[&Found],
    part: &dyn Fn(&str, Source) -> String,
) -> Option<Vec<String>> {
    let path = root.join("../shared").join(name);
    let Ok(paper) = files::read(&path) else {
        println!(
            "{name} .. LEFT OUT: ../shared/{name} is not at hand for {} quotations",
            found.len()
        );
        return None;
    };
    println!("{name} .. {} quotations", found.len());
    Some(faults(found, &|source| part(&paper, source)))
}

/// What READING.md's section on a demand quotes, by its number.
fn demand(reading: &str, number: u32) -> Result<String, String> {
    let head = format!("### Demand {number}");
    let mut lines = reading
        .lines()
        .skip_while(|line| !line.starts_with(&head))
        .skip(1);
    let own: Vec<&str> = lines
        .by_ref()
        .take_while(|line| !line.starts_with('#'))
        .collect();
    let mut words = Vec::new();
    for (_, text) in quotations::paragraphs(&own.join("\n")) {
        let quoted = quotations::within(&text, Source::Scope)?;
        let is_of_it = |q: &Quotation| q.source == Source::Demand(number);
        words.extend(quoted.into_iter().filter(is_of_it).map(|q| q.words));
    }
    match words.as_slice() {
        [] => Err(format!(
            "docs/READING.md does not quote the customer below `{head}`"
        )),
        _ => Ok(words.join("\n")),
    }
}

/// The demands are quoted in READING.md, and what is marked as of one stands there.
fn demands(root: &Path, found: &[&Found]) -> Result<Vec<String>, String> {
    let reading = files::read(&root.join("docs/READING.md"))?;
    let texts = [
        demand(&reading, 1)?,
        demand(&reading, 2)?,
        demand(&reading, 3)?,
    ];
    let text_of = |source: Source| match source {
        Source::Demand(number @ 1..=3) => texts[number as usize - 1].clone(),
        _ => String::new(),
    };
    println!("the three demands .. {} quotations", found.len());
    Ok(faults(found, &text_of))
}

fn too_long(found: &[Found]) -> Vec<String> {
    let count = |f: &Found| f.quotation.words.split_whitespace().count();
    let long = found.iter().filter(|f| count(f) > MOST_WORDS);
    long.map(|f| format!("{}: more than {MOST_WORDS} words: {}", f.place, f.quotation))
        .collect()
}

/// The faults of each part that could be looked at.
fn parts(root: &Path) -> Result<Vec<Vec<String>>, String> {
    let mut found = in_crates(root)?;
    found.extend(in_separate_build(root)?);
    found.extend(in_documents(root)?);
    let of = |is_meant: fn(&Source) -> bool| -> Vec<&Found> {
        found
            .iter()
            .filter(|f| is_meant(&f.quotation.source))
            .collect()
    };
    let scope = of(|source| *source == Source::Scope);
    let requests = of(|source| matches!(source, Source::Request(_)));
    let demanded = of(|source| matches!(source, Source::Demand(_)));
    let request = |paper: &str, source: Source| match source {
        Source::Request(number) => quotations::request(paper, number),
        _ => String::new(),
    };
    let papers = [
        looked_up(root, "01-scope.md", &scope, &|paper, _| paper.to_string()),
        looked_up(root, "02-change-requests.md", &requests, &request),
    ];
    let mut all: Vec<Vec<String>> = papers.into_iter().flatten().collect();
    all.push(demands(root, &demanded)?);
    all.push(too_long(&found));
    Ok(all)
}

fn main() -> ExitCode {
    let parts = parts(&repository::root()).unwrap_or_else(|why| vec![vec![why]]);
    for fault in parts.iter().flatten() {
        println!("{fault}");
    }
    let failed = parts.iter().filter(|part| !part.is_empty()).count();
    let word = if failed == 0 { "ok" } else { "FAILED" };
    println!(
        "test result: {word}. {} passed; {failed} failed",
        parts.len() - failed
    );
    ExitCode::from(u8::from(failed != 0))
}
