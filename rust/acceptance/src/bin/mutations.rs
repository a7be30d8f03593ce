//! Changes one operator, constant or field in one function's body at a time and asks the
//! prover; a line for each change, and last a table. A number on the command line is how many
//! changes of a function are made at most; names are of the crates to be changed.

use std::path::{Path, PathBuf};
use std::process::ExitCode;

use acceptance::changes::Change;
use acceptance::mutations::{self, Outcome, Subject};
use acceptance::trial::Trial;
use acceptance::{files, repository};

const OUTCOMES: [Outcome; 4] = [
    Outcome::Refused,
    Outcome::Misfit,
    Outcome::Survived,
    Outcome::NoProgram,
];

type Changes = Vec<(PathBuf, Change)>;

/// How many changes of a crate came to each outcome.
type Row = (String, [usize; 4]);

fn line_of(name: &str, file: &Path, change: &Change) -> String {
    format!(
        "{name}/src/{}:{} {}: `{}` for `{}`",
        files::stem(file),
        change.line,
        change.function,
        change.new,
        change.old
    )
}

fn try_crate(subject: &Subject, changes: Changes) -> Result<Row, String> {
    let name = subject.name;
    eprintln!("mutations: {name}: {} changes", changes.len());
    let mut counts = [0; 4];
    for (file, change) in changes {
        let (outcome, said) = subject.tried(&file, &change)?;
        println!("{} .. {outcome}  {said}", line_of(name, &file, &change));
        let own = OUTCOMES.iter().position(|o| *o == outcome);
        counts[own.unwrap_or_default()] += 1;
    }
    Ok((name.to_string(), counts))
}

fn print(rows: &[Row]) {
    println!("\n| Crate | Tried | Refused for a fact | Proof does not fit | Survived |");
    println!("|---|---|---|---|---|");
    for (name, [refused, misfit, survived, _]) in rows {
        let tried = refused + misfit + survived;
        println!("| `{name}` | {tried} | {refused} | {misfit} | {survived} |");
    }
}

fn run() -> Result<(), String> {
    let root = repository::root();
    let words: Vec<String> = std::env::args().skip(1).collect();
    let most = words.iter().find_map(|word| word.parse().ok());
    let names: Vec<&String> = words
        .iter()
        .filter(|w| w.parse::<usize>().is_err())
        .collect();
    let structs = mutations::structs(&root)?;
    let mut rows = Vec::new();
    for c in repository::listed(&root)? {
        if !names.is_empty() && !names.contains(&&c.name) {
            continue;
        }
        let trial = Trial::new(&root, &[&c.name])?;
        let folder = trial.crate_folder(&c.name);
        let changes = mutations::changes(&folder, &structs, most.unwrap_or(usize::MAX))?;
        if !changes.is_empty() {
            rows.push(try_crate(&Subject::new(&trial, &c.name)?, changes)?);
        }
    }
    print(&rows);
    Ok(())
}

fn main() -> ExitCode {
    match run() {
        Ok(()) => ExitCode::SUCCESS,
        Err(why) => {
            eprintln!("mutations: {why}");
            ExitCode::FAILURE
        }
    }
}
