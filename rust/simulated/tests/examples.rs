//! The folders in `examples`: their files are what the lists of [`simulated::examples`] drew
//! from the simulated crate, and the program explain prints of each what is stored beside it.

#![cfg(library)]

use std::path::{Path, PathBuf};
use std::process::Command;
use std::{env, fs};

const EXPECTED: &str = "explain.expected";

fn repository(place: &str) -> PathBuf {
    Path::new(env!("CARGO_MANIFEST_DIR"))
        .join("../..")
        .join(place)
}

fn bytes(place: &Path) -> Vec<u8> {
    fs::read(place).unwrap_or_else(|error| panic!("{}: {error}", place.display()))
}

/// What explain prints in a folder: the environment's EXPLAIN, or the repository's
/// target/bin/explain.
fn explained(folder: &Path) -> String {
    let program = match env::var_os("EXPLAIN") {
        Some(program) => PathBuf::from(program),
        None => repository("target/bin/explain"),
    };
    let Ok(program) = program.canonicalize() else {
        panic!("explain is missing: run `tools/build explain` in the repository's root");
    };
    let output = Command::new(program).current_dir(folder).output();
    let output = output.expect("explain runs");
    assert!(output.status.success(), "{:?}", output.status);
    String::from_utf8(output.stdout).expect("text")
}

/// The folders that hold a list.
fn folders() -> Vec<PathBuf> {
    let all = fs::read_dir(repository("examples")).expect("the examples");
    let mut folders: Vec<_> = all.map(|entry| entry.expect("a folder").path()).collect();
    folders.retain(|folder| folder.join("run.lst").exists());
    folders.sort();
    folders
}

#[test]
fn files() {
    for example in simulated::examples::all() {
        for (name, made) in example.files() {
            let place = repository("examples").join(example.name).join(name);
            let command = "`cargo run -p simulated --bin write_examples` writes them";
            assert!(bytes(&place) == made, "{}: {command}", place.display());
        }
    }
}

/// By hand there are two folders, first and enhanced.
#[test]
fn every_folder_is_known() {
    let made = simulated::examples::all();
    let mut names: Vec<_> = made.iter().map(|example| example.name).collect();
    names.extend(["first", "enhanced"]);
    names.sort_unstable();
    let found = folders();
    let found: Vec<_> = found.iter().filter_map(|place| place.file_name()).collect();
    assert_eq!(found, names);
}

#[test]
fn explanations() {
    for folder in folders() {
        let printed = explained(&folder);
        let stored = folder.join(EXPECTED);
        let expected = String::from_utf8(bytes(&stored)).expect("text");
        let lines = printed.lines().zip(expected.lines()).enumerate();
        for (number, (line, wanted)) in lines {
            assert_eq!(line, wanted, "{}:{}", stored.display(), number + 1);
        }
        assert_eq!(printed, expected, "{}", stored.display());
    }
}

/// README shows what is printed of the first example, and has a row for each.
#[test]
fn readme() {
    let text = |place| String::from_utf8(bytes(&repository(place))).expect("text");
    let (readme, first) = (text("README.md"), text("examples/first/explain.expected"));
    assert!(readme.contains(&format!("```\n{first}```\n")), "the text");
    for folder in folders() {
        let name = folder.file_name().expect("a name").to_string_lossy();
        assert!(readme.contains(&format!("\n| `{name}` |")), "{name}");
    }
}

/// The kit runs explain on one of the examples, too.
#[test]
fn the_program_s_own_run() {
    let (example, program) = (repository("examples/mixed"), repository("crates/explain"));
    for name in ["run.lst", "run.rep", "run.out"] {
        let stored = bytes(&program.join("data").join(name));
        assert!(stored == bytes(&example.join(name)), "{name}");
    }
    assert!(bytes(&program.join("stdout")) == bytes(&example.join(EXPECTED)));
}
