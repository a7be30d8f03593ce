//! The crate `equations` as it is stored: what is printed now, all that it must meet, and at
//! least 1,000 equations.

use std::collections::BTreeSet;
use std::fs;
use std::path::{Path, PathBuf};

use reference::equations::{all, classes::Met, met, modules, print};

/// The least number of equations.
const LEAST: usize = 1_000;

fn root() -> PathBuf {
    Path::new(env!("CARGO_MANIFEST_DIR")).join("../..")
}

/// The paths of the crate's antt files, from the repository's root.
fn stored_paths() -> BTreeSet<String> {
    let folders = ["crates/equations/specs", "crates/equations/proofs"];
    let in_folder = |folder: &str| {
        let entries = fs::read_dir(root().join(folder)).expect("a folder");
        let names = entries.map(|entry| entry.expect("a file").file_name());
        let paths = names.map(|name| format!("{folder}/{}", name.to_string_lossy()));
        paths.collect::<Vec<String>>()
    };
    folders.into_iter().flat_map(in_folder).collect()
}

#[test]
fn stored_files_are_what_is_printed() {
    let files = print::files(&modules());
    for (path, text) in &files {
        let stored = fs::read_to_string(root().join(path)).expect("a stored file");
        let lines = stored.lines().zip(text.lines());
        if let Some((at, (old, new))) = lines.enumerate().find(|(_, (old, new))| old != new) {
            panic!("{path}, line {}: {old}\nprinted: {new}", at + 1);
        }
        assert!(stored == *text, "{path} is shorter or longer than printed");
    }
    let mut printed: BTreeSet<String> = files.into_iter().map(|(path, _)| path).collect();
    printed.insert("crates/equations/specs/Forms.antt".to_string());
    assert_eq!(stored_paths(), printed);
}

#[test]
fn stored_proofs_have_an_equation_each() {
    let proofs = stored_paths();
    let proofs = proofs.iter().filter(|path| path.contains("/proofs/"));
    let texts = proofs.map(|path| fs::read_to_string(root().join(path)).expect("a file"));
    let stored: usize = texts.map(|text| text.matches(" = refl;\n").count()).sum();
    assert_eq!(stored, all(&modules()).count());
    assert!(stored >= LEAST, "only {stored} equations");
}

#[test]
fn every_class_is_met() {
    let met = met(&modules());
    println!("{}", met.table());
    assert_eq!(met.missing(), Vec::<String>::new());
}

/// What no equation meets is named.
#[test]
fn a_class_not_met_is_missing() {
    assert!(Met::expecting().missing().len() > LEAST);
    let mut modules = modules();
    modules.retain(|module| module.name != "LastWords");
    let missing = met(&modules).missing();
    assert!(missing.contains(&"ShownAtEnd(1)".to_string()));
    assert!(missing.iter().all(|class| !class.contains("Refused")));
}

/// No group of a module and no equation of a group has another's name, nor one that the
/// statements use.
#[test]
fn names_differ() {
    for module in modules() {
        let mut groups = BTreeSet::new();
        for group in &module.groups {
            let names: BTreeSet<&str> = group.equations.iter().map(|e| e.name.as_str()).collect();
            assert_eq!(names.len(), group.equations.len(), "{}", group.name);
            assert!(!names.iter().any(|name| print::is_known(name)));
            assert!(groups.insert(&group.name), "{}", group.name);
        }
    }
}
