//! What the documents cite exists; READING.md's tables are those that the definitions, the
//! contracts and the edits give, and none of its rows lacks a cell; FIGURES.md's sizes are those
//! of the tree.

use acceptance::{files, printed, reading, repository, sizes};

/// Prints the tables and the sizes anew.
const COMMAND: &str =
    "cargo run --release --manifest-path rust/Cargo.toml -p acceptance --bin tables";

const DOCUMENTS: [&str; 7] = [
    "docs/MANUAL.md",
    "docs/READING.md",
    "docs/WHY.md",
    "docs/ACCEPTANCE.md",
    "docs/DECISIONS.md",
    "docs/CHANGES.md",
    "README.md",
];

#[test]
fn cited_paths_and_names_exist() {
    let root = repository::root();
    let mut faults = Vec::new();
    for document in DOCUMENTS {
        let path = root.join(document);
        if path.is_file() {
            let text = files::read(&path).expect("a document");
            let own = reading::name_faults(&root, &text);
            faults.extend(own.iter().map(|fault| format!("{document}, {fault}")));
        }
    }
    assert!(faults.is_empty(), "\n{}", faults.join("\n"));
}

#[test]
fn no_cell_is_empty() {
    let path = repository::root().join("docs/READING.md");
    let text = files::read(&path).expect("READING.md");
    let faults = reading::table_faults(&text);
    assert!(faults.is_empty(), "\n{}", faults.join("\n"));
}

#[test]
fn tables_are_as_printed() {
    let (stored, printed) = printed::RULES
        .both(&repository::root())
        .expect("READING.md");
    let differs = |lines: &(&str, &str)| lines.0 != lines.1;
    let first = stored.lines().zip(printed.lines()).find(differs);
    assert!(
        stored == printed,
        "docs/READING.md is not as `{COMMAND}` prints it: {first:#?}"
    );
}

/// Every crate and package has its row. A size moves with each line that is written, so that
/// large ones may be a tenth off.
#[test]
fn sizes_are_near_those_printed() {
    let (stored, printed) = printed::SIZES
        .both(&repository::root())
        .expect("FIGURES.md");
    let far = |lines: &(&str, &str)| !sizes::are_near(lines.0, lines.1);
    let first = stored.lines().zip(printed.lines()).find(far);
    assert!(
        first.is_none() && stored.lines().count() == printed.lines().count(),
        "docs/FIGURES.md is far from what `{COMMAND}` prints: {first:#?}"
    );
}
