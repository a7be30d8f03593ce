//! What a reader must believe rests on itself: no definition outside `specs/model` uses one
//! that describes code, or a proof.

use acceptance::{files, repository};

/// Whether a line of an antt file uses a module of `specs/model` or of `proofs`.
fn uses_model_or_proof(line: &str) -> bool {
    let path = line
        .strip_prefix("use Rattle.")
        .filter(|rest| !rest.starts_with("std."))
        .map(|rest| rest.split([' ', '{']).next().unwrap_or_default());
    path.is_some_and(|path| {
        path.split('.')
            .skip(1)
            .any(|part| part == "model" || part == "proofs")
    })
}

#[test]
fn definitions_rest_on_definitions() {
    let root = repository::root();
    let mut read = 0;
    let mut faults = Vec::new();
    for c in repository::listed(&root).expect("crates.txt") {
        let folder = root.join("crates").join(&c.name).join("specs");
        for path in files::with_ending(&folder, "antt").expect("specs") {
            let text = files::read(&path).expect("a definition");
            let own = text.lines().filter(|line| uses_model_or_proof(line));
            faults.extend(own.map(|line| format!("{}: {line}", path.display())));
            read += 1;
        }
    }
    assert!(read > 20, "only {read} files of definitions were found");
    assert!(faults.is_empty(), "\n{}", faults.join("\n"));
}

#[test]
fn such_lines_are_seen() {
    for line in [
        "use Rattle.walk.specs.model.Sums.{rest_from}",
        "use Rattle.step.specs.model.Place.{Alive}",
        "use Rattle.walk.proofs.Rest.{OnWalk}",
    ] {
        assert!(uses_model_or_proof(line), "{line}");
    }
    for line in [
        "use Rattle.walk.specs.Walk.{Visit}",
        "use Rattle.walk.specs.declared.visits.Spot.{Spot}",
        "use Rattle.std.proofs.Math.Option.{Option}",
    ] {
        assert!(!uses_model_or_proof(line), "{line}");
    }
}
