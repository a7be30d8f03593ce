//! Program camrun, as the kit builds it, beside what the separate build says it prints.

#![cfg(library)]

#[path = "common/files.rs"]
mod files;
#[path = "common/folder.rs"]
mod folder;

use files::Files;
use folder::{program, Folder};
use reference::camrun::render;
use reference::cases::by_hand::{one, single};
use std::fs;
use std::path::{Path, PathBuf};

const RANDOM_CASES: u64 = 300;

/// The environment's CAMRUN, or the repository's target/bin/camrun.
fn camrun() -> PathBuf {
    program("CAMRUN", "camrun")
}

/// Compares what camrun prints for each case with what it should.
fn compare(name: &str, cases: impl Iterator<Item = Files>) {
    let (program, folder) = (camrun(), Folder::new(&format!("camrun-{name}")));
    for [lst, rep, out] in cases {
        let printed = folder.printed(&program, [Some(&lst), Some(&rep), Some(&out)]);
        assert!(
            printed == render(&lst, &rep, &out),
            "run.lst {lst:02X?}\nrun.rep {rep:02X?}\nrun.out {out:02X?}\n{printed}"
        );
    }
}

#[test]
fn random_cases() {
    compare("random", files::random(RANDOM_CASES));
}

#[test]
fn the_papers_cases() {
    compare("paper", files::papers());
}

#[test]
fn long_files() {
    compare("long", files::long());
}

/// A missing file is empty.
#[test]
fn missing_files() {
    let (program, folder) = (camrun(), Folder::new("camrun-missing"));
    let list = one(&single(0x0200_0102));
    let printed = folder.printed(&program, [Some(&list), None, None]);
    assert_eq!(printed, "admitted 1 2 0\nwaiting 0 0\n");
    let printed = folder.printed(&program, [None, None, None]);
    assert_eq!(printed, "refused 2 0\n");
}

/// What camrun prints for the three files of a folder of examples.
fn printed_for(example: &str) -> String {
    let files = Path::new(env!("CARGO_MANIFEST_DIR"))
        .join("../../examples")
        .join(example);
    let read = |name| fs::read(files.join(name)).expect("a file of the example");
    let (lst, rep, out) = (read("run.lst"), read("run.rep"), read("run.out"));
    Folder::new(&format!("camrun-{example}"))
        .printed(&camrun(), [Some(&lst), Some(&rep), Some(&out)])
}

/// The worked case as examples/first has it.
#[test]
fn first_example() {
    assert_eq!(
        printed_for("first"),
        "admitted 1 2 0\nop 1 1 1 0 0\nend 0 00000080 1 2\n"
    );
}

/// Enhanced blocks and the list sequencer as examples/enhanced has them, in crate 3: three
/// 16-bit samples of N 6, F 2; two 24-bit words of the sequencer's list 0, the second with
/// Q = 0; one 16-bit word in repeat, there on its second try; two 16-bit words for list 2.
#[test]
fn enhanced_example() {
    let printed = [
        "admitted 10 18 4",
        "op 1 3 6 0 2",
        "op 2 3 6 0 2",
        "op 3 3 6 0 2",
        "op 4 3 30 0 12",
        "op 5 3 30 0 12",
        "op 6 3 9 1 0",
        "op 7 3 9 1 0",
        "op 8 3 30 2 12",
        "op 9 3 30 2 12",
        "end 0 00010080 9 18",
    ];
    assert_eq!(printed_for("enhanced"), printed.join("\n") + "\n");
}
