//! The program prints what its twin in C prints and writes the same picture.

#![cfg(library)]

use std::fs;
use std::path::{Path, PathBuf};
use std::process::{Command, Output};

const PROGRAM: &str = env!("CARGO_BIN_EXE_waveform");

fn expected(name: &str) -> String {
    let examples = Path::new(env!("CARGO_MANIFEST_DIR")).join("../../examples/c");
    fs::read_to_string(examples.join(name)).expect("an expected file")
}

fn picture(name: &str) -> PathBuf {
    Path::new(env!("CARGO_TARGET_TMPDIR")).join(name)
}

fn assert_printed(output: &Output) {
    let said = String::from_utf8_lossy(&output.stderr);
    assert!(output.status.success(), "{said}");
    let printed = String::from_utf8_lossy(&output.stdout);
    let expected = expected("waveform.expected");
    for (number, (line, wanted)) in printed.lines().zip(expected.lines()).enumerate() {
        assert_eq!(line, wanted, "line {}", number + 1);
    }
    assert_eq!(printed, expected);
}

#[test]
fn text_and_picture() {
    let path = picture("waveform.svg");
    let _ = fs::remove_file(&path);
    let output = Command::new(PROGRAM).arg(&path).output().expect("waveform");
    assert_printed(&output);
    let written = fs::read_to_string(&path).expect("a picture");
    assert_eq!(written, expected("waveform.svg"));
}

#[test]
fn text_alone() {
    assert_printed(&Command::new(PROGRAM).output().expect("waveform"));
}

#[test]
fn picture_that_cannot_be_written() {
    let path = picture("no-folder/waveform.svg");
    let output = Command::new(PROGRAM).arg(path).output().expect("waveform");
    assert!(!output.status.success() && !output.stderr.is_empty());
}

/// Both build scripts look for the same symbol in the library.
#[test]
fn symbol_of_the_build_scripts() {
    let symbol = |package: &str| {
        let path = Path::new(env!("CARGO_MANIFEST_DIR"))
            .join("..")
            .join(package);
        let script = fs::read_to_string(path.join("build.rs")).expect("a build script");
        let line = script.lines().find(|line| line.starts_with("const SYMBOL"));
        line.expect("a symbol").to_string()
    };
    assert_eq!(symbol("simulated"), symbol("camlist"));
}
