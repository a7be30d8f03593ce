//! The C programs of these tests.

use std::env;
use std::path::{Path, PathBuf};
use std::process::Command;

const WARNINGS: [&str; 4] = ["-Wall", "-Wextra", "-Wpedantic", "-Werror"];

/// Builds tests/c/NAME.c with the library, with more options for the compiler.
pub fn program(name: &str, options: &[&str]) -> PathBuf {
    let tests = Path::new(env!("CARGO_MANIFEST_DIR")).join("tests/c");
    let repository = Path::new(env!("CARGO_MANIFEST_DIR")).join("../..");
    let program = Path::new(env!("CARGO_TARGET_TMPDIR")).join(name);
    let compiler = env::var("CC").unwrap_or(String::from("cc"));
    let built = Command::new(compiler)
        .args(["-std=c99", "-O1"])
        .args(WARNINGS)
        .args(options)
        .arg("-I")
        .arg(repository.join("include"))
        .arg(tests.join(name).with_extension("c"))
        .arg(repository.join("target/staticlib/libhost.a"))
        .arg("-o")
        .arg(&program)
        .output()
        .expect("a C compiler");
    let said = String::from_utf8_lossy(&built.stderr);
    assert!(built.status.success(), "{said}");
    program
}
