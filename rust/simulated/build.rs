//! Compiles the simulated crate, examples/crate/crate.c. Where the library that camlist links
//! is missing, the program `waveform` and its test are left out, and a warning says so; with
//! CAMLIST_REQUIRED in the environment that is an error.

use std::path::{Path, PathBuf};
use std::process::Command;
use std::{env, fs};

/// The symbol that camlist's build script looks for in the library.
const SYMBOL: &[u8] = b"camlist_demand_clear_v2";

const REQUIRED: &str = "CAMLIST_REQUIRED";

fn main() {
    let manifest = env::var_os("CARGO_MANIFEST_DIR").expect("cargo says where the crate is");
    let repository = PathBuf::from(manifest).join("../..");
    compile(&repository);
    let library = repository.join("target/staticlib/libhost.a");
    println!("cargo::rerun-if-changed={}", library.display());
    println!("cargo::rerun-if-env-changed={REQUIRED}");
    println!("cargo::rustc-check-cfg=cfg(library)");
    if has_symbol(&library) {
        println!("cargo::rustc-cfg=library");
        return;
    }
    let said = "target/staticlib/libhost.a is missing or of another version";
    match env::var_os(REQUIRED) {
        Some(_) => println!("cargo::error={said}"),
        None => println!("cargo::warning=the program waveform and its test are LEFT OUT: {said}"),
    }
}

fn has_symbol(library: &Path) -> bool {
    let bytes = fs::read(library).unwrap_or_default();
    bytes.windows(SYMBOL.len()).any(|some| some == SYMBOL)
}

/// Makes libsimulated_crate.a of the simulated crate.
fn compile(repository: &Path) {
    let out = PathBuf::from(env::var_os("OUT_DIR").expect("cargo says where to build"));
    let (folder, include) = (
        repository.join("examples/crate"),
        repository.join("include"),
    );
    let (object, archive) = (out.join("crate.o"), out.join("libsimulated_crate.a"));
    for source in [
        folder.join("crate.c"),
        folder.join("crate.h"),
        include.join("camlist.h"),
    ] {
        println!("cargo::rerun-if-changed={}", source.display());
    }
    println!("cargo::rerun-if-env-changed=CC");
    let compiler = env::var("CC").unwrap_or(String::from("cc"));
    let options = ["-std=c99", "-O1", "-fPIC", "-Wall", "-Wextra", "-c"];
    let mut compile = Command::new(compiler);
    compile
        .args(options)
        .arg("-I")
        .arg(include)
        .arg(folder.join("crate.c"));
    run(compile.arg("-o").arg(&object));
    let _ = fs::remove_file(&archive);
    run(Command::new("ar").arg("rcs").arg(&archive).arg(&object));
    println!("cargo::rustc-link-search=native={}", out.display());
    println!("cargo::rustc-link-lib=static=simulated_crate");
}

fn run(command: &mut Command) {
    let status = command.status();
    assert!(
        status.as_ref().is_ok_and(|status| status.success()),
        "{command:?}: {status:?}"
    );
}
