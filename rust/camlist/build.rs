//! Links the proved engine, target/staticlib/libhost.a of the repository. Where it is missing
//! the crate and its tests are left out, and a warning says so; with CAMLIST_REQUIRED in the
//! environment that is an error.

use std::path::{Path, PathBuf};
use std::{env, fs};

/// The newest of the symbols that this crate calls.
const SYMBOL: &[u8] = b"camlist_demand_clear_v2";

const REQUIRED: &str = "CAMLIST_REQUIRED";

fn main() {
    let manifest = env::var_os("CARGO_MANIFEST_DIR").expect("cargo says where the crate is");
    let folder = PathBuf::from(manifest).join("../../target/staticlib");
    let library = folder.join("libhost.a");
    println!("cargo::rerun-if-changed={}", library.display());
    println!("cargo::rerun-if-env-changed={REQUIRED}");
    println!("cargo::rustc-check-cfg=cfg(library)");
    if let Some(fault) = fault(&library) {
        let command = "run `tools/build host` in the repository's root";
        let said = format!("target/staticlib/libhost.a {fault}: {command}");
        match env::var_os(REQUIRED) {
            Some(_) => println!("cargo::error={said}"),
            None => println!("cargo::warning=camlist and its tests are LEFT OUT: {said}"),
        }
        return;
    }
    println!("cargo::rustc-cfg=library");
    println!("cargo::rustc-link-search=native={}", folder.display());
    println!("cargo::rustc-link-lib=static=host");
}

/// What is wrong with the library.
fn fault(library: &Path) -> Option<&'static str> {
    let Ok(bytes) = fs::read(library) else {
        return Some("is missing");
    };
    let has_symbol = bytes.windows(SYMBOL.len()).any(|some| some == SYMBOL);
    (!has_symbol).then_some("lacks a call, or is of another version")
}
