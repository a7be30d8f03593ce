//! Prints the crate `equations` anew. Without a word it prints the files; with `write` it writes
//! them in their places; with `classes` it prints how often each class is met.

use std::path::Path;

use reference::equations::{all, classes::Met, met, modules, print};

fn main() {
    let modules = modules();
    let files = print::files(&modules);
    match std::env::args().nth(1).as_deref() {
        Some("write") => write(&files),
        Some("classes") => print!("{}", met(&modules).table()),
        _ => files
            .iter()
            .for_each(|(path, text)| println!("-- {path}\n{text}")),
    }
    for module in &modules {
        eprintln!("{:>6} {}", module.equations().count(), module.name);
    }
    eprintln!("{:>6} equations", all(&modules).count());
    let expected = Met::expecting().missing().len();
    let missing = met(&modules).missing();
    eprintln!("{expected:>6} classes; not met: {missing:?}");
}

fn write(files: &[(String, String)]) {
    let root = Path::new(env!("CARGO_MANIFEST_DIR")).join("../..");
    for (path, text) in files {
        std::fs::write(root.join(path), text).expect("a file that can be written");
    }
}
