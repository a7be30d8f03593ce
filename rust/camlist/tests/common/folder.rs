//! The kit's programs, which read run.lst, run.rep and run.out in their folder.

use std::path::{Path, PathBuf};
use std::process::Command;
use std::{env, fs, process};

/// A program: the one that the environment names, or that of the repository's target/bin.
pub fn program(variable: &str, name: &str) -> PathBuf {
    let bin = Path::new(env!("CARGO_MANIFEST_DIR")).join("../../target/bin");
    let program = env::var_os(variable).map_or(bin.join(name), PathBuf::from);
    let place = program.display();
    match program.canonicalize() {
        Ok(program) => program,
        Err(_) => panic!(
            "{place} is missing: run `tools/build {name}` in the repository's root, or set {variable}"
        ),
    }
}

/// A folder that is removed in the end.
pub struct Folder(PathBuf);

impl Folder {
    pub fn new(name: &str) -> Folder {
        let folder = env::temp_dir().join(format!("camlist-{name}-{}", process::id()));
        fs::create_dir(&folder).expect("a temporary folder");
        Folder(folder)
    }

    /// What a program prints in the folder, given its three files; `None` leaves one out.
    pub fn printed(&self, program: &Path, files: [Option<&[u8]>; 3]) -> String {
        for (name, bytes) in ["run.lst", "run.rep", "run.out"].iter().zip(files) {
            let path = self.0.join(name);
            match bytes {
                Some(bytes) => fs::write(path, bytes).expect("a file"),
                None => drop(fs::remove_file(path)),
            }
        }
        let output = Command::new(program).current_dir(&self.0).output();
        let output = output.expect("the program runs");
        assert!(output.status.success(), "{:?}", output.status);
        String::from_utf8(output.stdout).expect("text")
    }
}

impl Drop for Folder {
    fn drop(&mut self) {
        let _ = fs::remove_dir_all(&self.0);
    }
}
