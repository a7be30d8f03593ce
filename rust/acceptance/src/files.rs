//! Files and folders, with errors that name them.

use std::fs;
use std::path::{Path, PathBuf};
use std::process;
use std::sync::atomic::{AtomicU32, Ordering};
use std::time::SystemTime;

fn named<T>(path: &Path, result: std::io::Result<T>) -> Result<T, String> {
    result.map_err(|e| format!("{}: {e}", path.display()))
}

pub fn read(path: &Path) -> Result<String, String> {
    named(path, fs::read_to_string(path))
}

/// Writes a file, and the folders above it.
pub fn write(path: &Path, text: &str) -> Result<(), String> {
    if let Some(folder) = path.parent() {
        named(folder, fs::create_dir_all(folder))?;
    }
    named(path, fs::write(path, text))
}

/// What a folder holds, in the order of the names.
pub fn entries(folder: &Path) -> Result<Vec<PathBuf>, String> {
    let mut found = Vec::new();
    for entry in named(folder, fs::read_dir(folder))? {
        found.push(named(folder, entry)?.path());
    }
    found.sort();
    Ok(found)
}

/// The files of a folder with this ending; none where there is no folder.
pub fn with_ending(folder: &Path, ending: &str) -> Result<Vec<PathBuf>, String> {
    if !folder.is_dir() {
        return Ok(Vec::new());
    }
    let mut found = entries(folder)?;
    found.retain(|path| path.is_file() && path.extension().is_some_and(|e| e == ending));
    Ok(found)
}

/// The same of the folders below it, too.
pub fn all_with_ending(folder: &Path, ending: &str) -> Result<Vec<PathBuf>, String> {
    let mut found = with_ending(folder, ending)?;
    if folder.is_dir() {
        for path in entries(folder)?.iter().filter(|path| path.is_dir()) {
            found.extend(all_with_ending(path, ending)?);
        }
    }
    Ok(found)
}

pub fn copy_folder(from: &Path, to: &Path) -> Result<(), String> {
    named(to, fs::create_dir_all(to))?;
    for path in entries(from)? {
        let target = to.join(path.file_name().unwrap_or_default());
        if path.is_dir() {
            copy_folder(&path, &target)?;
        } else {
            named(&path, fs::copy(&path, &target))?;
        }
    }
    Ok(())
}

/// The same, with the files under a second name where that can be.
pub fn link_folder(from: &Path, to: &Path) -> Result<(), String> {
    named(to, fs::create_dir_all(to))?;
    for path in entries(from)? {
        let target = to.join(path.file_name().unwrap_or_default());
        if path.is_dir() {
            link_folder(&path, &target)?;
        } else if fs::hard_link(&path, &target).is_err() {
            named(&path, fs::copy(&path, &target))?;
        }
    }
    Ok(())
}

/// When a file was last changed.
pub fn changed(path: &Path) -> Result<SystemTime, String> {
    named(path, fs::metadata(path).and_then(|data| data.modified()))
}

/// When a folder, or anything in it, was last changed; what `rt` makes, in folders `out`,
/// aside.
pub fn newest(folder: &Path) -> Result<SystemTime, String> {
    let mut last = changed(folder)?;
    let is_made = |path: &PathBuf| path.file_name().is_some_and(|name| name == "out");
    for path in entries(folder)?.into_iter().filter(|path| !is_made(path)) {
        let time = if path.is_dir() {
            newest(&path)?
        } else {
            changed(&path)?
        };
        last = last.max(time);
    }
    Ok(last)
}

/// A file's name without its ending.
pub fn stem(path: &Path) -> String {
    path.file_stem()
        .unwrap_or_default()
        .to_string_lossy()
        .into_owned()
}

/// A temporary folder, removed when the value goes.
pub struct Temporary {
    path: PathBuf,
}

impl Temporary {
    pub fn new() -> Result<Self, String> {
        static MADE: AtomicU32 = AtomicU32::new(0);
        let number = MADE.fetch_add(1, Ordering::Relaxed);
        let path = std::env::temp_dir().join(format!("acceptance-{}-{number}", process::id()));
        named(&path, fs::create_dir_all(&path))?;
        let path = named(&path, path.canonicalize())?;
        Ok(Temporary { path })
    }

    pub fn path(&self) -> &Path {
        &self.path
    }
}

impl Drop for Temporary {
    fn drop(&mut self) {
        let _ = fs::remove_dir_all(&self.path);
    }
}
