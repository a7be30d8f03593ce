//! Drives a simulated crate as a host drives an adapter: a digitizer is set up and its waveform
//! read, once operation by operation and once by rows of replies, and shown; then fewer samples
//! than asked, the crate's other modules, a crate that falls silent and is read again, and every
//! other way in which a run ends. Demands are kept while a list runs and served after it.
//!
//! With a path as its argument the program writes the waveform there as a picture. It prints
//! what `examples/c/waveform.c` prints.

#[cfg(library)]
mod host;
#[cfg(library)]
mod lists;
#[cfg(library)]
mod picture;
#[cfg(library)]
mod show;
#[cfg(library)]
mod words;

use std::process::ExitCode;

#[cfg(library)]
fn run() -> Result<(), Box<dyn std::error::Error>> {
    let event = lists::event(simulated::SAMPLES);
    let (ended, svg) = show::waveform(&event)?;
    if let Some(path) = std::env::args_os().nth(1) {
        std::fs::write(path, svg)?;
    }
    show::rows(&event, &ended)?;
    show::fewer()?;
    show::modules()?;
    show::silence(&event)?;
    show::endings()?;
    Ok(())
}

#[cfg(not(library))]
fn run() -> Result<(), Box<dyn std::error::Error>> {
    Err("built without the engine: run `tools/build host` in the repository's root".into())
}

fn main() -> ExitCode {
    match run() {
        Ok(()) => ExitCode::SUCCESS,
        Err(error) => {
            eprintln!("{error}");
            ExitCode::FAILURE
        }
    }
}
