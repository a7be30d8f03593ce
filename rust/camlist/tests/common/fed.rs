//! A program that takes its standard input.

use std::io::Write;
use std::path::PathBuf;
use std::process::{Command, Stdio};

/// What a program prints for an input.
pub fn printed(program: PathBuf, input: Vec<u8>) -> String {
    let mut running = Command::new(program)
        .stdin(Stdio::piped())
        .stdout(Stdio::piped())
        .spawn()
        .expect("the program runs");
    let mut stdin = running.stdin.take().expect("its input");
    let writer = std::thread::spawn(move || stdin.write_all(&input));
    let output = running.wait_with_output().expect("the program ends");
    writer.join().expect("a thread").expect("its input taken");
    assert!(output.status.success(), "{}", output.status);
    String::from_utf8(output.stdout).expect("text")
}
