//! Which instructions the library runs doesn't depend on a mark's remainder modulo 4:
//! tests/c/trace.c records them.

#![cfg(library)]
#![cfg(all(target_arch = "x86_64", target_os = "linux"))]

#[path = "common/program.rs"]
mod program;

use program::program;
use std::process::Command;

/// The program has fixed addresses, which `objdump -d` shows, and a memset of its own.
#[test]
fn no_branch_on_a_remainder() {
    let program = program("trace", &["-no-pie", "-Wl,--wrap=memset"]);
    let output = Command::new(program).output().expect("the program runs");
    let printed = String::from_utf8_lossy(&output.stdout);
    assert!(output.status.success(), "{}\n{printed}", output.status);
}
