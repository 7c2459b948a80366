//! Instructions, counted by valgrind: they are the same in every run, however
//! busy the machine is.

use std::fs::File;
use std::path::Path;
use std::process::{Command, Stdio};

/// The instructions of one function and what it calls, in a run of a program.
pub fn instructions_in(function: &str, program: &Path, words: &[&str]) -> Option<f64> {
    let toggle = format!("--toggle-collect={function}");
    collected(callgrind().arg(toggle).arg(program).args(words))
}

/// The instructions of a whole run of a program, its loading included.
pub fn instructions_of(program: &Path, input: &Path) -> Option<f64> {
    let input = File::open(input).ok()?;
    collected(callgrind().arg(program).stdin(input))
}

/// With no environment, since its size is in the count: the loader goes over it,
/// and it moves the stack, on which a copy then takes other steps. Without a PATH
/// valgrind is sought in /bin and /usr/bin.
fn callgrind() -> Command {
    let mut command = Command::new("valgrind");
    command.env_clear().args(["--tool=callgrind", "--callgrind-out-file=/dev/null"]);
    command
}

/// The number behind the word Collected in what valgrind says.
fn collected(command: &mut Command) -> Option<f64> {
    let output = command.stdout(Stdio::null()).output().ok()?;
    let said = String::from_utf8_lossy(&output.stderr);
    said.split("Collected :").nth(1)?.split_whitespace().next()?.parse().ok()
}
