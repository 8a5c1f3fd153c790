//! Programs of others that read what a command writes, where they are on the machine.

use std::io::Write;
use std::process::{Command, Stdio};

/// Whether the program takes this on its standard input; none where there is no such program, which is told as skipped.
pub fn takes(program: &str, words: &[&str], input: &[u8]) -> Option<bool> {
    let mut command = Command::new(program);
    command.args(words).stdin(Stdio::piped()).stdout(Stdio::null()).stderr(Stdio::inherit());
    let Ok(mut child) = command.spawn() else {
        // Written past the test's capture, so that it is always seen.
        let _ = writeln!(std::io::stderr(), "{program}: skipped: it is not on this machine");
        return None;
    };
    child.stdin.take().unwrap().write_all(input).unwrap();
    Some(child.wait().unwrap().success())
}
