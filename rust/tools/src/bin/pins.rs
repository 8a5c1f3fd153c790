//! Carries out a probe's file on a part as delivered: the output bytes, and a dump for a wave viewer.

use std::io::Write;
use std::process::ExitCode;

use tools::pins::{carry_out, USAGE};

fn main() -> ExitCode {
    tools::program::run(USAGE, |words, out| Ok(writeln!(out, "{}", carry_out(words)?)?))
}
