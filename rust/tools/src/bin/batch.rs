//! A day's transactions in one file: writes it from bench lines, lists it, and carries it out on a part.

use std::process::ExitCode;

use tools::batch::{carry_out, USAGE};

fn main() -> ExitCode {
    tools::program::run(USAGE, carry_out)
}
