//! A report over many batch files on one part: what was executed, how the chip answered, and which sectors were
//! programmed how often.

use std::process::ExitCode;

use tools::report::{carry_out, USAGE};

fn main() -> ExitCode {
    tools::program::run(USAGE, carry_out)
}
