//! A chip's contents as an image for the disk: makes it, reads it, checks it, and salvages a damaged one.

use std::process::ExitCode;

use tools::image::{carry_out, USAGE};

fn main() -> ExitCode {
    tools::program::run(USAGE, carry_out)
}
