//! A command as a program: what it prints, the sentence of what fails, and its exit status.

use std::ffi::OsString;
use std::io::{self, stderr, stdout, BufWriter, StdoutLock, Write};
use std::process::ExitCode;

/// Standard output; much may be printed.
pub type Out = BufWriter<StdoutLock<'static>>;

/// Why a command ends without success.
#[derive(Debug)]
pub enum Failure {
    /// What is to be said on standard error.
    Sentence(String),
    /// Nothing is to be said: whoever read the output has gone.
    Silent,
    /// All was done, and what was printed tells of something bad.
    Bad,
}

impl From<String> for Failure {
    fn from(sentence: String) -> Failure {
        Failure::Sentence(sentence)
    }
}

/// What becomes of an output that cannot be written.
impl From<io::Error> for Failure {
    fn from(error: io::Error) -> Failure {
        match error.kind() {
            io::ErrorKind::BrokenPipe => Failure::Silent,
            _ => Failure::Sentence(format!("Standard output cannot be written: {error}.")),
        }
    }
}

/// Prints the usage if it is asked for, else does what the words of this process ask for.
pub fn run(
    usage: &str,
    carry_out: impl FnOnce(Vec<OsString>, &mut Out) -> Result<(), Failure>,
) -> ExitCode {
    let words: Vec<OsString> = std::env::args_os().skip(1).collect();
    let mut out = BufWriter::with_capacity(1 << 16, stdout().lock());
    let done = match words.iter().any(|word| word == "--help") {
        true => writeln!(out, "{usage}").map_err(Failure::from),
        false => carry_out(words, &mut out),
    };
    // What was printed before a failure is seen before its sentence.
    let flushed = out.flush().map_err(Failure::from);
    let ended = match done {
        Err(Failure::Bad) => flushed.and(done),
        _ => done.and(flushed),
    };
    match ended {
        Ok(()) => ExitCode::SUCCESS,
        Err(Failure::Sentence(sentence)) => {
            let _ = writeln!(stderr(), "{sentence}");
            ExitCode::FAILURE
        }
        Err(Failure::Silent) => ExitCode::FAILURE,
        Err(Failure::Bad) => ExitCode::from(2),
    }
}
