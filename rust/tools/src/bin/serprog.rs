//! M25P or M25PE chips on a bus for flashrom: speaks serprog on a loopback port until SIGINT or SIGTERM.

use std::io::{stderr, stdout, Write};
use std::process::ExitCode;
use std::sync::atomic::{AtomicBool, Ordering};

use tools::serprog::{Options, Server, USAGE};

static STOP: AtomicBool = AtomicBool::new(false);

const SIGINT: i32 = 2;
const SIGTERM: i32 = 15;

extern "C" {
    fn signal(number: i32, handler: extern "C" fn(i32)) -> usize;
}

extern "C" fn stop(_: i32) {
    STOP.store(true, Ordering::Relaxed);
}

// Standard output and error may be closed while the server runs: it goes on then.
fn say(text: &str) {
    let _ = writeln!(stdout(), "{text}");
}

fn complain(text: &str) {
    let _ = writeln!(stderr(), "{text}");
}

fn run() -> Result<(), String> {
    let options = Options::parse(std::env::args_os().skip(1))?;
    let mut server = Server::start(&options)?;
    if options.trace {
        server.trace(Box::new(stdout()));
    }
    if options.warn_missing {
        server.warn_missing(Box::new(stderr()));
    }
    if let Some(cycle) = options.cut_after {
        server.cut_after(cycle, options.seed, Box::new(stderr()));
    }
    // The handler only sets a flag, which is safe at any moment.
    for number in [SIGINT, SIGTERM] {
        unsafe { signal(number, stop) };
    }
    let address = server.address().map_err(|e| format!("The port is not known: {e}."))?;
    say(&format!("listening on {address}"));
    server.run(&STOP, complain)
}

fn main() -> ExitCode {
    if std::env::args_os().any(|word| word == "--help") {
        say(USAGE.trim_end());
        return ExitCode::SUCCESS;
    }
    match run() {
        Ok(()) => ExitCode::SUCCESS,
        Err(sentence) => {
            complain(&sentence);
            ExitCode::FAILURE
        }
    }
}
