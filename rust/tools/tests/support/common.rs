//! What tests of programs share: waiting for a bounded time, signals, and a directory for a test's files.

use std::fs;
use std::path::PathBuf;
use std::thread;
use std::time::{Duration, Instant};

/// The longest that a test waits for anything.
pub const PATIENCE: Duration = Duration::from_secs(30);

pub const SIGTERM: i32 = 15;

pub fn send_signal(process: u32, signal: i32) {
    extern "C" {
        fn kill(process: i32, signal: i32) -> i32;
    }
    unsafe { kill(process as i32, signal) };
}

/// Looks again and again, for a bounded time.
pub fn eventually(what: &str, mut seen: impl FnMut() -> bool) {
    let end = Instant::now() + PATIENCE;
    while !seen() {
        assert!(Instant::now() < end, "not in time: {what}");
        thread::sleep(Duration::from_millis(5));
    }
}

/// An empty directory of the test's own.
pub fn scratch(name: &str) -> PathBuf {
    let directory = PathBuf::from(env!("CARGO_TARGET_TMPDIR")).join(name);
    let _ = fs::remove_dir_all(&directory);
    fs::create_dir_all(&directory).unwrap();
    directory
}
