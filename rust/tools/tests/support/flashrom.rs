//! flashrom itself, where it is on the machine: in PATH or in an sbin directory, or the one that FLASHROM names.

use std::ffi::OsString;
use std::fs::{self, File};
use std::io::Write;
use std::path::{Path, PathBuf};
use std::process::{Command, Stdio};
use std::thread;
use std::time::{Duration, Instant};

/// The longest that one run of flashrom may take.
const PATIENCE: Duration = Duration::from_secs(300);

/// Written past the test's capture, so that it is always seen.
pub fn tell(text: &str) {
    let _ = writeln!(std::io::stderr(), "flashrom: {text}");
}

/// Where flashrom is; without it the test is told as skipped.
pub fn find(test: &str) -> Option<PathBuf> {
    if let Some(path) = std::env::var_os("FLASHROM") {
        return Some(PathBuf::from(path));
    }
    let mut directories = std::env::var_os("PATH").unwrap_or_default();
    directories.push(OsString::from(":/usr/local/sbin:/usr/sbin:/sbin"));
    let mut files = std::env::split_paths(&directories).map(|path| path.join("flashrom"));
    let found = files.find(|path| path.is_file());
    if found.is_none() {
        tell(&format!("skipped: {test} needs flashrom, which is not on this machine"));
    }
    found
}

/// A flashrom that talks to the server on this port, and a directory for what it says.
pub struct Flashrom {
    pub program: PathBuf,
    pub directory: PathBuf,
    pub port: u16,
}

impl Flashrom {
    /// Runs flashrom: whether it succeeded, and what it said. It waits only milliseconds for the answers
    /// by which it finds its step; on a busy machine it may miss one, gives up before its first real
    /// command, and is started again.
    pub fn run(&self, words: &[&str], file: Option<&Path>) -> (bool, String) {
        let mut tries = 3;
        loop {
            let (fine, said) = self.once(words, file);
            tries -= 1;
            let out_of_step =
                said.contains("query interface version") || said.contains("cannot synchronize");
            if fine || !out_of_step || tries == 0 {
                return (fine, said);
            }
        }
    }

    /// One start of flashrom.
    fn once(&self, words: &[&str], file: Option<&Path>) -> (bool, String) {
        let log = self.directory.join("log.txt");
        let said = File::create(&log).unwrap();
        let mut command = Command::new(&self.program);
        command.arg("-p").arg(format!("serprog:ip=127.0.0.1:{}", self.port));
        command.args(words).args(file).stdin(Stdio::null());
        command.stdout(said.try_clone().unwrap()).stderr(said);
        let mut child = command.spawn().expect("flashrom starts");
        let end = Instant::now() + PATIENCE;
        let status = loop {
            if let Some(status) = child.try_wait().unwrap() {
                break status;
            }
            if Instant::now() > end {
                child.kill().unwrap();
            }
            thread::sleep(Duration::from_millis(5));
        };
        (status.success(), String::from_utf8_lossy(&fs::read(&log).unwrap()).into_owned())
    }

    pub fn succeed(&self, words: &[&str], file: Option<&Path>) -> String {
        let (fine, said) = self.run(words, file);
        assert!(fine, "flashrom {words:?}:\n{said}");
        said
    }

    /// Writes an image to the chip; flashrom verifies it by itself.
    pub fn write(&self, part: &str, contents: &[u8]) -> (bool, String) {
        let file = self.directory.join("written.bin");
        fs::write(&file, contents).unwrap();
        self.run(&["-c", part, "-w"], Some(&file))
    }
}
