//! A command as a process, in a directory of the test's own.

use std::collections::BTreeMap;
use std::ffi::{OsStr, OsString};
use std::fs;
use std::io::Write;
use std::path::{Path, PathBuf};
use std::process::{Command, Output, Stdio};

use super::common::scratch;

pub struct Desk {
    /// The command, with its path.
    program: &'static str,
    directory: PathBuf,
}

impl Desk {
    pub fn new(program: &'static str, name: &str) -> Desk {
        let command = Path::new(program).file_name().unwrap().to_str().unwrap();
        Desk { program, directory: scratch(&format!("{command}_{name}")) }
    }

    pub fn path(&self, name: &str) -> PathBuf {
        self.directory.join(name)
    }

    pub fn put(&self, name: &str, bytes: impl AsRef<[u8]>) {
        fs::write(self.path(name), bytes).unwrap();
    }

    pub fn get(&self, name: &str) -> Vec<u8> {
        fs::read(self.path(name)).unwrap()
    }

    /// The command that runs a program in the directory.
    pub fn command(&self, program: &str, words: &[&str]) -> Command {
        let mut command = Command::new(program);
        command.args(words).current_dir(&self.directory);
        command
    }

    /// Runs the command with these words.
    pub fn run(&self, words: &[&str]) -> Output {
        self.command(self.program, words).output().unwrap()
    }

    /// Runs it with a text on standard input.
    pub fn fed(&self, words: &[&str], text: &[u8]) -> Output {
        let mut command = self.command(self.program, words);
        command.stdin(Stdio::piped()).stdout(Stdio::piped()).stderr(Stdio::piped());
        let mut child = command.spawn().unwrap();
        child.stdin.take().unwrap().write_all(text).unwrap();
        child.wait_with_output().unwrap()
    }

    /// The shell with a line in which $COMMAND stands for the command.
    pub fn shell(&self, line: &str) -> Command {
        let mut command = self.command("sh", &["-c", line]);
        command.env("COMMAND", self.program);
        command
    }

    /// What a command prints that does all it should.
    pub fn prints(&self, words: &[&str]) -> String {
        printed(self.run(words))
    }

    /// The sentence of a command that fails, prints just this and leaves every file as it was.
    pub fn refused(&self, words: &[&str], printed: &str) -> String {
        self.unchanged(|| failed(self.run(words), printed))
    }

    /// The same of a command that reads standard input.
    pub fn refused_fed(&self, words: &[&str], text: &[u8]) -> String {
        self.unchanged(|| failed(self.fed(words, text), ""))
    }

    /// Runs what makes and changes no file.
    pub fn unchanged(&self, run: impl FnOnce() -> String) -> String {
        let before = self.files();
        let sentence = run();
        assert!(self.files() == before, "a file was made or changed: {sentence}");
        sentence
    }

    /// Runs what makes or changes this file, and no other.
    pub fn makes<T>(&self, name: &str, run: impl FnOnce() -> T) -> T {
        let mut before = self.files();
        let done = run();
        let mut after = self.files();
        assert!(after.remove(OsStr::new(name)).flatten().is_some(), "there is no {name}");
        before.remove(OsStr::new(name));
        assert!(before == after, "another file than {name} was made or changed");
        done
    }

    /// Every file, with what it has.
    fn files(&self) -> BTreeMap<OsString, Option<Vec<u8>>> {
        let entries = fs::read_dir(&self.directory).unwrap().map(Result::unwrap);
        entries.map(|entry| (entry.file_name(), contents(&entry.path()))).collect()
    }
}

/// What a file has; whatever else is there has nothing.
fn contents(path: &Path) -> Option<Vec<u8>> {
    Some(path).filter(|path| path.is_file()).and_then(|path| fs::read(path).ok())
}

/// What was printed, and nothing else was said.
pub fn printed(output: Output) -> String {
    let complaint = String::from_utf8_lossy(&output.stderr);
    assert!(output.status.success() && complaint.is_empty(), "{:?}: {complaint}", output.status);
    String::from_utf8(output.stdout).unwrap()
}

/// What a command printed that found something bad, which has an exit status of its own and no sentence.
pub fn found(output: Output) -> String {
    let complaint = String::from_utf8_lossy(&output.stderr);
    assert!(output.status.code() == Some(2) && complaint.is_empty(), "{complaint}");
    String::from_utf8(output.stdout).unwrap()
}

/// The one sentence on standard error, without its newline; besides it just this was printed.
pub fn failed(output: Output, printed: &str) -> String {
    let sentence = String::from_utf8(output.stderr).unwrap();
    assert_eq!(output.status.code(), Some(1), "{sentence}");
    assert_eq!(String::from_utf8(output.stdout).unwrap(), printed, "{sentence}");
    assert!(sentence.lines().count() == 1 && sentence.ends_with(".\n"), "one sentence: {sentence}");
    sentence.trim_end().to_string()
}
