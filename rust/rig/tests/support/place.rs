//! A place with the script ./bench and the proved program, where the script can be run in every way, and where what it
//! has started can be seen.

use std::fs::{self, File};
use std::io::{BufRead, BufReader, Read};
use std::os::unix::process::CommandExt;
use std::path::{Path, PathBuf};
use std::process::{Child, Command, Output, Stdio};
use std::sync::mpsc::{channel, RecvTimeoutError};
use std::thread;

use super::common::{eventually, scratch, send_signal, PATIENCE, SIGTERM};

/// Stands in for rt. `rt run`, in the folder of the crate, takes as long as there is no file `go`, with two processes that
/// do not heed Ctrl-C, and succeeds unless there is a file `wrong`.
const STAND_IN: &str = r#"#!/bin/sh
[ "$1" = run ] || exec "$REAL_RT" "$@"
cd ../..
echo called >>target/calls
echo 'fn slices::least: proved'
echo 'crate slices: modules loaded=0 checked=33'
echo 'logic=proved functions=1'
echo 'rt: slices proved (5 s)'
(trap '' INT; while [ ! -e go ]; do sleep 0.05; done) &
(trap '' INT; while [ ! -e go ]; do sleep 0.05; done) &
wait
[ ! -e wrong ] || { echo 'rt: bench NOT PROVED (exit 1, 3 s)'; exit 1; }
echo 'rt: ok, 7 crates proved'
"#;

/// A place with the script and the proved program, and nothing to prove but an empty crate.
pub struct Place {
    directory: PathBuf,
    path: String,
    real: PathBuf,
}

/// Where rt is; without it the test is told as skipped.
fn rt(test: &str) -> Option<PathBuf> {
    let directories = std::env::var_os("PATH").unwrap_or_default();
    let found = std::env::split_paths(&directories).map(|path| path.join("rt"));
    let found = found.into_iter().find(|path| path.is_file());
    if found.is_none() {
        rig::tell(&format!(
            "skipped: {test} needs the Rattle kit's rt, which is not on this machine"
        ));
    }
    found
}

/// Puts a program in its place, by another process: one that this process had open to write could be open still in a
/// child of another test as it is started, and would then be busy.
fn install(from: &Path, to: &Path) {
    let done = Command::new("install").args(["-m", "755"]).args([from, to]).status().unwrap();
    assert!(done.success(), "{} was not put in its place", to.display());
}

impl Place {
    /// As it is after the first run.
    pub fn proved(test: &str) -> Option<Place> {
        let place = Place::unproved(test)?;
        File::create(place.file("target/bench.proved")).unwrap();
        Some(place)
    }

    /// As it is before the first run. It has no crates.txt: rt takes one below the top of a checkout for a mistake.
    pub fn unproved(test: &str) -> Option<Place> {
        let real = rt(test)?;
        let directory = scratch(&format!("bench_{test}"));
        for part in ["crates/bench/out", "target", "stand-in"] {
            fs::create_dir_all(directory.join(part)).unwrap();
        }
        let root = Path::new(env!("CARGO_MANIFEST_DIR")).join("../..");
        let program = match std::env::var_os("M25P_BENCH") {
            Some(path) => PathBuf::from(path),
            None => root.join("crates/bench/out/bench"),
        };
        assert!(
            program.is_file(),
            "There is no {}: run `rt run` in crates/bench.",
            program.display()
        );
        install(&program, &directory.join("crates/bench/out/bench"));
        install(&root.join("bench"), &directory.join("bench"));
        let text = directory.join("stand-in/text");
        fs::write(&text, STAND_IN).unwrap();
        install(&text, &directory.join("stand-in/rt"));
        let path = std::env::var("PATH").unwrap_or_default();
        let path = format!("{}:{path}", directory.join("stand-in").display());
        Some(Place { directory, path, real })
    }

    pub fn file(&self, name: &str) -> PathBuf {
        self.directory.join(name)
    }

    /// A shell command in the place, with a mark that all it starts inherits. A shell that is started in
    /// the background may have been told to ignore Ctrl-C, and could not heed it then.
    pub fn shell(&self, text: &str) -> Command {
        let mut command = Command::new("sh");
        unsafe {
            command.pre_exec(|| {
                [HUP, INT, QUIT].into_iter().for_each(reset_signal);
                Ok(())
            })
        };
        command.arg("-c").arg(text).current_dir(&self.directory).env("PATH", &self.path);
        command.env("REAL_RT", &self.real).env("BENCH_PLACE", &self.directory);
        command
    }

    /// Runs the shell command to its end on a file with these lines.
    pub fn run(&self, text: &str, lines: &str) -> Output {
        fs::write(self.file("lines"), lines).unwrap();
        self.shell(text).stdin(File::open(self.file("lines")).unwrap()).output().unwrap()
    }

    /// The script with a pipe at each end.
    pub fn start(&self) -> Child {
        let mut command = self.shell("exec ./bench");
        command.stdin(Stdio::piped()).stdout(Stdio::piped()).stderr(Stdio::piped());
        command.spawn().unwrap()
    }

    /// The processes that came of the script, by the mark in their environment.
    pub fn processes(&self) -> Vec<u32> {
        let mark = format!("BENCH_PLACE={}\0", self.directory.display());
        let number = |entry: fs::DirEntry| entry.file_name().to_str()?.parse().ok();
        let marked = |process: &u32| {
            let environment = fs::read(format!("/proc/{process}/environ")).unwrap_or_default();
            String::from_utf8_lossy(&environment).contains(&mark)
        };
        let all = fs::read_dir("/proc").unwrap().filter_map(Result::ok).filter_map(number);
        all.filter(marked).collect()
    }

    pub fn nothing_runs(&self) {
        assert_eq!(self.processes(), [], "nothing is left running");
    }
}

/// A test that fails may leave processes.
impl Drop for Place {
    fn drop(&mut self) {
        self.processes().into_iter().for_each(|process| send_signal(process, KILL));
    }
}

const HUP: i32 = 1;
const INT: i32 = 2;
const QUIT: i32 = 3;
const KILL: i32 = 9;

/// The signals that end a script, and the status it has then.
pub const ENDS: [(i32, i32); 4] = [(HUP, 129), (INT, 130), (QUIT, 131), (SIGTERM, 143)];

/// Gives a signal back its default effect.
fn reset_signal(number: i32) {
    extern "C" {
        fn signal(number: i32, handler: usize) -> usize;
    }
    unsafe { signal(number, 0) };
}

/// The status of a process that ends in time.
pub fn ended(child: &mut Child) -> Option<i32> {
    let mut status = None;
    eventually("the script ends", || {
        status = child.try_wait().unwrap();
        status.is_some()
    });
    status.unwrap().code()
}

/// Hands over one line after the other, each as soon as it is there; at the end none.
pub fn lines(stream: impl Read + Send + 'static) -> impl FnMut() -> Option<String> {
    let (sender, lines) = channel();
    let each = BufReader::new(stream).lines().map_while(Result::ok);
    thread::spawn(move || each.into_iter().try_for_each(|line| sender.send(line)));
    move || match lines.recv_timeout(PATIENCE) {
        Ok(line) => Some(line),
        Err(RecvTimeoutError::Disconnected) => None,
        Err(RecvTimeoutError::Timeout) => panic!("a line does not come in time"),
    }
}
