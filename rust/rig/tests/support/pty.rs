//! A terminal for a program that is to be used as by a person: what is typed goes in, what is shown comes out.

use std::ffi::{c_char, c_int, c_ulong, CStr};
use std::fs::{File, OpenOptions};
use std::io::{Read, Write};
use std::os::fd::{AsRawFd, FromRawFd};
use std::os::unix::process::CommandExt;
use std::process::{Child, Command};
use std::sync::mpsc::{channel, Receiver};
use std::thread;
use std::time::Instant;

use super::common::PATIENCE;

extern "C" {
    fn posix_openpt(flags: c_int) -> c_int;
    fn grantpt(terminal: c_int) -> c_int;
    fn unlockpt(terminal: c_int) -> c_int;
    fn ptsname_r(terminal: c_int, name: *mut c_char, length: usize) -> c_int;
    fn setsid() -> c_int;
    fn ioctl(file: c_int, request: c_ulong, ...) -> c_int;
}

const READ_AND_WRITE: c_int = 0o2;
const NOT_CONTROLLING: c_int = 0o400;
const CLOSED_IN_CHILDREN: c_int = 0o2000000;
const BECOME_CONTROLLING: c_ulong = 0x540E;

pub const CTRL_C: &str = "\x03";
pub const CTRL_D: &str = "\x04";

/// A program on its terminal.
pub struct Seat {
    pub child: Child,
    keys: File,
    shown: Receiver<Vec<u8>>,
    text: String,
}

/// The terminal's two sides: the person's and the program's.
fn sides() -> (File, File) {
    let mut name = [0; 128];
    let person = unsafe {
        let person = posix_openpt(READ_AND_WRITE | NOT_CONTROLLING | CLOSED_IN_CHILDREN);
        assert!(person >= 0 && grantpt(person) == 0 && unlockpt(person) == 0, "a terminal");
        assert_eq!(ptsname_r(person, name.as_mut_ptr(), name.len()), 0, "its name");
        File::from_raw_fd(person)
    };
    let name = unsafe { CStr::from_ptr(name.as_ptr()) }.to_str().unwrap();
    (person, OpenOptions::new().read(true).write(true).open(name).unwrap())
}

impl Seat {
    /// Starts the program as the foreground of a terminal of its own.
    pub fn start(mut command: Command) -> Seat {
        let (keys, program) = sides();
        let side = || program.try_clone().unwrap();
        command.stdin(side()).stdout(side()).stderr(side());
        let terminal = program.as_raw_fd();
        // Only calls that are safe between fork and exec.
        unsafe {
            command.pre_exec(move || {
                setsid();
                ioctl(terminal, BECOME_CONTROLLING, 0);
                Ok(())
            });
        }
        let child = command.spawn().unwrap();
        let (sender, shown) = channel();
        let mut screen = keys.try_clone().unwrap();
        thread::spawn(move || {
            let mut piece = [0; 4_096];
            while let Ok(length @ 1..) = screen.read(&mut piece) {
                if sender.send(piece[..length].to_vec()).is_err() {
                    return;
                }
            }
        });
        Seat { child, keys, shown, text: String::new() }
    }

    pub fn types(&mut self, keys: &str) {
        self.keys.write_all(keys.as_bytes()).unwrap();
    }

    /// Waits until the text is on the screen, behind what was waited for before.
    pub fn sees(&mut self, text: &str) {
        let end = Instant::now() + PATIENCE;
        loop {
            if let Some(at) = self.text.find(text) {
                self.text.drain(..at + text.len());
                return;
            }
            let left = end.saturating_duration_since(Instant::now());
            let piece = self.shown.recv_timeout(left);
            let piece = piece.unwrap_or_else(|_| panic!("no {text:?} behind {:?}", self.text));
            self.text += &String::from_utf8_lossy(&piece);
        }
    }
    /// All that is shown until the program ends, behind what was waited for before.
    pub fn sees_to_the_end(&mut self) -> String {
        let end = Instant::now() + PATIENCE;
        while let Ok(piece) = self.shown.recv_timeout(end.saturating_duration_since(Instant::now()))
        {
            self.text += &String::from_utf8_lossy(&piece);
        }
        assert!(Instant::now() < end, "no end behind {:?}", self.text);
        std::mem::take(&mut self.text)
    }
}
