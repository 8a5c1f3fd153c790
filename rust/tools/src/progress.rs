//! A line on standard error that says which step goes on, where that is a terminal; it is erased at the end.

use std::io::{stderr, IsTerminal, Write};

/// The line, for as long as it is there.
pub struct Progress {
    terminal: bool,
    /// How wide the line is so far.
    width: usize,
}

impl Progress {
    /// Nothing is shown yet.
    pub fn new() -> Progress {
        Progress { terminal: stderr().is_terminal(), width: 0 }
    }

    /// From now on this goes on.
    pub fn step(&mut self, text: &str) {
        if self.terminal {
            let _ = write!(stderr(), "\r{text:width$}", width = self.width);
            self.width = self.width.max(text.len());
        }
    }

    /// Nothing is shown until the next step.
    pub fn clear(&mut self) {
        if self.width > 0 {
            let _ = write!(stderr(), "\r{:width$}\r", "", width = self.width);
            self.width = 0;
        }
    }
}

impl Drop for Progress {
    fn drop(&mut self) {
        self.clear();
    }
}
