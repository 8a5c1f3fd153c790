//! What a person sees of a command at a terminal.

#[path = "../../../rig/tests/support/pty.rs"]
#[allow(dead_code)]
mod pty;

use super::common;
use super::desk::Desk;
use pty::Seat;

/// What a person sees of a line of the shell, and its exit status.
pub fn seen(desk: &Desk, line: &str) -> (String, Option<i32>) {
    let mut seat = Seat::start(desk.shell(line));
    let text = seat.sees_to_the_end();
    (text, seat.child.wait().unwrap().code())
}
