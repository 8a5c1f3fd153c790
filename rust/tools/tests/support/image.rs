//! The command `image` as a process.

#[path = "blocks.rs"]
pub mod blocks;
#[path = "common.rs"]
pub mod common;
#[path = "desk.rs"]
pub mod desk;

use blocks::{array, image_of};
use desk::Desk;
use m25p::Part;

/// The tasks that have a result, each with a good input from the desk with the bench part.
pub const TASKS: [[&str; 2]; 3] =
    [["write", "chip.bin"], ["read", "chip.img"], ["salvage", "chip.img"]];

pub fn desk_of(name: &str) -> Desk {
    Desk::new(env!("CARGO_BIN_EXE_image"), name)
}

/// A desk with contents of the bench part in both forms, and a file that is there already.
pub fn bench_desk(name: &str) -> Desk {
    let (desk, contents) = (desk_of(name), array(Part::Bench, 1));
    desk.put("chip.bin", &contents);
    desk.put("chip.img", image_of(&contents));
    desk.put("old", "what was there");
    desk
}
