//! Commands over the crate `m25p`: `pins` and `batch` carry out files, `report` tells what came of many, `image` keeps
//! arrays on a disk, and `serprog` is a chip for flashrom.

pub mod batch;
pub mod command;
pub mod contents;
pub mod image;
pub mod pins;
pub mod program;
mod progress;
pub mod replace;
pub mod report;
pub mod rng;
pub mod serprog;
pub mod vcd;
pub mod words;
