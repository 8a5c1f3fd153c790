//! Batches from C: the call at its limits, with guards around every slice, and the program in docs/C-CALLS.md.

#[path = "support/c.rs"]
mod c;
#[path = "support/c_items.rs"]
mod c_items;

use c::{page_prints, prints};
use c_items::Last;

/// The sum of the bits missing: four of the day's, and none otherwise.
const MISSING: Last = Last {
    name: "missing",
    day: " 04 00 00 00 00 00 00 00",
    nothing: " 00 00 00 00 00 00 00 00",
    longest: " 00 00 00 00 00 00 00 00",
};

#[test]
fn limits() {
    prints("-std=c99", "rust/rig/c/batch.c", &c_items::limits(&MISSING));
}

/// The program of the page is built and prints what the page says.
#[test]
fn program_of_the_page() {
    page_prints("A batch", &["answers 0 0 0 0 0 0 0 0", "status 03, read 5A 3C, 4 bits missing"]);
}
