//! Reports from C: the call at its limits, with guards around every slice, every number at its own, and the program in
//! docs/C-CALLS.md.

#[path = "support/c.rs"]
mod c;
#[path = "support/c_items.rs"]
mod c_items;

use c::{page_prints, prints};
use c_items::Last;

/// What is added to which number, worked out by hand. In the day two status writes, two programs in sector 0, a READ of
/// two bytes, a status read of one and four write enables are executed, and 11, 15 and 18 are answered once each.
const TOTALS: Last = Last {
    name: "totals",
    day: " 1+2 2+2 3+1 5+1 6+4 256+10 267+1 271+1 274+1 288+3 289+2",
    nothing: "",
    longest: " 3+1 256+1 288+65531",
};

const REFUSED: &str = "\
moments
first: 71 0 0 0
all stayed
last: 71 0 0 0
all stayed
all: 71 0 0 0
all stayed
order
record_len: 8 0 0 0
all stayed
record: 6 0 0 0
all stayed
array_len: 2 0 0 0
all stayed
items: 9 0 0 0
all stayed
totals_len: 10 0 0 0
all stayed
totals: 71 0 0 0
all stayed
none: 0 0 0 0
";

const FENCES: &str = "\
refused: 9 0 0 0
refused: 10 0 0 0
refused: 71 0 0 0
";

/// A program in the last sector: 3 of four, 7 of eight, 63 of 64. Behind it a page write, which all but the M25PE40 do
/// not know.
const LAST_SECTORS: &str = "\
last sectors
bench: 0 0 0 0
totals 2+1 6+2 256+3 270+1 292+1
M25P40: 0 0 0 0
totals 2+1 6+2 256+3 270+1 296+1
M25P32: 0 0 0 0
totals 2+1 6+2 256+3 270+1 352+1
M25P128: 0 0 0 0
totals 2+1 6+2 256+3 270+1 352+1
M25PE40: 0 0 0 0
totals 2+1 6+2 10+1 256+4 296+1
";

#[test]
fn limits() {
    let day = format!("totals{}\n", TOTALS.day);
    let alike = c_items::limits(&TOTALS);
    let places = format!("places\n{}", "day: 0 0 0 0\nthe same\n".repeat(7));
    let sums = TOTALS.day.split_whitespace().map(|sum| sum.split_once('+').unwrap().0);
    let numbers: String = sums.map(|k| format!("number {k}: 71 0 0 0\nall stayed\n")).collect();
    let numbers = format!("limits of numbers\n{numbers}2^64 - 1: 353 of 353\n");
    let fences = format!("fences\nday: 0 0 0 0\n{day}{FENCES}");
    let expected = [&alike, &places, &numbers, REFUSED, &day, &fences, LAST_SECTORS].concat();
    prints("-std=c99", "rust/rig/c/report.c", &expected);
}

/// The program of the page is built and prints what the page says.
#[test]
fn program_of_the_page() {
    let lines = [
        "Monday: 0",
        "Tuesday: 9",
        "Wednesday: 0",
        "executed: 6, of which WREN: 2",
        "busy: 1, no latch: 1",
        "bytes driven: 3",
        "programs: 0 1 0 1",
    ];
    page_prints("A report", &lines);
}
