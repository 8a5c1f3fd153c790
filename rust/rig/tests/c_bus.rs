//! Several chips on one bus, from C: the calls at their limits, with guards around every slice, and the program in
//! docs/C-CALLS.md.

#[path = "support/c.rs"]
mod c;

use c::{page_prints, prints};

/// What is refused, and with which answers: of the transaction, of the wait, or of both.
const REFUSED: [(&str, &str); 47] = [
    ("row of a byte, all else wrong", "8 8"),
    ("row of 303 bytes", "8 8"),
    ("row of 305 bytes", "8 8"),
    ("row of a byte less", "8 8"),
    ("row of a byte more", "8 8"),
    ("nine records and a byte", "8 8"),
    ("no record, all else wrong", "51 51"),
    ("no record", "51 51"),
    ("nine records, all else wrong", "51 51"),
    ("nine records", "51 51"),
    ("256 records", "51 51"),
    ("259 records", "51 51"),
    ("chip 3, all else wrong", "52"),
    ("chip 3", "52"),
    ("chip 255", "52"),
    ("chip 256", "52"),
    ("chip 257", "52"),
    ("chip 65536", "52"),
    ("chip 2^31", "52"),
    ("chip 2^32-1", "52"),
    ("chip 1 of one", "52"),
    ("chip 256 of one", "52"),
    ("a bad record, all else wrong", "6 6"),
    ("a bad record 0, chip 0", "6 6"),
    ("a bad record 0, chip 1", "6 6"),
    ("a bad record 0, chip 2", "6 6"),
    ("a bad record 1, chip 0", "6 6"),
    ("a bad record 1, chip 1", "6 6"),
    ("a bad record 1, chip 2", "6 6"),
    ("a bad record 2, chip 0", "6 6"),
    ("a bad record 2, chip 1", "6 6"),
    ("a bad record 2, chip 2", "6 6"),
    ("array, all else wrong", "53 53"),
    ("no array", "53 53"),
    ("array of a byte less", "53 53"),
    ("array of a byte more", "53 53"),
    ("array of the chip alone", "53 53"),
    ("array of one chip less", "53 53"),
    ("array of one chip more", "53 53"),
    ("array of three for one chip", "53 53"),
    ("65537 bytes, all else wrong", "3"),
    ("65537 bytes", "3"),
    ("8 pulses, no response", "4"),
    ("256 pulses", "4"),
    ("2^32-1 pulses", "4"),
    ("no response", "5"),
    ("response of a byte less", "5"),
];

/// The modes are those of the three chips, each with its first two bytes.
const TRANSACTIONS: &str = "\
transactions
WREN: 0 0 0 0
as due
WREN, busy: 12 0 0 0
as due
WREN, a pulse more: 15 0 0 0
as due
RDSR: 0 1 2 0
as due
RDSR: 0 1 2 0
as due
FF 02 02 C3
READ that rolls over: 0 4 3 0
as due
FF FF 00
PP: 0 0 0 8
as due
PP, busy: 12 0 0 0
as due
nothing: 11 0 0 0
as due
1 FF 00, 1 FF 00, 1 FF 00
";

const WAITS: &str = "\
waits
WREN: 0 0 0 0
as due
BE: 0 0 0 0
as due
0 ticks: 0 0 0 0
as due
2 ticks: 0 0 0 0
as due
1 FF 00, 1 FF 00, 1 FF 00
3 ticks: 0 0 0 0
as due
0 5A 00, 1 FF 00, 0 5A 00
24 ticks: 0 0 0 0
as due
RDSR: 0 1 1 0
as due
01
power-up: 0 0 0 0
0 5A 00, 0 FF FF, 0 5A 00
2^32-1 ticks: 0 0 0 0
as due
eight chips
WREN, chip 7: 0 0 0 0
as due
WREN, chip 8: 52 0 0 0
wait: 0 0 0 0
as due
";

/// Empty slices, one at a time.
const EMPTY: [(&str, u8); 6] = [
    ("row", 51),
    ("array", 53),
    ("sent", 11),
    ("response", 5),
    ("wait, row", 51),
    ("wait, array", 53),
];

const BEYOND: &str = "\
lengths beyond 32 bits
row: 8 0 0 0
wait: 8 0 0 0
as due
row: 51 0 0 0
wait: 51 0 0 0
as due
array: 53 0 0 0
wait: 53 0 0 0
as due
sent: 3 0 0 0
as due
response: 0 0 0 0
FF 0
";

const FENCES: &str = "\
fences
WREN: 0 0 0 0
refused: 52 0 0 0
refused: 53 0 0 0
refused: 5 0 0 0
wait, refused: 53 0 0 0
neighbours that can't be read
WREN: 0 0 0 0
PP: 0 0 0 0
wait: 0 0 0 0
READ: 0 4 2 0
5A FF
";

#[test]
fn limits() {
    let refused = REFUSED.map(|(name, answers)| format!("{name}: {answers}\nas due\n")).concat();
    let empty = EMPTY.map(|(name, answer)| format!("{name}: {answer} 0 0 0\nas due\n")).concat();
    let all = "all: 51 0 0 0\nwait, all: 51 0 0 0\n";
    let empty =
        ["an address", "NULL"].map(|kind| format!("empty slices, {kind}\n{empty}{all}")).concat();
    let expected = format!("refusals\n{refused}{TRANSACTIONS}{WAITS}{empty}{BEYOND}{FENCES}");
    prints("-std=c99", "rust/rig/c/bus.c", &expected);
}

/// The program of the page is built and prints what the page says.
#[test]
fn program_of_the_page() {
    let lines = ["chip 0: 0", "chip 1: 0", "before: FF FF", "wait: 0, 5A 3C", "chip 2: 52"];
    page_prints("Several chips on one bus", &lines);
}
