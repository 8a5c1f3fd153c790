//! Images from C: the calls at their limits, with guards around every slice, and the program in docs/C-CALLS.md.

#[path = "support/c.rs"]
mod c;

use c::{page_prints, prints};

/// Every part and its blocks.
const PARTS: [(&str, usize); 7] = [
    ("bench", 9),
    ("M25P10-A", 261),
    ("M25P40", 1_041),
    ("M25P32", 8_323),
    ("M25P128", 33_289),
    ("older M25P10-A", 261),
    ("M25PE40", 1_041),
];

/// What is printed of a part with so many blocks.
fn part(name: &str, blocks: usize) -> String {
    let calls = [
        ("write", 0, 0),
        ("read", 0, 0),
        ("read, the last is bad", 33, blocks - 1),
        ("salvage, all are good", 0, 0),
        ("salvage, four are bad", 0, 4),
        ("salvage again", 0, 0),
        ("salvage, all are bad", 0, blocks),
    ];
    let calls =
        calls.map(|(call, answer, blocks)| format!("{call}: {answer} 0 {blocks} 0\nas due\n"));
    format!("{name}: {blocks} {} {}\n{}", blocks * 512, blocks * 8, calls.concat())
}

/// The first ten bytes of blocks 0, 1, 2 and 8, and their bytes 71 and 72, between which the filling begins in the last.
const BYTES: &str = "\
write: 0 0 0 0
00 00 00 00 00 00 00 00 00 00 00 00
01 00 00 00 01 00 F8 01 00 00 00 00
02 00 00 00 82 00 F0 FF 80 00 00 00
08 00 00 00 50 B6 C4 90 00 00 00 FF
";

/// The bytes of a block that are spoiled, each in another block.
const SPOILED: [usize; 13] = [0, 1, 2, 3, 4, 5, 6, 7, 8, 255, 256, 510, 511];

const OTHERS: &str = "\
read: 33 0 3 0
as due
salvage: 0 0 3 0
as due
read, filled up with 00: 0 0 0 0
as due
salvage, filled up with 00: 0 0 0 0
as due
salvage, one more than its sums: 0 0 1 0
as due
";

/// What is refused, and with which answers.
const REFUSED: [(&str, &str); 31] = [
    ("part 7, all else wrong", "31 31 31"),
    ("part 7", "31 31 31"),
    ("part 8", "31 31 31"),
    ("part 255", "31 31 31"),
    ("part 256", "31 31 31"),
    ("part 65536", "31 31 31"),
    ("part 2^31", "31 31 31"),
    ("part 2^32-1", "31 31 31"),
    ("part 258, another's lengths", "31 31 31"),
    ("part 1", "32 32 32"),
    ("part 2", "32 32 32"),
    ("part 3", "32 32 32"),
    ("part 4", "32 32 32"),
    ("part 5", "32 32 32"),
    ("part 6", "32 32 32"),
    ("no image, all else wrong", "32 32 32"),
    ("image of a byte less, all else wrong", "32 32 32"),
    ("image of a byte less", "32 32 32"),
    ("image of a byte more", "32 32 32"),
    ("image of a block less", "32 32 32"),
    ("image of a block more", "32 32 32"),
    ("no array", "2 2"),
    ("array of a byte less", "2 2"),
    ("array of a byte more", "2 2"),
    ("array as long as the image", "2 2"),
    ("a bad block", "33"),
    ("no list", "34"),
    ("list of one place", "34"),
    ("list of 9 bytes", "34"),
    ("list of a place less", "34"),
    ("list of a byte less", "34"),
];

/// Empty slices, one at a time and then both.
const EMPTY: [(&str, u8); 6] = [
    ("write, array", 2),
    ("write, image", 32),
    ("read, image", 32),
    ("read, array", 2),
    ("salvage, image", 32),
    ("salvage, list", 34),
];

const BOTH: &str = "\
write, both: 32 0 0 0
read, both: 32 0 0 0
salvage, both: 32 0 0 0
salvage, both, part 7: 31 0 0 0
";

const BEYOND: &str = "\
lengths beyond 32 bits
image: 32 0 0 0
image: 32 0 0 0
image: 32 0 0 0
array: 2 0 0 0
array: 2 0 0 0
list: 0 0 1 0
2 2 C3
list: 0 0 1 0
2 2 C3
";

const FENCES: &str = "\
fences
write: 0 0 0 0
write, refused: 2 0 0 0
salvage: 0 0 2 0
read: 0 0 0 0
read, refused: 2 0 0 0
salvage, refused: 34 0 0 0
salvage, refused: 32 0 0 0
read, a bad block: 33 0 0 0
";

#[test]
fn limits() {
    let parts = PARTS.map(|(name, blocks)| part(name, blocks)).concat();
    let bad = SPOILED.iter().enumerate().map(|(i, byte)| {
        format!("read, byte {byte}: 33 0 {} 0\nas due\nsalvage: 0 0 1 0\nas due\n", i % 9)
    });
    let bad: String = bad.collect();
    let list = |bytes, bad| format!("{bytes} bytes, {bad} bad: 0 0 {bad} 0\nas due\n");
    let lists = [72, 73, 79, 80, 4_096].map(|bytes| list(bytes, 1) + &list(bytes, 9)).concat();
    let refused = REFUSED.map(|(name, answers)| format!("{name}: {answers}\nas due\n")).concat();
    let empty = EMPTY.map(|(name, answer)| format!("{name}: {answer} 0 0 0\nas due\n")).concat();
    let empty =
        ["an address", "NULL"].map(|kind| format!("empty slices, {kind}\n{empty}{BOTH}")).concat();
    let contents = format!("{parts}bytes\n{BYTES}bad blocks\n{bad}other blocks\n{OTHERS}");
    let limits = format!("lists\n{lists}refusals\n{refused}{empty}{BEYOND}{FENCES}");
    prints("-std=c99", "rust/rig/c/image.c", &(contents + &limits));
}

/// The program of the page is built and prints what the page says.
#[test]
fn program_of_the_page() {
    let lines = [
        "write: 0",
        "read: 33, block 2",
        "salvage: 0, blocks changed: 2",
        "block 2, number",
        "block 5, sums",
        "read: 0, bytes lost: 1008",
    ];
    page_prints("Chip images", &lines);
}
