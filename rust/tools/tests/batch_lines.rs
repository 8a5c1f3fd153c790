//! The lines that the command `batch` takes: those of the bench program but for its power-up, and no others.

#[path = "support/batch.rs"]
#[allow(dead_code)]
mod batch;

use batch::{bytes_of, desk_of};
use m25p::batch::Item;
use tools::batch::items_of;

const NEITHER: &str = "it is neither 'x W bits hex' nor 'w t'";
const SPACE: &str = "there is a space too many";
const CR: &str = "it ends with CR; a line ends with LF alone";
const COMMENT: &str = "a comment has no place in a batch";
const EMPTY: &str = "an empty line has no place in a batch";
const POWER_UP: &str = "a power-up (p) has no place in a batch";

/// Lines that have no place in a batch, and why.
const BAD: [(&str, &str); 51] = [
    ("", EMPTY),
    ("p", POWER_UP),
    ("# the night's programs", COMMENT),
    ("#", COMMENT),
    ("# two  spaces", COMMENT),
    (" ", SPACE),
    ("\t", NEITHER),
    ("\0", NEITHER),
    ("P", NEITHER),
    ("p p", NEITHER),
    ("p ", SPACE),
    ("p\r", CR),
    ("q", NEITHER),
    ("x", NEITHER),
    ("x 1", NEITHER),
    ("X 1 0 06", NEITHER),
    ("xx 1 0 06", NEITHER),
    ("x1 0 06", NEITHER),
    ("x\t1 0 06", NEITHER),
    ("x 1 0 06 06", NEITHER),
    ("x 1 0 06 // enable", NEITHER),
    ("x ", SPACE),
    ("x 1 ", SPACE),
    ("x 1 0 ", SPACE),
    ("x 1 0 06 ", SPACE),
    ("x  1 0 06", SPACE),
    ("x 1 0  06", SPACE),
    (" x 1 0 06", SPACE),
    ("x 1 0 06\r", CR),
    ("x 10 06", "W is 0 or 1, not 10"),
    ("x 2 0 06", "W is 0 or 1, not 2"),
    ("x 01 0 06", "W is 0 or 1, not 01"),
    ("x -1 0", "W is 0 or 1, not -1"),
    ("x / 0 06", "W is 0 or 1, not /"),
    ("x 1 8 06", "the further pulses are one digit, 0 to 7, not 8"),
    ("x 1 07 06", "the further pulses are one digit, 0 to 7, not 07"),
    ("x 1 0\t06", "the further pulses are one digit, 0 to 7, not 0\\t06"),
    ("x 1 06", "the further pulses are one digit, 0 to 7, not 06"),
    ("x 1 0 060", "hex digits come in pairs, and there are 3"),
    ("x 1 0 0", "hex digits come in pairs, and there are 1"),
    ("x 1 0 0x06", "x is not a hex digit"),
    ("x 1 0 0G", "G is not a hex digit"),
    ("x 1 0 06\0", "\\x00 is not a hex digit"),
    ("x 1 0 \u{e9}", "\\xc3 is not a hex digit"),
    ("w", NEITHER),
    ("w 1 1", NEITHER),
    ("w 1a", "the ticks are decimal digits, below 2^32, not 1a"),
    ("w +1", "the ticks are decimal digits, below 2^32, not +1"),
    ("w 4294967296", "the ticks are decimal digits, below 2^32, not 4294967296"),
    (
        "w 18446744073709551617",
        "the ticks are decimal digits, below 2^32, not 18446744073709551617",
    ),
    (
        "w 184467440737095516170",
        "the ticks are decimal digits, below 2^32, not 18446744073709551617..",
    ),
];

/// A bad line is told by its number and its fault, wherever it stands, and no file is made or changed.
#[test]
fn bad_lines() {
    let desk = desk_of("bad_lines");
    desk.put("old", "what was there");
    for (i, (line, why)) in BAD.into_iter().enumerate() {
        let before = "x 1 0 06\nw 3\nx 0 7\n".repeat(i);
        let behind = if i % 2 == 0 { "\n" } else { "\nw 1\nq\n" };
        let text = [&before, line, behind].concat();
        let number = 3 * i + 1;
        desk.put("lines", &text);
        let sentence = desk.refused(&["write", "lines", "new"], "");
        assert_eq!(sentence, format!("lines, line {number}: {why}."), "{line:?}");
        let sentence = desk.refused_fed(&["write", "-", "old"], text.as_bytes());
        assert_eq!(sentence, format!("Standard input, line {number}: {why}."), "{line:?}");
    }
}

/// 600 characters are the most, of whatever form, with or without a newline.
#[test]
fn line_lengths() {
    let zeros = |many: usize| "0".repeat(many);
    for (head, behind) in [("x 1 0 ", 594), ("w ", 598)] {
        let longest = head.to_string() + &zeros(behind);
        assert_eq!(longest.len(), 600);
        for (end, more) in [("", 1), ("", 2), ("\n", 1), ("\n", 2)] {
            assert!(items_of((longest.clone() + end).as_bytes()).is_ok());
            let bad = items_of((longest.clone() + &zeros(more) + end).as_bytes()).unwrap_err();
            let why = format!("it has {} characters; 600 are the most", 600 + more);
            assert_eq!((bad.number, bad.why), (1, why));
        }
    }
    assert_eq!(items_of(&[b'#'; 601]).unwrap_err().why, "it has 601 characters; 600 are the most");
}

/// A character that each place of a line may have, and every other one, which makes it bad.
#[test]
fn every_character_at_every_place() {
    let hex = "0123456789ABCDEFabcdef";
    let forms = [
        ("x 1 5 9Fe0", vec!["x", " ", "01", " ", "01234567", " ", hex, hex, hex, hex]),
        ("x 0 7", vec!["x", " ", "01", " ", "01234567"]),
        ("w 120", vec!["w", " ", "0123456789", "0123456789", "0123456789"]),
    ];
    for (line, places) in forms {
        for (at, allowed) in places.iter().enumerate() {
            for character in (0..=255).filter(|character| *character != b'\n') {
                let mut text = line.as_bytes().to_vec();
                text[at] = character;
                let expected = allowed.as_bytes().contains(&character);
                assert_eq!(items_of(&text).is_ok(), expected, "{}", text.escape_ascii());
            }
            let [doubled, dropped] = [2, 0].map(|many| {
                [&line[..at], &line[at..at + 1].repeat(many), &line[at + 1..]].concat()
            });
            let digit_of_ticks = line.starts_with('w') && at >= 2;
            assert_eq!(items_of(doubled.as_bytes()).is_ok(), digit_of_ticks, "{doubled}");
            assert_eq!(items_of(dropped.as_bytes()).is_ok(), digit_of_ticks, "{dropped}");
        }
    }
}

/// Every W, number of pulses and byte, in capitals and small letters, and waits.
#[test]
fn good_lines() {
    let mut expected = Vec::new();
    let (mut capitals, mut small) = (String::new(), String::new());
    for byte in 0..=255 {
        let (w_high, pulses) = (byte % 2 == 1, byte / 2 % 8);
        let (w, sent) = (u8::from(w_high), [byte, !byte]);
        capitals += &format!("x {w} {pulses} {:02X}{:02X}\nw {byte}\n", sent[0], sent[1]);
        small += &format!("x {w} {pulses} {:02x}{:02x}\nw 00{byte}\n", sent[0], sent[1]);
        let wait = Item::Wait { ticks: byte.into() };
        expected.extend(bytes_of([Item::Transaction { sent: &sent, pulses, w_high }, wait]));
    }
    assert_eq!(items_of(capitals.as_bytes()), Ok(expected.clone()));
    assert_eq!(items_of(small.as_bytes()), Ok(expected));
}
