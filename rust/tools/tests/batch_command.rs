//! The command `batch` at work: what a list and a run print of each kind of item, on every part.

#[path = "support/batch.rs"]
#[allow(dead_code)]
mod batch;

use batch::{bytes_of, desk_of, random, sends};
use m25p::batch::{items, Item};
use m25p::{Answer, Chip, Durations, Part, Response};
use tools::batch::Instruction;
use tools::rng::Rng;

// What a run says of a transaction that the chip ignores.
const NO_BYTES: &str = "11 ignored: no whole byte was sent";
const BUSY: &str = "12 ignored: the chip is busy, and this is not a status read";
const DEEP: &str =
    "13 ignored: the chip is in deep power-down, and this is not the release from it";
const UNKNOWN: &str = "14 ignored: the first byte is not an instruction of this part";
const FORM: &str = "15 ignored: bytes or further pulses are not as the instruction needs";
const LATCH: &str = "16 ignored: the write enable latch is needed and not set";
const PROTECTED: &str = "17 ignored: the sector, or for a bulk erase anything, is protected";
const FROZEN: &str = "18 ignored: the status register is frozen: SRWD is set and W is low";
const LOCKED: &str = "19 ignored: the lock register is frozen: its lock-down bit is set";

/// A line of the bench, what a list shows of it, and what a run adds.
type Shown = (&'static str, &'static str, &'static str);

/// Every kind of line on the M25P40.
const DAY: [Shown; 39] = [
    ("x 1 0 9F00000000", "RDID +4", "0 executed: 20 20 13 00"),
    ("x 1 0 9f", "RDID", "0 executed"),
    ("x 1 0 04", "WRDI", "0 executed"),
    ("x 1 0 D8010000", "SE 010000", LATCH),
    ("x 1 0 06", "WREN", "0 executed"),
    ("x 1 0 0500", "RDSR +1", "0 executed: 02"),
    ("x 1 0 02000100DEADBEEF", "PP 000100 +4", "0 executed"),
    ("x 1 0 050000", "RDSR +2", "0 executed: 03 03"),
    ("x 1 0 0300010000", "READ 000100 +1", BUSY),
    ("w 3", "wait 3", "0"),
    ("x 1 0 03000100", "READ 000100", "0 executed"),
    ("x 1 0 0300010000000000", "READ 000100 +4", "0 executed: DE AD BE EF"),
    ("x 1 0 030000FF0000000000000000", "READ 0000FF +8", "0 executed: FF DE AD BE EF FF FF FF"),
    (
        "x 1 0 03F800FF000000000000000000",
        "READ F800FF +9",
        "0 executed: FF DE AD BE EF FF FF FF ..",
    ),
    ("x 0 5 0B000101EE0000", "FAST_READ 000101 +2 W low pulses 5", "0 executed: AD BE"),
    ("x 1 0 0B000101EE", "FAST_READ 000101", "0 executed"),
    ("x 1 0 0B000101", "FAST_READ 000101", FORM),
    ("x 1 0 030001", "READ +2", FORM),
    ("x 1 1 06", "WREN pulses 1", FORM),
    ("x 1 0 C7", "BE", LATCH),
    ("x 1 0 C700", "BE +1", FORM),
    ("x 0 0 06", "WREN W low", "0 executed"),
    ("x 0 0 0184", "WRSR +1 W low", "0 executed"),
    ("w 00002", "wait 2", "0"),
    ("x 1 0 06", "WREN", "0 executed"),
    ("x 1 0 02070000AA", "PP 070000 +1", PROTECTED),
    ("x 0 0 0100", "WRSR +1 W low", FROZEN),
    ("x 1 0 0200010000FF", "PP 000100 +2", "0 executed"),
    ("w 4294967295", "wait 4294967295", "0"),
    ("x 1 0 B9", "DP", "0 executed"),
    ("x 1 0 05", "RDSR", DEEP),
    ("x 1 0 AB00000000", "RES +1", "0 executed: 12"),
    ("x 1 0 AB0000", "RES", "0 executed"),
    ("x 1 0", "no bytes", NO_BYTES),
    ("x 0 7", "no bytes W low pulses 7", NO_BYTES),
    ("x 1 0 9E0000", "?? 9E +2", UNKNOWN),
    ("x 0 2 ff", "?? FF W low pulses 2", UNKNOWN),
    ("x 1 0 0A00000000", "?? 0A +4", UNKNOWN),
    ("w 0", "wait 0", "0"),
];

/// The names of the M25PE40 that the others do not have.
const PE_DAY: [Shown; 14] = [
    ("x 1 0 06", "WREN", "0 executed"),
    ("x 1 0 0A0001FE112233", "PW 0001FE +3", "0 executed"),
    ("w 3", "wait 3", "0"),
    ("x 1 0 0B0001000000", "FAST_READ 000100 +1", "0 executed: 33"),
    ("x 1 0 06", "WREN", "0 executed"),
    ("x 1 0 E501000003", "WRLR 010000 +1", "0 executed"),
    ("x 1 0 E801FFFF0000", "RDLR 01FFFF +2", "0 executed: 03 03"),
    ("x 1 0 06", "WREN", "0 executed"),
    ("x 1 0 E501000000", "WRLR 010000 +1", LOCKED),
    ("x 1 0 DB0101", "PE +2", FORM),
    ("x 1 0 2001F000", "SSE 01F000", PROTECTED),
    ("x 1 0 AB", "RDP", "0 executed"),
    ("x 1 0 AB000000", "RDP +3", FORM),
    ("x 1 0 DB000100", "PE 000100", "0 executed"),
];

/// Write, list and run of some lines; item i is line i. The last lines of the run are `end`.
fn day(name: &str, part: &str, lines: &[Shown], end: &str) {
    let desk = desk_of(name);
    desk.put("lines", lines.iter().map(|(line, ..)| format!("{line}\n")).collect::<String>());
    let made = desk.prints(&["write", "lines", "day"]);
    assert_eq!(made, format!("items {}, bytes {}\n", lines.len(), desk.get("day").len()));
    let (mut listed, mut ran) = (String::new(), String::new());
    for (number, (_, item, answer)) in (1..).zip(lines) {
        listed += &format!("{number} {item}\n");
        ran += &format!("{number} {item} -> {answer}\n");
    }
    assert_eq!(desk.prints(&["list", "day", "--part", part]), listed);
    let those = |word: &str| lines.iter().filter(|(_, _, answer)| answer.contains(word)).count();
    let (items, executed, ignored) = (lines.len(), those("executed"), those("ignored"));
    let waits = items - executed - ignored;
    ran += &format!("items {items}, executed {executed}, ignored {ignored}, waits {waits}\n{end}");
    assert_eq!(desk.prints(&["run", part, "day"]), ran);
}

#[test]
fn every_kind_of_line() {
    day("kinds", "M25P40", &DAY, "missing 3 bits: an erase was missing\n");
}

#[test]
fn names_of_the_m25pe40() {
    let running = "a cycle is still running: its change is not in the array\n";
    day("pe", "m25pe40", &PE_DAY, running);
}

/// The names of a list by code, and that a part without further word is an M25P part.
#[test]
fn names_by_code() {
    let desk = desk_of("names");
    let codes: Vec<[u8; 1]> = (0..=255).map(|code| [code]).collect();
    desk.put("codes", bytes_of(codes.iter().map(|sent| sends(sent))));
    let names = |words: &[&str]| {
        let listed = desk.prints(&[&["list", "codes"], words].concat());
        let known = listed.lines().filter(|line| !line.contains("??"));
        known.map(|line| line.split_once(' ').unwrap().1).collect::<Vec<&str>>().join(" ")
    };
    let m25p = "WRSR PP READ WRDI RDSR WREN FAST_READ RDID RES DP BE SE";
    for words in [&[][..], &["--part", "M25P40"], &["--part", "3"], &["--part", "bench"]] {
        assert_eq!(names(words), m25p);
    }
    assert_eq!(names(&["--part", "m25p128"]), m25p.replace(" RES DP", ""));
    assert_eq!(names(&["--part", "M25P10-A-older"]), m25p.replace(" RDID", ""));
    let pe = "WRSR PP READ WRDI RDSR WREN PW FAST_READ SSE RDID RDP DP BE SE PE WRLR RDLR";
    assert_eq!(names(&["--part", "6"]), pe);
}

/// A part knows just the codes that it does not answer with 14, and answers from where it drives first.
#[test]
fn instructions_of_every_part() {
    for part in Part::ALL {
        let mut chip = Chip::deliver(part, Durations::default()).unwrap();
        for code in 0..=255 {
            let sent = [code, 0, 0, 0, 0, 0, 0, 0];
            let response = chip.transact(&sent, 0, true);
            let known = Instruction::of(code, part);
            assert_eq!(
                known.is_none(),
                response.answer == Answer::UnknownCode,
                "{part} {code:02X}"
            );
            let answers =
                known.filter(|known| known.answers).map_or(0, |known| sent.len() - known.head);
            assert_eq!(answers, response.driven().len(), "{part} {code:02X}");
        }
    }
}

/// What a run says of a transaction, from its response alone.
fn said(response: &Response) -> String {
    let Response { answer, .. } = response;
    let driven: Vec<String> = response.driven().iter().map(|byte| format!("{byte:02X}")).collect();
    match (answer, &driven[..]) {
        (Answer::Executed, []) => "0 executed".to_string(),
        (Answer::Executed, [first @ .., _]) if first.len() >= 8 => {
            format!("0 executed: {} ..", first[..8].join(" "))
        }
        (Answer::Executed, all) => format!("0 executed: {}", all.join(" ")),
        (ignored, _) => format!("{} ignored: {ignored}", ignored.number()),
    }
}

/// Lines, responses, array and bits missing of a run are those of the calls made singly.
#[test]
fn run_is_that_of_single_calls() {
    let desk = desk_of("single");
    let mut rng = Rng::new(1);
    for part in [Part::Bench, Part::M25p10a, Part::M25p40, Part::M25p10aOlder, Part::M25pe40] {
        let day = random(&mut rng);
        let mut chip = Chip::deliver(part, [2, 3, 4, 1].into()).unwrap();
        rng.fill(chip.array_mut());
        desk.put("day", &day);
        desk.put("image", chip.array());
        let listed = desk.prints(&["list", "day", "--part", part.name()]);
        let (mut lines, mut responses, mut missing) = (String::new(), Vec::new(), 0);
        for (item, line) in items(&day).map(Result::unwrap).zip(listed.lines()) {
            let answer = match item {
                Item::Transaction { sent, pulses, w_high } => {
                    let response = chip.transact(sent, pulses.into(), w_high);
                    responses.extend(&response.line);
                    missing += response.missing;
                    said(&response)
                }
                Item::Wait { ticks } => {
                    chip.wait(ticks);
                    "0".to_string()
                }
            };
            lines += &format!("{line} -> {answer}\n");
        }
        let words = ["--image", "image", "--save", "array", "--responses", "heard"];
        let durations = ["--durations", "2,3,4,1"];
        let ran = desk.prints(&[&["run", part.name(), "day"], &words[..], &durations].concat());
        assert!(ran.starts_with(&lines), "{part}");
        assert!(missing > 9 && ran.contains(&format!("\nmissing {missing} bits: ")), "{part}");
        assert!(desk.get("heard") == responses && desk.get("array") == chip.array(), "{part}");
    }
}
