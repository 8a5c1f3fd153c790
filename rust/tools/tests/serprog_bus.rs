//! Several chips on the server's bus, without a network: the options, and the selected chip among the others. Their
//! files are in `serprog_bus_images.rs`.

#[path = "support/blocks.rs"]
#[allow(dead_code)]
mod blocks;
#[path = "support/told.rs"]
mod told;

use std::ffi::OsString;
use std::os::unix::ffi::OsStringExt;
use std::path::PathBuf;

use blocks::array;
use m25p::Part;
use told::Told;
use tools::serprog::{Board, Options, PARTS};

fn parsed(line: &str) -> Result<Options, String> {
    Options::parse(line.split(' ').map(OsString::from))
}

#[test]
fn options() {
    let line = "--image b --image a,b --select 2 --part M25P40,M25P10,m25pe40 --image b/a";
    let expected = Options {
        parts: vec![Part::M25p40, Part::M25p10aOlder, Part::M25pe40],
        select: 2,
        images: ["b", "a,b", "b/a"].map(PathBuf::from).to_vec(),
        ..Options::of(Part::M25p40)
    };
    assert_eq!(parsed(line), Ok(expected));
    let eight = ["m25p128"; 8].join(",");
    let options = parsed(&format!("--part {eight} --select 7")).unwrap();
    assert_eq!((&options.parts[..], options.select), (&[Part::M25p128; 8][..], 7));
    assert_eq!(parsed("--part M25P40 --select 0"), Ok(Options::of(Part::M25p40)));
    assert_eq!(parsed("--part M25P10-A,M25P40 --select 1 --bp 7").map(|o| o.bp), Ok(7));
}

#[test]
fn refused_options() {
    let known = "M25P10-A, M25P40, M25P32, M25P128, M25P10 or M25PE40";
    let nine = ["M25P40"; 9].join(",");
    for (words, sentence) in [
        ("--part M25P40,M25P05", &format!("--part is {known}, not M25P05.")[..]),
        ("--part M25P40,bench", &format!("--part is {known}, not bench.")),
        ("--part M25P40;M25P32", &format!("--part is {known}, not M25P40;M25P32.")),
        ("--part ,M25P40", "--part has no name for chip 0."),
        ("--part M25P40,,M25P32", "--part has no name for chip 1."),
        ("--part M25P40,M25P32,", "--part has no name for chip 2."),
        (&format!("--part {nine}"), "--part has 9 chips; a bus has at most 8."),
        ("--part M25P40 --part M25P40,M25P32", "--part is given twice."),
        ("--part M25P40 --select 1", "--select is 0 with one chip, not 1."),
        ("--select 2 --part M25P40,M25P32", "--select is 0 to 1 with 2 chips, not 2."),
        ("--part M25P40,M25P32 --select 8", "--select is 0 to 7, not 8."),
        ("--part M25P40,M25P32 --select 4294967296", "--select is 0 to 7, not 4294967296."),
        ("--part M25P40,M25P32 --select -1", "--select is 0 to 7, not -1."),
        ("--part M25P40,M25P32 --select M25P32", "--select is 0 to 7, not M25P32."),
        ("--part M25P40,M25P32 --select", "--select has no value."),
        ("--part M25P40,M25P32 --select 0 --select 1", "--select is given twice."),
        ("--part M25P40,M25P10-A --select 1 --bp 4", "--bp is 0 to 3 on the M25P10-A, not 4."),
    ] {
        assert_eq!(parsed(words), Err(sentence.to_string()), "{words}");
    }
    let odd = OsString::from_vec(b"M25P40,M25P\xFF".to_vec());
    let sentence = format!("--part is {known}, not M25P\u{FFFD}.");
    assert_eq!(Options::parse(["--part".into(), odd]), Err(sentence), "no text");
    for (images, times) in [("--image a", "once"), ("--image a --image b --image c", "3 times")] {
        let sentence = format!(
            "--image is given {times} with 2 chips; it is given for each of them, in their order, or not at all."
        );
        assert_eq!(parsed(&format!("--part M25P40,M25P32 {images}")), Err(sentence));
    }
}

/// How many bytes the first sector of a part has.
fn sector(part: Part) -> usize {
    match part {
        Part::M25p10a | Part::M25p10aOlder => 0x8000,
        Part::M25p128 => 0x4_0000,
        _ => 0x1_0000,
    }
}

/// Each chip of a row of all parts, one of them twice: the one that is selected answers with its contents, and a program
/// of its last byte and an erase of its first sector change it alone.
#[test]
fn selected_chip_alone() {
    let parts: Vec<Part> = PARTS.into_iter().map(|(_, part)| part).chain([Part::M25p40]).collect();
    for (select, part) in parts.iter().enumerate() {
        let options = Options { parts: parts.clone(), select, ..Options::of(*part) };
        let mut board = Board::new(&options);
        let mut expected: Vec<Vec<u8>> = parts.iter().zip(1..).map(|(p, n)| array(*p, n)).collect();
        (0..).zip(&expected).for_each(|(chip, contents)| board.fill(chip, contents));
        let (changed, last) = (&mut expected[select], part.bytes() - 1);
        let address = &last.to_be_bytes()[5..];
        let read = board.operate([&[0x03], address].concat(), 2).unwrap();
        assert_eq!(read, [changed[last], changed[0]], "chip {select} rolls over in itself");
        for sent in [[&[0x02], address, &[0x00]].concat(), vec![0xD8, 0x00, 0x00, 0x00]] {
            board.operate(vec![0x06], 0);
            board.operate(sent, 0);
            board.delay(1_000_000);
        }
        changed[last] = 0x00;
        changed[..sector(*part)].fill(0xFF);
        assert!(board.array() == changed, "chip {select}");
        assert!(board.arrays().eq(expected.iter().map(|array| &array[..])), "beside chip {select}");
    }
}

/// Power is lost in a cycle of the selected chip, counted once whatever comes while it runs; the page of a missing erase
/// is within its part; and a cycle that runs at the end is completed.
#[test]
fn losses_and_warnings_of_the_selected_chip() {
    let parts = vec![Part::M25p128, Part::M25p10a];
    let options = Options { parts, select: 1, bp: 1, ..Options::of(Part::M25p10a) };
    let (mut board, told) = (Board::new(&options), Told::default());
    assert_eq!(board.operate(vec![0x05], 1), Some(vec![0x04]), "its settings");
    board.fill(1, &vec![0x5A; Part::M25p10a.bytes()]);
    board.warn_missing(Box::new(told.clone()));
    board.cut_after(2, 1, Box::new(told.clone()));
    for sent in [vec![0x02, 0xFE, 0x12, 0x34, 0xFF], vec![0xD8, 0xFE, 0x81, 0x23]] {
        board.operate(vec![0x06], 0);
        board.operate(sent, 0);
        board.operate(vec![0x05], 1);
        board.delay(2_000);
    }
    let lines = "An erase was missing: the program in page 001200 wants 4 bits 1 that are 0. Further ones are not \
                 told.\nPower was lost in cycle 2, a sector erase (D8) at 008123, and is back; --cut-after 2 --seed 1 \
                 repeats it.\n";
    assert_eq!(told.text(), lines);
    assert_eq!(board.operate(vec![0x05], 1), Some(vec![0x04]), "ready");
    assert!(board.arrays().next().unwrap().iter().all(|byte| *byte == 0xFF));
    let cut = board.array();
    assert!(cut[0x8000..0x1_0000].iter().any(|byte| *byte != 0x5A), "cut");
    assert!(cut[..0x8000].iter().chain(&cut[0x1_0000..]).all(|byte| *byte == 0x5A));
    board.operate(vec![0x06], 0);
    board.operate(vec![0xD8, 0x00, 0x00, 0x00], 0);
    board.finish();
    assert!(board.array()[..0x8000].iter().all(|byte| *byte == 0xFF));
}
