//! The files of the command `batch`: lines and items in, array and responses out, large ones, and its output.

#[path = "support/batch.rs"]
#[allow(dead_code)]
mod batch;

use std::fs;
use std::os::unix::fs::symlink;
use std::path::Path;

use batch::desk::printed;
use batch::{bytes_of, desk_of, sends};
use m25p::batch::Item;
use m25p::{image, Part};

const DAY: &str = "x 1 0 06\nx 1 0 02000010A5\nw 3\nx 1 0 0300001000\n";

/// The items of `DAY`, byte by byte.
const ITEMS: &[u8] =
    b"\x01\0\x01\x06\x05\0\x01\x02\0\0\x10\xA5\x04\0\x10\x03\0\0\0\x05\0\x01\x03\0\0\x10\0";

#[test]
fn lines_become_items() {
    let desk = desk_of("lines");
    desk.put("lines", DAY);
    desk.put("day", "what was there");
    assert_eq!(desk.prints(&["write", "lines", "day"]), "items 4, bytes 27\n");
    assert_eq!(desk.get("day"), ITEMS);
    // From standard input, and without a last newline.
    for text in [DAY, DAY.trim_end()] {
        fs::remove_file(desk.path("day")).unwrap();
        let made = printed(desk.fed(&["write", "-", "day"], text.as_bytes()));
        assert_eq!((&made[..], &desk.get("day")[..]), ("items 4, bytes 27\n", ITEMS));
    }
    let odd = "x 0 7 aBcD\nx 0 3\nw 4294967295\n";
    printed(desk.fed(&["write", "-", "day"], odd.as_bytes()));
    assert_eq!(desk.get("day"), b"\x02\0\x0E\xAB\xCD\0\0\x06\x04\0\x10\xFF\xFF\xFF\xFF");
}

#[test]
fn nothing_is_a_batch_too() {
    let desk = desk_of("nothing");
    assert_eq!(printed(desk.fed(&["write", "-", "day"], b"")), "items 0, bytes 0\n");
    assert_eq!(desk.get("day"), b"");
    assert_eq!(desk.prints(&["list", "day"]), "");
    let words = ["run", "0", "day", "--save", "array", "--responses", "heard"];
    assert_eq!(desk.prints(&words), "items 0, executed 0, ignored 0, waits 0\n");
    assert_eq!((desk.get("array"), desk.get("heard")), (vec![0xFF; 4_096], vec![]));
}

/// The longest line, and an item that no line could make.
#[test]
fn long_items() {
    let desk = desk_of("long");
    let line = format!("x 1 0 {}", "0300".repeat(148) + "00");
    assert_eq!(line.len(), 600);
    assert_eq!(printed(desk.fed(&["write", "-", "day"], line.as_bytes())), "items 1, bytes 300\n");
    assert_eq!(desk.prints(&["list", "day"]), "1 READ 000300 +293\n");
    let mut sent = vec![0; 65_535];
    sent[0] = 0x0B;
    desk.put("day", bytes_of([sends(&sent)]));
    let end = "items 1, executed 1, ignored 0, waits 0\n";
    let read = "1 FAST_READ 000000 +65530 -> 0 executed: FF FF FF FF FF FF FF FF ..\n";
    assert_eq!(desk.prints(&["run", "bench", "day"]), [read, end].concat());
}

/// The array before and afterwards, also in one file by way of a link, and what the chip drove.
#[test]
fn image_array_and_responses() {
    let desk = desk_of("image");
    let mut image: Vec<u8> = (0..4_096).map(|i| (i % 251) as u8).collect();
    image[0x10] = 0x1F;
    desk.put("image", &image);
    desk.put("heard", "what was there");
    symlink("image", desk.path("link")).unwrap();
    desk.put("day", ITEMS);
    let words = ["run", "bench", "day", "--image", "image"];
    let more = ["--save", "link", "--responses", "heard"];
    let expected = "1 WREN -> 0 executed\n2 PP 000010 +1 -> 0 executed\n3 wait 3 -> 0\n\
                    4 READ 000010 +1 -> 0 executed: 05\nitems 4, executed 3, ignored 0, waits 1\n\
                    missing 2 bits: an erase was missing\n";
    assert_eq!(desk.prints(&words), expected);
    assert_eq!(desk.get("image"), image, "nothing is written unasked");
    assert_eq!(desk.prints(&[&words[..], &more].concat()), expected);
    image[0x10] = 0x05;
    assert_eq!(desk.get("image"), image);
    assert_eq!(desk.get("heard"), b"\xFF\xFF\xFF\xFF\xFF\xFF\xFF\xFF\xFF\xFF\x05");
    assert!(fs::symlink_metadata(desk.path("link")).unwrap().is_symlink());
    assert_eq!(desk.prints(&words), expected, "from what was saved it is the same");
}

/// An image in blocks is the array in it, and what is saved is an image in blocks, too; another filler is none of it.
#[test]
fn image_in_blocks() {
    let desk = desk_of("blocks");
    let mut array: Vec<u8> = (0..4_096).map(|i| (i % 241) as u8).collect();
    array[0x10] = 0xFF;
    let blocks = |array: &[u8]| image::write(Part::Bench, array).unwrap();
    desk.put("raw", &array);
    desk.put("blocks", blocks(&array));
    desk.put("day", ITEMS);
    let run = |image, save| desk.prints(&["run", "0", "day", "--image", image, "--save", save]);
    let printed = run("raw", "raw.new");
    assert_eq!(run("blocks", "blocks.new"), printed);
    assert_eq!(desk.get("blocks"), blocks(&array), "nothing is written unasked");
    array[0x10] = 0xA5;
    assert_eq!((desk.get("raw.new"), desk.get("blocks.new")), (array.clone(), blocks(&array)));
    assert_eq!(run("blocks", "blocks"), printed);
    assert_eq!(desk.get("blocks"), blocks(&array));
    desk.prints(&["run", "0", "day", "--save", "raw.new"]);
    assert_eq!(desk.get("raw.new").len(), 4_096, "raw without an image");
    let mut bad = blocks(&array);
    bad[512 * 3 + 100] ^= 0x40;
    desk.put("bad", bad);
    let words = ["run", "0", "day", "--image", "bad", "--save", "bad"];
    let sentence =
        "The image bad is refused with 33: block 3 is bad; image check lists every bad block, \
                    and image salvage puts good ones of FF in their place.";
    assert_eq!(desk.refused(&words, ""), sentence);
}

#[test]
fn one_bit_missing() {
    let desk = desk_of("bit");
    let program = |byte: u8| format!("x 1 0 06\nx 1 0 02000010{byte:02X}\nw 3\n");
    printed(desk.fed(&["write", "-", "day"], (program(0xFE) + &program(0x01)).as_bytes()));
    assert!(desk.prints(&["run", "2", "day"]).ends_with("\nmissing 1 bit: an erase was missing\n"));
    printed(desk.fed(&["write", "-", "day"], (program(0xFE) + &program(0x00)).as_bytes()));
    assert!(desk
        .prints(&["run", "2", "day"])
        .ends_with("\nitems 6, executed 4, ignored 0, waits 2\n"));
}

/// A cycle that still runs at the end is said, and is not in the array; durations are as asked for.
#[test]
fn durations_and_the_end() {
    let desk = desk_of("end");
    desk.put("day", ITEMS);
    let words = ["run", "0", "day", "--save", "array", "--durations"];
    let running = "a cycle is still running: its change is not in the array\n";
    for (durations, byte) in [("3,1,1,1", 0xA5), ("4,1,1,1", 0xFF)] {
        let ran = desk.prints(&[&words[..], &[durations]].concat());
        assert_eq!(ran.ends_with(running), byte == 0xFF, "{ran}");
        let answer = if byte == 0xFF { "12 ignored: the chip is busy" } else { "0 executed: A5\n" };
        assert!(ran.contains(&format!("\n4 READ 000010 +1 -> {answer}")), "{ran}");
        assert_eq!(desk.get("array")[0x10], byte);
    }
}

/// Ten megabytes of items.
#[test]
fn large_file() {
    let desk = desk_of("large");
    let wait = Item::Wait { ticks: 3 };
    let (enable, program, read) =
        ([0x06], [0x02, 0, 1, 0, 0xDE, 0xAD], [&[0x03, 0, 1, 0][..], &[0; 16]].concat());
    let hour = bytes_of([sends(&enable), sends(&program), wait, sends(&read), sends(&[])]);
    let hours = 10_485_760 / hour.len();
    desk.put("day", hour.repeat(hours));
    let listed = desk.prints(&["list", "day"]);
    let ran = desk.prints(&["run", "M25P40", "day", "--responses", "heard"]);
    let kinds = ["WREN", "PP 000100 +2", "wait 3", "READ 000100 +16", "no bytes"];
    let answers = [
        "0 executed",
        "0 executed",
        "0",
        "0 executed: DE AD FF FF FF FF FF FF ..",
        "11 ignored: no whole byte was sent",
    ];
    let mut lines = ran.lines();
    for (i, (listed, ran)) in listed.lines().zip(&mut lines).enumerate() {
        assert_eq!(listed, format!("{} {}", i + 1, kinds[i % 5]));
        assert_eq!(ran, format!("{listed} -> {}", answers[i % 5]));
    }
    let totals =
        format!("items {}, executed {}, ignored {hours}, waits {hours}", 5 * hours, 3 * hours);
    assert_eq!(lines.collect::<Vec<&str>>(), [&totals[..]]);
    assert_eq!(listed.lines().count(), 5 * hours);
    assert_eq!(desk.get("heard").len(), 27 * hours);
}

/// Whoever reads only the beginning gets it, and nothing is complained of; the status tells that there was more.
#[test]
fn output_that_is_not_read_to_its_end() {
    let desk = desk_of("pipe");
    desk.put("day", ITEMS.repeat(50_000));
    for (words, first) in
        [("list day", "1 WREN\n"), ("run 0 day --save array", "1 WREN -> 0 executed\n")]
    {
        let line = format!("{{ \"$COMMAND\" {words}; echo $? >status; }} | head -n 1");
        assert_eq!(printed(desk.shell(&line).output().unwrap()), first);
        assert_eq!(desk.get("status"), b"1\n");
    }
    assert_eq!(desk.get("array")[0x10], 0xA5, "results are written before");
    for words in ["list day", "run 0 day", "--help", "write lines out"] {
        desk.put("lines", DAY);
        let full = desk.shell(&format!("\"$COMMAND\" {words} >/dev/full")).output().unwrap();
        let said = String::from_utf8(full.stderr).unwrap();
        assert!(said.starts_with("Standard output cannot be written: "), "{words}: {said}");
        assert_eq!(full.status.code(), Some(1));
    }
}

#[test]
fn help() {
    let desk = desk_of("help");
    let help = desk.prints(&["--help"]);
    assert!(help.starts_with("Usage: batch write LINES OUT\n"));
    let words = ["batch list FILE", "batch run PART FILE", "--part", "--image", "--save"];
    for word in words.iter().chain(&["--responses", "--durations", "x W bits hex", "pulses n"]) {
        assert!(help.contains(word), "{word}");
    }
    for words in [["write", "--help"], ["list", "--help"], ["run", "--help"]] {
        assert_eq!(desk.prints(&words), help);
    }
}

/// The listing on the front page is what its commands print.
#[test]
fn the_front_page() {
    let root = Path::new(env!("CARGO_MANIFEST_DIR")).join("../..");
    let page = fs::read_to_string(root.join("README.md")).unwrap();
    let (_, behind) = page.split_once("-- run M25P40 day.batch\n```\n\n```\n").unwrap();
    let (listing, _) = behind.split_once("```").unwrap();
    let desk = desk_of("front_page");
    let lines = root.join("examples/first.txt");
    desk.prints(&["write", lines.to_str().unwrap(), "day.batch"]);
    assert_eq!(desk.prints(&["run", "M25P40", "day.batch"]), listing);
}
