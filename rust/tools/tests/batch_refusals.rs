//! What the command `batch` refuses: one sentence, a failure, and every file as it was.

#[path = "support/batch.rs"]
#[allow(dead_code)]
mod batch;

use std::ffi::OsStr;
use std::fs;
use std::os::unix::ffi::OsStrExt;
use std::os::unix::fs::symlink;

use batch::desk::Desk;
use batch::{bytes_of, desk_of, sends};
use m25p::batch::{BadItem, Item, Reason};

/// A desk with a good batch of three items, and an image of the bench part.
fn desk(name: &str) -> Desk {
    let desk = desk_of(name);
    desk.put("day", good());
    desk.put("image", vec![0x5A; 4_096]);
    desk
}

fn good() -> Vec<u8> {
    let program = [0x02, 0, 0, 0x10, 0xA5];
    bytes_of([sends(&[0x06]), sends(&program), Item::Wait { ticks: 3 }])
}

/// A bad item is told with its number and place; a list has the items before it, and a run nothing at all.
#[test]
fn bad_items() {
    let desk = desk("bad_items");
    let listed = "1 WREN\n2 PP 000010 +1\n3 wait 3\n";
    let cut = |length, left| Reason::Body { length, left };
    let cases: [(&[u8], Reason); 12] = [
        (&[1], Reason::Head(1)),
        (&[1, 0], Reason::Head(2)),
        (&[2, 0, 1, 0x05], cut(2, 1)),
        (&[0, 1, 1], cut(256, 0)),
        (&[5, 0, 16, 1, 0, 0, 0], cut(5, 4)),
        (&[1, 0, 255], cut(1, 0)),
        (&[1, 0, 17, 0x06], Reason::Flag(17)),
        (&[0, 0, 255], Reason::Flag(255)),
        (&[4, 0, 32, 1, 0, 0, 0], Reason::Flag(32)),
        (&[3, 0, 16, 1, 0, 0], Reason::WaitLength(3)),
        (&[5, 0, 16, 1, 0, 0, 0, 0], Reason::WaitLength(5)),
        (&[0, 0, 16], Reason::WaitLength(0)),
    ];
    for (item, reason) in cases {
        let why = BadItem { at: 19, reason }.to_string();
        assert!(why.contains("byte 19"), "{why}");
        let sentence = format!("bad is refused with 9 at item 4: {why}.");
        for behind in [&[][..], &good()] {
            // An item can be cut at the end alone.
            if matches!(reason, Reason::Head(_) | Reason::Body { .. }) && !behind.is_empty() {
                continue;
            }
            desk.put("bad", [&good(), item, behind].concat());
            assert_eq!(desk.refused(&["list", "bad"], listed), sentence);
            let words = ["run", "0", "bad", "--image", "image", "--save", "image"];
            for more in [&[][..], &["--responses", "heard"]] {
                assert_eq!(desk.refused(&[&words[..], more].concat(), ""), sentence);
            }
        }
    }
    desk.put("bad", [17]);
    let why = BadItem { at: 0, reason: Reason::Head(1) };
    let sentence = format!("bad is refused with 9 at item 1: {why}.");
    assert_eq!(desk.refused(&["list", "bad"], ""), sentence);
}

#[test]
fn words() {
    let desk = desk("words");
    let more = "batch --help says more.";
    let says = |words: &[&str], sentence: &str| {
        let sentence = sentence.replace("{more}", more);
        assert_eq!(desk.refused(words, ""), sentence, "{words:?}");
    };
    let first = "The first word is write, list or run; {more}";
    says(&[], first);
    says(&["day"], first);
    says(&["--part", "2", "list", "day"], first);
    let two = "Lines and a file to be made of them are needed, and no more; {more}";
    says(&["write"], two);
    says(&["write", "lines"], two);
    says(&["write", "lines", "new", "newer"], two);
    says(&["write", "lines", "new", "--part", "2"], "There is no option --part here; {more}");
    says(&["list"], "A file is needed, and no more; {more}");
    says(&["list", "day", "day"], "A file is needed, and no more; {more}");
    says(&["list", "day", "--part"], "--part has no value.");
    says(&["list", "day", "--part", "2", "--part", "2"], "--part is given twice.");
    says(&["list", "day", "--save", "new"], "There is no option --save here; {more}");
    says(&["run", "day"], "A part and a file are needed, and no more; {more}");
    says(&["run", "2", "day", "day"], "A part and a file are needed, and no more; {more}");
    says(&["run", "2", "day", "--part", "2"], "There is no option --part here; {more}");
    says(&["run", "2", "day", "--save"], "--save has no value.");
    for option in ["--image", "--save", "--responses", "--durations"] {
        let sentence = format!("{option} is given twice.");
        says(&["run", "2", "day", option, "new", option, "new"], &sentence);
    }
    let durations = |given, sentence| says(&["run", "0", "day", "--durations", given], sentence);
    durations("1,2,3", "1,2,3 is not four durations such as 3,5,9,2.");
    let outside = "The delivery is refused with 7: a duration is outside 1 to 1,000,000.";
    durations("0,2,3,4", outside);
    durations("1,2,3,1000001", outside);
    for words in [&["run", "M25P64", "day"][..], &["list", "day", "--part", "M25P64"]] {
        let sentence = desk.refused(words, "");
        assert!(sentence.starts_with("There is no part M25P64; the parts are 0 bench, "));
    }
}

#[test]
fn files_that_cannot_be_read() {
    let desk = desk("unread");
    fs::create_dir(desk.path("directory")).unwrap();
    let words: [&[&str]; 4] = [
        &["write", "none", "new"],
        &["list", "none"],
        &["run", "0", "none", "--save", "new"],
        &["run", "0", "day", "--image", "none", "--save", "new"],
    ];
    for words in words {
        let sentence = desk.refused(words, "");
        assert!(sentence.starts_with("none cannot be read: No such file"), "{sentence}");
        let there = words.iter().map(|word| if *word == "none" { "directory" } else { word });
        let sentence = desk.refused(&there.collect::<Vec<&str>>(), "");
        assert!(sentence.starts_with("directory cannot be read: Is a directory"), "{sentence}");
    }
    let mut odd = desk.command(env!("CARGO_BIN_EXE_batch"), &["list"]);
    let said = odd.arg(OsStr::from_bytes(b"no\xFFwhere")).output().unwrap().stderr;
    assert!(String::from_utf8_lossy(&said).contains("cannot be read: No such file"));
    let directory = desk.shell("\"$COMMAND\" write - new <directory").output().unwrap();
    let said = String::from_utf8(directory.stderr).unwrap();
    assert!(said.starts_with("Standard input cannot be read: Is a directory"), "{said}");
    assert!(directory.status.code() == Some(1) && !desk.path("new").exists());
}

#[test]
fn image_of_another_size() {
    let desk = desk("size");
    for (part, length, has) in [
        ("bench", 4_095, "4096, or 4608 in blocks"),
        ("0", 4_097, "4096, or 4608 in blocks"),
        ("bench", 4_609, "4096, or 4608 in blocks"),
        ("M25P40", 0, "524288, or 532992 in blocks"),
    ] {
        desk.put("image", vec![0xFF; length]);
        let words = ["run", part, "day", "--image", "image", "--save", "image"];
        let sentence = format!("The image image has {length} bytes; the part has {has}.");
        assert_eq!(desk.refused(&words, ""), sentence);
    }
}

/// What is read is not written over, but for the image by the array, and two results are two files.
#[test]
fn one_file_for_two() {
    let desk = desk("one_file");
    symlink("day", desk.path("link")).unwrap();
    fs::hard_link(desk.path("day"), desk.path("hard")).unwrap();
    for out in ["day", "./day", "link", "hard"] {
        assert_eq!(desk.refused(&["write", "day", out], ""), "The lines would be written over.");
        for option in ["--save", "--responses"] {
            let sentence = desk.refused(&["run", "0", "day", option, out], "");
            assert_eq!(sentence, "The batch file would be written over.");
        }
    }
    let run = |words: &[&str]| desk.refused(&[&["run", "0", "day"], words].concat(), "");
    let image = run(&["--image", "image", "--responses", "./image"]);
    assert_eq!(image, "The image would be written over by the responses.");
    for (save, responses) in [("new", "new"), ("new", "./new"), ("image", "image")] {
        let sentence = run(&["--save", save, "--responses", responses]);
        assert_eq!(sentence, "The array and the responses would be one file.");
    }
}

#[test]
fn results_that_cannot_be_written() {
    let desk = desk("unwritten");
    desk.put("lines", "w 1\n");
    for words in [
        &["write", "lines", "none/new"][..],
        &["run", "0", "day", "--save", "none/new"],
        &["run", "0", "day", "--responses", "none/new"],
    ] {
        let sentence = desk.refused(words, "");
        assert!(sentence.starts_with("none/new cannot be written: No such file"), "{sentence}");
    }
}
