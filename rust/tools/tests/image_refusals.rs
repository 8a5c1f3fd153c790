//! What the command `image` refuses: one sentence, a failure, and every file as it was.

#[path = "support/image.rs"]
#[allow(dead_code)]
mod image;

use std::ffi::OsStr;
use std::fs;
use std::io::{stderr, Write};
use std::os::unix::ffi::OsStrExt;
use std::os::unix::fs::symlink;

use image::desk::Desk;
use image::{bench_desk, TASKS};

/// Words that are refused with this sentence, in which {more} stands for where help is.
fn says(desk: &Desk, words: &[&str], sentence: &str) {
    let sentence = sentence.replace("{more}", "image --help says more.");
    assert_eq!(desk.refused(words, ""), sentence, "{words:?}");
}

#[test]
fn words() {
    let desk = bench_desk("words");
    let says = |words: &[&str], sentence| says(&desk, words, sentence);
    let first = "The first word is write, read, check or salvage; {more}";
    says(&[], first);
    says(&["chip.img"], first);
    says(&["Check", "chip.img", "--part", "0"], first);
    says(&["--part", "0", "--force"], first);
    let two = "A file to be read and one to be written are needed, and no more; {more}";
    for [task, input] in TASKS {
        says(&[task, "--part", "0"], two);
        says(&[task, input, "--part", "0"], two);
        says(&[task, input, "new", "newer", "--part", "0"], two);
        says(&[task, "--force", input, "--force", "old"], "--force is given twice.");
    }
    let one = "A file to be read is needed, and no more; {more}";
    says(&["check", "--part", "0"], one);
    says(&["check", "chip.img", "new", "--part", "0"], one);
}

#[test]
fn options() {
    let desk = bench_desk("options");
    let says = |words: &[&str], sentence| says(&desk, words, sentence);
    for [task, input] in TASKS.into_iter().chain([["check", "chip.img"]]) {
        let files = if task == "check" { &[task, input][..] } else { &[task, input, "new"] };
        let missing = "--part is missing: the part that the image is of; {more}";
        says(files, missing);
        says(&[files, &["--part"]].concat(), "--part has no value.");
        says(&[files, &["--part", "0", "--part", "0"]].concat(), "--part is given twice.");
        says(&[files, &["--save"]].concat(), "There is no option --save here; {more}");
        for part in ["M25P64", "7", "256", "-1", ""] {
            let sentence = desk.refused(&[files, &["--part", part]].concat(), "");
            let unknown = format!("There is no part {part}; the parts are 0 bench, ");
            assert!(sentence.starts_with(&unknown), "{sentence}");
        }
    }
    let force = ["check", "chip.img", "--part", "0", "--force"];
    says(&force, "There is no option --force here; {more}");
}

/// A file of another length is told with both numbers, and with the part and the form that it fits.
#[test]
fn lengths() {
    let desk = bench_desk("lengths");
    let says = |part: &str, length: usize, array: &str, image: &str| {
        desk.put("in", vec![0; length]);
        for (task, sentence) in [("write", array), ("read", image), ("salvage", image)]
            .map(|(t, s)| (t, format!("in has {s}.")))
        {
            for words in [&["new"][..], &["old", "--force"]] {
                let words = [&[task, "in", "--part", part], words].concat();
                assert_eq!(desk.refused(&words, ""), sentence);
            }
        }
        assert_eq!(desk.refused(&["check", "in", "--part", part], ""), format!("in has {image}."));
    };
    for length in [0, 1, 512, 4_095, 4_097, 4_607, 4_609, 5_120, 1_000_000] {
        let (array, image) = ("the array of the bench has 4096", "an image of the bench has 4608");
        let has = |needed| format!("{length} bytes; {needed}");
        says("0", length, &has(array), &has(image));
    }
    for (length, which) in [
        (524_288, "the array of the M25P40 or the M25PE40"),
        (532_992, "an image of the M25P40 or the M25PE40"),
        (133_632, "an image of the M25P10-A or the M25P10-A-older"),
        (4_096, "the array of the bench"),
        (17_043_968, "an image of the M25P128"),
    ] {
        let has = |needed| format!("{length} bytes, which is the length of {which}; {needed}");
        let (array, image) =
            ("the array of the M25P32 has 4194304", "an image of the M25P32 has 4261376");
        says("m25p32", length, &has(array), &has(image));
    }
}

/// An array for an image, and the other way round.
#[test]
fn forms_exchanged() {
    let desk = bench_desk("exchanged");
    let sentence = desk.refused(&["write", "chip.img", "new", "--part", "0"], "");
    let image = "chip.img has 4608 bytes, which is the length of an image of the bench";
    assert_eq!(sentence, format!("{image}; the array of the bench has 4096."));
    for task in ["read", "salvage"] {
        let sentence = desk.refused(&[task, "chip.bin", "new", "--part", "0"], "");
        let array = "chip.bin has 4096 bytes, which is the length of the array of the bench";
        assert_eq!(sentence, format!("{array}; an image of the bench has 4608."));
    }
}

/// A file that has fewer bytes than its length says, as it may be while another program writes it.
#[test]
fn length_that_is_not_true() {
    let (desk, file) = (bench_desk("untrue"), "/sys/devices/system/cpu/possible");
    if fs::metadata(file).map_or(0, |there| there.len()) != 4_096 {
        let _ = writeln!(stderr(), "image: skipped: {file} is not there with 4,096 bytes");
        return;
    }
    let bytes = fs::read(file).unwrap().len();
    let sentence = desk.refused(&["write", "--part", "bench", file, "new"], "");
    assert_eq!(sentence, format!("{file} has {bytes} bytes; the array of the bench has 4096."));
}

/// What is there already stays, unless it is to be replaced; what is not a file stays in any case.
#[test]
fn existing_results() {
    let desk = bench_desk("existing");
    fs::create_dir(desk.path("directory")).unwrap();
    symlink("nowhere", desk.path("dangling")).unwrap();
    symlink("old", desk.path("link")).unwrap();
    symlink("/dev/null", desk.path("device")).unwrap();
    for [task, input] in TASKS {
        for there in ["old", "link", "dangling"] {
            let sentence = desk.refused(&[task, "--part", "0", input, there], "");
            assert_eq!(sentence, format!("{there} is there already; --force replaces it."));
        }
        for there in ["directory", "device", "/dev/full", ".", "directory/.."] {
            for force in [&[][..], &["--force"]] {
                let sentence =
                    desk.refused(&[&[task, "--part", "0", input, there], force].concat(), "");
                assert_eq!(sentence, format!("{there} is not a file."));
            }
        }
    }
    assert!(fs::symlink_metadata(desk.path("dangling")).unwrap().is_symlink());
}

/// The input is not written over by its own result, by whatever name it has, and not with --force either.
#[test]
fn one_file_for_two() {
    let desk = bench_desk("one_file");
    for [task, input] in TASKS {
        let (soft, hard) = (format!("soft.{task}"), format!("hard.{task}"));
        symlink(input, desk.path(&soft)).unwrap();
        fs::hard_link(desk.path(input), desk.path(&hard)).unwrap();
        let absolute = desk.path(input);
        let absolute = absolute.to_str().unwrap();
        for name in [input, &format!("./{input}"), &soft, &hard, absolute] {
            for (from, to) in [(input, name), (name, input)] {
                for force in [&[][..], &["--force"]] {
                    let words = [&[task, "--part", "bench", from, to], force].concat();
                    let expected =
                        format!("{to} is the same file as {from}, which is not to be changed.");
                    assert_eq!(desk.refused(&words, ""), expected);
                }
            }
        }
    }
}

#[test]
fn files_that_cannot_be_read() {
    let desk = bench_desk("unread");
    fs::create_dir(desk.path("directory")).unwrap();
    assert!(desk.command("mkfifo", &["pipe"]).status().unwrap().success());
    symlink("loop", desk.path("loop")).unwrap();
    let says = |input: &str, sentence: &str| {
        for task in ["write", "read", "salvage"] {
            for words in [&["new"][..], &["old", "--force"]] {
                let said = desk.refused(&[&[task, "--part", "0", input], words].concat(), "");
                assert!(said.starts_with(sentence), "{said}");
            }
        }
        let said = desk.refused(&["check", "--part", "0", input], "");
        assert!(said.starts_with(sentence), "{said}");
    };
    says("none", "none cannot be read: No such file");
    says("chip.bin/none", "chip.bin/none cannot be read: Not a directory");
    says("loop", "loop cannot be read: Too many levels");
    for other in ["directory", "pipe", "/dev/zero", "."] {
        says(other, &format!("{other} is not a file."));
    }
    says("", " cannot be read: No such file");
    let mut odd = desk.command(env!("CARGO_BIN_EXE_image"), &["check", "--part", "0"]);
    let said = odd.arg(OsStr::from_bytes(b"no\xFFwhere")).output().unwrap().stderr;
    assert!(String::from_utf8_lossy(&said).contains("cannot be read: No such file"));
}
