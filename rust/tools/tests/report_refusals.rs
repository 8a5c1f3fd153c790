//! What the command `report` refuses: a file is named, and the next one goes on; bad words are one sentence, and every
//! file stays as it was.

#[path = "support/report.rs"]
#[allow(dead_code)]
mod report;

use std::ffi::OsStr;
use std::fs;
use std::os::unix::ffi::OsStrExt;
use std::os::unix::fs::symlink;

use m25p::batch::{items, BadItem, Reason};
use m25p::report::Totals;
use m25p::{Answer, Chip, Durations, Part};
use report::batch::desk::Desk;
use report::json::Value;
use report::{count, desk_of, lines, outside, program, told, totals_of};
use tools::report::Week;

/// A desk with two good files, an image of the bench part, and files that are refused.
fn desk(name: &str) -> Desk {
    let desk = desk_of(name);
    desk.put("mon", lines(&(program(0x000) + "x 1 0 0300000000\n")));
    desk.put("tue", lines(&(program(0x400) + "x 1 0 0300040000\n")));
    desk.put("image", vec![0xFF; 4_096]);
    desk.put("flag", [&desk.get("mon")[..], &[0, 0, 17]].concat());
    desk.put("wait", [&desk.get("mon")[..], &[3, 0, 16, 1, 0, 0], &desk.get("mon")].concat());
    desk.put("cut", &desk.get("mon")[..22]);
    fs::create_dir(desk.path("directory")).unwrap();
    desk
}

const FLAG: &str =
    "flag is refused with 9 at item 5: the item at byte 27 has the flag 17, which is above 16.\n";
const WAIT: &str =
    "wait is refused with 9 at item 5: the item at byte 27 is a wait of length 3, not of 4.\n";
const CUT: &str =
    "cut is refused with 9 at item 4: the item at byte 19 is cut: it has 0 of the 5 bytes behind its flag.\n";
const NONE: &str = "none cannot be read: No such file or directory (os error 2).\n";
const DIRECTORY: &str = "directory cannot be read: Is a directory (os error 21).\n";

/// Wherever they stand, refused files are named in their order and change nothing, the array neither; the rest is told
/// as without them, but for how many there were.
#[test]
fn refused_files_among_others() {
    let desk = desk("among");
    let run =
        |files: &[&str]| told(desk.run(&[&["--part", "0", "--save", "array"], files].concat()));
    let (good, said, status) = run(&["mon", "tue"]);
    let array = desk.get("array");
    assert_eq!((&said[..], status), ("", Some(0)));
    let all = [FLAG, WAIT, CUT, NONE, DIRECTORY].concat();
    for (files, said) in [
        (&["mon", "flag", "tue"][..], FLAG),
        (&["wait", "mon", "tue"], WAIT),
        (&["mon", "tue", "cut"], CUT),
        (&["mon", "none", "tue"], NONE),
        (&["mon", "directory", "tue"], DIRECTORY),
        (&["flag", "wait", "mon", "cut", "none", "tue", "directory"], &all),
    ] {
        let refused = files.len() - 2;
        let head = format!("files {}: taken 2, refused {refused}", files.len());
        let expected = good.replace("files 2: taken 2, refused 0", &head);
        assert_eq!(run(files), (expected, said.to_string(), Some(2)), "{files:?}");
        assert_eq!(desk.get("array"), array, "{files:?}");
    }
    let (printed, said, status) = run(&["cut", "none"]);
    assert_eq!((&said[..], status), (&[CUT, NONE].concat()[..], Some(2)));
    assert!(printed.starts_with("bench, files 2: taken 0, refused 2\ntransactions 0, driven"));
    assert_eq!(desk.get("array"), [0xFF; 4_096]);
}

/// As JSON: what was said, with the number where there is one, also of names that are no plain text.
#[test]
fn refused_files_as_json() {
    let desk = desk("json");
    let mut command = desk.command(env!("CARGO_BIN_EXE_report"), &["--part", "0", "--json"]);
    let odd = [&b"no \"one\"\\\n\x01"[..], b"\xFF\xFE", "ü".as_bytes()].map(OsStr::from_bytes);
    command.args(["mon", "flag", "none"]).args(odd);
    let (printed, said, status) = told_lossy(command.output().unwrap());
    assert_eq!(status, Some(2));
    let words = ["-c", "import json, sys; json.load(sys.stdin)"];
    assert_ne!(outside::takes("python3", &words, printed.as_bytes()), Some(false));
    let report = Value::read(&printed);
    let refused = report.at("refused").list();
    assert!(refused.iter().all(|file| file.names() == ["file", "answer", "sentence"]));
    let of = |name| refused.iter().map(|file| file.at(name)).collect::<Vec<&Value>>();
    let files: Vec<&str> = of("file").into_iter().map(Value::text).collect();
    assert_eq!(files, ["flag", "none", "no \"one\"\\\n\u{1}", "\u{FFFD}\u{FFFD}", "ü"]);
    let answers: Vec<&str> = of("answer").into_iter().map(Value::word).collect();
    assert_eq!(answers, ["9", "null", "null", "null", "null"]);
    let sentences: Vec<String> =
        of("sentence").into_iter().map(|sentence| format!("{}\n", sentence.text())).collect();
    assert_eq!(sentences.concat(), said);
    assert_eq!((report.at("taken").number(), report.at("transactions").number()), (1, 3));
}

/// The same of what may be no text.
fn told_lossy(output: std::process::Output) -> (String, String, Option<i32>) {
    let said = String::from_utf8_lossy(&output.stderr).into_owned();
    (String::from_utf8(output.stdout).unwrap(), said, output.status.code())
}

/// A file that is cut at any byte: it counts for nothing but where an item ends, and the file behind it goes on from
/// what was before.
#[test]
fn cut_at_every_byte() {
    let desk = desk("every_byte");
    let whole = lines(&(program(0x800) + "x 1 0 05000000\nx 1 0\nw 1\n"));
    let ends: Vec<usize> =
        (0..=whole.len()).filter(|end| items(&whole[..*end]).all(|item| item.is_ok())).collect();
    assert_eq!(ends.len(), 7);
    for end in 0..=whole.len() {
        desk.put("wed", &whole[..end]);
        let mut chip = Chip::deliver(Part::Bench, Durations::default()).unwrap();
        let mut totals = Totals::default();
        let taken = ends.contains(&end);
        for batch in
            [&desk.get("mon")[..], if taken { &whole[..end] } else { &[] }, &desk.get("tue")]
        {
            count(&mut chip, batch, &mut totals);
        }
        let output = desk.run(&["--json", "--part", "0", "mon", "wed", "tue", "--save", "array"]);
        let (printed, said, status) = told(output);
        let report = Value::read(&printed);
        assert_eq!(totals_of(&report), totals, "{end}");
        assert!(desk.get("array") == chip.array(), "{end}");
        assert_eq!((said.is_empty(), status), (taken, Some(if taken { 0 } else { 2 })), "{end}");
        assert!(taken || said.starts_with("wed is refused with 9 at item "), "{said}");
    }
}

/// Each kind of bad item is told with its number and place, as a run of `batch` tells it.
#[test]
fn bad_items() {
    let desk = desk("bad_items");
    let good = desk.get("mon");
    let cut = |length, left| Reason::Body { length, left };
    let cases: [(&[u8], Reason); 8] = [
        (&[1], Reason::Head(1)),
        (&[1, 0], Reason::Head(2)),
        (&[2, 0, 1, 0x05], cut(2, 1)),
        (&[5, 0, 16, 1, 0, 0, 0], cut(5, 4)),
        (&[1, 0, 17, 0x06], Reason::Flag(17)),
        (&[4, 0, 32, 1, 0, 0, 0], Reason::Flag(32)),
        (&[3, 0, 16, 1, 0, 0], Reason::WaitLength(3)),
        (&[0, 0, 16], Reason::WaitLength(0)),
    ];
    for (item, reason) in cases {
        desk.put("bad", [&good, item].concat());
        let (_, said, status) = told(desk.run(&["--part", "0", "bad"]));
        let why = BadItem { at: 27, reason };
        assert_eq!(said, format!("bad is refused with 9 at item 5: {why}.\n"));
        assert_eq!(status, Some(2));
        let run = desk.command(env!("CARGO_BIN_EXE_batch"), &["run", "0", "bad"]).output().unwrap();
        assert_eq!(String::from_utf8(run.stderr).unwrap(), said);
    }
}

fn week() -> Week {
    Week::new(Chip::deliver(Part::Bench, Durations::default()).unwrap())
}

/// One of the totals.
type Place = fn(&mut Totals) -> &mut u64;

/// A total that 64 bits cannot hold: the file is named with 71 and changes nothing. A sum that is just the largest is
/// good, and the next file goes on where it adds nothing to that.
#[test]
fn totals_that_are_full() {
    let desk = desk("full");
    let [mon, tue] = ["mon", "tue"].map(|name| desk.path(name));
    let sentence = format!("{} is refused with 71: {}.", mon.display(), Answer::TotalsOverflow);
    let full: [(u64, bool, Place); 4] = [
        (1, false, |totals| &mut totals.executed[0x02]),
        (3, false, |totals| &mut totals.answers[0]),
        (1, false, |totals| &mut totals.driven),
        (1, true, |totals| &mut totals.programs[0]),
    ];
    for (added, goes_on, place) in full {
        let mut week = week();
        *place(&mut week.totals) = u64::MAX - added;
        week.take(&mon).unwrap();
        assert_eq!(*place(&mut week.totals), u64::MAX, "just the largest");
        let before = (week.chip.clone(), week.totals.clone());
        let refused = week.take(&mon).unwrap_err();
        assert_eq!((&refused.file, refused.answer), (&mon, Some(Answer::TotalsOverflow)));
        assert_eq!(refused.sentence, sentence);
        assert!((week.chip.clone(), week.totals.clone()) == before);
        assert_eq!((week.taken, week.refused.len()), (1, 1));
        assert_eq!(week.take(&tue).is_ok(), goes_on);
    }
}

/// A total that is full already is no refusal where nothing is added to it.
#[test]
fn full_and_left_alone() {
    let desk = desk("left_alone");
    let mut week = week();
    for place in [&mut week.totals.executed[0x9F], &mut week.totals.programs[3]] {
        *place = u64::MAX;
    }
    for day in ["mon", "tue", "mon"] {
        week.take(&desk.path(day)).unwrap();
    }
    let Totals { executed, programs, .. } = week.totals;
    assert_eq!((executed[0x9F], &programs[..4]), (u64::MAX, &[2, 1, 0, u64::MAX][..]));
}

/// The largest numbers, in the table and in the JSON: exact, and aligned.
#[test]
fn largest_numbers() {
    let mut week = week();
    week.totals.answers[0] = u64::MAX;
    week.totals.answers[16] = u64::MAX - 1;
    week.totals.executed[0x02] = u64::MAX;
    week.totals.programs[..4].copy_from_slice(&[u64::MAX, u64::MAX - 1, 1, 0]);
    week.totals.driven = u64::MAX;
    let table = tools::report::Table(&week).to_string();
    let bars = "\n  18446744073709551615   0 000000-0003FF ########################################\
                \n  18446744073709551614   1 000400-0007FF #######################################\
                \n                     1   2 000800-000BFF #\n                     0   3 000C00-000FFF\n";
    assert!(table.ends_with(bars), "{table}");
    let head = "\ntransactions 36893488147419103229, driven bytes 18446744073709551615\n";
    assert!(table.contains(head), "{table}");
    let report = Value::read(&tools::report::Json(&week).to_string());
    assert_eq!(totals_of(&report), week.totals);
}

/// The one sentence of words that are bad; nothing is carried out or written.
#[test]
fn words() {
    let desk = desk("words");
    let says = |words: &[&str], sentence: &str| {
        let sentence = sentence.replace("{more}", "report --help says more.");
        assert_eq!(desk.refused(words, ""), sentence, "{words:?}");
    };
    let file = "A batch file is needed, or several; {more}";
    says(&[], file);
    says(&["--part", "2"], file);
    says(&["--part", "2", "--json", "--save", "new"], file);
    let part = "--part is missing: the part that the files are for; {more}";
    says(&["mon"], part);
    says(&["mon", "--save", "new", "--svg", "new.svg"], part);
    says(&["mon", "--part"], "--part has no value.");
    says(
        &["mon", "--part", "2", "--responses", "new"],
        "There is no option --responses here; {more}",
    );
    says(&["mon", "--part", "2", "--json", "--json"], "--json is given twice.");
    for option in ["--part", "--image", "--save", "--svg", "--durations"] {
        let sentence = format!("{option} is given twice.");
        says(&["mon", option, "2", option, "2"], &sentence);
    }
    let durations = |given, sentence| {
        says(&["--part", "0", "mon", "--save", "new", "--durations", given], sentence);
    };
    durations("1,2,3", "1,2,3 is not four durations such as 3,5,9,2.");
    let outside = "The delivery is refused with 7: a duration is outside 1 to 1,000,000.";
    durations("0,2,3,4", outside);
    durations("1,2,3,1000001", outside);
    let sentence = desk.refused(&["--part", "M25P64", "mon"], "");
    assert!(sentence.starts_with("There is no part M25P64; the parts are 0 bench, "));
}

/// A bad image is refused before any file is looked at.
#[test]
fn images() {
    let desk = desk("images");
    let words = |image| ["--part", "0", "none", "--save", "new", "--image", image];
    let sentence = desk.refused(&words("none"), "");
    assert!(sentence.starts_with("none cannot be read: No such file"), "{sentence}");
    desk.put("image", vec![0xFF; 4_095]);
    let sentence = "The image image has 4095 bytes; the part has 4096, or 4608 in blocks.";
    assert_eq!(desk.refused(&words("image"), ""), sentence);
    desk.put("image", vec![0xFF; 4_608]);
    let sentence = desk.refused(&words("image"), "");
    assert!(sentence.starts_with("The image image is refused with 33: block 0 is bad; "));
}

/// What is read is not written over, but for the image by the array, and two results are two files.
#[test]
fn one_file_for_two() {
    let desk = desk("one_file");
    symlink("tue", desk.path("link")).unwrap();
    fs::hard_link(desk.path("tue"), desk.path("hard")).unwrap();
    let run = |words: &[&str]| desk.refused(&[&["--part", "0", "mon", "tue"], words].concat(), "");
    for out in ["tue", "./tue", "link", "hard"] {
        let sentence = "The batch file tue would be written over.";
        assert_eq!(run(&["--save", out]), sentence);
        assert_eq!(run(&["--svg", out]), sentence);
    }
    let image = run(&["--image", "image", "--svg", "./image"]);
    assert_eq!(image, "The image would be written over by the picture.");
    for (save, svg) in [("new", "new"), ("new", "./new"), ("image", "image")] {
        let sentence = run(&["--save", save, "--svg", svg]);
        assert_eq!(sentence, "The array and the picture would be one file.");
    }
}

/// A result that cannot be written is told behind the report, which is not lost; that a file was refused is said, too.
#[test]
fn results_that_cannot_be_written() {
    let desk = desk("unwritten");
    let plain = desk.prints(&["--part", "0", "mon"]);
    for option in ["--save", "--svg"] {
        let sentence = desk.refused(&["--part", "0", "mon", option, "none/new"], &plain);
        assert!(sentence.starts_with("none/new cannot be written: No such file"), "{sentence}");
        let words = ["--part", "0", "mon", "flag", option, "none/new"];
        let (printed, said, status) = told(desk.run(&words));
        assert_eq!((printed.lines().count(), status), (plain.lines().count(), Some(1)));
        assert_eq!(said, format!("{FLAG}{sentence}\n"));
    }
    // One result is not lost for the other.
    for [bad, good] in [["--save", "--svg"], ["--svg", "--save"]] {
        let words = ["--part", "0", "mon", bad, "none/new", good, "new"];
        let (printed, said, status) = desk.makes("new", || told(desk.run(&words)));
        assert_eq!((&printed, status), (&plain, Some(1)));
        assert!(said.starts_with("none/new cannot be written: "), "{said}");
        fs::remove_file(desk.path("new")).unwrap();
    }
}

/// Whoever does not read the report gets no complaint; one that cannot be printed is told, whether a file was refused
/// or not.
#[test]
fn output_that_is_not_read() {
    let desk = desk("pipe");
    let line = "{ \"$COMMAND\" --part 0 mon --save array; echo $? >status; } | true";
    for _ in 0..20 {
        let output = desk.shell(line).output().unwrap();
        assert_eq!((output.stdout.len(), output.stderr.len()), (0, 0));
    }
    assert_eq!(desk.get("array")[0], 0xA5, "results are written before");
    for (words, said) in [("mon", ""), ("--json mon", ""), ("flag mon", FLAG), ("--help", "")] {
        let line = format!("\"$COMMAND\" --part 0 {words} >/dev/full");
        let full = told(desk.shell(&line).output().unwrap());
        assert!(
            full.1.starts_with(&format!("{said}Standard output cannot be written: ")),
            "{full:?}"
        );
        assert_eq!(full.2, Some(1));
    }
}
