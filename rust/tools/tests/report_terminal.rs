//! The command `report` at a terminal: a line on standard error says which file is carried out, and is erased before
//! anything else is said.

#[path = "support/report.rs"]
#[allow(dead_code)]
mod report;
#[path = "support/screen.rs"]
mod screen;

use desk::Desk;
use report::batch::{common, desk};
use report::{desk_of, lines, program};
use screen::seen;

/// A desk with two good files, and one that is cut.
fn week(name: &str) -> Desk {
    let desk = desk_of(name);
    desk.put("mon", lines(&program(0x000)));
    desk.put("tue", lines(&program(0x400)));
    desk.put("cut", [1, 0]);
    desk
}

/// The line at a file, over one of this width.
fn file(number: usize, files: usize, refused: usize, width: usize) -> String {
    format!("\r{:width$}", format!("file {number} of {files}, refused {refused}"))
}

fn erased(width: usize) -> String {
    format!("\r{:width$}\r", "")
}

/// A table as a terminal shows it.
fn shown(table: &str) -> String {
    table.replace('\n', "\r\n")
}

#[test]
fn one_file_after_another() {
    let desk = week("files");
    let table = desk.prints(&["--part", "0", "mon", "tue", "mon"]);
    let (text, status) = seen(&desk, "exec \"$COMMAND\" --part 0 mon tue mon");
    let width = "file 1 of 3, refused 0".len();
    let steps = [1, 2, 3].map(|number| file(number, 3, 0, width)).concat();
    assert_eq!((text, status), (steps + &erased(width) + &shown(&table), Some(0)));
    // A longer line, from the tenth file on.
    let (text, _) = seen(&desk, "exec \"$COMMAND\" --part 0 $(yes mon | head -n 12)");
    let (first, last) = (file(9, 12, 0, 0), file(12, 12, 0, 0));
    assert!(text.contains(&format!("{first}\rfile 10 of 12, refused 0\r")), "{text}");
    assert!(text.contains(&format!("{last}{}bench, files 12: ", erased(last.len() - 1))), "{text}");
}

/// The line is gone before a refused file is named, and goes on behind it.
#[test]
fn refused_files() {
    let desk = week("refused");
    let output = desk.run(&["--part", "0", "mon", "cut", "none", "tue"]);
    let [table, said] =
        [output.stdout, output.stderr].map(|b| shown(&String::from_utf8(b).unwrap()));
    let (cut, none) = said.split_at(said.find("none").unwrap());
    let (text, status) = seen(&desk, "exec \"$COMMAND\" --part 0 mon cut none tue");
    let width = "file 1 of 4, refused 0".len();
    let line = |number, refused| file(number, 4, refused, 0);
    let expected = [
        &line(1, 0),
        &line(2, 0),
        &erased(width),
        cut,
        &line(3, 1),
        &erased(width),
        none,
        &line(4, 2),
        &erased(width),
        &table,
    ];
    assert_eq!((text, status), (expected.map(String::from).concat(), Some(2)));
}

/// It is standard error that counts, whatever standard output is; without a file there is no line.
#[test]
fn standard_error_alone() {
    let desk = week("stderr");
    let table = desk.prints(&["--part", "0", "mon"]);
    let (text, _) = seen(&desk, "exec \"$COMMAND\" --part 0 mon 2>said");
    assert_eq!((text, desk.get("said")), (shown(&table), vec![]));
    let (text, _) = seen(&desk, "exec \"$COMMAND\" --part 0 mon >printed");
    let line = file(1, 1, 0, 0);
    assert_eq!(text, format!("{line}{}", erased(line.len() - 1)));
    assert_eq!(desk.get("printed"), table.as_bytes());
    let (text, status) = seen(&desk, "exec \"$COMMAND\" --part 0");
    assert!(text.starts_with("A batch file is needed") && status == Some(1), "{text}");
}
