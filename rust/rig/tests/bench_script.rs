//! The script ./bench as people call it: what it says and how it ends, on files, pipes and a terminal. The program is the
//! proved one; where proving is the point, a stand-in for rt takes the prover's place, so that nothing is proved anew.

#[path = "../../tools/tests/support/common.rs"]
mod common;
#[path = "support/place.rs"]
mod place;
#[path = "support/pty.rs"]
#[allow(dead_code)]
mod pty;

use std::fs::{self, File};
use std::io::{Read, Write};
use std::os::unix::fs::symlink;
use std::process::{Output, Stdio};

use common::{eventually, scratch, send_signal};
use place::{ended, lines, Place, ENDS};
use pty::{Seat, CTRL_C, CTRL_D};
use rig::bench_model;

const EXAMPLE: &str = include_str!("../../../examples/first.txt");
const UNWRITTEN: &str =
    "bench: not all answers could be written: standard output is full, closed or \
                         no longer read\n";

fn said(output: &Output) -> (Option<i32>, &str, &str) {
    let text = |bytes| std::str::from_utf8(bytes).unwrap();
    (output.status.code(), text(&output.stdout), text(&output.stderr))
}

#[test]
fn files_and_pipes() {
    let Some(place) = Place::proved("files") else { return };
    let expected = bench_model::output(EXAMPLE.as_bytes());
    assert_eq!(said(&place.run("./bench", EXAMPLE)), (Some(0), &expected[..], ""));
    assert_eq!(said(&place.run("cat | ./bench | cat", EXAMPLE)).1, expected);
    assert_eq!(said(&place.run("./bench >out", EXAMPLE)), (Some(0), "", ""));
    assert_eq!(fs::read_to_string(place.file("out")).unwrap(), expected);
    assert_eq!(said(&place.run("./bench", "")), (Some(0), "n ans q\nend 0\n", ""));
    place.nothing_runs();
}

#[test]
fn answers_that_cannot_be_written() {
    let Some(place) = Place::proved("unwritten") else { return };
    let long = "x 1 0 0500\n".repeat(50_000);
    for text in ["./bench >/dev/full", "./bench >&-", "{ ./bench; echo $? >status; } | head -n 1"] {
        let output = place.run(text, &long);
        let status = fs::read_to_string(place.file("status")).unwrap_or_default();
        let failed = output.status.code() == Some(1) || status == "1\n";
        assert!(failed, "{text}: {output:?} {status}");
        assert_eq!(said(&output).2, UNWRITTEN, "{text}");
        place.nothing_runs();
    }
    // It is told at once, not at the end of the input.
    let mut child = place.shell("exec ./bench >/dev/full");
    let mut child = child.stdin(Stdio::piped()).stderr(Stdio::piped()).spawn().unwrap();
    let input = child.stdin.take();
    let mut told = String::new();
    child.stderr.take().unwrap().read_to_string(&mut told).unwrap();
    assert_eq!((told.as_str(), ended(&mut child)), (UNWRITTEN, Some(1)));
    drop(input);
}

#[test]
fn arguments() {
    let Some(place) = Place::proved("arguments") else { return };
    let help = place.run("./bench --help", "p\n");
    let (status, text, complaint) = said(&help);
    assert_eq!((status, complaint), (Some(0), ""));
    for part in ["x W bits hex", "w t", "600 characters", "'n ans q'", "'end'", "3 ticks"] {
        assert!(text.contains(part), "{part} in {text}");
    }
    assert_eq!(
        said(&place.run("./bench --help >/dev/full", "")),
        (Some(1), "", "bench: the help could not be written\n")
    );
    let sentence =
        "bench: it takes no arguments and reads standard input; ./bench --help says more\n";
    for words in ["lines", "-h", "--help me", "''", "-- lines"] {
        let output = place.run(&format!("./bench {words}"), "p\n");
        assert_eq!(said(&output), (Some(2), "", sentence), "{words}");
    }
}

#[test]
fn inputs_that_cannot_be_read() {
    let Some(place) = Place::proved("unread") else { return };
    let closed = place.run("./bench <&-", "");
    assert_eq!(said(&closed), (Some(1), "", "bench: standard input is closed\n"));
    let directory = place.run("./bench <.", "");
    assert_eq!(said(&directory), (Some(1), "", "bench: standard input is a directory\n"));
}

#[test]
fn through_links() {
    let Some(place) = Place::proved("links") else { return };
    let away = scratch("bench_links_from");
    symlink(place.file("bench"), away.join("first")).unwrap();
    symlink("first", away.join("second")).unwrap();
    let expected = bench_model::output(EXAMPLE.as_bytes());
    for text in ["second", "cd .. && second", "cd / && sh \"$AWAY/second\""] {
        let text = format!("AWAY={0} PATH={0}:$PATH; {text}", away.display());
        assert_eq!(said(&place.run(&text, EXAMPLE)), (Some(0), &expected[..], ""), "{text}");
    }
}

/// A person at a terminal sees each answer before the next line; Ctrl-D and Ctrl-C end the program.
#[test]
fn at_a_terminal() {
    let Some(place) = Place::proved("terminal") else { return };
    let mut seat = Seat::start(place.shell("exec ./bench"));
    seat.sees("n ans q\r\n");
    for (typed, answer) in [("x 1 0 06\n", "1 0 FF\r\n"), ("x 1 0 0500\n", "2 0 FF02\r\n")] {
        seat.types(typed);
        seat.sees(answer);
    }
    seat.types(CTRL_D);
    seat.sees("end 2\r\n");
    assert_eq!(ended(&mut seat.child), Some(0));

    let mut seat = Seat::start(place.shell("exec ./bench"));
    seat.sees("n ans q\r\n");
    seat.types(CTRL_C);
    assert_eq!(ended(&mut seat.child), Some(130));
    place.nothing_runs();
}

#[test]
fn signals_end_the_program() {
    let Some(place) = Place::proved("signals") else { return };
    for (signal, status) in ENDS {
        let mut child = place.start();
        let input = child.stdin.take();
        let header = lines(child.stdout.take().unwrap())();
        assert_eq!((header.as_deref(), place.processes().len() > 1), (Some("n ans q"), true));
        send_signal(child.id(), signal);
        assert_eq!(ended(&mut child), Some(status));
        place.nothing_runs();
        drop(input);
    }
}

/// The lines of rt are seen as they come, the whole is in the log, and the second run proves nothing.
#[test]
fn the_first_run_shows_what_is_proved() {
    let Some(place) = Place::unproved("first") else { return };
    let mut child = place.start();
    child.stdin.take().unwrap().write_all(EXAMPLE.as_bytes()).unwrap();
    let mut told = lines(child.stderr.take().unwrap());
    let mut next = || told().unwrap_or_default();
    assert_eq!(next(), "bench: proving and building, once (a few minutes)");
    assert_eq!(next(), "bench: slices is proved");
    assert_eq!(next(), "rt: slices proved (5 s)");
    assert!(!place.file("target/bench.proved").exists(), "the proof goes on");
    File::create(place.file("go")).unwrap();
    assert_eq!(next(), "rt: ok, 7 crates proved");
    assert_eq!((next(), next()), ("bench: proved and built".to_string(), String::new()));
    let mut answers = String::new();
    child.stdout.take().unwrap().read_to_string(&mut answers).unwrap();
    assert_eq!(answers, bench_model::output(EXAMPLE.as_bytes()));
    assert_eq!(ended(&mut child), Some(0));
    let log = fs::read_to_string(place.file("target/bench.log")).unwrap();
    assert!(log.contains("fn slices::least: proved\n"));

    assert_eq!(said(&place.run("./bench", EXAMPLE)), (Some(0), &answers[..], ""));
    fs::write(place.file("crates/bench/changed"), "").unwrap();
    assert!(said(&place.run("./bench", EXAMPLE)).2.contains("proved and built"));
    assert_eq!(fs::read_to_string(place.file("target/calls")).unwrap(), "called\n".repeat(2));
}

/// A program whose proof failed is not run, the next time either.
#[test]
fn a_failed_proof() {
    let Some(place) = Place::unproved("failed") else { return };
    for file in ["go", "wrong"] {
        File::create(place.file(file)).unwrap();
    }
    for _ in 0..2 {
        let output = place.run("./bench", EXAMPLE);
        let (status, answers, complaint) = said(&output);
        assert_eq!((status, answers), (Some(1), ""));
        let end = "rt: bench NOT PROVED (exit 1, 3 s)\nbench: not proved or not built; \
                   target/bench.log has what rt said\n";
        assert!(complaint.ends_with(end), "{complaint}");
    }
}

/// A signal in the middle of a proof ends all of the prover, and the next run proves.
#[test]
fn signals_end_the_prover() {
    let Some(place) = Place::unproved("prover") else { return };
    let rooms = place.file("rooms");
    fs::create_dir(&rooms).unwrap();
    for (signal, status) in ENDS {
        let mut command = place.shell("exec ./bench");
        command.env("TMPDIR", &rooms).stdin(Stdio::null()).stderr(Stdio::null());
        let mut child = command.spawn().unwrap();
        eventually("the prover runs", || place.processes().len() > 6);
        send_signal(child.id(), signal);
        assert_eq!(ended(&mut child), Some(status));
        place.nothing_runs();
        assert_eq!(fs::read_dir(&rooms).unwrap().count(), 0, "no temporary files are left");
    }
    let mut seat = Seat::start(place.shell("exec ./bench"));
    seat.sees("rt: slices proved (5 s)\r\n");
    seat.types(CTRL_C);
    assert_eq!(ended(&mut seat.child), Some(130));
    place.nothing_runs();
    File::create(place.file("go")).unwrap();
    assert!(said(&place.run("./bench", EXAMPLE)).2.contains("proved and built"));
}

/// Of two first runs one proves, and the other waits for it and proves nothing.
#[test]
fn two_at_once() {
    let Some(place) = Place::unproved("two") else { return };
    let mut first = place.start();
    eventually("the first proves", || place.file("target/calls").exists());
    let mut second = place.start();
    let mut told = lines(second.stderr.take().unwrap());
    let sentence = "bench: another run of bench is proving here; this one waits for it";
    assert_eq!(told().as_deref(), Some(sentence));
    File::create(place.file("go")).unwrap();
    for child in [&mut first, &mut second] {
        child.stdin.take().unwrap().write_all(b"p\n").unwrap();
        let mut answers = String::new();
        child.stdout.take().unwrap().read_to_string(&mut answers).unwrap();
        assert_eq!(answers, "n ans q\n1 0 -\nend 1\n");
        assert_eq!(ended(child), Some(0));
    }
    assert_eq!(fs::read_to_string(place.file("target/calls")).unwrap(), "called\n");
}
