//! The command that carries out a probe's file: what it writes and prints, and what it says otherwise.

use std::ffi::OsStr;
use std::fs::{self, Permissions};
use std::os::unix::ffi::OsStrExt;
use std::os::unix::fs::{symlink, PermissionsExt};
use std::path::PathBuf;
use std::process::{Command, Output};

#[allow(dead_code)]
#[path = "../../rig/src/probe.rs"]
mod probe;

use probe::{Probe, SpiMode};

fn path(name: &str) -> PathBuf {
    PathBuf::from(env!("CARGO_TARGET_TMPDIR")).join(name)
}

/// A path at which nothing is.
fn absent(name: &str) -> PathBuf {
    let path = path(name);
    let _ = std::fs::remove_file(&path);
    path
}

fn command(arguments: &[&str]) -> Command {
    let mut command = Command::new(env!("CARGO_BIN_EXE_pins"));
    command.args(arguments);
    command
}

fn pins(arguments: &[&str]) -> Output {
    command(arguments).output().unwrap()
}

/// A file with an identification of an M25P40 and a transaction without bytes.
fn probed(name: &str) -> (PathBuf, Vec<u8>) {
    let mut probe = Probe::new(SpiMode::Zero, 1);
    probe.transaction(&[0x9F, 0x00], 0, true);
    probe.transaction(&[], 0, true);
    let path = path(name);
    std::fs::write(&path, &probe.samples).unwrap();
    (path, probe.samples)
}

#[test]
fn writes_output_and_dump() {
    let (file, samples) = probed("command.bin");
    let (output, dump) = (absent("command.out"), absent("command.vcd"));
    let run = pins(&[
        "m25p40",
        file.to_str().unwrap(),
        "--output",
        output.to_str().unwrap(),
        "--vcd",
        dump.to_str().unwrap(),
    ]);
    let text = String::from_utf8(run.stdout).unwrap();
    assert!(run.status.success() && run.stderr.is_empty(), "{text}");
    let expected = format!(
        "M25P40, {} samples: answer 0, carried out\n2 transactions ended, 0 thrown away, \
         0 unfinished\noutput driven after 17 samples\n",
        samples.len()
    );
    assert_eq!(text, expected);
    let output = std::fs::read(output).unwrap();
    assert_eq!(output.len(), samples.len());
    // The identification begins with 20; its bits show from the falls on, then bit 7 of the next byte.
    assert_eq!(output[18..35], [0, 0, 0, 0, 1, 1, 0, 0, 0, 0, 0, 0, 0, 0, 0, 0, 0]);
    check_dump(&std::fs::read_to_string(dump).unwrap(), &samples, &output, 'z');
}

/// An output that is not driven is 1 in the dump if asked for, and 2 in the output as ever.
#[test]
fn dump_with_a_pull_up() {
    let (file, samples) = probed("pulled.bin");
    let (output, dump) = (absent("pulled.out"), absent("pulled.vcd"));
    let (output_name, dump_name) = (output.to_str().unwrap(), dump.to_str().unwrap());
    let file = file.to_str().unwrap();
    let run = pins(&["M25P40", file, "--vcd", dump_name, "--pulled-up", "--output", output_name]);
    assert!(run.status.success());
    let output = fs::read(output).unwrap();
    assert!(output.contains(&2));
    check_dump(&fs::read_to_string(dump).unwrap(), &samples, &output, '1');
}

/// Reads the dump back and compares it with samples and output; `undriven` stands for 2.
fn check_dump(text: &str, samples: &[u8], output: &[u8], undriven: char) {
    let (head, body) = text.split_once("$enddefinitions $end\n").unwrap();
    for (letter, name) in "!\"#$%&".chars().zip(["select", "clock", "data", "w", "hold", "output"])
    {
        assert!(head.contains(&format!("$var wire 1 {letter} {name} $end\n")));
    }
    let mut values = [None; 6];
    let mut at = 0;
    for line in body.lines() {
        if let Some(time) = line.strip_prefix('#') {
            let time: usize = time.parse().unwrap();
            for i in at..time {
                let pins = (0..5).map(|bit| samples[i] >> bit & 1);
                let levels = ['0', '1', undriven];
                let expected = pins.chain([output[i]]).map(|value| levels[value as usize]);
                assert!(expected.eq(values.into_iter().map(Option::unwrap)), "sample {i}");
            }
            at = time;
            continue;
        }
        let (value, letter) = (line.as_bytes()[0], line.as_bytes()[1]);
        values[(letter - b'!') as usize] = Some(value as char);
    }
    assert_eq!(at, samples.len());
}

/// One sentence, a failure, and nothing written.
fn refused(arguments: &[&str], sentence: &str) {
    let (output, dump) = (absent("refused.out"), absent("refused.vcd"));
    let mut all = arguments.to_vec();
    all.extend(["--output", output.to_str().unwrap(), "--vcd", dump.to_str().unwrap()]);
    let run = pins(&all);
    assert!(!run.status.success() && run.stdout.is_empty());
    let said = String::from_utf8(run.stderr).unwrap();
    assert!(said.contains(sentence), "{said}");
    assert_eq!(said.trim_end().lines().count(), 1, "{said}");
    assert!(!output.exists() && !dump.exists(), "a file was written");
}

#[test]
fn refusals_are_one_sentence() {
    let (file, mut samples) = probed("refused.bin");
    let good = file.to_str().unwrap();
    refused(&["M25P64", good], "There is no part M25P64;");
    refused(&["7", good], "There is no part 7;");
    let missing = absent("missing.bin");
    refused(&["0", missing.to_str().unwrap()], "cannot be read: No such file");
    refused(&["0", good, "--durations", "1,2,3"], "1,2,3 is not four durations");
    refused(&["0", good, "--durations", "1,2,3,0"], "The delivery is refused with 7");
    refused(&["0", good, "--durations", "1,1,1,1", "--durations", "1,1,1,1"], "given twice.");
    refused(&["0", good, "--wave", "x"], "There is no option --wave; pins --help says more.");
    refused(&["0"], "A part and a file are needed, and no more; pins --help says more.");
    refused(&["0", good, good], "A part and a file are needed, and no more;");
    samples[5] |= 0x40;
    samples[9] |= 0x80;
    let odd = path("odd.bin");
    std::fs::write(&odd, samples).unwrap();
    let odd = odd.to_str().unwrap();
    let sentence = format!(
        "{odd} is refused with 21: sample 5, counted from 0, has one of the bits 5 to 7 set."
    );
    refused(&["0", odd], &sentence);
}

/// The sentence of a command that fails, and prints nothing.
fn complaint(mut command: Command) -> String {
    let run = command.output().unwrap();
    assert!(!run.status.success() && run.stdout.is_empty());
    String::from_utf8_lossy(&run.stderr).into_owned()
}

#[test]
fn further_refusals() {
    let (file, _) = probed("further.bin");
    let good = file.to_str().unwrap();
    let needs = "--pulled-up is about the dump and needs --vcd.\n";
    assert_eq!(complaint(command(&["0", good, "--pulled-up"])), needs);
    assert_eq!(complaint(command(&["0", good, "--vcd"])), "--vcd has no value.\n");
    let one = ["0", good, "--output", "not there", "--vcd", "./not there"];
    assert_eq!(complaint(command(&one)), "The output and the dump would be one file.\n");
    let mut odd = command(&["0"]);
    odd.arg(OsStr::from_bytes(b"/no\xFFwhere"));
    assert!(complaint(odd).contains("cannot be read: No such file"));
    let mut full = Command::new("sh");
    full.args(["-c", "exec \"$@\" >/dev/full", "sh", env!("CARGO_BIN_EXE_pins"), "0", good]);
    assert!(complaint(full).starts_with("Standard output cannot be written: "));
}

#[test]
fn parts_by_number_and_by_name_in_any_case() {
    let (file, _) = probed("names.bin");
    let names = ["bench", "M25P10-A", "M25P40", "M25P32", "M25P128", "M25P10-A-older", "M25PE40"];
    for (number, name) in names.into_iter().enumerate() {
        for word in [&number.to_string(), name, &name.to_lowercase(), &name.to_uppercase()] {
            let run = pins(&[word, file.to_str().unwrap()]);
            assert!(run.status.success(), "{word}");
            assert!(run.stdout.starts_with(format!("{name}, ").as_bytes()), "{word}");
        }
    }
}

/// A result is replaced as a whole: permissions and a link to it stay, and what cannot be written is said
/// and leaves the old one.
#[test]
fn results_are_replaced_as_a_whole() {
    let (file, samples) = probed("replaced.bin");
    let directory = path("replaced");
    let _ = fs::remove_dir_all(&directory);
    fs::create_dir(&directory).unwrap();
    let (old, link) = (directory.join("old.out"), directory.join("link.out"));
    fs::write(&old, "old").unwrap();
    fs::set_permissions(&old, Permissions::from_mode(0o640)).unwrap();
    symlink("old.out", &link).unwrap();
    let run = pins(&["0", file.to_str().unwrap(), "--output", link.to_str().unwrap()]);
    assert!(run.status.success());
    assert_eq!(fs::read(&old).unwrap().len(), samples.len());
    assert_eq!(fs::metadata(&old).unwrap().permissions().mode() & 0o777, 0o640);
    assert!(fs::symlink_metadata(&link).unwrap().is_symlink());
    assert_eq!(fs::read_dir(&directory).unwrap().count(), 2, "nothing else is left");
    let absent = directory.join("none/out.bin");
    let words = ["0", file.to_str().unwrap(), "--output", absent.to_str().unwrap()];
    assert!(complaint(command(&words)).contains("cannot be written: No such file"));
    assert!(pins(&["0", file.to_str().unwrap(), "--output", "/dev/null"]).status.success());
}

#[test]
fn probe_file_is_not_written_over() {
    let (file, samples) = probed("kept.bin");
    let name = file.to_str().unwrap();
    let run = pins(&["0", name, "--output", name]);
    assert!(!run.status.success());
    assert_eq!(std::fs::read(file).unwrap(), samples);
}

#[test]
fn help() {
    let run = pins(&["--help"]);
    assert!(run.status.success() && run.stderr.is_empty());
    let text = String::from_utf8(run.stdout).unwrap();
    assert!(text.starts_with("Usage: pins PART FILE"));
    for option in ["--output", "--vcd", "--pulled-up", "--durations"] {
        assert!(text.contains(option), "{option}");
    }
    assert_eq!(complaint(command(&[])).lines().count(), 1);
}
