//! The bench program against its model, byte for byte: crates/bench/out/bench, or the one M25P_BENCH names.

use std::io::{BufRead, BufReader, Read, Write};
use std::path::PathBuf;
use std::process::{Child, Stdio};
use std::sync::mpsc::channel;
use std::thread;
use std::time::Duration;

use rig::bench_model::{self, Bench, Line, MOST_CHARACTERS};
use rig::compare::{Call, Source};
use rig::generate::Generator;
use rig::kit;
use rig::model::Record;
use rig::rng::Rng;
use tools::batch::items_of;

const SEED: u64 = 1;

fn start() -> Child {
    let path = match std::env::var_os("M25P_BENCH") {
        Some(path) => PathBuf::from(path),
        None => PathBuf::from(env!("CARGO_MANIFEST_DIR")).join("../../crates/bench/out/bench"),
    };
    assert!(
        path.is_file(),
        "There is no bench program {}: run `rt run` in crates/bench.",
        path.display()
    );
    let mut command = kit::command(&path).unwrap_or_else(|why| panic!("{why}"));
    let child = command.stdin(Stdio::piped()).stdout(Stdio::piped()).spawn();
    child.unwrap_or_else(|e| panic!("the bench program {} does not start: {e}", path.display()))
}

/// The program's output for an input that is written in the given pieces, with pauses between if asked.
fn run(pieces: Vec<Vec<u8>>, pause: bool) -> String {
    let mut child = start();
    let mut input = child.stdin.take().unwrap();
    let writer = thread::spawn(move || {
        for piece in pieces {
            input.write_all(&piece).unwrap();
            input.flush().unwrap();
            if pause {
                thread::sleep(Duration::from_millis(2));
            }
        }
    });
    let mut output = String::new();
    child.stdout.take().unwrap().read_to_string(&mut output).unwrap();
    writer.join().unwrap();
    assert!(child.wait().unwrap().success());
    output
}

/// Compares the two outputs and names the first line that differs.
fn same(input: &[u8], output: &str) {
    let expected = bench_model::output(input);
    if output == expected {
        return;
    }
    let lines = bench_model::lines(input);
    for (i, (got, wanted)) in output.lines().zip(expected.lines()).enumerate() {
        let line = i.checked_sub(1).and_then(|i| lines.get(i)).copied().unwrap_or(b"");
        let shown = String::from_utf8_lossy(line);
        assert_eq!(got, wanted, "answer to {shown:?} of {} bytes", line.len());
    }
    assert_eq!(output.len(), expected.len(), "one output is the beginning of the other");
    panic!("the outputs differ in their newlines");
}

fn check(input: &[u8]) {
    same(input, &run(vec![input.to_vec()], false));
}

/// Bytes in hex, in capitals, small letters or both.
fn hex(bytes: &[u8], rng: &mut Rng) -> String {
    let case = rng.below(3);
    let mut text = String::new();
    for byte in bytes {
        text += &match case {
            0 => format!("{byte:02X}"),
            1 => format!("{byte:02x}"),
            _ => format!("{:X}{:x}", byte >> 4, byte & 15),
        };
    }
    text
}

/// A well-formed line, guided by the record: mostly short, and no longer than allowed.
fn good_line(generator: &mut Generator, now: &Record, rng: &mut Rng) -> Vec<u8> {
    let line = loop {
        match generator.step(now).call {
            Call::Transact { sent, pulses, w } if sent.len() <= 297 && pulses < 8 => {
                let w = u32::from(w != 0);
                break match hex(&sent, rng) {
                    none if none.is_empty() => format!("x {w} {pulses}"),
                    hex => format!("x {w} {pulses} {hex}"),
                };
            }
            Call::Wait(t) => break format!("w {}{t}", "0".repeat(rng.pick(&[0, 0, 0, 1, 9]))),
            Call::PowerUp => break "p".to_string(),
            _ => {}
        }
    };
    line.into_bytes()
}

// Lines around the limits of each form, parted by `|`.
const BLANKS: &str = "| |  |\r|\t|\0|-|90|q|P|pp|p p|p\r|p | p|p\t|p\0";
const FIELDS: &str = "x|x |x 1|x 1 |x 1 0|x 1 0 |x 1 0  |x 1 0 06 |x 1 0 06 06|x 1 0 06\r|x 1 0 06\t|\
    x 1 0 06\0|x 1 0\t06|x\t1 0 06|x  1 0 06|x 1  0 06|x 1 0  06| x 1 0 06|X 1 0 06|xx 1 0 06|x1 0 06";
const PINS: &str = "x 10 06|x 2 0 06|x / 0 06|x 9 0 06|x a 0 06|x 01 0 06|x 00 0 06|x -1 0 06|\
    x 1 8 06|x 1 9 06|x 1 7 06|x 1 00 06|x 1 07 06|x 1 / 06|x 1 8|x 0 7 05|x 1 7 0500|x 1 1 06";
const PAIRS: &str = "x 1 0 0|x 1 0 060|x 1 0 6|x 1 0 0G|x 1 0 G0|x 1 0 0g|x 1 0 0x06|x 1 0 @6|\
    x 1 0 6/|x 1 0 :6|x 1 0 6`|x 1 0 9f00|x 1 0 9F00|x 1 0 aB|x 1 0 \u{e9}|x 1 0 0\u{663}";
const TICKS: &str = "w|w |w  1|w 1 |w 1 1| w 1|W 1|w1|w a|w 1a|w +1|w -1|w 0x1|w 1.0|w 1\r|w 1\t|\
    w 1\0|w \0|w /|w :|w 0|w 00|w 1|w 4294967295|w 4294967296|w 4294967297|w 8589934592|\
    w 42949672950|w 04294967295|w 004294967296|w 18446744073709551615|w 18446744073709551616|\
    w 18446744073709551617|w 340282366920938463463374607431768211456|w 99999999999";

/// Lines around every limit, most of them malformed.
fn odd_lines() -> Vec<Vec<u8>> {
    let texts = [BLANKS, FIELDS, PINS, PAIRS, TICKS].join("|");
    let mut lines: Vec<Vec<u8>> = texts.split('|').map(|line| line.into()).collect();
    lines.push(vec![0xFF; 3]);
    lines.push(b"x 1 0 0\xB6".to_vec());
    for length in [599, 600, 601, 602, 1_023, 1_024, 1_025, 4_096, 65_536, 200_000] {
        lines.push([b"w ", &vec![b'0'; length - 3][..], b"1"].concat());
        lines.push([b"w ", &vec![b'9'; length - 2][..]].concat());
        lines.push([b"x 1 0 ", &vec![b'0'; length - 6][..]].concat());
        lines.push([b"x 1 0 05", &vec![b'a'; length - 8][..]].concat());
        lines.push(vec![b' '; length]);
        lines.push(vec![0; length]);
    }
    lines
}

/// A line with one or two bytes changed, left out or put in; never a newline.
fn damaged(mut line: Vec<u8>, rng: &mut Rng) -> Vec<u8> {
    for _ in 0..1 + rng.below(2) {
        let byte = match rng.below(3) {
            0 => rng.byte(),
            _ => rng.pick(b" \t\r\0xwp0123456789abcdefABCDEFgG-+"),
        };
        let at = rng.below(line.len() + 1);
        match rng.below(3) {
            0 => line.insert(at, byte),
            1 if at < line.len() => line[at] = byte,
            _ if at < line.len() => drop(line.remove(at)),
            _ => {}
        }
    }
    line.retain(|byte| *byte != b'\n');
    line
}

/// An input of that many lines: good ones, damaged ones and odd ones.
fn input(lines: usize, seed: u64) -> Vec<u8> {
    let mut rng = Rng::new(seed);
    let mut generator = Generator::new(0, rng.draw());
    let mut bench = Bench::default();
    let odd = odd_lines();
    let mut input = Vec::new();
    for _ in 0..lines {
        let now = Record::unpack(bench.record()).unwrap();
        let good = good_line(&mut generator, &now, &mut rng);
        let line = match rng.below(40) {
            0 => odd[rng.below(odd.len())].clone(),
            1..=6 => damaged(good, &mut rng),
            _ => good,
        };
        bench.carry_out(&line);
        input.extend(&line);
        input.push(b'\n');
    }
    input
}

#[test]
fn worked_examples() {
    check(include_bytes!("../../../examples/first.txt"));
    check(include_bytes!("../../../examples/protection.txt"));
}

#[test]
fn odd_lines_one_by_one_and_together() {
    let lines = odd_lines();
    let mut all = Vec::new();
    for line in &lines {
        // A latch that is set and shown behind each line tells whether the line changed anything.
        all.extend([&line[..], b"\nx 1 0 06\nx 1 0 0500\n"].concat());
    }
    check(&all);
    for line in lines.iter().filter(|line| line.len() <= MOST_CHARACTERS + 2) {
        check(line);
        check(&[&line[..], b"\n"].concat());
    }
}

#[test]
fn ends_of_input() {
    for input in ["", "\n", "\n\n", "p", "p\n", "p\n\n", "p\n ", "x 1 0 9F000000", "w 3\nw"] {
        check(input.as_bytes());
    }
}

#[test]
fn many_lines_in_one_piece() {
    for seed in SEED..SEED + 4 {
        check(&input(20_000, seed));
    }
}

#[test]
fn many_lines_in_pieces() {
    let mut rng = Rng::new(SEED);
    for (lines, pause) in [(5_000, false), (150, true)] {
        let input = input(lines, rng.draw());
        let mut pieces = Vec::new();
        let mut rest = &input[..];
        while !rest.is_empty() {
            let most = rng.pick(&[1, 3, 80, 600, 5_000]);
            let (piece, behind) = rest.split_at(rest.len().min(1 + rng.below(most)));
            pieces.push(piece.to_vec());
            rest = behind;
        }
        same(&input, &run(pieces, pause));
    }
}

/// The command `batch` takes the lines that the bench takes, but for its power-up, and with the same meaning.
#[test]
fn lines_of_a_batch() {
    let input = input(20_000, SEED + 8);
    let odd = odd_lines();
    for line in odd.iter().map(|line| &line[..]).chain(bench_model::lines(&input)) {
        let item = match bench_model::parse(line) {
            Some(Line::Transaction { w, pulses, sent }) => {
                let [low, high, ..] = sent.len().to_le_bytes();
                Some([&[low, high, (pulses << 1 | w) as u8], &sent[..]].concat())
            }
            Some(Line::Wait(ticks)) => Some([&[4, 0, 16], &ticks.to_le_bytes()[..]].concat()),
            Some(Line::PowerUp) | None => None,
        };
        assert_eq!(items_of(&[line, b"\n"].concat()).ok(), item, "{}", line.escape_ascii());
    }
}

/// A person sees each answer before the next line is typed.
#[test]
fn answers_come_at_once() {
    let input = input(300, SEED + 9);
    let mut child = start();
    let mut typed = child.stdin.take().unwrap();
    let output = BufReader::new(child.stdout.take().unwrap());
    let (sender, answers) = channel();
    thread::spawn(move || output.lines().try_for_each(|line| sender.send(line.unwrap())));
    let next = || answers.recv_timeout(Duration::from_secs(20)).expect("an answer at once") + "\n";
    let mut bench = Bench::default();
    let mut header = Some(bench_model::HEADER);
    for (i, line) in bench_model::lines(&input).into_iter().enumerate() {
        typed.write_all(&[line, b"\n"].concat()).unwrap();
        typed.flush().unwrap();
        if let Some(header) = header.take() {
            assert_eq!(next(), header);
        }
        assert_eq!(next(), bench.answer(i + 1, line));
    }
    drop(typed);
    assert_eq!(next(), "end 300\n");
    assert!(child.wait().unwrap().success());
}
