//! Traces of the server, asked of the model: all that flashrom asks for, random programs without an erase, and power
//! losses. Where flashrom is not on the machine, its tests say so.

#[path = "../../tools/tests/support/common.rs"]
#[allow(dead_code)]
mod common;
#[path = "../../tools/tests/support/flashrom.rs"]
#[allow(dead_code)]
mod flashrom;
#[path = "../../tools/tests/support/told.rs"]
mod told;

use std::sync::atomic::{AtomicBool, Ordering};
use std::thread;

use common::scratch;
use flashrom::{find, tell, Flashrom};
use m25p::{Part, RECORD_BYTES};
use rig::model::{Model, Paper, Transaction};
use rig::rng::Rng;
use told::Told;
use tools::serprog::{Board, Options, Server};

/// The trace of a probe and a write, from one image to another; none without flashrom.
fn traced(name: &str, part: Part, old: &[u8], new: &[u8]) -> Option<String> {
    let program = find("trace")?;
    let directory = scratch(&format!("flashrom_trace_{name}"));
    let image = directory.join("chip.bin");
    std::fs::write(&image, old).unwrap();
    let options = Options { images: vec![image.clone()], ..Options::of(part) };
    let mut server = Server::start(&options).unwrap();
    let trace = Told::default();
    server.trace(Box::new(trace.clone()));
    let flashrom = Flashrom { program, directory, port: server.address().unwrap().port() };
    let stop = AtomicBool::new(false);
    let ended = thread::scope(|scope| {
        let served = scope.spawn(|| server.run(&stop, |sentence| panic!("{sentence}")));
        let probed = flashrom.run(&[], None);
        let written = flashrom.write(name, new);
        stop.store(true, Ordering::Relaxed);
        [probed, written, (served.join().unwrap().is_ok(), "the server".to_string())]
    });
    ended.into_iter().for_each(|(fine, said)| assert!(fine, "{said}"));
    assert!(std::fs::read(&image).unwrap() == new, "the image");
    Some(trace.text())
}

/// The bytes of pairs of hexadecimal digits.
fn bytes(pairs: &str) -> Vec<u8> {
    let pair = |at| u8::from_str_radix(&pairs[at..at + 2], 16).unwrap();
    (0..pairs.len()).step_by(2).map(pair).collect()
}

/// Carries a line of the trace out on the model: what should stand behind the `=`.
fn model_answer(record: &mut [u8], array: &mut [u8], line: &str) -> String {
    let fields: Vec<&str> = line.split(' ').collect();
    let mut hex = "-".to_string();
    let outcome = match fields[..] {
        ["w", ticks] => Paper.wait(record, array, ticks.parse().unwrap()),
        ["p"] => Paper.power_up(record, array),
        ["loss", yes, mask] => Paper.loss(record, array, &bytes(mask), yes.parse().unwrap()),
        ["x", w, "0", pairs] => {
            let sent = bytes(pairs);
            let mut response = vec![0; sent.len()];
            let t = Transaction { sent: &sent, pulses: 0, w: w.parse().unwrap() };
            let outcome = Paper.transact(record, array, t, &mut response);
            hex = response.iter().map(|byte| format!("{byte:02X}")).collect();
            outcome
        }
        _ => panic!("a line of the trace: {line}"),
    };
    match outcome.missing {
        0 => format!("{} {hex}", outcome.answer),
        missing => format!("{} {hex} missing {missing}", outcome.answer),
    }
}

/// Puts a trace from the old contents on to the model, which gives the same answers: the new contents.
fn modelled(part: Part, old: &[u8], printed: &str) -> Vec<u8> {
    let (mut record, mut array) = ([0; RECORD_BYTES], old.to_vec());
    Paper.deliver(&mut record, part.number(), &mut array, [2, 1_000, 10_000, 5]);
    array.copy_from_slice(old);
    for line in printed.lines() {
        let (asked, answered) = line.split_once(" = ").expect("a line of the trace");
        assert_eq!(model_answer(&mut record, &mut array, asked), answered, "{asked}");
    }
    array
}

/// All that flashrom asks for in a probe and a write, asked of the model: the same answers. flashrom erases
/// first, so that no bit is missing.
fn same_answers(name: &str, part: Part, old: &[u8], new: &[u8]) {
    let Some(printed) = traced(name, part, old, new) else { return };
    assert!(modelled(part, old, &printed) == new);
    assert!(!printed.contains("missing"));
    let transactions = printed.lines().filter(|line| line.starts_with('x')).count();
    assert!(transactions > 3 * old.len() / 256, "only {transactions} transactions");
    tell(&format!("trace: {name}: {transactions} transactions, the same answers from the model"));
}

/// A random program of the M25P40 in one of 64 pages; half the addresses are beyond its size.
fn random_program(rng: &mut Rng) -> Vec<u8> {
    let length = 5 + rng.pick(&[0, 2, 255, 400]);
    let mut program = rng.bytes(length);
    let page = [rng.pick(&[0x00, 0x07, 0x08, 0xFF]), rng.byte() & 0x1F];
    program[..3].copy_from_slice(&[0x02, page[0], page[1]]);
    program
}

/// The programs of a trace that have bits missing: the first byte of the address, and how many.
fn missing_in(printed: &str) -> Vec<(u8, u32)> {
    let programs = printed.lines().filter_map(|line| line.strip_prefix("x 1 0 02"));
    let missing = programs.filter_map(|line| {
        let (sent, missing) = line.split_once(" missing ")?;
        Some((u8::from_str_radix(&sent[..2], 16).unwrap(), missing.parse().unwrap()))
    });
    missing.collect()
}

/// The contents that 300 random programs without an erase leave in the selected chip, and their trace.
fn rewrites(options: &Options, old: &[u8], rng: &mut Rng) -> (Vec<u8>, String) {
    let (mut board, trace) = (Board::new(options), Told::default());
    board.fill(options.select, old);
    board.trace(Box::new(trace.clone()));
    for _ in 0..300 {
        for sent in [vec![0x06], random_program(rng)] {
            board.operate(sent, 0);
        }
        board.delay(2_000);
    }
    (board.array().to_vec(), trace.text())
}

/// Random programs without an erase: the bits missing in the trace are the model's. Over a page the random bytes
/// miss some 512 bits the first time, 768 the second, and up to 1,024 when nothing is left to clear.
#[test]
fn trace_of_rewrites_equals_model() {
    let (part, mut rng) = (Part::M25p40, Rng::new(14));
    let old = rng.bytes(part.bytes());
    let (left, printed) = rewrites(&Options::of(part), &old, &mut rng);
    assert!(modelled(part, &old, &printed) == left);
    let all = missing_in(&printed);
    let beyond = all.iter().filter(|(high, _)| *high >= 0x08).count();
    let within = all.len() - beyond;
    assert!(beyond > 100 && within > 100, "addresses beyond the size {beyond}, within {within}");
    for numbers in [1..100, 400..640, 640..840, 840..1_200] {
        let times = all.iter().filter(|(_, missing)| numbers.contains(missing)).count();
        assert!(times >= 20, "{numbers:?} bits were missing {times} times only");
    }
}

/// A chip among others: the model of this chip alone gives the same answers.
#[test]
fn trace_of_the_selected_chip_equals_model() {
    let (parts, mut rng) = ([Part::M25p10a, Part::M25p40, Part::M25pe40], Rng::new(18));
    for (select, part) in parts.into_iter().enumerate() {
        let options = Options { parts: parts.to_vec(), select, ..Options::of(part) };
        let old = rng.bytes(part.bytes());
        let (left, printed) = rewrites(&options, &old, &mut rng);
        assert!(modelled(part, &old, &printed) == left, "chip {select}");
        assert!(missing_in(&printed).len() > 200, "chip {select}");
    }
}

/// Power is lost in one of these cycles, each in turn, with many seeds: the model is left with the same contents.
#[test]
fn trace_of_power_losses_equals_model() {
    let (part, mut rng) = (Part::M25p10a, Rng::new(15));
    let old = rng.bytes(part.bytes());
    let program = [&[0x02, 0x01, 0x23, 0x45], &rng.bytes(256)[..]].concat();
    let cycles = [vec![0xD8, 0, 0x80, 1], program, vec![0xC7], vec![0x01, 0x84]];
    let mut left = Vec::new();
    for (seed, cycle) in (0..8).flat_map(|seed| (1..=4).map(move |cycle| (seed, cycle))) {
        let (trace, told) = (Told::default(), Told::default());
        let mut board = Board::new(&Options::of(part));
        board.fill(0, &old);
        board.trace(Box::new(trace.clone()));
        board.cut_after(cycle, seed, Box::new(told.clone()));
        for sent in &cycles[..cycle as usize] {
            board.operate(vec![0x06], 0);
            board.operate(sent.clone(), 0);
            board.delay(20_000_000);
        }
        board.finish();
        let printed = trace.text();
        assert_eq!((printed.matches("loss ").count(), told.text().lines().count()), (1, 1));
        assert!(modelled(part, &old, &printed) == board.array(), "cycle {cycle}, seed {seed}");
        left.push(board.array().to_vec());
    }
    let blank = |array: &Vec<u8>| array.iter().all(|byte| *byte == 0xFF);
    assert!(left.iter().skip(3).step_by(4).all(blank), "a status write leaves the array alone");
    left.sort();
    left.dedup();
    assert_eq!(left.len(), 3 * 8 + 1, "each other loss leaves something else");
}

#[test]
fn trace_equals_model() {
    let bytes = Part::M25p10a.bytes();
    let (old, new) = (Rng::new(10).bytes(bytes), Rng::new(11).bytes(bytes));
    same_answers("M25P10-A", Part::M25p10a, &old, &new);
}

#[test]
fn trace_of_the_m25pe40_equals_model() {
    let bytes = Part::M25pe40.bytes();
    let (old, new) = (Rng::new(16).bytes(bytes), Rng::new(17).bytes(bytes));
    same_answers("M25PE40", Part::M25pe40, &old, &new);
}

/// The older one is found by its signature, and written byte by byte, a thousand bytes.
#[test]
fn trace_of_the_older_equals_model() {
    let bytes = Part::M25p10aOlder.bytes();
    let (old, mut new) = (Rng::new(12).bytes(bytes), vec![0xFF; bytes]);
    Rng::new(13).fill(&mut new[40_000..41_000]);
    same_answers("M25P10", Part::M25p10aOlder, &old, &new);
}
