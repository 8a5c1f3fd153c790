//! m25p_pins against the model on whole ranges: every short run, and the longest transactions.

use rig::compare::{Call, Filled, Pair, Rules, Step, Tally, PAPER, SPARE};
use rig::faults;
use rig::model::{Record, PARTS, PP, RDSR, READ, RECORD_BYTES, WREN};
use rig::pins_model::{CLOCK, DATA, HOLD, MOST_BYTES, SELECT, W};
use rig::probe::{Probe, SpiMode};
use rig::rng::Rng;
use rig::tell;

/// A bench part in standby with status byte 84 and the latch reset.
fn standby() -> Record {
    Record { bp: 1, srwd: true, ..Record::standby(0) }
}

/// A run of the samples from the standby record, with an output just long enough.
fn run(samples: Vec<u8>) -> Step {
    let filled = vec![Filled { bytes: vec![9; samples.len() + SPARE], len: samples.len() }];
    let record = Some(standby().pack());
    let (record_len, array_len) = (RECORD_BYTES, PARTS[0].bytes);
    Step { call: Call::Pins { samples }, record, record_len, array_len, filled }
}

/// Transactions that have begun: nothing at all, and RDSR and WREN up to the last clock rise or fall.
fn beginnings() -> Vec<Vec<u8>> {
    let begun = |code| {
        let mut probe = Probe::new(SpiMode::Zero, 1);
        probe.begin(&[code], 0, true);
        probe.samples
    };
    let mut all = vec![vec![], begun(RDSR), begun(WREN)];
    for i in [1, 2] {
        let mut high = all[i].clone();
        high.pop();
        all.push(high);
    }
    all
}

/// Six samples in which Select, clock and Hold are as the digits of `code` say; data and W are random.
fn six(code: u64, rng: &mut Rng) -> impl Iterator<Item = u8> {
    let random = rng.bytes(6);
    random.into_iter().enumerate().map(move |(i, random)| {
        let digit = code >> (3 * i);
        let pin = |bit: u32, pin: u8| if digit >> bit & 1 == 1 { pin } else { 0 };
        pin(0, SELECT) | pin(1, CLOCK) | pin(2, HOLD) | random & (DATA | W)
    })
}

#[test]
fn every_six_samples() {
    let mut rng = Rng::new(1);
    let mut pair = Pair::new(standby(), PAPER, &mut rng);
    let mut tally = Tally::default();
    for begun in beginnings() {
        for code in 0..1 << 18 {
            let samples = begun.iter().copied().chain(six(code, &mut rng)).collect();
            if let Err(difference) = pair.step(&run(samples), &mut tally) {
                panic!("{difference}");
            }
        }
    }
    assert_eq!(tally.answers[0], tally.calls);
}

/// How a long transaction ends.
#[derive(Clone, Copy)]
enum Ending {
    Risen,
    ThrownAway,
    Unfinished,
}

/// A status read, then a READ of this many bytes and pulses.
fn long_samples(mode: SpiMode, bytes: usize, pulses: u32, ending: Ending) -> Vec<u8> {
    let mut probe = Probe::new(mode, 1);
    probe.transaction(&[RDSR, 0], 0, true);
    let mut sent = vec![0; bytes];
    sent[..4].copy_from_slice(&[READ, 0, 0x0F, 0xF0]);
    match ending {
        Ending::Risen => probe.transaction(&sent, pulses, true),
        _ => probe.begin(&sent, pulses, true),
    }
    if let Ending::ThrownAway = ending {
        probe.samples.extend([W, W, SELECT | W]);
    }
    probe.samples
}

/// Runs with a transaction of about 65,536 bytes, and the answer to each.
fn long_runs() -> Vec<(Step, u8)> {
    use Ending::*;
    use SpiMode::*;
    let long = |mode, bytes, pulses, ending| run(long_samples(mode, bytes, pulses, ending));
    let mut runs = vec![
        (long(Zero, MOST_BYTES, 0, Risen), 0),
        (long(Zero, MOST_BYTES, 7, Unfinished), 0),
        (long(Three, MOST_BYTES, 7, Risen), 0),
        (long(Three, MOST_BYTES, 8, Risen), 22),
        (long(Zero, MOST_BYTES + 1, 0, Risen), 22),
        (long(Zero, MOST_BYTES + 1, 0, ThrownAway), 22),
        (long(Three, MOST_BYTES + 1, 0, Unfinished), 22),
    ];
    let mut odd_last = long_samples(Zero, MOST_BYTES + 1, 0, Risen);
    *odd_last.last_mut().unwrap() |= 0x80;
    runs.push((run(odd_last), 21));
    let mut short_output = long(Zero, MOST_BYTES + 1, 0, Risen);
    short_output.filled[0].len -= 1;
    runs.push((short_output, 22));
    let mut wrong_array = long(Zero, MOST_BYTES + 1, 0, Risen);
    wrong_array.array_len -= 1;
    runs.push((wrong_array, 2));
    runs.push((run(long_samples(Zero, MOST_BYTES, 0, Risen).repeat(2)), 0));
    runs.push((run(long_program()), 0));
    runs
}

/// A write enable, then a program of the most bytes, and a status read.
fn long_program() -> Vec<u8> {
    let mut probe = Probe::new(SpiMode::Zero, 1);
    let mut sent = Rng::new(3).bytes(MOST_BYTES);
    sent[..4].copy_from_slice(&[PP, 0, 0x01, 0x23]);
    probe.transaction(&[WREN], 0, true);
    probe.transaction(&sent, 0, true);
    probe.transaction(&[RDSR, 0], 0, true);
    probe.samples
}

fn compared(rules: Rules, tally: &mut Tally) -> Result<(), String> {
    let mut pair = Pair::new(standby(), rules, &mut Rng::new(2));
    for (run, answer) in long_runs() {
        let seen = pair.step(&run, tally)?;
        assert_eq!(seen.answer(), answer);
    }
    Ok(())
}

#[test]
fn longest_transactions() {
    let mut tally = Tally::default();
    if let Err(difference) = compared(PAPER, &mut tally) {
        panic!("{difference}");
    }
    tell(&format!("pins, longest transactions: {}", tally.show()));
    assert_eq!((tally.answers[22], tally.programs.long), (5, 1));
}

#[test]
fn faults_are_seen() {
    for (name, fault) in faults::LONG {
        let seen = compared(Rules { pins: *fault, ..PAPER }, &mut Tally::default()).is_err();
        assert!(seen, "{name} was not seen");
    }
}
