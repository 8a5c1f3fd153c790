//! The transactions found in a probe's file against those that sigrok-cli's SPI decoder finds there.
//!
//! The decoder knows no Hold, so Hold stays high here, and Select and clock never change in one sample.
//! Where sigrok-cli is not on the machine, the test says so and compares nothing.

use std::ffi::OsStr;
use std::io::Write;
use std::path::{Path, PathBuf};
use std::process::Command;

use m25p::calls;
use rig::compare::{Call, Source};
use rig::generate::Generator;
use rig::model::{Cycle, Mode, Packed, Paper, Record, PARTS};
use rig::pins_model::{End, Walking, NOT_DRIVEN};
use rig::probe::{Probe, SpiMode};
use rig::rng::Rng;
use tools::vcd::{self, Undriven};

const BINARY: &str = "binary:numchannels=8:samplerate=1000000";

fn tell(text: &str) {
    let _ = writeln!(std::io::stderr(), "sigrok: {text}");
}

/// The version, or none where sigrok-cli does not start.
fn version() -> Option<String> {
    let output = Command::new("sigrok-cli").arg("--version").output().ok()?;
    String::from_utf8_lossy(&output.stdout).lines().next().map(str::to_string)
}

/// The bytes of each transfer that the decoder finds on one line, mosi or miso.
fn decoded(file: &Path, format: &str, channels: &str, mode: SpiMode, line: &str) -> Vec<Vec<u8>> {
    let mode = match mode {
        SpiMode::Zero => "cpol=0:cpha=0",
        SpiMode::Three => "cpol=1:cpha=1",
    };
    let decoder = format!("spi:{channels}:{mode}");
    let wanted = format!("spi={line}-transfer");
    let mut command = Command::new("sigrok-cli");
    command.arg("-i").arg(file).args(["-I", format, "-P", &decoder, "-A", &wanted]);
    let output = command.output().unwrap();
    let said = String::from_utf8_lossy(&output.stderr);
    assert!(output.status.success(), "{command:?}: {said}");
    let text = String::from_utf8(output.stdout).unwrap();
    let bytes = |line: &str| {
        let transfer = line.strip_prefix("spi-1:").unwrap_or_else(|| panic!("{line}"));
        transfer.split_whitespace().map(|hex| u8::from_str_radix(hex, 16).unwrap()).collect()
    };
    text.lines().map(bytes).collect()
}

/// A transaction: its bytes, its further pulses, and W.
type Sent = (Vec<u8>, u32, bool);

/// Transactions of every kind, the first of them with all that can be read.
fn transactions(part: usize, now: Record, rng: &mut Rng) -> Vec<Sent> {
    let mut all: Vec<Sent> = vec![
        (vec![0x9F, 0, 0, 0, 0, 0], 0, true),
        (vec![0x05, 0xFF, 0xFF], 3, false),
        (vec![0x03, 0, 0, 0xFE, 1, 2, 3, 4, 5], 7, true),
        (vec![0x0B, 0, 1, 0, 0, 1, 2, 3], 0, true),
        (vec![], 0, true),
        (vec![], 5, true),
        (vec![0x06], 0, true),
        (vec![0x05, 0], 0, true),
        (vec![0xAB, 0, 0, 0, 0, 0], 1, true),
        (vec![0xE8, 0, 0, 0, 0, 0], 3, true),
    ];
    let mut generator = Generator::new(part, rng.draw());
    while all.len() < 20 {
        if let Call::Transact { mut sent, pulses, w } = generator.step(&now).call {
            sent.truncate(300);
            all.push((sent, pulses % 8, w != 0));
        }
    }
    all
}

/// A chip: its packed record and its array.
struct Chip {
    record: Packed,
    array: Vec<u8>,
}

/// The responses of m25p_transact to the transactions, one by one, and the bits missing in all.
fn responses(start: &Chip, all: &[Sent]) -> (Vec<Vec<u8>>, u32) {
    let (mut record, mut array, mut missing) = (start.record, start.array.clone(), 0);
    let mut one = |(sent, pulses, w): &Sent| {
        let (mut response, w) = (vec![0; sent.len()], u32::from(*w));
        let reply = calls::transact(&mut record, &mut array, sent, *pulses, w, &mut response);
        missing += reply.missing();
        response
    };
    (all.iter().map(&mut one).collect(), missing)
}

fn written(name: &str, bytes: &[u8]) -> PathBuf {
    let path = PathBuf::from(env!("CARGO_TARGET_TMPDIR")).join(name);
    std::fs::write(&path, bytes).unwrap();
    path
}

/// One file: what is sent, what the model finds, and what the decoder finds are the same; so are what
/// m25p_pins drives, as the decoder reads it, and the responses of m25p_transact.
fn compare(name: &str, start: &Chip, all: &[Sent], mode: SpiMode, half: usize) {
    let mut probe = Probe::new(mode, half);
    for (sent, pulses, w) in all {
        probe.transaction(sent, *pulses, *w);
    }
    probe.begin(&[0x05, 0x00], 0, true);
    let samples = probe.samples;
    let bytes: Vec<Vec<u8>> = all.iter().map(|(sent, _, _)| sent.clone()).collect();

    let found = Paper.walk(&samples).found;
    let risen = found.iter().filter(|found| found.end != End::Unfinished);
    assert_eq!(risen.map(|found| found.sent()).collect::<Vec<_>>(), bytes, "{name}: model");
    let file = written(&format!("{name}.bin"), &samples);
    assert_eq!(decoded(&file, BINARY, "cs=0:clk=1:mosi=2", mode, "mosi"), bytes, "{name}");

    let (mut record, mut array, mut output) =
        (start.record, start.array.clone(), vec![9; samples.len()]);
    let reply = calls::pins(&mut record, &mut array, &samples, &mut output);
    let (singly, missing) = responses(start, all);
    assert_eq!(reply.bits(), u64::from(missing) << 48, "{name}");
    let text = vcd::text(&samples, &output, Undriven::Floating);
    let dump = written(&format!("{name}.vcd"), text.as_bytes());
    let names = "cs=select:clk=clock:mosi=data";
    assert_eq!(decoded(&dump, "vcd", names, mode, "mosi"), bytes, "{name}: dump");

    // The output as a sixth pin, high where it is not driven, as a response has it.
    let level = |output: u8| if output == NOT_DRIVEN { 1 } else { output };
    let both = samples.iter().zip(&output).map(|(sample, output)| sample | level(*output) << 5);
    let file = written(&format!("{name}-both.bin"), &both.collect::<Vec<u8>>());
    let read = decoded(&file, BINARY, "cs=0:clk=1:mosi=2:miso=5", mode, "miso");
    assert_eq!(read, singly, "{name}: output");
}

/// Records in which the chip takes everything, only a status read, or only a release.
fn records(part: u8) -> Vec<Record> {
    let lock = if PARTS[part as usize].locks { 3 } else { 0 };
    let standby = Record { bp: 1, srwd: true, locks: [lock; 8], ..Record::standby(part) };
    let busy = standby.busy(7, Cycle::BulkErase);
    let deep = Record { mode: Mode::Deep, ..standby };
    if PARTS[part as usize].deep {
        vec![standby, busy, deep]
    } else {
        vec![standby, busy]
    }
}

/// The command's dump of an ignored READ, as the decoder reads it with a pull-up: FF, as in a response.
#[test]
fn ignored_read_with_a_pull_up() {
    let Some(version) = version() else {
        tell("skipped, as sigrok-cli is not on this machine");
        return;
    };
    let mut probe = Probe::new(SpiMode::Zero, 1);
    let all: [&[u8]; 4] = [&[0x9F, 0], &[0x06], &[0x02, 0, 0, 0, 0x5A], &[0x03, 0, 0, 0, 0, 0]];
    all.iter().for_each(|sent| probe.transaction(sent, 0, true));
    let file = written("sigrok-ignored.bin", &probe.samples);
    let dump = file.with_extension("vcd");
    let words = [OsStr::new("m25p40"), file.as_os_str(), OsStr::new("--vcd"), dump.as_os_str()];
    let words = words.into_iter().chain([OsStr::new("--pulled-up")]);
    tools::pins::carry_out(words.map(OsStr::to_os_string)).unwrap();
    let names = "cs=select:clk=clock:mosi=data:miso=output";
    let heard = decoded(&dump, "vcd", names, SpiMode::Zero, "miso");
    let expected: [&[u8]; 4] = [&[0xFF, 0x20], &[0xFF], &[0xFF; 5], &[0xFF; 6]];
    assert_eq!(heard, expected);
    tell(&format!("{version}: an ignored READ decodes as FF with a pull-up"));
}

#[test]
fn decoder_finds_the_same() {
    let Some(version) = version() else {
        tell("skipped, as sigrok-cli is not on this machine");
        return;
    };
    let mut rng = Rng::new(1);
    let (mut files, mut transfers) = (0, 0);
    for (part, figures) in PARTS.iter().enumerate() {
        for (i, record) in records(part as u8).into_iter().enumerate() {
            let all = transactions(part, record, &mut rng);
            let array = rng.bytes(figures.bytes);
            let start = Chip { record: record.pack(), array };
            for (name, mode) in [("mode0", SpiMode::Zero), ("mode3", SpiMode::Three)] {
                compare(&format!("sigrok-{part}-{i}-{name}"), &start, &all, mode, 1 + i);
                (files, transfers) = (files + 1, transfers + all.len());
            }
        }
    }
    tell(&format!("{version}: {transfers} transfers in {files} files are the same"));
}
