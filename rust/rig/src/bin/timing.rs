//! Times long reads, bulk erases, cut ones too, raw pins and images through the C calls against plain Rust, side by side
//! in one run on x86-64, where both run on the same processor; short transactions by themselves; a small chip on a bus
//! with small and with large ones beside it; a day's batch against the same items in calls of their own, and a report of
//! them against the batch.

#[path = "timing/bus.rs"]
mod bus;
#[path = "timing/day.rs"]
mod day;
#[path = "timing/images.rs"]
mod images;

use std::hint::black_box;
use std::process::ExitCode;
use std::time::{Duration, Instant};

use m25p::{calls, Answer, Durations, Part, Reply, MASK_BYTES, RECORD_BYTES};
use rig::kit;
use rig::plain_pins;
use rig::probe::{Probe, SpiMode};
use rig::rng::Rng;

const READ_BYTES: usize = 60_000;
const ROUNDS: usize = 15;
const READS: usize = 2_000;
const ERASES: usize = 4;
const SHORT: usize = 100_000;
const SAMPLES: usize = 10_000_000;

/// The plain read: FF while the address is sent, then the array, rolling over.
#[inline(never)]
fn plain_read(array: &[u8], sent: &[u8], response: &mut [u8]) {
    let address = (sent[1] as usize) << 16 | (sent[2] as usize) << 8 | sent[3] as usize;
    let mut from = address % array.len();
    let (silent, mut rest) = response[..sent.len()].split_at_mut(4);
    silent.fill(0xFF);
    while !rest.is_empty() {
        let run = rest.len().min(array.len() - from);
        rest[..run].copy_from_slice(&array[from..from + run]);
        rest = &mut rest[run..];
        from = 0;
    }
}

/// The plain bulk erase.
#[inline(never)]
fn plain_erase(array: &mut [u8]) {
    array.fill(0xFF);
}

/// The plain bulk erase that power cuts.
#[inline(never)]
fn plain_cut(array: &mut [u8], mask: &[u8; MASK_BYTES]) {
    for page in array.chunks_exact_mut(MASK_BYTES) {
        page.iter_mut().zip(mask).for_each(|(byte, mask)| *byte |= mask);
    }
}

/// A chip for the C calls and an array for plain Rust, both touched already.
struct Both {
    record: [u8; RECORD_BYTES],
    array: Vec<u8>,
    plain: Vec<u8>,
    response: Vec<u8>,
}

impl Both {
    fn new(part: Part) -> Both {
        let (array, plain) = (vec![0; part.bytes()], vec![0xFF; part.bytes()]);
        let (record, response) = ([0; RECORD_BYTES], vec![0; READ_BYTES + 4]);
        let mut both = Both { record, array, plain, response };
        let durations = Durations::from([1; 4]);
        let reply = calls::deliver(&mut both.record, part.number(), &mut both.array, durations);
        assert_eq!(reply.answer(), Answer::Executed);
        both
    }

    fn transact(&mut self, sent: &[u8]) {
        let Both { record, array, response, .. } = self;
        let reply = calls::transact(record, array, sent, 0, 1, response);
        assert_eq!(reply.answer(), Answer::Executed);
    }

    /// READ from addresses all over the array, one of them rolling over.
    fn sent(&self, i: usize) -> Vec<u8> {
        let address = (i * 1_234_567 + self.array.len() - 30_000) % self.array.len();
        let mut sent = vec![0; READ_BYTES + 4];
        sent[0] = 0x03;
        sent[1..4].copy_from_slice(&(address as u32).to_be_bytes()[1..]);
        sent
    }
}

fn timed(mut work: impl FnMut()) -> Duration {
    let start = Instant::now();
    work();
    start.elapsed()
}

/// The middle time of each, over rounds that take turns.
fn middles<const N: usize>(mut round: impl FnMut() -> [Duration; N]) -> [Duration; N] {
    round();
    let rounds: Vec<_> = (0..ROUNDS).map(|_| round()).collect();
    std::array::from_fn(|i| {
        let mut times: Vec<Duration> = rounds.iter().map(|round| round[i]).collect();
        times.sort();
        times[ROUNDS / 2]
    })
}

/// The middle time of both, over rounds that take turns.
fn middle(mut round: impl FnMut() -> (Duration, Duration)) -> (Duration, Duration) {
    middles(|| round().into()).into()
}

fn report(what: &str, times: usize, (calls, plain): (Duration, Duration)) {
    let each = |time: Duration| time.as_secs_f64() * 1e6 / times as f64;
    let ratio = calls.as_secs_f64() / plain.as_secs_f64();
    println!("{what:<32} {:>10.2} us {:>10.2} us   {ratio:.2}", each(calls), each(plain));
}

fn time_reads(part: Part) {
    let mut both = Both::new(part);
    let sent: Vec<Vec<u8>> = (0..16).map(|i| both.sent(i)).collect();
    let times = middle(|| {
        let calls = timed(|| (0..READS).for_each(|i| both.transact(black_box(&sent[i % 16]))));
        let Both { plain, response, .. } = &mut both;
        let plain = timed(|| {
            (0..READS)
                .for_each(|i| plain_read(black_box(plain), black_box(&sent[i % 16]), response))
        });
        (calls, plain)
    });
    report(&format!("{part} read of 60,000 bytes"), READS, times);
}

/// Bulk erases, each ended by a call, against a plain one.
fn time_erases(
    what: &str,
    part: Part,
    end: impl Fn(&mut [u8], &mut [u8]) -> Reply,
    plain: impl Fn(&mut [u8]),
) {
    let mut both = Both::new(part);
    let times = middle(|| {
        let calls = timed(|| {
            for _ in 0..ERASES {
                both.transact(&[0x06]);
                both.transact(&[0xC7]);
                let reply = end(&mut both.record, &mut both.array);
                assert_eq!(reply.answer(), Answer::Executed);
            }
        });
        (calls, timed(|| (0..ERASES).for_each(|_| plain(black_box(&mut both.plain)))))
    });
    report(&format!("{part} {what}"), ERASES, times);
}

/// Transactions of one or two bytes, which a plain program would hardly be asked for.
fn time_short(part: Part) {
    let mut both = Both::new(part);
    for (name, sent) in [("write enable", &[0x06][..]), ("status read", &[0x05, 0x00])] {
        let round = || [timed(|| (0..SHORT).for_each(|_| both.transact(black_box(sent))))];
        let [time] = middles(round);
        let each = time.as_secs_f64() * 1e6 / SHORT as f64;
        println!("{:<32} {each:>10.3} us", format!("{part} {name}"));
    }
}

/// Ten million samples: reads of 4,096 bytes with a status read before each, then a page program and
/// status reads while busy.
fn samples(mode: SpiMode) -> Vec<u8> {
    let mut rng = Rng::new(1);
    let mut probe = Probe::new(mode, 1);
    let mut program = rng.bytes(260);
    program[0] = 0x02;
    while probe.samples.len() < SAMPLES - 100_000 {
        let mut read = rng.bytes(4 + 4_096);
        read[0] = 0x03;
        probe.transaction(&[0x05, 0], 0, true);
        probe.transaction(&read, 0, true);
    }
    probe.transaction(&[0x06], 0, true);
    probe.transaction(&program, 0, true);
    while probe.samples.len() < SAMPLES {
        probe.transaction(&[0x05, 0], 0, true);
    }
    probe.samples.truncate(SAMPLES);
    probe.samples
}

fn time_pins(name: &str, mode: SpiMode) {
    let mut both = Both::new(Part::M25p32);
    both.array = Rng::new(2).bytes(both.array.len());
    both.plain.clone_from(&both.array);
    let start = both.record;
    let samples = samples(mode);
    let (mut output, mut plain_output) = (vec![9; SAMPLES], vec![8; SAMPLES]);
    let Both { array, plain, .. } = &mut both;
    let times = middle(|| {
        let (mut record, mut plain_record) = (start, start);
        let (mut missing, mut plain_missing) = (0, 0);
        let calls = timed(|| {
            let reply = calls::pins(&mut record, array, black_box(&samples), &mut output);
            assert_eq!(reply.answer(), Answer::Executed);
            missing = reply.missing();
        });
        let plain = timed(|| {
            let samples = black_box(&samples);
            let answer;
            (answer, plain_missing) =
                plain_pins::run(&mut plain_record, plain, samples, &mut plain_output);
            assert_eq!(answer, 0);
        });
        assert_eq!((record, missing), (plain_record, plain_missing));
        (calls, plain)
    });
    assert!(output == plain_output && both.array == both.plain, "the two do not do the same");
    report(&format!("M25P32 {name} 10,000,000 samples"), 1, times);
}

fn main() -> ExitCode {
    if !kit::NATIVE {
        eprintln!("The timings need x86-64: elsewhere libm25p.a runs under an emulator.");
        return ExitCode::FAILURE;
    }
    println!("middle of {ROUNDS} rounds; buffers written before, so no page is touched first");
    println!("{:<32} {:>13} {:>13}   ratio", "", "C call", "plain Rust");
    let mask = &[0x3C; MASK_BYTES];
    for part in [Part::M25p32, Part::M25p128] {
        time_reads(part);
        time_erases("bulk erase", part, |r, a| calls::wait(r, a, 1), plain_erase);
        let cut = |r: &mut [u8], a: &mut [u8]| calls::loss(r, a, mask, 0);
        time_erases("bulk erase, cut", part, cut, |a| plain_cut(a, mask));
    }
    time_short(Part::M25p32);
    time_pins("mode 0", SpiMode::Zero);
    time_pins("mode 3", SpiMode::Three);
    images::time_images(Part::M25p32);
    images::time_images(Part::M25p128);
    bus::time_bus();
    day::time_day(Part::M25p40);
    ExitCode::SUCCESS
}
