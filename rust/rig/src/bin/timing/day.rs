//! A day's transactions and waits: one batch, against the same items in calls of their own, and a report of them against
//! the batch; and both of a single item.

use std::hint::black_box;
use std::time::Duration;

use m25p::batch::{items, Item};
use m25p::{calls, Answer, Durations, Part, Totals, RECORD_BYTES};
use rig::rng::Rng;

use super::{middle, middles, report, timed};

const DAY_BYTES: usize = 10_000_000;
const TIMES: usize = 100_000;

/// The items of a day, written one by one.
struct Day {
    rng: Rng,
    bytes: Vec<u8>,
}

impl Day {
    /// A day of about so many bytes: bytes are programmed all over the array, waited for, and read back; now and then
    /// a longer READ or a sector erase.
    fn new(part: Part, bytes: usize) -> Day {
        let mut day = Day { rng: Rng::new(3), bytes: Vec::new() };
        while day.bytes.len() < bytes {
            let address = day.rng.below(part.bytes()) as u32;
            let length = day.rng.pick(&[1, 16, 64, 256, 256]);
            let data = day.rng.bytes(length);
            day.cycle(0x02, address, &data, Durations::default().program);
            day.addressed(0x03, address, &vec![0; length]);
            if day.rng.one_in(8) {
                day.addressed(0x03, address, &[0; 4_096]);
            }
            if day.rng.one_in(256) {
                day.cycle(0xD8, address, &[], Durations::default().sector_erase);
            }
        }
        day
    }

    fn append(&mut self, item: Item) {
        item.append(&mut self.bytes).expect("an item that a batch can hold");
    }

    fn send(&mut self, sent: &[u8]) {
        self.append(Item::Transaction { sent, pulses: 0, w_high: true });
    }

    fn addressed(&mut self, code: u8, address: u32, rest: &[u8]) {
        let [_, high, middle, low] = address.to_be_bytes();
        self.send(&[&[code, high, middle, low], rest].concat());
    }

    /// Write enable, a cycle with one to three status reads in it, its ticks, and a status read.
    fn cycle(&mut self, code: u8, address: u32, data: &[u8], ticks: u32) {
        self.send(&[0x06]);
        self.addressed(code, address, data);
        for _ in 0..1 + self.rng.below(3) {
            self.send(&[0x05, 0]);
        }
        self.append(Item::Wait { ticks });
        self.send(&[0x05, 0]);
    }
}

/// A chip, and what a day gives.
#[derive(Clone, PartialEq)]
struct Given {
    record: [u8; RECORD_BYTES],
    array: Vec<u8>,
    responses: Vec<u8>,
    answers: Vec<u8>,
    missing: u64,
}

impl Given {
    /// The part as delivered, with room for these items.
    fn new(part: Part, row: &[Item]) -> Given {
        let (mut record, mut array) = ([0; RECORD_BYTES], vec![0; part.bytes()]);
        let reply = calls::deliver(&mut record, part.number(), &mut array, Durations::default());
        assert_eq!(reply.answer(), Answer::Executed);
        let responses = vec![0; row.iter().map(Item::response_bytes).sum()];
        Given { record, array, responses, answers: vec![9; row.len()], missing: 0 }
    }

    /// One call for all items.
    fn at_once(&mut self, bytes: &[u8]) {
        let Given { record, array, responses, answers, .. } = self;
        let mut missing = [0; 8];
        let reply = calls::batch(record, array, bytes, responses, answers, &mut missing);
        assert_eq!(reply.answer(), Answer::Executed);
        self.missing = u64::from_le_bytes(missing);
    }

    /// The same, and the transactions are counted; the bits missing are not.
    fn counted(&mut self, bytes: &[u8], totals: &mut [u8; Totals::BYTES]) {
        let Given { record, array, responses, answers, .. } = self;
        let reply = calls::report(record, array, bytes, responses, answers, totals);
        assert_eq!(reply.answer(), Answer::Executed);
    }

    /// One call for each item.
    fn singly(&mut self, row: &[Item]) {
        let Given { record, array, responses, answers, missing } = self;
        let mut rest = &mut responses[..];
        for (item, answer) in row.iter().zip(answers) {
            let reply = match *item {
                Item::Transaction { sent, pulses, w_high } => {
                    let (response, behind) = rest.split_at_mut(sent.len());
                    rest = behind;
                    calls::transact(record, array, sent, pulses.into(), w_high.into(), response)
                }
                Item::Wait { ticks } => calls::wait(record, array, ticks),
            };
            *answer = reply.bits() as u8;
            *missing += u64::from(reply.missing());
        }
    }
}

/// The middle times of all three, which have to give the same.
pub fn time_day(part: Part) {
    let day = Day::new(part, DAY_BYTES).bytes;
    let row: Vec<Item> = items(&day).collect::<Result<_, _>>().expect("good items");
    let start = Given::new(part, &row);
    let transactions = row.iter().filter(|item| matches!(item, Item::Transaction { .. })).count();
    let mut given = [start.clone(), start.clone(), start.clone()];
    let times = middles(|| {
        given.iter_mut().for_each(|given| given.clone_from(&start));
        let [one, other, third] = &mut given;
        let mut totals = [0; Totals::BYTES];
        let batch = timed(|| one.at_once(black_box(&day)));
        let singly = timed(|| other.singly(black_box(&row)));
        let counted = timed(|| third.counted(black_box(&day), &mut totals));
        third.missing = one.missing;
        assert!(one == other && one == third && *one != start, "they do not give the same");
        assert_eq!(Totals::from_bytes(&totals).transactions(), transactions as u128);
        [batch, singly, counted]
    });
    let what = format!("{part} day of {} bytes", grouped(day.len()));
    compared(["one batch", "single calls"], &what, [times[0], times[1]]);
    let missing = grouped(given[0].missing as usize);
    println!("  {} items, {missing} bits missing", grouped(row.len()));
    compared(["one report", "one batch"], &what, [times[2], times[0]]);
    time_one_item(part);
}

/// Two times under their names, and the first as a multiple of the second.
fn compared(names: [&str; 2], what: &str, times: [Duration; 2]) {
    println!("{:<32} {:>13} {:>13}   ratio", "", names[0], names[1]);
    let [one, other] = times.map(|time| time.as_secs_f64());
    println!("{what:<32} {one:>11.4} s {other:>11.4} s   {:.2}", one / other);
}

/// A report and a batch of one status read.
fn time_one_item(part: Part) {
    let bytes = [2, 0, 1, 0x05, 0];
    let row: Vec<Item> = items(&bytes).collect::<Result<_, _>>().expect("a good item");
    let (mut given, mut totals) = (Given::new(part, &row), [0; Totals::BYTES]);
    let times = middle(|| {
        let mut counted = || given.counted(black_box(&bytes), &mut totals);
        let counted = timed(|| (0..TIMES).for_each(|_| counted()));
        (counted, timed(|| (0..TIMES).for_each(|_| given.at_once(black_box(&bytes)))))
    });
    report(&format!("{part} one status read"), TIMES, times);
}

/// A number with commas.
fn grouped(number: usize) -> String {
    match number {
        0..1_000 => number.to_string(),
        _ => format!("{},{:03}", grouped(number / 1_000), number % 1_000),
    }
}
