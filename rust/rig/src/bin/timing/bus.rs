//! A small chip on a bus, by itself, with seven small ones beside it and with seven of 16 MiB; and the same by the calls
//! that know of no bus.

use std::hint::black_box;

use m25p::{calls, Answer, Bus, Durations, Part, Reply};

use super::{middles, timed};

const TIMES: usize = 20_000;

/// A row of chips of which the last one, a bench part, is used.
struct Row {
    row: Vec<u8>,
    array: Vec<u8>,
    chip: u32,
    response: Vec<u8>,
    /// Whether the calls of the bus are made, or those on a chip by itself.
    on_bus: bool,
}

impl Row {
    fn new(beside: &[Part], on_bus: bool) -> Row {
        let parts = beside.iter().chain([&Part::Bench]);
        let chips: Vec<_> = parts.map(|part| (*part, Durations::from([1; 4]))).collect();
        let bus = Bus::deliver(&chips).expect("a row of chips");
        let (row, array) = (bus.row().to_vec(), bus.whole_array().to_vec());
        Row { row, array, chip: beside.len() as u32, response: vec![0; 260], on_bus }
    }

    fn send(&mut self, sent: &[u8]) {
        let Row { row, array, chip, response, on_bus } = self;
        executed(match on_bus {
            true => calls::bus_transact(row, array, *chip, black_box(sent), 0, 1, response),
            false => calls::transact(row, array, black_box(sent), 0, 1, response),
        });
    }

    fn wait(&mut self) {
        let Row { row, array, on_bus, .. } = self;
        executed(match on_bus {
            true => calls::bus_wait(row, array, 1),
            false => calls::wait(row, array, 1),
        });
    }

    fn status(&mut self) {
        self.send(&[0x05, 0x00]);
    }

    /// A whole page, and the one tick that it takes.
    fn program(&mut self) {
        let mut program = [0x5A; 260];
        program[..4].copy_from_slice(&[0x02, 0x00, 0x01, 0x00]);
        self.send(&[0x06]);
        self.send(&program);
        self.wait();
    }
}

fn executed(reply: Reply) {
    assert_eq!(reply.answer(), Answer::Executed);
}

/// The middle times of all four, over rounds that take turns; the ratio is that of the last two.
pub fn time_bus() {
    let mut rows = [
        Row::new(&[], false),
        Row::new(&[], true),
        Row::new(&[Part::Bench; 7], true),
        Row::new(&[Part::M25p128; 7], true),
    ];
    let names = ["no bus", "alone on it", "+ 7 bench", "+ 7 M25P128"];
    println!("{:<32} {}   ratio", "", names.map(|name| format!("{name:>13}")).join(" "));
    let works: [(&str, fn(&mut Row)); 2] =
        [("bench status read", Row::status), ("bench page program and wait", Row::program)];
    for (what, work) in works {
        let times = middles(|| {
            rows.each_mut().map(|row| timed(|| (0..TIMES).for_each(|_| work(black_box(row)))))
        });
        let each = times.map(|time| time.as_secs_f64() * 1e6 / TIMES as f64);
        let columns = each.map(|time| format!("{time:>10.3} us")).join(" ");
        println!("{what:<32} {columns}   {:.2}", each[3] / each[2]);
    }
}
