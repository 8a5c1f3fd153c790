//! The command `report` as a process, and totals that are counted singly.

#[path = "batch.rs"]
pub mod batch;
#[path = "json.rs"]
pub mod json;
#[path = "outside.rs"]
pub mod outside;

use std::process::Output;

use batch::desk::Desk;
use json::Value;
use m25p::batch::{items, Item};
use m25p::report::Totals;
use m25p::{Answer, Chip, Part};

pub fn desk_of(name: &str) -> Desk {
    Desk::new(env!("CARGO_BIN_EXE_report"), name)
}

/// The bytes of a batch, from lines of the bench.
pub fn lines(text: &str) -> Vec<u8> {
    tools::batch::items_of(text.as_bytes()).unwrap()
}

/// A page program of one byte at an address with its write enable, and the wait for its end.
pub fn program(address: usize) -> String {
    format!("x 1 0 06\nx 1 0 02{address:06X}A5\nw 3\n")
}

/// What a report printed, what it said on standard error, and its exit status.
pub fn told(output: Output) -> (String, String, Option<i32>) {
    let [printed, said] = [output.stdout, output.stderr].map(|b| String::from_utf8(b).unwrap());
    (printed, said, output.status.code())
}

/// What the calls made singly come to.
pub fn count(chip: &mut Chip, batch: &[u8], totals: &mut Totals) {
    for item in items(batch).map(Result::unwrap) {
        match item {
            Item::Wait { ticks } => chip.wait(ticks),
            Item::Transaction { sent, pulses, w_high } => {
                let response = chip.transact(sent, pulses.into(), w_high);
                totals.answers[usize::from(response.answer.number())] += 1;
                totals.driven += response.driven().len() as u64;
                if response.answer == Answer::Executed {
                    executed(chip.part(), sent, totals);
                }
            }
        }
    }
}

fn executed(part: Part, sent: &[u8], totals: &mut Totals) {
    totals.executed[usize::from(sent[0])] += 1;
    if let [0x02, high, middle, low, ..] = *sent {
        let address = u32::from_be_bytes([0, high, middle, low]) as usize;
        totals.programs[address % part.bytes() / part.sector_bytes()] += 1;
    }
}

/// The totals in a report's JSON; what it does not show is 0.
pub fn totals_of(report: &Value) -> Totals {
    let mut totals = Totals { driven: report.at("driven_bytes").number(), ..Totals::default() };
    let lists: [(&str, &str, &str, &mut [u64]); 3] = [
        ("executed", "code", "count", &mut totals.executed),
        ("answers", "number", "count", &mut totals.answers),
        ("sectors", "sector", "programs", &mut totals.programs),
    ];
    for (list, place, count, numbers) in lists {
        let rows = report.at(list).list();
        rows.iter()
            .for_each(|row| numbers[row.at(place).number() as usize] = row.at(count).number());
    }
    assert_eq!(report.at("transactions").word(), totals.transactions().to_string());
    totals
}
