//! A batch is carried out on a part, and printed with its answers.

use std::io::Write;

use m25p::batch::{items, Item};
use m25p::{Answer, Batch, Part};

use super::options::Run;
use super::text::{Outcome, Shown};
use super::{refused, STILL_RUNNING};
use crate::command::{read, write};
use crate::contents::deliver_with;
use crate::program::Failure;

/// Carries a batch file out, writes the results, and then prints the items with their answers.
pub fn run(options: &Run, out: &mut impl Write) -> Result<(), Failure> {
    let bytes = read(&options.file)?;
    let (mut chip, form) = deliver_with(options.part, options.durations, options.image.as_deref())?;
    let batch = chip.batch(&bytes).map_err(|answer| refused(&options.file, &bytes, answer))?;
    if let Some(path) = &options.save {
        write(path, &form.pack(options.part, chip.array()))?;
    }
    if let Some(path) = &options.responses {
        write(path, &batch.responses)?;
    }
    print(&bytes, options.part, &batch, out)?;
    if chip.cycle().is_some() {
        writeln!(out, "{STILL_RUNNING}")?;
    }
    Ok(())
}

/// How many items there were, and what came of them.
#[derive(Default)]
struct Totals {
    items: usize,
    executed: usize,
    ignored: usize,
    waits: usize,
}

/// A line for each item with its answer, the totals, and the bits missing if there are any.
fn print(bytes: &[u8], part: Part, batch: &Batch, out: &mut impl Write) -> Result<(), Failure> {
    let mut totals = Totals::default();
    let mut responses = &batch.responses[..];
    for (item, number) in items(bytes).flatten().zip(&batch.answers) {
        totals.items += 1;
        let answer = Answer::numbered(*number).expect("an answer number of the table");
        write!(out, "{} -> ", Shown { number: totals.items, item, part })?;
        let (response, rest) = responses.split_at(item.response_bytes());
        responses = rest;
        match item {
            Item::Wait { .. } => {
                totals.waits += 1;
                writeln!(out, "{number}")?;
            }
            Item::Transaction { sent, .. } => {
                let count =
                    if answer.ignored() { &mut totals.ignored } else { &mut totals.executed };
                *count += 1;
                writeln!(out, "{}", Outcome::of(sent, part, answer, response))?;
            }
        }
    }
    let Totals { items, executed, ignored, waits } = totals;
    writeln!(out, "items {items}, executed {executed}, ignored {ignored}, waits {waits}")?;
    match batch.missing {
        0 => {}
        1 => writeln!(out, "missing 1 bit: an erase was missing")?,
        bits => writeln!(out, "missing {bits} bits: an erase was missing")?,
    }
    Ok(())
}
