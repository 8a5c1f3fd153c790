//! The command `pins`: a probe's file is carried out on a part as delivered.

mod ends;
mod options;

pub use ends::Ends;
pub use options::{Options, USAGE};

use std::ffi::OsString;
use std::path::Path;

use m25p::pins::NOT_DRIVEN;
use m25p::{Answer, Part, Run};

use crate::command::{deliver, read, refusal, write};
use crate::vcd::{self, Undriven};

/// Carries out what the words ask for and writes the results: a report, or a sentence that says why not.
pub fn carry_out(words: impl IntoIterator<Item = OsString>) -> Result<String, String> {
    let options = Options::parse(words)?;
    let samples = read(&options.file)?;
    let mut chip = deliver(options.part, options.durations)?;
    let Run { output, .. } =
        chip.pins(&samples).map_err(|answer| run_refusal(&options.file, &samples, answer))?;
    let undriven = if options.pulled_up { Undriven::PulledUp } else { Undriven::Floating };
    if let Some(path) = &options.output {
        write(path, &output)?;
    }
    if let Some(path) = &options.vcd {
        write(path, vcd::text(&samples, &output, undriven).as_bytes())?;
    }
    Ok(report(options.part, &samples, &output))
}

/// The refusal of a run; 21 is told with the first sample that is none.
fn run_refusal(file: &Path, samples: &[u8], answer: Answer) -> String {
    let file = file.display();
    match samples.iter().position(|sample| sample >> 5 != 0) {
        Some(at) if answer == Answer::SampleBits => format!(
            "{file} is refused with 21: sample {at}, counted from 0, has one of the bits 5 to 7 set."
        ),
        _ => refusal(&file.to_string(), answer),
    }
}

/// The run in three lines.
fn report(part: Part, samples: &[u8], output: &[u8]) -> String {
    let Ends { ended, thrown_away, unfinished } = Ends::of(samples);
    let driven = output.iter().filter(|byte| **byte != NOT_DRIVEN).count();
    format!(
        "{part}, {} samples: answer 0, {}\n\
         {ended} transactions ended, {thrown_away} thrown away, {unfinished} unfinished\n\
         output driven after {driven} samples",
        samples.len(),
        Answer::Executed
    )
}
