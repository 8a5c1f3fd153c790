//! The report as a table.

use std::fmt::{self, Display, Formatter};

use super::rows::{most, share, Sector};
use super::Week;
use crate::batch::STILL_RUNNING;

/// The longest bar.
const BAR: usize = 40;

/// The report as a person reads it.
pub struct Table<'a>(pub &'a Week);

impl Display for Table<'_> {
    fn fmt(&self, f: &mut Formatter) -> fmt::Result {
        let (executed, answers, sectors) = (self.0.executed(), self.0.answers(), self.0.sectors());
        let most = most(&sectors);
        let counts =
            executed.iter().map(|row| row.count).chain(answers.iter().map(|row| row.count));
        let width = counts.chain([most]).max().unwrap_or(0).to_string().len();
        head(f, self.0)?;
        writeln!(f, "\nexecuted, by instruction")?;
        executed.iter().try_for_each(|row| {
            writeln!(f, "  {:width$}  {:02X} {}", row.count, row.code, row.name)
        })?;
        writeln!(f, "\nanswers, by number")?;
        answers.iter().try_for_each(|row| {
            writeln!(f, "  {:width$}  {:2} {}", row.count, row.number, row.meaning)
        })?;
        writeln!(f, "\npage programs, by sector")?;
        sectors.iter().try_for_each(|sector| bar(f, sector, most, width))?;
        match self.0.chip.cycle() {
            Some(_) => writeln!(f, "\n{STILL_RUNNING}"),
            None => Ok(()),
        }
    }
}

/// The files, and what there was in all of them.
fn head(f: &mut Formatter, week: &Week) -> fmt::Result {
    let Week { chip, totals, taken, refused } = week;
    let (part, refused) = (chip.part(), refused.len());
    writeln!(f, "{part}, files {}: taken {taken}, refused {refused}", taken + refused)?;
    writeln!(f, "transactions {}, driven bytes {}", totals.transactions(), totals.driven)
}

/// A sector with its programs, as a number and as a bar.
fn bar(f: &mut Formatter, sector: &Sector, most: u64, width: usize) -> fmt::Result {
    let Sector { number, first, last, programs } = sector;
    write!(f, "  {programs:width$}  {number:2} {first:06X}-{last:06X}")?;
    match share(*programs, most.into(), BAR) {
        0 => writeln!(f),
        length => writeln!(f, " {}", "#".repeat(length)),
    }
}
