//! The batch files of a week on one chip: each goes on from what the one before has left, and the totals add up.

use std::path::{Path, PathBuf};

use m25p::report::Totals;
use m25p::{Answer, Chip};

use crate::batch;
use crate::command::read;

/// A chip, and what came of the files so far.
pub struct Week {
    pub chip: Chip,
    pub totals: Totals,
    /// How many files were carried out.
    pub taken: usize,
    /// Those that were not, in order.
    pub refused: Vec<Refused>,
}

/// A file that counts for nothing and has changed nothing.
#[derive(Debug)]
pub struct Refused {
    pub file: PathBuf,
    /// What it is refused with, or none where it could not be read.
    pub answer: Option<Answer>,
    pub sentence: String,
}

impl Week {
    /// No file so far.
    pub fn new(chip: Chip) -> Week {
        Week { chip, totals: Totals::default(), taken: 0, refused: Vec::new() }
    }

    /// Carries a file out. One that is refused leaves chip and totals as they are.
    pub fn take(&mut self, file: &Path) -> Result<(), &Refused> {
        match self.carry_out(file) {
            Ok(()) => {
                self.taken += 1;
                Ok(())
            }
            Err(refused) => {
                self.refused.push(refused);
                Err(&self.refused[self.refused.len() - 1])
            }
        }
    }

    fn carry_out(&mut self, file: &Path) -> Result<(), Refused> {
        let refused = |answer, sentence| Refused { file: file.into(), answer, sentence };
        let bytes = read(file).map_err(|sentence| refused(None, sentence))?;
        match self.chip.report(&bytes, &mut self.totals) {
            Ok(_) => Ok(()),
            Err(answer) => Err(refused(Some(answer), batch::refused(file, &bytes, answer))),
        }
    }
}
