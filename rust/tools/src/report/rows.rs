//! What the table, the JSON and the picture show of the totals, row by row.

use m25p::Answer;

use super::Week;
use crate::batch::Instruction;

/// How often an instruction was executed.
pub struct Executed {
    pub code: u8,
    pub name: &'static str,
    pub count: u64,
}

/// How often an answer came.
pub struct Answered {
    pub number: u8,
    pub meaning: String,
    pub count: u64,
}

/// How many page programs a sector has had.
pub struct Sector {
    pub number: usize,
    /// Its first address.
    pub first: usize,
    /// Its last address.
    pub last: usize,
    pub programs: u64,
}

impl Week {
    /// The instructions that were executed at all, by code.
    pub(super) fn executed(&self) -> Vec<Executed> {
        let part = self.chip.part();
        let all = (0..=u8::MAX).zip(self.totals.executed);
        all.filter(|(_, count)| *count > 0)
            .map(|(code, count)| {
                let name = Instruction::of(code, part).map_or("??", |known| known.name);
                Executed { code, name, count }
            })
            .collect()
    }

    /// The answers that came at all, by number.
    pub(super) fn answers(&self) -> Vec<Answered> {
        let all = (0..=u8::MAX).zip(self.totals.answers);
        all.filter(|(_, count)| *count > 0)
            .map(|(number, count)| Answered { number, meaning: meaning(number), count })
            .collect()
    }

    /// Every sector of the part, in order.
    pub(super) fn sectors(&self) -> Vec<Sector> {
        let part = self.chip.part();
        let all = self.totals.programs.into_iter().enumerate().take(part.sectors());
        all.map(|(number, programs)| {
            let first = number * part.sector_bytes();
            Sector { number, first, last: first + part.sector_bytes() - 1, programs }
        })
        .collect()
    }
}

/// What an answer to a transaction means.
fn meaning(number: u8) -> String {
    match Answer::numbered(number) {
        Some(Answer::Executed) => "executed".into(),
        Some(answer) => answer.to_string(),
        None => "??".into(),
    }
}

/// The most programs of a sector.
pub fn most(sectors: &[Sector]) -> u64 {
    sectors.iter().map(|sector| sector.programs).max().unwrap_or(0)
}

/// What a sector with this many programs has of the length that this many `whole` have: all of it only with as many,
/// and nothing only without any.
pub fn share(programs: u64, whole: u128, length: usize) -> usize {
    let part = u128::from(programs) * length as u128 / whole.max(1);
    (part as usize).max(usize::from(programs > 0))
}
