//! Several chips on one bus: a transaction goes to the one that is selected, and time passes for all of them.
//!
//! A [`Bus`] is a row of one to eight chips, which are named by their places in it, from 0 on. Their packed records lie one
//! after another, and so do their bytes, in the same order. What is sent to a chip leaves the others as they are, and
//! each does what it would do alone.
//!
//! ```
//! use m25p::{Answer, Bus, Durations, Part};
//!
//! let durations = Durations::default();
//! let mut bus = Bus::deliver(&[(Part::M25p40, durations), (Part::M25p128, durations)])?;
//! let identification = bus.transact(1, &[0x9F, 0, 0, 0], 0, true).executed()?;
//! assert_eq!(identification.driven(), [0x20, 0x20, 0x18]);
//!
//! // A program on each: the second starts while the first is busy, and one wait ends both.
//! for (chip, byte) in [(0, 0x5A), (1, 0x3C)] {
//!     bus.transact(chip, &[0x06], 0, true).executed()?;
//!     bus.transact(chip, &[0x02, 0x00, 0x00, 0x10, byte], 0, true).executed()?;
//! }
//! bus.wait(durations.program);
//! assert_eq!((bus.array(0)[0x10], bus.array(1)[0x10]), (0x5A, 0x3C));
//!
//! let not_there = bus.transact(2, &[0x05, 0], 0, true);
//! assert_eq!(not_there.answer, Answer::ChipNotThere);
//! # Ok::<(), Answer>(())
//! ```

use std::ops::Range;

use crate::calls;
use crate::chip::{self, executed};
use crate::{Answer, Batch, Buffer, Cycle, Durations, Part, Reported, Response, Run, Totals};
use crate::{MASK_BYTES, RECORD_BYTES};

/// The most chips on a bus.
pub const MOST_CHIPS: usize = 8;

/// A row of chips that owns their records and their bytes.
///
/// Its records are always sound and its array is always the sum of its parts, so that of the refusals only those that a
/// method names can come. [`transact`](Bus::transact) answers for a chip that is not in the row; the other methods that
/// are given a chip panic then, as a slice does beyond its end.
#[derive(Clone, Debug, PartialEq)]
pub struct Bus {
    parts: Vec<Part>,
    row: Buffer,
    array: Buffer,
}

impl Bus {
    /// A row of parts as they come from the factory, each with its own durations. Refused with
    /// [`Answer::RowLength`] or [`Answer::Duration`].
    pub fn deliver(chips: &[(Part, Durations)]) -> Result<Bus, Answer> {
        if chips.is_empty() || chips.len() > MOST_CHIPS {
            return Err(Answer::RowLength);
        }
        let parts: Vec<Part> = chips.iter().map(|(part, _)| *part).collect();
        let bytes = parts.iter().map(|part| part.bytes()).sum();
        let row = Buffer::from(vec![0; parts.len() * RECORD_BYTES]);
        let mut bus = Bus { parts, row, array: Buffer::from(vec![0; bytes]) };
        for (chip, (part, durations)) in chips.iter().enumerate() {
            let (record, array) = bus.lent(chip);
            calls::deliver(record, part.number(), array, *durations).answer().executed()?;
        }
        Ok(bus)
    }

    /// One transaction with this chip selected, see [`Chip::transact`](crate::Chip::transact); the others stay as they
    /// are. Refused with [`Answer::ChipNotThere`], [`Answer::SentLength`] or [`Answer::Pulses`].
    pub fn transact(&mut self, chip: usize, sent: &[u8], pulses: u32, w_high: bool) -> Response {
        let mut line = vec![0xFF; sent.len()];
        // No row has a chip of the greatest number either.
        let (chip, w) = (u32::try_from(chip).unwrap_or(u32::MAX), u32::from(w_high));
        let (row, array) = (&mut self.row, &mut self.array);
        let reply = calls::bus_transact(row, array, chip, sent, pulses, w, &mut line);
        Response::new(reply, line)
    }

    /// Lets ticks pass for every chip, see [`Chip::wait`](crate::Chip::wait).
    pub fn wait(&mut self, ticks: u32) {
        executed(calls::bus_wait(&mut self.row, &mut self.array, ticks));
    }

    /// Power off and on for this chip alone, see [`Chip::power_up`](crate::Chip::power_up).
    pub fn power_up(&mut self, chip: usize) {
        let (record, array) = self.lent(chip);
        executed(calls::power_up(record, array));
    }

    /// Power is lost and comes back for this chip alone, see [`Chip::loss`](crate::Chip::loss).
    pub fn loss(&mut self, chip: usize, mask: &[u8; MASK_BYTES], yes: bool) {
        let (record, array) = self.lent(chip);
        executed(calls::loss(record, array, mask, u32::from(yes)));
    }

    /// A run of raw pins of this chip, see [`Chip::pins`](crate::Chip::pins): the Select in it is this chip's own.
    pub fn pins(&mut self, chip: usize, samples: &[u8]) -> Result<Run, Answer> {
        let (record, array) = self.lent(chip);
        chip::pins(record, array, samples)
    }

    /// The items of a batch on this chip, see [`Chip::batch`](crate::Chip::batch). Its waits are this chip's alone: no
    /// time passes for the others.
    pub fn batch(&mut self, chip: usize, items: &[u8]) -> Result<Batch, Answer> {
        let (record, array) = self.lent(chip);
        chip::batch(record, array, items)
    }

    /// A report on this chip, see [`Chip::report`](crate::Chip::report). Its waits are this chip's alone, too.
    pub fn report(
        &mut self,
        chip: usize,
        items: &[u8],
        totals: &mut Totals,
    ) -> Result<Reported, Answer> {
        let (record, array) = self.lent(chip);
        chip::report(record, array, items, totals)
    }

    /// The parts of the row; there are as many chips.
    pub fn parts(&self) -> &[Part] {
        &self.parts
    }

    /// The cycle that is running in this chip, if one is.
    pub fn cycle(&self, chip: usize) -> Option<Cycle> {
        Cycle::of(self.record(chip))
    }

    /// The packed record of this chip.
    pub fn record(&self, chip: usize) -> &[u8; RECORD_BYTES] {
        self.row[self.record_range(chip)].try_into().expect("a record of the row")
    }

    /// The contents of this chip; a cycle that is still running has changed nothing of them.
    pub fn array(&self, chip: usize) -> &[u8] {
        &self.array[self.array_range(chip)]
    }

    /// The contents of this chip, to be set from outside.
    pub fn array_mut(&mut self, chip: usize) -> &mut [u8] {
        self.lent(chip).1
    }

    /// The packed records of all chips, one after another.
    pub fn row(&self) -> &[u8] {
        &self.row
    }

    /// The contents of all chips, one after another.
    pub fn whole_array(&self) -> &[u8] {
        &self.array
    }

    /// Where the contents of this chip lie in the whole array: from where those of the chips before it end.
    pub fn array_range(&self, chip: usize) -> Range<usize> {
        let start = self.parts[..chip].iter().map(|part| part.bytes()).sum();
        start..start + self.parts[chip].bytes()
    }

    fn record_range(&self, chip: usize) -> Range<usize> {
        chip * RECORD_BYTES..(chip + 1) * RECORD_BYTES
    }

    /// The record and the contents of one chip, for the calls that know of no row.
    fn lent(&mut self, chip: usize) -> (&mut [u8], &mut [u8]) {
        let (record, array) = (self.record_range(chip), self.array_range(chip));
        (&mut self.row[record], &mut self.array[array])
    }
}
