//! Deliberate faults of raw pins: how a run is refused, shown and carried out.

use super::named;
use super::walk::*;
use crate::model::{self, Model, Paper, Record};
use crate::pins_model::*;

/// Those that short runs show.
pub const SHORT: &[(&str, &dyn PinsModel)] = named![
    ClockBeforeSelect,
    HoldBeforeClock,
    HoldBeforeSelect,
    RestIsFirstSample,
    DataFromBefore,
    WFromBefore,
    LowHoldUnseen,
    HoldStartsAtOnce,
    HoldEndsAtOnce,
    UndoneFallCounts,
    UndoneRiseCounts,
    WaitingStartThrows,
    WaitingEndCarriesOut,
    HoldCarriesOut,
    TakesInHold,
    HoldDropsBits,
    WaitingStartKeepsBit,
    DrivesInHold,
    SilentAfterHold,
    MovesOnRise,
    OneFallLate,
    ShowsLowBitFirst,
    OutputKeptAtSelect,
    UnfinishedByteSilent,
    ShowsTheFirstRecord,
    PulsesDropped,
    UnfinishedCarriedOut,
    TicksPass,
    LastMissingAlone,
    MissingNotHandedUp,
    Afterwards(tells_ignored),
    Afterwards(output_beyond_samples),
    Afterwards(refusal_writes_output),
    BitSevenAllowed,
    // 21 is given before 2
    RefusesInOrder([8, 6, 21, 2, 22, 23]),
    // 23 is given before 21
    RefusesInOrder([8, 6, 2, 23, 21, 22]),
];

/// Those that only runs with a transaction of about 65,536 bytes show.
pub const LONG: &[(&str, &dyn PinsModel)] = named![
    // 22 is given before 21
    RefusesInOrder([8, 6, 2, 22, 21, 23]),
    NotCounted(End::ThrownAway),
    NotCounted(End::Unfinished),
    PulsesCountAsByte,
    LongestRefused,
];

/// The faults of the pins alone carry a run out as the paper has it, and those below walk as it has it.
macro_rules! as_the_paper {
    ($rules:ident: $($fault:ident),* $(,)?) => { $(impl $rules for $fault {})* };
}

as_the_paper![PinsModel: ClockBeforeSelect, HoldBeforeClock, HoldBeforeSelect, RestIsFirstSample];
as_the_paper![PinsModel: DataFromBefore, WFromBefore, LowHoldUnseen, HoldStartsAtOnce, HoldEndsAtOnce];
as_the_paper![PinsModel: UndoneFallCounts, UndoneRiseCounts, WaitingStartThrows, WaitingEndCarriesOut];
as_the_paper![PinsModel: HoldCarriesOut, TakesInHold, HoldDropsBits, WaitingStartKeepsBit];
as_the_paper![PinsModel: DrivesInHold, SilentAfterHold, MovesOnRise, OneFallLate];
as_the_paper![Walking: ShowsLowBitFirst, OutputKeptAtSelect, UnfinishedByteSilent, ShowsTheFirstRecord];
as_the_paper![Walking: PulsesDropped, UnfinishedCarriedOut, TicksPass, Afterwards, BitSevenAllowed];
as_the_paper![Walking: RefusesInOrder, NotCounted, PulsesCountAsByte, LongestRefused];
as_the_paper![Walking: LastMissingAlone, MissingNotHandedUp];

/// Bytes are shown with their lowest bit first.
struct ShowsLowBitFirst;

impl PinsModel for ShowsLowBitFirst {
    fn bit(&self, byte: u8, k: usize) -> u8 {
        byte >> k & 1
    }
}

/// As Select falls the output stays as it was before.
struct OutputKeptAtSelect;

impl PinsModel for OutputKeptAtSelect {
    fn show(&self, walk: &Walk, found: &Found, r: &Record, array: &[u8], output: &mut [u8]) {
        let last = output[..found.from].iter().rfind(|byte| **byte != NOT_DRIVEN).copied();
        output[found.from..found.to].fill(last.unwrap_or(NOT_DRIVEN));
        Paper.show(walk, found, r, array, output);
    }
}

/// The bits of an unfinished byte are not shown.
struct UnfinishedByteSilent;

impl PinsModel for UnfinishedByteSilent {
    fn show(&self, walk: &Walk, found: &Found, r: &Record, array: &[u8], output: &mut [u8]) {
        Paper.show(walk, found, r, array, output);
        let whole = found.bits.len() / 8;
        let ran = output[found.from..found.to].iter_mut().zip(&walk.shown[found.from..]);
        ran.filter(|(_, shown)| shown.is_some_and(|m| m / 8 >= whole))
            .for_each(|(byte, _)| *byte = NOT_DRIVEN);
    }
}

/// All transactions are shown by the record from before the run.
struct ShowsTheFirstRecord;

impl PinsModel for ShowsTheFirstRecord {
    fn run(
        &self,
        record: &mut [u8],
        array: &mut [u8],
        samples: &[u8],
        output: &mut [u8],
    ) -> Outcome {
        let (mut now, mut contents) = (record.to_vec(), array.to_vec());
        let outcome = Paper.run(record, array, samples, output);
        if outcome.answer == 0 {
            let (walk, first) = (self.walk(samples), Record::unpack(&now).expect("a sound record"));
            output[..samples.len()].fill(NOT_DRIVEN);
            for found in &walk.found {
                self.show(&walk, found, &first, &contents, output);
                self.carry_out(found, &mut now, &mut contents);
            }
        }
        outcome
    }
}

/// Further pulses are dropped.
struct PulsesDropped;

impl PinsModel for PulsesDropped {
    fn carry_out(&self, found: &Found, record: &mut [u8], array: &mut [u8]) -> Answered {
        let mut found = found.clone();
        found.bits.truncate(found.bits.len() / 8 * 8);
        Paper.carry_out(&found, record, array)
    }
}

/// A transaction unfinished at the end of the run is carried out.
struct UnfinishedCarriedOut;

impl PinsModel for UnfinishedCarriedOut {
    fn carry_out(&self, found: &Found, record: &mut [u8], array: &mut [u8]) -> Answered {
        let mut found = found.clone();
        if found.end == End::Unfinished {
            found.end = End::Risen { w: true };
        }
        Paper.carry_out(&found, record, array)
    }
}

/// A tick passes with each transaction.
struct TicksPass;

impl PinsModel for TicksPass {
    fn carry_out(&self, found: &Found, record: &mut [u8], array: &mut [u8]) -> Answered {
        let outcome = Paper.carry_out(found, record, array)?;
        Paper.wait(record, array, 1);
        Some(outcome)
    }
}

/// Only the last transaction's bits missing are handed up.
struct LastMissingAlone;

impl PinsModel for LastMissingAlone {
    fn missing_in_all(&self, chip: &[model::Outcome]) -> u32 {
        chip.last().map_or(0, |outcome| outcome.missing)
    }
}

/// A run hands up no bits missing.
struct MissingNotHandedUp;

impl PinsModel for MissingNotHandedUp {
    fn missing_in_all(&self, _: &[model::Outcome]) -> u32 {
        0
    }
}

/// A run of the paper, and then something more.
struct Afterwards(fn(&mut Outcome, &[u8], &mut [u8]));

impl PinsModel for Afterwards {
    fn run(
        &self,
        record: &mut [u8],
        array: &mut [u8],
        samples: &[u8],
        output: &mut [u8],
    ) -> Outcome {
        let mut outcome = Paper.run(record, array, samples, output);
        self.0(&mut outcome, samples, output);
        outcome
    }
}

/// A number of the chip, 11 to 19, is the answer of the run.
fn tells_ignored(outcome: &mut Outcome, _: &[u8], _: &mut [u8]) {
    let told = outcome.numbers().into_iter().find(|number| *number != 0);
    outcome.answer = told.unwrap_or(outcome.answer);
}

/// The output is written behind the samples, too.
fn output_beyond_samples(outcome: &mut Outcome, samples: &[u8], output: &mut [u8]) {
    if outcome.answer == 0 {
        output[samples.len()..].fill(NOT_DRIVEN);
    }
}

/// A refusal writes the output.
fn refusal_writes_output(outcome: &mut Outcome, _: &[u8], output: &mut [u8]) {
    if outcome.answer != 0 {
        output.fill(NOT_DRIVEN);
    }
}

/// Bit 7 of a sample is not looked at.
struct BitSevenAllowed;

impl PinsModel for BitSevenAllowed {
    fn odd(&self, samples: &[u8]) -> bool {
        samples.iter().any(|sample| sample & 0x60 != 0)
    }
}

/// The refusals are looked at in another order.
struct RefusesInOrder([u8; 6]);

impl PinsModel for RefusesInOrder {
    fn refusals(&self) -> [u8; 6] {
        self.0
    }
}

/// 22 does not count the transactions that end so.
struct NotCounted(End);

impl PinsModel for NotCounted {
    fn whole_bytes(&self, found: &Found) -> usize {
        if found.end == self.0 {
            return 0;
        }
        Paper.whole_bytes(found)
    }
}

/// 22 counts further pulses as a byte.
struct PulsesCountAsByte;

impl PinsModel for PulsesCountAsByte {
    fn whole_bytes(&self, found: &Found) -> usize {
        found.bits.len().div_ceil(8)
    }
}

/// 22 refuses 65,536 bytes.
struct LongestRefused;

impl PinsModel for LongestRefused {
    fn whole_bytes(&self, found: &Found) -> usize {
        Paper.whole_bytes(found) + 1
    }
}
