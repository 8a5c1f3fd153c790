//! What came up in a comparison, so that a test can see that nothing was left out.

use super::batches::Batches;
use super::ends::Ends;
use super::locks::Locks;
use super::reports::Reports;
use super::{Call, Seen, Step};
use crate::model::{full_address, CODES, PP};
use crate::pins_model::{End, HOLD, NOT_DRIVEN};

/// Counts by number.
pub type Counts = [u64; 256];

/// How often each answer came, each instruction was executed, how cycles ended, and what lock registers, raw pins,
/// batches and reports did.
pub struct Tally {
    pub calls: u64,
    pub answers: Counts,
    /// Instructions executed in transactions given singly, by code.
    pub executed: Counts,
    pub programs: Programs,
    pub ends: Ends,
    pub locks: Locks,
    pub pins: PinsTally,
    pub batches: Batches,
    pub reports: Reports,
}

/// Programs executed, singly and in runs: those with bits missing, among them those of a kind, and those with
/// none missing though there were zeros where the data went.
#[derive(Debug, Default)]
pub struct Programs {
    pub missing: u64,
    /// Of one byte.
    pub single: u64,
    /// Of at most 256 bytes, from the end of the page on to its beginning.
    pub wrapped: u64,
    /// Of more than 256 bytes.
    pub long: u64,
    /// Of FF alone.
    pub all_ff: u64,
    /// With some of the zeros of the page where no data went.
    pub spared: u64,
    pub none_missing: u64,
}

/// Raw pins: samples and how many of them were driven, the chip's answers to the transactions, which instructions
/// were executed, and how the transactions ended.
pub struct PinsTally {
    pub samples: u64,
    pub driven: u64,
    pub chip: Counts,
    pub executed: Counts,
    pub carried_out: u64,
    pub thrown_away: u64,
    pub unfinished: u64,
    /// Of more than 256 bytes, with Hold low at some time.
    pub long_held: u64,
}

impl Default for Tally {
    fn default() -> Tally {
        let (chip, executed) = ([0; 256], [0; 256]);
        let (samples, driven, long_held) = (0, 0, 0);
        let (carried_out, thrown_away, unfinished) = (0, 0, 0);
        let pins = PinsTally {
            samples,
            driven,
            chip,
            executed,
            carried_out,
            thrown_away,
            unfinished,
            long_held,
        };
        let (programs, ends, locks) = (Programs::default(), Ends::default(), Locks::default());
        let (answers, batches, reports) = ([0; 256], Batches::default(), Reports::default());
        Tally { calls: 0, answers, executed, programs, ends, locks, pins, batches, reports }
    }
}

impl Tally {
    /// Counts a call, what it answered, what it left in the buffers that it fills, and the programs on the
    /// array from before it.
    pub fn count(&mut self, step: &Step, seen: &Seen, filled: &[Vec<u8>], before: &[u8]) {
        self.calls += 1;
        self.answers[seen.answer() as usize] += 1;
        let before = &before[..step.array_len];
        match &step.call {
            Call::Transact { sent, .. } if seen.answer() == 0 => {
                self.executed[sent[0] as usize] += 1;
                self.programs.count(sent, seen.missing(), before);
            }
            Call::Pins { samples } => {
                self.pins.count(samples, seen, &filled[0]);
                for (sent, missing) in executed(seen) {
                    self.pins.executed[sent[0] as usize] += 1;
                    self.programs.count(&sent, missing, before);
                }
            }
            _ => {}
        }
    }

    /// All counts in a line.
    pub fn show(&self) -> String {
        let (calls, answers) = (self.calls, listed(&self.answers));
        if self.batches.transactions > 0 {
            let (batches, reports) = (self.batches.show(), self.reports.show());
            return format!("{calls} calls; answers {answers}; {batches}{reports}");
        }
        let rest = match self.pins.samples {
            0 => {
                let (codes, ends, locks) =
                    (codes(&self.executed), self.ends.show(), self.locks.show());
                format!("executed {codes}; {ends}; {locks}")
            }
            _ => self.pins.show(),
        };
        format!("{calls} calls; answers {answers}; {rest}; {}", self.programs.show())
    }
}

impl Programs {
    /// Counts an executed transaction, if it is a program.
    fn count(&mut self, sent: &[u8], missing: u32, before: &[u8]) {
        if sent[0] != PP {
            return;
        }
        let at = full_address(sent) % before.len();
        let (page, data) = (&before[at / 256 * 256..][..256], &sent[4..]);
        let reached = |slot: usize| (slot + 256 - at % 256) % 256 < data.len();
        let mut zeros = (0..256).filter(|slot| page[*slot] != 0xFF);
        if missing == 0 {
            self.none_missing += u64::from(zeros.any(reached));
            return;
        }
        let (short, ends) = (data.len() <= 256, at % 256 + data.len());
        self.missing += 1;
        self.single += u64::from(data.len() == 1);
        self.wrapped += u64::from(short && ends > 256);
        self.long += u64::from(!short);
        self.all_ff += u64::from(data.iter().all(|byte| *byte == 0xFF));
        self.spared += u64::from(zeros.any(|slot| !reached(slot)));
    }

    /// The kinds that came less than so many times.
    pub fn seldom(&self, times: u64) -> Vec<&'static str> {
        let kinds = [
            (self.missing, "bits missing"),
            (self.single, "one byte with bits missing"),
            (self.wrapped, "a wrap with bits missing"),
            (self.long, "more than 256 bytes with bits missing"),
            (self.all_ff, "FF alone with bits missing"),
            (self.spared, "bits missing, and zeros where no data went"),
            (self.none_missing, "none missing, and zeros where data went"),
        ];
        kinds.into_iter().filter(|(count, _)| *count < times).map(|(_, kind)| kind).collect()
    }

    fn show(&self) -> String {
        let Programs { missing, single, wrapped, long, all_ff, spared, none_missing } = self;
        format!(
            "programs with bits missing {missing}, of one byte {single}, wrapping {wrapped}, above 256 \
             bytes {long}, of FF alone {all_ff}, with zeros elsewhere {spared}; with none missing over \
             zeros {none_missing}"
        )
    }
}

impl PinsTally {
    fn count(&mut self, samples: &[u8], seen: &Seen, output: &[u8]) {
        self.samples += samples.len() as u64;
        for outcome in &seen.chip {
            self.chip[outcome.answer as usize] += 1;
        }
        for found in &seen.found {
            match found.end {
                End::Risen { .. } => self.carried_out += 1,
                End::ThrownAway => self.thrown_away += 1,
                End::Unfinished => self.unfinished += 1,
            }
            let held = samples[found.from..found.to].iter().any(|sample| sample & HOLD == 0);
            self.long_held += u64::from(held && found.bits.len() > 8 * 256);
        }
        if seen.answer() == 0 {
            let driven = output[..samples.len()].iter().filter(|byte| **byte != NOT_DRIVEN);
            self.driven += driven.count() as u64;
        }
    }

    fn show(&self) -> String {
        let PinsTally { samples, driven, carried_out, thrown_away, unfinished, long_held, .. } =
            self;
        format!(
            "{samples} samples, {driven} of them driven; transactions {carried_out} carried out, \
             {thrown_away} thrown away, {unfinished} unfinished, above 256 bytes and held {long_held}; \
             the chip's numbers {}; executed {}",
            listed(&self.chip),
            codes(&self.executed)
        )
    }
}

/// The transactions that a run executed, with their bits missing.
fn executed(seen: &Seen) -> impl Iterator<Item = (Vec<u8>, u32)> + '_ {
    let ended = seen.found.iter().filter(|found| matches!(found.end, End::Risen { .. }));
    let executed = ended.zip(&seen.chip).filter(|(_, outcome)| outcome.answer == 0);
    executed.map(|(found, outcome)| (found.sent(), outcome.missing))
}

/// How often each instruction came.
pub fn codes(counts: &Counts) -> String {
    CODES.map(|code| format!("{code:02X}: {}", counts[code as usize])).join(", ")
}

/// The numbers that came, each with how often.
pub fn listed(counts: &Counts) -> String {
    let shown = (0..256).filter(|i| counts[*i] > 0);
    let shown: Vec<String> = shown.map(|i| format!("{i}: {}", counts[i])).collect();
    shown.join(", ")
}
