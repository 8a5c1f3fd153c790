//! Deliberate faults of delivery and transactions.

use std::ops::Range;

use super::amend;
use crate::model::*;

/// All data of one program are anded into their slots.
pub struct AndDataIntoSlots;

impl Model for AndDataIntoSlots {
    fn slot(&self, before: u8, byte: u8) -> u8 {
        before & byte
    }
}

/// A program runs on into the next page.
pub struct RunOnPage;

impl Model for RunOnPage {
    fn area(&self, r: &Record, cycle: &Cycle) -> Range<usize> {
        match *cycle {
            Cycle::Program { address, .. } => address..(address + PAGE).min(r.figures().bytes),
            _ => Paper.area(r, cycle),
        }
    }
}

/// A transaction of the paper, and then something more.
pub struct Afterwards(pub fn(After));

/// A transaction that was answered, and what it was lent.
pub struct After<'a> {
    pub answer: u8,
    pub record: &'a mut [u8],
    pub array: &'a mut [u8],
    pub t: Transaction<'a>,
    pub response: &'a mut [u8],
}

impl Model for Afterwards {
    fn transact(
        &self,
        record: &mut [u8],
        array: &mut [u8],
        t: Transaction,
        response: &mut [u8],
    ) -> Outcome {
        let outcome = Paper.transact(record, array, t, response);
        self.0(After { answer: outcome.answer, record, array, t, response });
        outcome
    }
}

impl After<'_> {
    /// The cycle that was started, if it was executed and starts one.
    fn started(&self) -> Option<Cycle> {
        match (self.answer, self.t.sent) {
            (0, [code, ..]) if needs_latch(*code) => Record::unpack(self.record)?.cycle(),
            _ => None,
        }
    }
}

/// An ignored instruction resets the latch.
pub fn latch_lost_when_ignored(after: After) {
    if after.answer > 8 {
        amend(after.record, |r| r.latch = false);
    }
}

/// The response is filled with FF behind n, too.
pub fn response_beyond_n(after: After) {
    if after.answer == 0 || after.answer > 8 {
        after.response[after.t.sent.len()..].fill(0xFF);
    }
}

/// A refusal of the host side fills the response with FF.
pub fn refusal_writes_response(after: After) {
    if (1..=8).contains(&after.answer) {
        after.response.fill(0xFF);
    }
}

/// The array changes as the cycle starts.
pub fn array_at_the_start(after: After) {
    if let Some(cycle) = after.started() {
        let mut settings = Record::unpack(after.record).expect("a sound record");
        Paper.complete(&mut settings, after.array, &cycle);
    }
}

/// The packing has no slots.
pub fn slots_not_packed(after: After) {
    if after.started().is_some() {
        after.record[CYCLE_AT..][SLOTS_AT..NAMED_AT].fill(0);
    }
}

/// Every cycle remembers settings, the old ones where it has no new.
pub fn settings_remembered(after: After) {
    if after.started().is_some() && after.t.sent[0] != WRSR {
        after.record.copy_within(1..3, CYCLE_AT + 1);
    }
}

/// A program names its bytes, too.
pub fn program_names(after: After) {
    if let Some(Cycle::Program { .. }) = after.started() {
        let named = (after.t.sent.len() - 4).min(PAGE) as u32;
        after.record[CYCLE_AT..LOCKS_AT][NAMED_AT..].copy_from_slice(&named.to_le_bytes());
    }
}

/// A page write of what is there already is no cycle.
pub fn equal_bytes_at_once(after: After) {
    if let Some(cycle @ Cycle::PageWrite { .. }) = after.started() {
        let mut written = after.array.to_vec();
        amend(after.record, |r| {
            Paper.complete(r, &mut written, &cycle);
            if written == after.array {
                *r = r.rested();
            }
        });
    }
}

/// W low alone freezes the status register.
pub struct FrozenOnWLowAlone;

impl Model for FrozenOnWLowAlone {
    fn frozen(&self, _: &Record, w: u32) -> bool {
        w == 0
    }
}

/// W low stops a program.
pub struct WLowStopsProgram;

impl Model for WLowStopsProgram {
    fn protected(&self, r: &Record, t: Transaction) -> bool {
        Paper.protected(r, t) || t.sent[0] == PP && t.w == 0
    }
}

/// WRSR is taken with SRWD set and W low.
pub struct NeverFrozen;

impl Model for NeverFrozen {
    fn frozen(&self, _: &Record, _: u32) -> bool {
        false
    }
}

/// SRWD and W low freeze the status register only where BP is 0.
pub struct FrozenAtBpZeroAlone;

impl Model for FrozenAtBpZeroAlone {
    fn frozen(&self, r: &Record, w: u32) -> bool {
        r.bp == 0 && Paper.frozen(r, w)
    }
}

/// Protected sectors are written with W low.
pub struct ProtectedWithWHighAlone;

impl Model for ProtectedWithWHighAlone {
    fn protected(&self, r: &Record, t: Transaction) -> bool {
        t.w != 0 && Paper.protected(r, t)
    }
}

/// Bulk erase goes through with BP above 0, over the unprotected sectors.
pub struct BulkErasesUnprotectedOnly;

impl Model for BulkErasesUnprotectedOnly {
    fn protected(&self, r: &Record, t: Transaction) -> bool {
        t.sent[0] != BE && Paper.protected(r, t)
    }

    fn area(&self, r: &Record, cycle: &Cycle) -> Range<usize> {
        let part = r.figures();
        let spared = part.protected[r.bp as usize] * part.sector_bytes;
        match cycle {
            Cycle::BulkErase => 0..part.bytes - spared,
            _ => Paper.area(r, cycle),
        }
    }
}

/// A program stores its bytes over the old ones.
pub struct StoresOverOldBytes;

impl Model for StoresOverOldBytes {
    fn programmed(&self, _: u8, slot: u8) -> u8 {
        slot
    }
}

/// A read does not roll over; it drives FF behind the last byte.
pub struct ReadStopsAtTheEnd;

impl Model for ReadStopsAtTheEnd {
    fn read(&self, array: &[u8], at: usize) -> u8 {
        array.get(at).copied().unwrap_or(0xFF)
    }
}

/// Protection is found from the address before it is reduced.
pub struct AddressNotReduced;

impl Model for AddressNotReduced {
    fn protected(&self, r: &Record, t: Transaction) -> bool {
        match t.sent[0] {
            PP | SE => r.protects(full_address(t.sent)),
            _ => Paper.protected(r, t),
        }
    }
}

/// All n bytes of a response are counted as driven.
pub struct CountsEveryByte;

impl Model for CountsEveryByte {
    fn drive(&self, r: &Record, array: &[u8], sent: &[u8], response: &mut [u8]) -> Outcome {
        let mut outcome = Paper.drive(r, array, sent, response);
        if outcome.count > 0 {
            outcome.count = sent.len();
        }
        outcome
    }
}

/// Further pulses are cut down to 8 bits.
pub struct PulsesCutToAByte;

impl Model for PulsesCutToAByte {
    fn transact(
        &self,
        record: &mut [u8],
        array: &mut [u8],
        t: Transaction,
        response: &mut [u8],
    ) -> Outcome {
        Paper.transact(record, array, Transaction { pulses: t.pulses & 0xFF, ..t }, response)
    }
}

/// W is cut down to 8 bits.
pub struct WCutToAByte;

impl Model for WCutToAByte {
    fn frozen(&self, r: &Record, w: u32) -> bool {
        Paper.frozen(r, w & 0xFF)
    }
}

/// 9F is an instruction of the older M25P10-A too.
pub struct OlderIdentifies;

impl Model for OlderIdentifies {
    fn known(&self, part: &Part, code: u8) -> bool {
        code == RDID || Paper.known(part, code)
    }
}

/// 9F is an instruction of no M25P10-A.
pub struct NeitherIdentifies;

impl Model for NeitherIdentifies {
    fn known(&self, part: &Part, code: u8) -> bool {
        (code != RDID || part.bytes != 131_072) && Paper.known(part, code)
    }
}

/// WRSR keeps bit 4 on parts whose highest BP is 3.
pub struct BitFourKept;

impl Model for BitFourKept {
    fn bp(&self, _: &Part, status: u8) -> u8 {
        status >> 2 & 7
    }
}

/// Deep power-down resets the latch.
pub struct DeepResetsLatch;

impl Model for DeepResetsLatch {
    fn change(&self, r: &mut Record, sent: &[u8]) {
        Paper.change(r, sent);
        r.latch = r.latch && sent[0] != DP;
    }
}

/// The chip's numbers are looked at in another order.
pub struct LooksInOrder(pub [u8; 9]);

impl Model for LooksInOrder {
    fn chip_numbers(&self) -> [u8; 9] {
        self.0
    }
}

/// A delivery of the paper, and then something more: with the bytes before, and the durations.
pub struct Delivery(pub fn(&mut Outcome, &[u8], &mut [u8], [u32; 4]));

impl Model for Delivery {
    fn deliver(
        &self,
        record: &mut [u8],
        part: u32,
        array: &mut [u8],
        durations: [u32; 4],
    ) -> Outcome {
        let before = record.to_vec();
        let mut outcome = Paper.deliver(record, part, array, durations);
        self.0(&mut outcome, &before, record, durations);
        outcome
    }
}

/// It looks at the durations before the array's length.
pub fn duration_before_length(outcome: &mut Outcome, _: &[u8], _: &mut [u8], durations: [u32; 4]) {
    if outcome.answer == 2 && !durations.into_iter().all(is_duration) {
        *outcome = Outcome::only(7);
    }
}

/// It keeps the lock registers of the bytes before.
pub fn locks_delivered(outcome: &mut Outcome, before: &[u8], record: &mut [u8], _: [u32; 4]) {
    if outcome.answer == 0 {
        record[LOCKS_AT..].copy_from_slice(&before[LOCKS_AT..]);
    }
}
