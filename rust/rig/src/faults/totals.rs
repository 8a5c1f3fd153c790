//! Deliberate faults of reports: what a transaction counts for.

use crate::batch_model::Item;
use crate::model::{address, full_address, Part, FAST_READ, PAGE, PE, PP, PW, RDSR, READ, SE};
use crate::report_model::*;

/// Other items are counted.
pub struct Lists(pub for<'a> fn(&'a [Item], &'a Trial) -> Vec<Done<'a>>);

impl ReportModel for Lists {
    fn transactions<'a>(&self, items: &'a [Item], trial: &'a Trial) -> Vec<Done<'a>> {
        self.0(items, trial)
    }
}

/// The transactions of the paper that are such.
fn those<'a>(
    items: &'a [Item],
    trial: &'a Trial,
    such: impl FnMut(&Done) -> bool,
) -> Vec<Done<'a>> {
    let mut all = PAPER.transactions(items, trial);
    let such: Vec<bool> = all.iter().map(such).collect();
    let mut such = such.into_iter();
    all.retain(|_| such.next() == Some(true));
    all
}

/// Waits are counted, too.
pub fn waits_too<'a>(items: &'a [Item], trial: &'a Trial) -> Vec<Done<'a>> {
    let mut all = PAPER.transactions(items, trial);
    let waits = items.iter().zip(&trial.chip).filter(|(item, _)| item.transaction().is_none());
    all.extend(waits.map(|(_, chip)| Done { sent: &[], response: &[], chip: *chip }));
    all
}

/// What sends nothing is not counted.
pub fn of_some_bytes<'a>(items: &'a [Item], trial: &'a Trial) -> Vec<Done<'a>> {
    those(items, trial, |t| !t.sent.is_empty())
}

/// What the chip ignored is not counted.
pub fn executed_alone<'a>(items: &'a [Item], trial: &'a Trial) -> Vec<Done<'a>> {
    those(items, trial, |t| t.chip.answer == 0)
}

/// The first one that is ignored ends the count.
pub fn up_to_an_ignored_one<'a>(items: &'a [Item], trial: &'a Trial) -> Vec<Done<'a>> {
    let mut ignored = false;
    those(items, trial, |t| {
        ignored |= t.chip.answer != 0;
        !ignored
    })
}

/// The last one is forgotten.
pub fn all_but_the_last<'a>(items: &'a [Item], trial: &'a Trial) -> Vec<Done<'a>> {
    let mut all = PAPER.transactions(items, trial);
    all.pop();
    all
}

/// The first one is forgotten.
pub fn all_but_the_first<'a>(items: &'a [Item], trial: &'a Trial) -> Vec<Done<'a>> {
    PAPER.transactions(items, trial).into_iter().skip(1).collect()
}

/// Other transactions are executed ones.
pub struct Executes(pub fn(&Done, u8) -> bool);

impl ReportModel for Executes {
    fn executed(&self, t: &Done, code: u8) -> bool {
        self.0(t, code)
    }
}

/// Whatever the answer is.
pub fn whatever_the_answer(t: &Done, code: u8) -> bool {
    t.sent.first() == Some(&code)
}

/// What the part knows, executed or not.
pub fn unless_unknown(t: &Done, code: u8) -> bool {
    whatever_the_answer(t, code) && t.chip.answer != 14
}

/// What is sent without bytes counts as one of 00.
pub fn nothing_is_zero(t: &Done, code: u8) -> bool {
    t.executed(code) || t.sent.is_empty() && code == 0
}

/// By the last byte sent.
pub fn by_the_last_byte(t: &Done, code: u8) -> bool {
    t.chip.answer == 0 && t.sent.last() == Some(&code)
}

/// By the first byte of the response.
pub fn by_the_response(t: &Done, code: u8) -> bool {
    t.chip.answer == 0 && t.response[0] == code
}

/// Status reads are not counted.
pub fn but_status_reads(t: &Done, code: u8) -> bool {
    t.executed(code) && code != RDSR
}

/// A fast read is a read.
pub fn fast_reads_as_reads(t: &Done, code: u8) -> bool {
    code != FAST_READ && (t.executed(code) || code == READ && t.executed(FAST_READ))
}

/// A page write is a program.
pub fn page_writes_as_programs(t: &Done, code: u8) -> bool {
    code != PW && (t.executed(code) || code == PP && t.executed(PW))
}

/// Answers are others.
pub struct Answers(pub fn(&Done, u8) -> bool);

impl ReportModel for Answers {
    fn answered(&self, t: &Done, number: u8) -> bool {
        self.0(t, number)
    }
}

/// By the first byte sent.
pub fn by_the_first_byte(t: &Done, number: u8) -> bool {
    t.sent.first() == Some(&number)
}

/// What sends nothing counts under 0.
pub fn nothing_under_zero(t: &Done, number: u8) -> bool {
    number == if t.sent.is_empty() { 0 } else { t.chip.answer }
}

/// What sends nothing counts as an unknown instruction.
pub fn nothing_is_unknown(t: &Done, number: u8) -> bool {
    number == if t.sent.is_empty() { 14 } else { t.chip.answer }
}

/// 0 is not counted.
pub fn ignored_alone(t: &Done, number: u8) -> bool {
    number != 0 && t.chip.answer == number
}

/// From 11 on one behind the other.
pub fn packed(t: &Done, number: u8) -> bool {
    number == t.chip.answer.saturating_sub(10)
}

/// In four bits.
pub fn in_four_bits(t: &Done, number: u8) -> bool {
    number == t.chip.answer % 16
}

/// The driven bytes are others.
pub struct Drives(pub fn(&Done) -> usize);

impl ReportModel for Drives {
    fn driven(&self, t: &Done) -> u128 {
        self.0(t) as u128
    }
}

/// A driven FF is none.
pub fn not_ff(t: &Done) -> usize {
    t.response.iter().filter(|byte| **byte != 0xFF).count()
}

/// All that is sent is answered.
pub fn sent(t: &Done) -> usize {
    t.sent.len()
}

/// All that is sent of what is executed is answered.
pub fn sent_where_executed(t: &Done) -> usize {
    if t.chip.answer == 0 {
        t.sent.len()
    } else {
        0
    }
}

/// Transactions that drive are counted, not their bytes.
pub fn once(t: &Done) -> usize {
    t.chip.count.min(1)
}

/// Reads of the array alone drive.
pub fn of_the_array(t: &Done) -> usize {
    if t.executed(READ) || t.executed(FAST_READ) {
        t.chip.count
    } else {
        0
    }
}

/// A fast read drives its dummy byte.
pub fn with_the_dummy_byte(t: &Done) -> usize {
    t.chip.count + usize::from(t.executed(FAST_READ))
}

/// The count is that of a byte.
pub fn in_a_byte(t: &Done) -> usize {
    t.chip.count % 256
}

/// The place of the first driven byte is taken for their count.
pub fn place_of_the_first(t: &Done) -> usize {
    t.chip.first
}

/// Bits are counted, not bytes.
pub fn bits(t: &Done) -> usize {
    8 * t.chip.count
}

/// Other transactions are programs, or they count for another sector.
pub struct Programs(pub fn(&Done, &Part) -> Option<usize>);

impl ReportModel for Programs {
    fn programmed(&self, t: &Done, part: &Part, sector: usize) -> bool {
        self.0(t, part) == Some(sector)
    }
}

/// The sector of this place, where a program is executed.
fn program(t: &Done, part: &Part, place: impl FnOnce() -> usize) -> Option<usize> {
    t.executed(PP).then(|| place() / part.sector_bytes)
}

/// By page.
pub fn by_page(t: &Done, part: &Part) -> Option<usize> {
    program(t, part, || address(part, t.sent) / PAGE * part.sector_bytes)
}

/// The address is not reduced to the part's size.
pub fn not_reduced(t: &Done, part: &Part) -> Option<usize> {
    program(t, part, || full_address(t.sent))
}

/// The address is reduced to 64 sectors, which not every part has.
pub fn in_64_sectors(t: &Done, part: &Part) -> Option<usize> {
    program(t, part, || full_address(t.sent) % (64 * part.sector_bytes))
}

/// An address above the part's size is none.
pub fn within_alone(t: &Done, part: &Part) -> Option<usize> {
    program(t, part, || full_address(t.sent)).filter(|sector| *sector < part.sectors)
}

/// A sector has 65,536 bytes on every part.
pub fn by_64_kilobytes(t: &Done, part: &Part) -> Option<usize> {
    program(t, part, || address(part, t.sent) / 65_536 * part.sector_bytes)
}

/// The low byte of the address is sent first.
pub fn low_byte_first(t: &Done, part: &Part) -> Option<usize> {
    program(t, part, || address(part, &[t.sent[0], t.sent[3], t.sent[2], t.sent[1]]))
}

/// By where the data would end if it ran on.
pub fn by_its_end(t: &Done, part: &Part) -> Option<usize> {
    program(t, part, || (address(part, t.sent) + t.sent.len() - 5) % part.bytes)
}

/// Sectors count from the highest.
pub fn from_the_highest(t: &Done, part: &Part) -> Option<usize> {
    program(t, part, || part.bytes - 1 - address(part, t.sent))
}

/// Sector 0 has them all.
pub fn in_all(t: &Done, part: &Part) -> Option<usize> {
    program(t, part, || 0)
}

/// Programs that are ignored count, too.
pub fn ignored_too(t: &Done, part: &Part) -> Option<usize> {
    let sent = t.sent.first() == Some(&PP) && t.sent.len() > 4;
    sent.then(|| address(part, t.sent) / part.sector_bytes)
}

/// A program in a protected sector counts, too.
pub fn protected_too(t: &Done, part: &Part) -> Option<usize> {
    ignored_too(t, part).filter(|_| matches!(t.chip.answer, 0 | 17))
}

/// A program without the latch counts, too.
pub fn without_the_latch_too(t: &Done, part: &Part) -> Option<usize> {
    ignored_too(t, part).filter(|_| matches!(t.chip.answer, 0 | 16))
}

/// A program in a cycle counts, too.
pub fn busy_too(t: &Done, part: &Part) -> Option<usize> {
    ignored_too(t, part).filter(|_| matches!(t.chip.answer, 0 | 12))
}

/// An instruction of this code counts, too.
fn also(code: u8, t: &Done, part: &Part) -> Option<usize> {
    let counted = t.executed(PP) || t.executed(code);
    counted.then(|| address(part, t.sent) / part.sector_bytes)
}

/// A page write counts, too.
pub fn page_writes_too(t: &Done, part: &Part) -> Option<usize> {
    also(PW, t, part)
}

/// A sector erase counts, too.
pub fn erases_too(t: &Done, part: &Part) -> Option<usize> {
    also(SE, t, part)
}

/// A page erase counts, too.
pub fn page_erases_too(t: &Done, part: &Part) -> Option<usize> {
    also(PE, t, part)
}

/// A program of more than a page does not count.
pub fn of_a_page_at_most(t: &Done, part: &Part) -> Option<usize> {
    program(t, part, || address(part, t.sent)).filter(|_| t.sent.len() <= 4 + PAGE)
}
