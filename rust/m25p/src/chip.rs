//! A chip that owns its record and its array.

use std::ops::Range;

use crate::batch::{self, HEAD_BYTES};
use crate::calls;
use crate::{Answer, Buffer, Cycle, Durations, Part, Reply, Reported, Totals};
use crate::{MASK_BYTES, RECORD_BYTES};

/// A chip that owns its record and its array.
///
/// Its record is always sound and its array always of the part's size, so that of the refusals only those
/// that a method names can come.
#[derive(Clone, Debug, PartialEq)]
pub struct Chip {
    part: Part,
    record: [u8; RECORD_BYTES],
    array: Buffer,
}

/// What a transaction answered and drove.
#[derive(Clone, Debug, PartialEq, Eq)]
pub struct Response {
    /// Whether it was executed, ignored or refused.
    pub answer: Answer,
    /// One byte for each byte sent: what the chip drove, FF where it drove nothing.
    pub line: Vec<u8>,
    /// How many bits a page program wanted 1 that were 0 in the array, 0 to 2,048. Above 0, an erase should
    /// have come first. It is 0 for every other instruction, and where nothing was executed.
    pub missing: u32,
    driven: Range<usize>,
}

/// What a run of raw pins showed.
#[derive(Clone, Debug, PartialEq, Eq)]
pub struct Run {
    /// One byte for each sample: the output after it, see [`pins`](crate::pins).
    pub output: Vec<u8>,
    /// The bits missing, summed over the transactions carried out, see [`Response::missing`]. A run executes
    /// at most one program, so they are at most 2,048.
    pub missing: u32,
}

/// What the items of a batch answered and drove.
#[derive(Clone, Debug, PartialEq, Eq)]
pub struct Batch {
    /// The responses one after the other: of each transaction as many bytes as it sent, FF where the chip
    /// drove nothing. A wait has none.
    pub responses: Vec<u8>,
    /// The answer number of each item: 0 or 11 to 19, and 0 for a wait.
    pub answers: Vec<u8>,
    /// The bits missing, summed over the transactions modulo 2 to the power 64, see [`Response::missing`].
    pub missing: u64,
}

impl Response {
    pub(crate) fn new(reply: Reply, line: Vec<u8>) -> Response {
        let driven = reply.first()..reply.first() + reply.count();
        Response { answer: reply.answer(), line, missing: reply.missing(), driven }
    }

    /// The bytes of the line that the chip drove.
    pub fn driven(&self) -> &[u8] {
        &self.line[self.driven.clone()]
    }

    /// The same, or the answer as an error unless the transaction was executed.
    pub fn executed(self) -> Result<Response, Answer> {
        self.answer.executed().map(|()| self)
    }
}

impl Chip {
    /// The part as it comes from the factory: the array all FF, nothing protected, the latch reset. The one
    /// refusal is [`Answer::Duration`].
    pub fn deliver(part: Part, durations: Durations) -> Result<Chip, Answer> {
        let array = Buffer::from(vec![0; part.bytes()]);
        let mut chip = Chip { part, record: [0; RECORD_BYTES], array };
        let reply = calls::deliver(&mut chip.record, part.number(), &mut chip.array, durations);
        reply.answer().executed().map(|()| chip)
    }

    /// One transaction: the bytes sent, the further clock pulses, and whether W is high as Chip Select rises.
    /// Refused with [`Answer::SentLength`] or [`Answer::Pulses`]; the line is all FF then, too.
    pub fn transact(&mut self, sent: &[u8], pulses: u32, w_high: bool) -> Response {
        let mut line = vec![0xFF; sent.len()];
        let w = u32::from(w_high);
        let reply = calls::transact(&mut self.record, &mut self.array, sent, pulses, w, &mut line);
        Response::new(reply, line)
    }

    /// A run of raw pins: one output byte for each sample, see [`pins`](crate::pins). Refused with
    /// [`Answer::SampleBits`] or [`Answer::PinsLength`].
    pub fn pins(&mut self, samples: &[u8]) -> Result<Run, Answer> {
        pins(&mut self.record, &mut self.array, samples)
    }

    /// The items of a batch in order, see [`batch`](crate::batch): record and array become what they become by
    /// [`transact`](Chip::transact) and [`wait`](Chip::wait), item by item. Refused with [`Answer::BadItem`],
    /// wherever the bad item is; nothing is carried out then.
    pub fn batch(&mut self, items: &[u8]) -> Result<Batch, Answer> {
        batch(&mut self.record, &mut self.array, items)
    }

    /// The items of a batch in order, as by [`batch`](Chip::batch), and what their transactions did is added to the
    /// totals, see [`report`](crate::report). Refused with [`Answer::BadItem`], or with [`Answer::TotalsOverflow`] where
    /// one of the sums would be above 64 bits; nothing is carried out then, and the totals stay.
    pub fn report(&mut self, items: &[u8], totals: &mut Totals) -> Result<Reported, Answer> {
        report(&mut self.record, &mut self.array, items, totals)
    }

    /// Lets ticks pass; a cycle with no more ticks left ends, and only then array or settings change. In its
    /// last tick the latch is reset already.
    pub fn wait(&mut self, ticks: u32) {
        executed(calls::wait(&mut self.record, &mut self.array, ticks));
    }

    /// Power off and on: standby, with the latch and every lock register reset. A running cycle is completed; nothing
    /// else changes.
    pub fn power_up(&mut self) {
        executed(calls::power_up(&mut self.record, &mut self.array));
    }

    /// Power is lost and comes back: standby, with the latch and every lock register reset. A running cycle is cut, at
    /// whichever tick:
    ///
    /// - a program leaves in each byte of the page what was there and (its slot or the mask): a bit that is 1
    ///   in the mask was not reached;
    /// - an erase leaves in each byte of its page, subsector or sector, or of the array, what was there or the mask: a
    ///   bit that is 0 in the mask was not reached;
    /// - a page write leaves the same in each byte that it names, and the rest of the page as it was;
    /// - a status write is complete on yes and absent on no.
    ///
    /// The mask's byte is the one at the byte's place in its page. The mask does not matter for a status write,
    /// nor yes for a program, a write or an erase; outside a cycle neither does.
    pub fn loss(&mut self, mask: &[u8; MASK_BYTES], yes: bool) {
        executed(calls::loss(&mut self.record, &mut self.array, mask, u32::from(yes)));
    }

    /// The part.
    pub fn part(&self) -> Part {
        self.part
    }

    /// The cycle that is running, if one is.
    pub fn cycle(&self) -> Option<Cycle> {
        Cycle::of(&self.record)
    }

    /// The packed record.
    pub fn record(&self) -> &[u8; RECORD_BYTES] {
        &self.record
    }

    /// The contents; a cycle that is still running has changed nothing of them.
    pub fn array(&self) -> &[u8] {
        &self.array
    }

    /// The contents, to be set from outside, as a programmer on a bench would before the chip is soldered on.
    pub fn array_mut(&mut self) -> &mut [u8] {
        &mut self.array
    }
}

/// A run of raw pins on a chip's record and array.
pub(crate) fn pins(record: &mut [u8], array: &mut [u8], samples: &[u8]) -> Result<Run, Answer> {
    let mut output = vec![0; samples.len()];
    let reply = calls::pins(record, array, samples, &mut output);
    reply.answer().executed().map(|()| Run { output, missing: reply.missing() })
}

/// The items of a batch on a chip's record and array.
pub(crate) fn batch(record: &mut [u8], array: &mut [u8], items: &[u8]) -> Result<Batch, Answer> {
    let mut missing = [0; 8];
    let [responses, answers] = carried(items, |responses, answers| {
        calls::batch(record, array, items, responses, answers, &mut missing)
    })?;
    Ok(Batch { responses, answers, missing: u64::from_le_bytes(missing) })
}

/// A report on a chip's record and array.
pub(crate) fn report(
    record: &mut [u8],
    array: &mut [u8],
    items: &[u8],
    totals: &mut Totals,
) -> Result<Reported, Answer> {
    let mut bytes = totals.to_bytes();
    let [responses, answers] = carried(items, |responses, answers| {
        calls::report(record, array, items, responses, answers, &mut bytes)
    })?;
    *totals = Totals::from_bytes(&bytes);
    Ok(Reported { responses, answers })
}

/// The responses and the answers of a call that carries items out: it is lent what always suffices.
fn carried(
    items: &[u8],
    call: impl FnOnce(&mut [u8], &mut [u8]) -> Reply,
) -> Result<[Vec<u8>; 2], Answer> {
    let mut responses = vec![0; items.len()];
    let mut answers = vec![0; items.len() / HEAD_BYTES];
    call(&mut responses, &mut answers).answer().executed()?;
    let lengths = || batch::items(items).flatten().map(|item| item.response_bytes());
    responses.truncate(lengths().sum());
    answers.truncate(lengths().count());
    Ok([responses, answers])
}

/// A chip's own buffers are never refused.
pub(crate) fn executed(reply: Reply) {
    assert_eq!(reply.answer(), Answer::Executed, "a chip's record is sound, and its array whole");
}
