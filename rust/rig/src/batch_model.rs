//! A model of batches: all items are read first, then they are carried out in order, plain and slow.
//!
//! As in the model of the chip each rule is a method.

use crate::model::{self, Mode, Model, Paper, Record, Transaction};

/// The bytes in front of an item's own: two of length, and the flag byte.
pub const HEAD: usize = 3;

/// The flag byte of a wait, and the length that a wait has.
pub const WAIT: u8 = 16;
pub const WAIT_BYTES: usize = 4;

/// The most bytes of an item.
pub const MOST_BYTES: usize = 65_535;

/// The bytes of the sum of the bits missing.
pub const SUM_BYTES: usize = 8;

/// An item of a batch.
#[derive(Clone, Debug, PartialEq, Eq)]
pub enum Item {
    Transaction { sent: Vec<u8>, pulses: u32, w: u32 },
    Wait { ticks: u32 },
}

impl Item {
    /// The transaction, if it is one.
    pub fn transaction(&self) -> Option<Transaction<'_>> {
        match self {
            Item::Transaction { sent, pulses, w } => {
                Some(Transaction { sent, pulses: *pulses, w: *w })
            }
            Item::Wait { .. } => None,
        }
    }

    /// The record after the item, from a sound one: no rule for it looks at the array.
    pub fn follow(&self, mut r: Record) -> Record {
        match (self, r.mode) {
            (Item::Wait { ticks }, Mode::Busy(left, cycle)) if *ticks < left => {
                Paper.in_cycle(&mut r, left - ticks, cycle);
            }
            (Item::Wait { .. }, Mode::Busy(_, cycle)) => {
                Paper.settle(&mut r, &cycle);
                r = r.rested();
            }
            _ => {}
        }
        if let Some(t) = self.transaction().filter(|t| Paper.ignored(&r, *t) == 0) {
            Paper.change(&mut r, t.sent);
        }
        r
    }
}

/// What is wrong with an item.
#[derive(Clone, Copy, Debug, PartialEq, Eq)]
pub enum Bad {
    /// One or two bytes are left.
    Head,
    /// Fewer bytes are left than its length says.
    Body,
    /// A flag byte above that of a wait.
    Flag,
    /// A wait of another length.
    Wait,
}

/// The first item of some bytes and how many of them are its own, or what is wrong with it.
pub type Read = Result<(Item, usize), Bad>;

/// What the bytes of a batch are: items, and behind them perhaps a bad one, with the place where it begins.
#[derive(Clone, Debug, Default, PartialEq, Eq)]
pub struct Day {
    pub items: Vec<Item>,
    pub bad: Option<(usize, Bad)>,
}

/// The buffers that a batch fills.
pub struct Buffers<'a> {
    pub responses: &'a mut [u8],
    pub answers: &'a mut [u8],
    pub missing: &'a mut [u8],
}

/// What became of a batch: the 64 bits, what was read, and the chip's answer to each item. A refused one has none.
pub struct Outcome {
    pub word: u64,
    pub day: Day,
    pub chip: Vec<model::Outcome>,
}

/// The rules of a batch.
pub trait BatchModel: Sync {
    fn run(
        &self,
        record: &mut [u8],
        array: &mut [u8],
        bytes: &[u8],
        buffers: &mut Buffers,
    ) -> Outcome {
        let day = self.day(bytes);
        let answer = self.refusal(record, array, &day, buffers);
        if answer != 0 {
            return Outcome { word: u64::from(answer), day, chip: vec![] };
        }
        let chip = self.carry_out_all(&day.items, record, array, buffers);
        self.tell_missing(self.missing_in_all(&chip), buffers.missing);
        Outcome { word: 0, day, chip }
    }

    /// All items, up to a bad one.
    fn day(&self, bytes: &[u8]) -> Day {
        let mut day = Day::default();
        let mut at = 0;
        while at < bytes.len() {
            match self.item(&bytes[at..]) {
                Ok((item, length)) => {
                    day.items.push(item);
                    at += length;
                }
                Err(bad) => {
                    day.bad = Some((at, bad));
                    break;
                }
            }
        }
        day
    }

    /// The first item of these bytes, which are at least one.
    fn item(&self, bytes: &[u8]) -> Read {
        if bytes.len() < HEAD {
            return Err(Bad::Head);
        }
        let length = self.length(bytes[0], bytes[1]);
        let body = bytes[HEAD..].get(..length).ok_or(Bad::Body)?;
        Ok((self.meant(bytes[2], body)?, HEAD + length))
    }

    /// The length of an item.
    fn length(&self, first: u8, second: u8) -> usize {
        first as usize + 256 * second as usize
    }

    /// What an item's bytes mean under a flag byte.
    fn meant(&self, flag: u8, body: &[u8]) -> Result<Item, Bad> {
        match flag {
            0..=15 => {
                let (pulses, w) = self.pulses_and_w(flag);
                Ok(Item::Transaction { sent: body.to_vec(), pulses, w })
            }
            WAIT if body.len() == WAIT_BYTES => Ok(Item::Wait { ticks: self.ticks(body) }),
            WAIT => Err(Bad::Wait),
            _ => Err(Bad::Flag),
        }
    }

    /// Further pulses in bits 1 to 3, W in bit 0.
    fn pulses_and_w(&self, flag: u8) -> (u32, u32) {
        (u32::from(flag / 2 % 8), u32::from(flag % 2))
    }

    /// The ticks of a wait.
    fn ticks(&self, body: &[u8]) -> u32 {
        body.iter().rev().fold(0, |ticks, byte| ticks << 8 | u32::from(*byte))
    }

    /// The number that refuses the batch, the first that applies; 0 where it is carried out.
    fn refusal(&self, record: &[u8], array: &[u8], day: &Day, buffers: &Buffers) -> u8 {
        let lent = Paper.lent(record, array).err();
        let applies = |number: &u8| match number {
            9 => day.bad.is_some(),
            10 => self.too_short(&day.items, buffers),
            _ => lent == Some(*number),
        };
        self.refusals().into_iter().find(applies).unwrap_or(0)
    }

    /// The numbers that refuse a batch, in their order.
    fn refusals(&self) -> [u8; 5] {
        [8, 6, 2, 9, 10]
    }

    /// Whether a buffer is too short for all items.
    fn too_short(&self, items: &[Item], buffers: &Buffers) -> bool {
        let [responses, answers, missing] = self.room(items);
        buffers.responses.len() < responses
            || buffers.answers.len() < answers
            || buffers.missing.len() < missing
    }

    /// The bytes that the items need for responses, for answers, and for the bits missing.
    fn room(&self, items: &[Item]) -> [usize; 3] {
        let responses = items.iter().map(|item| self.response_bytes(item)).sum();
        let answers = items.iter().map(|item| self.answer_bytes(item)).sum();
        [responses, answers, SUM_BYTES]
    }

    /// The response bytes of an item: as many as it sends.
    fn response_bytes(&self, item: &Item) -> usize {
        item.transaction().map_or(0, |t| t.sent.len())
    }

    /// The answer bytes of an item: one, of a wait too.
    fn answer_bytes(&self, _: &Item) -> usize {
        1
    }

    /// Carries out the items in order; responses and answers follow each other.
    fn carry_out_all(
        &self,
        items: &[Item],
        record: &mut [u8],
        array: &mut [u8],
        buffers: &mut Buffers,
    ) -> Vec<model::Outcome> {
        let (mut responses, mut answers) = (0, 0);
        let mut chip = Vec::new();
        for item in items {
            let response = &mut buffers.responses[responses..][..self.response_bytes(item)];
            let outcome = self.carry_out(item, record, array, response);
            responses += response.len();
            let answer = &mut buffers.answers[answers..][..self.answer_bytes(item)];
            answer.fill(outcome.answer);
            answers += answer.len();
            chip.push(outcome);
        }
        chip
    }

    /// Carries out one item, as if it were given singly.
    fn carry_out(
        &self,
        item: &Item,
        record: &mut [u8],
        array: &mut [u8],
        response: &mut [u8],
    ) -> model::Outcome {
        match item {
            Item::Transaction { sent, pulses, w } => {
                let t = Transaction { sent, pulses: *pulses, w: *w };
                Paper.transact(record, array, t, response)
            }
            Item::Wait { ticks } => Paper.wait(record, array, *ticks),
        }
    }

    /// The bits missing in a batch: the sum of its items', wrapping at 64 bits.
    fn missing_in_all(&self, chip: &[model::Outcome]) -> u64 {
        chip.iter().fold(0, |sum: u64, outcome| sum.wrapping_add(u64::from(outcome.missing)))
    }

    /// Sets the first eight bytes to the sum, little-endian.
    fn tell_missing(&self, sum: u64, missing: &mut [u8]) {
        for (k, byte) in missing[..SUM_BYTES].iter_mut().enumerate() {
            *byte = (sum >> (8 * k)) as u8;
        }
    }
}

impl BatchModel for Paper {}

/// The bytes of these items.
pub fn written(items: &[Item]) -> Vec<u8> {
    let mut bytes = Vec::new();
    for item in items {
        let (flag, body) = match item {
            Item::Transaction { sent, pulses, w } => ((2 * pulses + w) as u8, sent.clone()),
            Item::Wait { ticks } => (WAIT, ticks.to_le_bytes().to_vec()),
        };
        bytes.extend([body.len() as u8, (body.len() / 256) as u8, flag]);
        bytes.extend(body);
    }
    bytes
}
