//! A model of several chips on one bus: a row of packed records beside one array that holds the chips' bytes in row
//! order, plain and slow.
//!
//! As in the model of the chip each rule is a method. What a chip does with a transaction or a wait is the chip's
//! model's own.

use std::ops::Range;

use crate::model::{Model, Outcome, Paper, Record, Transaction, PARTS, RECORD_BYTES};

/// The most chips that a row has.
pub const MOST_CHIPS: usize = 8;

/// The rules of one chip by itself.
pub const CHIP: &dyn Model = &Paper;

/// What is asked of the chips in a row.
#[derive(Clone, Copy)]
pub enum Asked<'a> {
    /// A transaction of one of them, with a response of so many bytes.
    Transact { chip: u32, t: Transaction<'a>, response: usize },
    /// A wait, which goes to all.
    Wait,
}

/// The buffers that a transaction is lent.
pub struct Buffers<'a> {
    pub row: &'a mut [u8],
    pub array: &'a mut [u8],
    pub response: &'a mut [u8],
}

/// What a call looks at before it does anything.
pub struct Lent<'a> {
    pub row: &'a [u8],
    /// The bytes of the array.
    pub array: usize,
    pub asked: Asked<'a>,
}

/// The rules of a bus.
pub trait BusModel: Sync {
    /// One transaction of the chosen chip.
    fn transact(&self, buffers: &mut Buffers, chip: u32, t: Transaction) -> Outcome {
        let Buffers { row, array, response } = buffers;
        let asked = Asked::Transact { chip, t, response: response.len() };
        match self.refusal(&Lent { row, array: array.len(), asked }) {
            0 => {
                let (record, bytes) = self.lend(row, array, self.place(chip, chips(row)));
                CHIP.transact(record, bytes, t, response)
            }
            number => Outcome::only(number),
        }
    }

    /// Ticks pass for every chip.
    fn wait(&self, row: &mut [u8], array: &mut [u8], ticks: u32) -> Outcome {
        let number = self.refusal(&Lent { row, array: array.len(), asked: Asked::Wait });
        if number == 0 {
            for (place, ticks) in self.ticks(row, ticks).into_iter().enumerate() {
                let (record, bytes) = self.lend(row, array, place);
                CHIP.wait(record, bytes, ticks);
            }
        }
        Outcome::only(number)
    }

    /// The number that refuses the call, the first that applies; 0 where it is carried out.
    fn refusal(&self, lent: &Lent) -> u8 {
        let order = self.order(&lent.asked).iter();
        order.copied().find(|number| self.applies(*number, lent)).unwrap_or(0)
    }

    /// The numbers that refuse each call, in their order. A wait chooses no chip and sends nothing.
    fn order(&self, asked: &Asked) -> &'static [u8] {
        match asked {
            Asked::Transact { .. } => &[8, 51, 52, 6, 53, 3, 4, 5],
            Asked::Wait => &[8, 51, 6, 53],
        }
    }

    /// When each applies.
    fn applies(&self, number: u8, lent: &Lent) -> bool {
        let (row, chips) = (lent.row, chips(lent.row));
        match (number, lent.asked) {
            (8, _) => !self.whole(row.len()),
            (51, _) => !self.row_fits(chips),
            (6, asked) => !self.sound(row, &asked),
            (53, asked) => !self.array_fits(lent.array, row, &asked),
            (52, Asked::Transact { chip, .. }) => !self.in_row(chip, chips),
            (3, Asked::Transact { t, .. }) => t.sent.len() > 65_536,
            (4, Asked::Transact { t, .. }) => t.pulses > 7,
            (5, Asked::Transact { t, response, .. }) => response < t.sent.len(),
            _ => false,
        }
    }

    /// Whether a row of so many bytes is packed records alone.
    fn whole(&self, length: usize) -> bool {
        length % RECORD_BYTES == 0
    }

    /// Whether so many chips are a row.
    fn row_fits(&self, chips: usize) -> bool {
        (1..=MOST_CHIPS).contains(&chips)
    }

    /// Whether the chip, by all 32 bits of its number, is one of so many.
    fn in_row(&self, chip: u32, chips: usize) -> bool {
        (chip as usize) < chips
    }

    /// Whether every record in the row is sound, chosen or not.
    fn sound(&self, row: &[u8], _asked: &Asked) -> bool {
        records(row).all(sound)
    }

    /// Whether an array of so many bytes is the sum of the parts.
    fn array_fits(&self, length: usize, row: &[u8], _asked: &Asked) -> bool {
        length == sum(row)
    }

    /// The place in the row of a chip that is in it; chips count from 0.
    fn place(&self, chip: u32, _chips: usize) -> usize {
        chip as usize
    }

    /// The ticks that pass for each chip: all of them, for every one.
    fn ticks(&self, row: &[u8], ticks: u32) -> Vec<u32> {
        vec![ticks; chips(row)]
    }

    /// Where the bytes of a chip begin: where those of the chips before it end.
    fn begin(&self, row: &[u8], place: usize) -> usize {
        sum(&row[..place * RECORD_BYTES])
    }

    /// The record and the bytes of the chip in this place; none of either where there are not so many.
    fn lend<'a>(
        &self,
        row: &'a mut [u8],
        array: &'a mut [u8],
        place: usize,
    ) -> (&'a mut [u8], &'a mut [u8]) {
        let Some(record) = row.get(packed(place)) else { return (&mut [], &mut []) };
        let (begin, length) = (self.begin(row, place), bytes(record));
        let array = array.get_mut(begin..begin + length).unwrap_or_default();
        (&mut row[packed(place)], array)
    }
}

impl BusModel for Paper {}

/// How many whole records a row has.
pub fn chips(row: &[u8]) -> usize {
    row.len() / RECORD_BYTES
}

/// Where the record in this place lies.
pub fn packed(place: usize) -> Range<usize> {
    place * RECORD_BYTES..(place + 1) * RECORD_BYTES
}

/// The whole records of a row, in order.
pub fn records(row: &[u8]) -> impl Iterator<Item = &[u8]> {
    row.chunks_exact(RECORD_BYTES)
}

/// Whether these bytes are the packing of a sound record.
pub fn sound(record: &[u8]) -> bool {
    Record::unpack(record).is_some()
}

/// The bytes of a packed record's part; none where there is no such part.
pub fn bytes(record: &[u8]) -> usize {
    PARTS.get(usize::from(record[0])).map_or(0, |part| part.bytes)
}

/// The sum of the parts in a row.
pub fn sum(row: &[u8]) -> usize {
    records(row).map(bytes).sum()
}
