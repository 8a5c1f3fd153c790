//! What the tests of batches and of reports share: items as bytes, a day of them, and the buffers of both calls.

use m25p::batch::Item;
use m25p::{calls, Chip, Durations, Part, Reply, RECORD_BYTES};

/// A transaction with W high and no further pulses.
pub fn send(sent: &[u8]) -> Item<'_> {
    Item::Transaction { sent, pulses: 0, w_high: true }
}

/// The bytes of these items.
pub fn written(row: &[Item]) -> Vec<u8> {
    let mut bytes = Vec::new();
    row.iter().for_each(|item| item.append(&mut bytes).unwrap());
    bytes
}

/// A day on an M25P40: a program over bytes that are 0 already, its status while it runs, ignored items, and what is
/// read in the end.
pub const DAY: [Item; 10] = [
    Item::Transaction { sent: &[0x06], pulses: 0, w_high: false },
    Item::Transaction { sent: &[0x02, 0, 1, 0xFF, 0xA5, 0xFF], pulses: 0, w_high: true },
    Item::Transaction { sent: &[0x05, 0], pulses: 3, w_high: true },
    Item::Transaction { sent: &[0x06], pulses: 0, w_high: true },
    Item::Wait { ticks: 2 },
    Item::Transaction { sent: &[], pulses: 7, w_high: true },
    Item::Wait { ticks: u32::MAX },
    Item::Transaction { sent: &[0x05, 0, 0], pulses: 0, w_high: true },
    Item::Transaction { sent: &[0x06], pulses: 1, w_high: true },
    Item::Transaction { sent: &[0x03, 0, 1, 0xFF, 0, 0], pulses: 0, w_high: true },
];

/// An M25P40 whose page 1 begins with 0F and ends with F0.
pub fn chip() -> Chip {
    let mut chip = Chip::deliver(Part::M25p40, Durations::default()).unwrap();
    (chip.array_mut()[0x100], chip.array_mut()[0x1FF]) = (0x0F, 0xF0);
    chip
}

/// What stands in a buffer before a call.
pub const MARK: u8 = 0xC3;

/// A call on slices that carries items out.
pub type Call = fn(&mut [u8], &mut [u8], &[u8], &mut [u8], &mut [u8], &mut [u8]) -> Reply;

/// The buffers of such a call: the bench part as delivered, and three filled with a mark. The last is `missing` or
/// `totals`.
#[derive(Clone, Debug, PartialEq)]
pub struct Lent {
    pub record: Vec<u8>,
    pub array: Vec<u8>,
    pub responses: Vec<u8>,
    pub answers: Vec<u8>,
    pub last: Vec<u8>,
}

impl Lent {
    pub fn new(responses: usize, answers: usize, last: usize) -> Lent {
        let (mut record, mut array) = (vec![0; RECORD_BYTES], vec![0; Part::Bench.bytes()]);
        calls::deliver(&mut record, Part::Bench.number(), &mut array, Durations::default());
        let [responses, answers, last] =
            [responses, answers, last].map(|length| vec![MARK; length]);
        Lent { record, array, responses, answers, last }
    }

    pub fn carry(&mut self, call: Call, items: &[u8]) -> Reply {
        let Lent { record, array, responses, answers, last } = self;
        call(record, array, items, responses, answers, last)
    }
}
