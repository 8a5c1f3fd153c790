//! The command `batch` as a process, and the bytes of items.

#[path = "common.rs"]
pub mod common;
#[path = "desk.rs"]
pub mod desk;

use desk::Desk;
use m25p::batch::Item;
use tools::rng::Rng;

pub fn desk_of(name: &str) -> Desk {
    Desk::new(env!("CARGO_BIN_EXE_batch"), name)
}

/// The bytes of some items.
pub fn bytes_of<'a>(items: impl IntoIterator<Item = Item<'a>>) -> Vec<u8> {
    let mut bytes = Vec::new();
    items.into_iter().try_for_each(|item| item.append(&mut bytes)).unwrap();
    bytes
}

/// A transaction with W high and no further pulses.
pub fn sends(sent: &[u8]) -> Item<'_> {
    Item::Transaction { sent, pulses: 0, w_high: true }
}

/// A random batch in which much is executed.
pub fn random(rng: &mut Rng) -> Vec<u8> {
    let mut bytes = Vec::new();
    for _ in 0..500 {
        let mut sent = vec![rng.pick(&CODES), rng.pick(&[0, 4]), rng.pick(&[0, 15]), rng.byte()];
        let length = rng.below(20);
        sent.extend(rng.bytes(length));
        sent.truncate(rng.pick(&[1, 2, 4, 5, 13, 24, 24]));
        let items = [
            Item::Transaction { sent: &[0x06], pulses: 0, w_high: true },
            Item::Transaction {
                sent: &sent,
                pulses: rng.pick(&[0, 0, 0, 3]),
                w_high: !rng.one_in(4),
            },
            Item::Wait { ticks: rng.below(12) as u32 },
        ];
        items.iter().try_for_each(|item| item.append(&mut bytes)).unwrap();
    }
    bytes
}

/// The codes of all parts and one that is none, programs and wake-ups more often.
const CODES: [u8; 24] = [
    0x01, 0x02, 0x02, 0x02, 0x02, 0x02, 0x02, 0x03, 0x04, 0x05, 0x06, 0x0A, 0x0B, 0x20, 0x9E, 0x9F,
    0xAB, 0xAB, 0xB9, 0xC7, 0xD8, 0xDB, 0xE5, 0xE8,
];
