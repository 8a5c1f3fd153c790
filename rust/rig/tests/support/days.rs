//! Items of one's own choice, and a day with something of everything.

use rig::batch_model::Item;
use rig::model::{
    BE, DP, FAST_READ, PARTS, PE, PP, PW, RDID, RDSR, READ, RES, SE, SSE, WREN, WRLR, WRSR,
};

use crate::swept::addressed;

/// A transaction with W high and without further pulses.
pub fn sent(bytes: &[u8]) -> Item {
    Item::Transaction { sent: bytes.to_vec(), pulses: 0, w: 1 }
}

pub fn wait(ticks: u32) -> Item {
    Item::Wait { ticks }
}

/// A day with something of everything that the part has, from its delivery on.
pub fn day(part: u8) -> Vec<Item> {
    let [place, other] = [0x123, 0x4FE];
    let mut items = vec![
        sent(&[RDID, 0, 0, 0, 0]),
        sent(&[WREN]),
        sent(&addressed(PP, place, &[0x5A; 20])),
        sent(&[RDSR, 0, 0]),
        wait(2),
        sent(&[]),
        wait(1),
        sent(&addressed(READ, place, &[0; 8])),
        sent(&[WREN]),
        sent(&addressed(PP, place, &[0xA5; 3])),
        wait(0x0102_0304),
        sent(&[WREN]),
        sent(&[WRSR, 0x84]),
        sent(&[BE]),
        wait(2),
        Item::Transaction { sent: vec![WREN], pulses: 0, w: 0 },
        Item::Transaction { sent: vec![WRSR, 0x00], pulses: 0, w: 0 },
        Item::Transaction { sent: vec![RDSR, 0], pulses: 7, w: 0 },
        sent(&addressed(SE, place, &[])),
        wait(4),
        sent(&addressed(FAST_READ, other, &[0; 4])),
        wait(1),
        sent(&[DP]),
        sent(&[0x00; 300]),
        sent(&[RES, 0, 0, 0, 0]),
        sent(&[RES]),
    ];
    if PARTS[part as usize].locks {
        items.extend([sent(&[WREN]), sent(&addressed(PW, other, &[1, 2, 3])), wait(3)]);
        items.extend([sent(&[WREN]), sent(&addressed(WRLR, other, &[2])), sent(&[WREN])]);
        items.extend([sent(&addressed(PE, other, &[])), wait(3), sent(&[WREN])]);
        items.extend([sent(&addressed(SSE, other, &[])), wait(5)]);
    }
    items
}
