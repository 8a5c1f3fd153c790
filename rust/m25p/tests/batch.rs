//! Batches: their bytes written and read, what the writer and the reader refuse, and a chip that is given a day's items at
//! once or one by one.

#[path = "support/items.rs"]
mod support;

use m25p::batch::{items, BadItem, Item, Reason, Unfit, MOST_SENT, WAIT};
use m25p::{calls, Answer, Batch, Chip, Durations, Part};
use support::{chip, send, written, Lent, DAY, MARK};

fn read(bytes: &[u8]) -> Vec<Result<Item<'_>, BadItem>> {
    items(bytes).collect()
}

/// Length, flag and the rest, byte by byte.
#[test]
fn bytes_of_items() {
    let transaction = Item::Transaction { sent: &[0x9F, 0, 0], pulses: 5, w_high: true };
    assert_eq!(written(&[transaction]), [3, 0, 0b1011, 0x9F, 0, 0]);
    let low = Item::Transaction { sent: &[0x06], pulses: 7, w_high: false };
    assert_eq!(written(&[low, send(&[])]), [1, 0, 0b1110, 0x06, 0, 0, 0b0001]);
    let wait = Item::Wait { ticks: 0x0403_0201 };
    assert_eq!(written(&[wait]), [4, 0, 16, 1, 2, 3, 4]);
    let long = vec![0x5A; 0x1234];
    let bytes = written(&[send(&long)]);
    assert_eq!((bytes.len(), &bytes[..4]), (3 + 0x1234, &[0x34, 0x12, 1, 0x5A][..]));
}

/// What is written is read again: every flag, and the shortest and the longest of each.
#[test]
fn round_trip() {
    let longest = vec![0xA5; MOST_SENT];
    let mut row = vec![Item::Wait { ticks: 0 }, Item::Wait { ticks: u32::MAX }];
    for (pulses, w_high) in (0..8).flat_map(|pulses| [(pulses, false), (pulses, true)]) {
        for length in [0, 1, 4, 256, MOST_SENT] {
            row.push(Item::Transaction { sent: &longest[..length], pulses, w_high });
        }
        row.push(Item::Wait { ticks: 1 << pulses });
    }
    let bytes = written(&row);
    assert_eq!(read(&bytes), row.iter().copied().map(Ok).collect::<Vec<_>>());
    let needed: usize = row.iter().map(Item::response_bytes).sum();
    assert_eq!(needed, 16 * (1 + 4 + 256 + MOST_SENT));
    assert_eq!(read(&[]), []);
}

/// Items that a batch can't hold leave it as it was.
#[test]
fn unfit_items() {
    let mut bytes = written(&[send(&[0x06])]);
    let before = bytes.clone();
    let long = vec![0x03; MOST_SENT + 1];
    assert_eq!(send(&long).append(&mut bytes), Err(Unfit::SentLength));
    for pulses in [8, 15, 16, 128, 255] {
        let item = Item::Transaction { sent: &[0x06], pulses, w_high: false };
        assert_eq!(item.append(&mut bytes), Err(Unfit::Pulses), "{pulses}");
    }
    assert_eq!(bytes, before);
    assert_eq!(Unfit::SentLength.to_string(), "an item of a batch sends at most 65,535 bytes");
    assert_eq!(Unfit::Pulses.to_string(), "there are more than 7 further pulses");
}

/// An item with fewer bytes left than its length.
const fn cut(length: usize, left: usize) -> Reason {
    Reason::Body { length, left }
}

/// Ends of a batch that are bad, why, and in words.
const BAD: [(&[u8], Reason, &str); 10] = [
    (&[1], Reason::Head(1), "is cut: it has 1 of the 3 bytes of length and flag"),
    (&[4, 0], Reason::Head(2), "is cut: it has 2 of the 3 bytes of length and flag"),
    (&[1, 0, 0], cut(1, 0), "is cut: it has 0 of the 1 bytes behind its flag"),
    (&[0, 1, 15, 0], cut(256, 1), "is cut: it has 1 of the 256 bytes behind its flag"),
    (&[4, 0, 16, 0, 0, 0], cut(4, 3), "is cut: it has 3 of the 4 bytes behind its flag"),
    (&[2, 0, 17, 0], cut(2, 1), "is cut: it has 1 of the 2 bytes behind its flag"),
    (&[0, 0, 17], Reason::Flag(17), "has the flag 17, which is above 16"),
    (&[4, 0, 255, 0, 0, 0, 0], Reason::Flag(255), "has the flag 255, which is above 16"),
    (&[3, 0, 16, 0, 0, 0], Reason::WaitLength(3), "is a wait of length 3, not of 4"),
    (&[0, 0, 16], Reason::WaitLength(0), "is a wait of length 0, not of 4"),
];

/// The items before a bad one, then the error, then nothing, whatever follows.
#[test]
fn bad_items() {
    let good = [send(&[0x05, 0]), Item::Wait { ticks: 1 }];
    let before = written(&good);
    for (end, reason, words) in BAD {
        let bytes = [&before, end].concat();
        let error = BadItem { at: 12, reason };
        assert_eq!(read(&bytes), [Ok(good[0]), Ok(good[1]), Err(error)], "{end:?}");
        let said = error.to_string();
        assert_eq!(said, format!("the item at byte 12 {words}"));
        assert_eq!(read(end), [Err(BadItem { at: 0, ..error })]);
    }
    let followed = [&[0, 0, 17][..], &before].concat();
    assert_eq!(read(&followed), [Err(BadItem { at: 0, reason: Reason::Flag(17) })]);
}

/// A wait of 260 bytes is none of 4: its length is taken whole.
#[test]
fn wait_of_another_length() {
    let bytes = [&[4, 1, WAIT][..], &[0; 260]].concat();
    assert_eq!(read(&bytes), [Err(BadItem { at: 0, reason: Reason::WaitLength(260) })]);
    let mut chip = Chip::deliver(Part::Bench, Durations::default()).unwrap();
    assert_eq!(chip.batch(&bytes), Err(Answer::BadItem));
}

/// What the items of the day answer.
const ANSWERS: [u8; 10] = [0, 0, 0, 12, 0, 11, 0, 0, 15, 0];

#[test]
fn a_day() {
    let mut chip = chip();
    let done = chip.batch(&written(&DAY)).unwrap();
    let responses = [
        &[0xFF; 1 + 6][..],
        &[0xFF, 0x03],
        &[0xFF],
        &[0xFF, 0x00, 0x00],
        &[0xFF],
        &[0xFF, 0xFF, 0xFF, 0xFF, 0xA0, 0xFF],
    ];
    let expected =
        Batch { responses: responses.concat(), answers: ANSWERS.to_vec(), missing: 2 + 4 };
    assert_eq!(done, expected);
    assert_eq!((chip.array()[0x100], chip.array()[0x1FF]), (0x0F, 0xA0));
}

/// A status write over SRWD set, with every flag of a transaction: only W high and no further pulses execute it.
#[test]
fn w_and_pulses() {
    let mut frozen = Chip::deliver(Part::Bench, Durations::default()).unwrap();
    frozen.batch(&written(&[send(&[0x06]), send(&[0x01, 0x80]), Item::Wait { ticks: 2 }])).unwrap();
    for flag in 0..WAIT {
        let done = frozen.clone().batch(&[1, 0, 0, 0x06, 2, 0, flag, 0x01, 0x00]).unwrap();
        let answer = match flag {
            0 => Answer::StatusFrozen,
            1 => Answer::Executed,
            _ => Answer::WrongForm,
        };
        assert_eq!(done.answers, [0, answer.number()], "flag {flag}");
    }
}

/// The items of a batch one by one.
fn singly(chip: &mut Chip, row: &[Item]) -> Batch {
    let mut done = Batch { responses: vec![], answers: vec![], missing: 0 };
    for item in row {
        match *item {
            Item::Transaction { sent, pulses, w_high } => {
                let response = chip.transact(sent, pulses.into(), w_high);
                done.responses.extend(response.line);
                done.answers.push(response.answer.number());
                done.missing += u64::from(response.missing);
            }
            Item::Wait { ticks } => {
                chip.wait(ticks);
                done.answers.push(0);
            }
        }
    }
    done
}

/// The day singly, at once, and cut in two behind every item.
#[test]
fn same_as_single_calls() {
    let mut one = chip();
    let expected = singly(&mut one, &DAY);
    for cut in 0..=DAY.len() {
        let mut other = chip();
        let mut done = other.batch(&written(&DAY[..cut])).unwrap();
        let rest = other.batch(&written(&DAY[cut..])).unwrap();
        done.responses.extend(rest.responses);
        done.answers.extend(rest.answers);
        done.missing += rest.missing;
        assert_eq!((&done, &other), (&expected, &one), "cut behind {cut} items");
    }
}

/// A bad item at the end of a day refuses all of it.
#[test]
fn refused_batches() {
    let mut chip = chip();
    let before = chip.clone();
    for (end, _, _) in BAD {
        assert_eq!(chip.batch(&[&written(&DAY), end].concat()), Err(Answer::BadItem), "{end:?}");
        assert_eq!(chip, before);
    }
    let nothing = Batch { responses: vec![], answers: vec![], missing: 0 };
    assert_eq!((chip.batch(&[]), &chip), (Ok(nothing), &before));
}

/// Buffers of just the length that is needed and longer are good, and one byte less in any of them is not.
#[test]
fn room() {
    let row = [send(&[0x9F, 0]), Item::Wait { ticks: 1 }, send(&[0x06])];
    let bytes = written(&row);
    for more in [[0, 0, 0], [1, 3, 5]] {
        let mut lent = Lent::new(3 + more[0], 3 + more[1], 8 + more[2]);
        assert_eq!(lent.carry(calls::batch, &bytes).bits(), 0);
        let marked = |start: &[u8], behind| [start, &vec![MARK; behind]].concat();
        assert_eq!(lent.responses, marked(&[0xFF, 0x00, 0xFF], more[0]));
        assert_eq!(lent.answers, marked(&[0, 0, 0], more[1]));
        assert_eq!(lent.last, marked(&[0; 8], more[2]));
        assert_eq!(lent.record[3], 1);
    }
    for (responses, answers, missing) in [(2, 3, 8), (3, 2, 8), (3, 3, 7), (0, 0, 0)] {
        let mut lent = Lent::new(responses, answers, missing);
        assert_eq!(lent.carry(calls::batch, &bytes).bits(), u64::from(Answer::BatchRoom.number()));
        let slices = [&lent.responses, &lent.answers, &lent.last];
        assert!(slices.into_iter().flatten().all(|byte| *byte == MARK));
        assert_eq!(lent.record[3], 0);
    }
}

/// The order of the refusals: 8, 6, 2, 9, 10.
#[test]
fn order_of_refusals() {
    let mut lent = Lent::new(0, 0, 0);
    let mut answer = |change: fn(&mut Lent), items: &[u8]| {
        change(&mut lent);
        lent.carry(calls::batch, items).answer()
    };
    assert_eq!(answer(|_| (), &[0, 0, 0]), Answer::BatchRoom);
    assert_eq!(answer(|_| (), &[0, 0, 17]), Answer::BadItem);
    assert_eq!(answer(|lent| lent.array.truncate(4_095), &[0, 0, 17]), Answer::ArrayLength);
    assert_eq!(answer(|lent| lent.record[5] = 1, &[0, 0, 17]), Answer::RecordUnsound);
    assert_eq!(answer(|lent| lent.record.truncate(303), &[0, 0, 17]), Answer::RecordLength);
}
