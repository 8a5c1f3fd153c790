//! m25p_batch against the model on whole ranges: every flag byte, every cut, every length of a buffer, every length of
//! a wait, the longest items and batches, every tick of a cycle, and sums of the bits missing.

#[path = "support/days.rs"]
mod days;
#[path = "support/sweep.rs"]
mod swept;

use days::{day, sent, wait};
use rig::batch_model::{written, BatchModel, MOST_BYTES, WAIT};
use rig::compare::Call;
use rig::model::{Cycle, Mode, Packed, Paper, Record, BE, PAGE, PARTS, RECORD_BYTES, SMALL};
use rig::model::{FAST_READ, PE, PP, PW, RDID, RDSR, READ, RES, SE, SSE, WRDI, WREN, WRSR};
use swept::{addressed, Sweep};

/// An item of this flag byte and length, whatever they mean.
fn item(flag: u8, length: usize, body: &[u8]) -> Vec<u8> {
    let mut bytes = vec![length as u8, (length >> 8) as u8, flag];
    bytes.extend(body);
    bytes
}

/// The answer to a batch with buffers just long enough.
fn answer(sweep: &mut Sweep, from: Packed, items: &[u8]) -> u8 {
    sweep.call(Some(from), Call::Batch { items: items.to_vec() }).answer()
}

/// A record in standby with the latch set, and others that differ in what the chip looks at.
fn states() -> [Record; 5] {
    let standby = Record { latch: true, ..Record::standby(0) };
    [
        standby,
        Record { bp: 1, srwd: true, ..standby },
        Record { latch: false, ..standby },
        standby.busy(2, Cycle::Settings { bp: 2, srwd: true }),
        Record { mode: Mode::Deep, ..standby },
    ]
}

/// Alone, and between a write enable and a status read, which are carried out only where it is good.
#[test]
fn every_flag_and_short_length() {
    let mut sweep = Sweep::new(0);
    let (before, behind) = (written(&[sent(&[WREN])]), written(&[sent(&[RDSR, 0])]));
    for from in states().map(|record| record.pack()) {
        for flag in 0..=255 {
            for length in 0..=6 {
                for code in [RDSR, WREN, WRSR, SE, PP, RES, RDID] {
                    let mut body = sweep.rng.bytes(length);
                    body.iter_mut().take(1).for_each(|first| *first = code);
                    let item = item(flag, length, &body);
                    let good = flag < WAIT || flag == WAIT && length == 4;
                    let number = if good { 0 } else { 9 };
                    let around = [&before[..], &item, &behind].concat();
                    assert_eq!(answer(&mut sweep, from, &item), number, "{flag} {length}");
                    assert_eq!(answer(&mut sweep, from, &around), number, "{flag} {length}");
                }
            }
        }
    }
    assert_eq!(sweep.tally.batches.chip[11], 2 * 5 * 16 * 7, "without bytes");
}

/// A batch that is cut behind an item is a shorter batch, and one that is cut elsewhere is bad.
#[test]
fn every_cut() {
    for part in SMALL.map(|part| part as u8) {
        let mut sweep = Sweep::new(part);
        let day = day(part);
        let (items, from) = (written(&day), Record::standby(part).pack());
        let ends: Vec<usize> = (0..=day.len()).map(|n| written(&day[..n]).len()).collect();
        for end in 0..=items.len() {
            let number = if ends.contains(&end) { 0 } else { 9 };
            assert_eq!(answer(&mut sweep, from, &items[..end]), number, "{end}");
        }
        sweep.pair.compare_array().unwrap();
    }
}

/// A buffer of each length up to a few bytes more than needed, and all three around what is needed.
#[test]
fn every_length_of_a_buffer() {
    for part in [0, 6] {
        let mut sweep = Sweep::new(part);
        let items = written(&day(part));
        let room = Paper.room(&day(part));
        assert_eq!(room[1..], [day(part).len(), 8]);
        let lent = [RECORD_BYTES, PARTS[part as usize].bytes];
        let mut try_out = |lengths: [usize; 3]| {
            let (from, call) = (Record::standby(part).pack(), Call::Batch { items: items.clone() });
            let answer = sweep.call_filling(Some(from), call, lent, &lengths).answer();
            let enough = lengths.iter().zip(room).all(|(length, needed)| *length >= needed);
            assert_eq!(answer, if enough { 0 } else { 10 }, "{lengths:?} for {room:?}");
        };
        for which in 0..3 {
            for length in 0..room[which] + 20 {
                let mut lengths = room;
                lengths[which] = length;
                try_out(lengths);
            }
        }
        for code in 0..27 {
            try_out([room[0] + code % 3 - 1, room[1] + code / 3 % 3 - 1, room[2] + code / 9 - 1]);
        }
        try_out([items.len(), items.len() / 3, 8]);
    }
}

/// Waits of every length below 300, and of every length with a 4 in its low byte: with all their bytes, with four
/// alone, and with others behind them.
#[test]
fn every_length_of_a_wait() {
    let mut sweep = Sweep::new(0);
    let from = states()[3].pack();
    let behind = written(&[sent(&[RDSR, 0])]);
    for length in (0..300).chain((0..256).map(|high| 256 * high + 4)) {
        let mut body = sweep.rng.bytes(length);
        body.iter_mut().zip([1, 0, 0, 0]).for_each(|(byte, ticks)| *byte = ticks);
        let whole = item(WAIT, length, &body);
        let four = item(WAIT, length, &[1, 0, 0, 0]);
        let number = if length == 4 { 0 } else { 9 };
        assert_eq!(answer(&mut sweep, from, &whole), number, "{length}");
        assert_eq!(answer(&mut sweep, from, &[whole, behind.clone()].concat()), number, "{length}");
        assert_eq!(answer(&mut sweep, from, &[four, behind.clone()].concat()), number, "{length}");
    }
}

/// Items about as long as one can be, and around the places where a length looks like another: whole, short of a byte,
/// and with a length that is one more.
#[test]
fn long_items() {
    let mut sweep = Sweep::new(1);
    let from = Record { latch: true, ..Record::standby(1) }.pack();
    let behind = written(&[sent(&[RDSR, 0])]);
    for length in [255, 256, 257, 260, 0x7FFF, 0x8000, 0xFF00, 0xFFFE, MOST_BYTES] {
        for code in [READ, FAST_READ, RDSR, RDID, PP, SE, 0x00] {
            let mut body = sweep.rng.bytes(length);
            body[0] = code;
            let whole = written(&[sent(&body)]);
            assert_eq!(answer(&mut sweep, from, &whole), 0);
            assert_eq!(answer(&mut sweep, from, &[&whole[..], &behind].concat()), 0);
            assert_eq!(answer(&mut sweep, from, &[&behind[..], &whole].concat()), 0);
            assert_eq!(answer(&mut sweep, from, &whole[..whole.len() - 1]), 9);
            assert_eq!(answer(&mut sweep, from, &[&behind[..], &whole[..3]].concat()), 9);
            if length < MOST_BYTES {
                assert_eq!(answer(&mut sweep, from, &item(1, length + 1, &body)), 9);
            }
        }
    }
    assert!(sweep.tally.batches.executed[PP as usize] >= 20);
}

/// What starts each kind of cycle of the part.
fn starts(part: u8) -> Vec<Vec<u8>> {
    let place = PARTS[part as usize].bytes / 2 + 300;
    let erase = |code| addressed(code, place, &[]);
    let old = vec![addressed(PP, place, &[0x3C; 9]), erase(SE), vec![BE], vec![WRSR, 0x88]];
    let new = vec![addressed(PW, place, &[0xC3; 9]), erase(PE), erase(SSE)];
    old.into_iter().chain(new).take(PARTS[part as usize].kinds()).collect()
}

/// A cycle, started in a batch and then before one: a wait first, then others tick by tick and beyond its end, with a
/// look at status and array behind each.
fn cycle(sweep: &mut Sweep, from: Record, start: &[u8], first: u32) {
    let middle = from.figures().bytes / 2;
    let contents = sweep.rng.bytes(2 * PAGE);
    sweep.put(middle + PAGE, &contents);
    let look = [sent(&[RDSR, 0]), sent(&addressed(READ, middle + 299, &[0; 11]))];
    let mut items = vec![sent(start), look[0].clone()];
    for ticks in [first, 1, 0, 1, u32::MAX] {
        items.push(wait(ticks));
        items.extend(look.clone());
    }
    assert_eq!(answer(sweep, from.pack(), &written(&items)), 0);
    assert_eq!(sweep.pair.record().cycle(), None);
    let start = Call::Transact { sent: start.to_vec(), pulses: 0, w: 1 };
    assert_eq!(sweep.call(Some(from.pack()), start).answer(), 0);
    let running = sweep.pair.record().pack();
    assert_eq!(answer(sweep, running, &written(&items[1..])), 0);
}

/// Every kind of cycle, of 1, 2, 3, 5 and 70,000 ticks, and a first wait around its beginning and its end.
#[test]
fn every_tick() {
    for part in SMALL.map(|part| part as u8) {
        let mut sweep = Sweep::new(part);
        for start in starts(part) {
            for duration in [1, 2, 3, 5, 70_000] {
                let from = Record { latch: true, ..Record::standby(part).lasting([duration; 4]) };
                for first in [0, 1, duration - 1, duration, duration + 1, u32::MAX] {
                    cycle(&mut sweep, from, &start, first);
                }
            }
        }
        assert_eq!(sweep.tally.batches.ends.seldom_waited(10, &PARTS[part as usize]), [""; 0]);
        sweep.pair.compare_array().unwrap();
    }
}

/// More than 65,536 items, and more than 65,536 response bytes: all are carried out, and the last one may be bad.
#[test]
fn long_batches() {
    let mut sweep = Sweep::new(0);
    let from = Record::standby(0).pack();
    let some = [sent(&[]), sent(&[WREN]), wait(1), sent(&[RDSR, 0]), wait(0), sent(&[WRDI])];
    let many = written(&some).repeat(12_000);
    let long = written(&[sent(&addressed(READ, 0x123, &[0; 60_000])), wait(7)]).repeat(10);
    for items in [many, long] {
        assert_eq!(answer(&mut sweep, from, &items), 0);
        assert_eq!(answer(&mut sweep, from, &items[..items.len() - 1]), 9);
        assert_eq!(answer(&mut sweep, from, &[&items[..], &[0, 0, 17]].concat()), 9);
    }
    assert_eq!((sweep.tally.batches.transactions, sweep.tally.batches.waits), (48_010, 24_010));
}

/// A page of zeros is programmed with ones up to 40 times in a batch: 2,048 bits missing each time, and all are told.
#[test]
fn sums() {
    let mut sweep = Sweep::new(0);
    sweep.put(0x200, &[0x00; PAGE]);
    let once = written(&[sent(&[WREN]), sent(&addressed(PP, 0x200, &[0xFF; PAGE])), wait(3)]);
    for times in 0..=40 {
        assert_eq!(answer(&mut sweep, Record::standby(0).pack(), &once.repeat(times)), 0);
        let told = sweep.pair.real.filled[2][..8].try_into().unwrap();
        assert_eq!(u64::from_le_bytes(told), 2_048 * times as u64);
    }
}
