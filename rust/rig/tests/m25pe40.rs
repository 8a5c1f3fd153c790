//! What only the M25PE40 does, libm25p.a against the model on whole ranges: every page write, every byte of one that is
//! cut, every page and subsector erased, every lock register, and each form of a release.

#[path = "support/sweep.rs"]
#[allow(dead_code)]
mod swept;

use rig::compare::Call;
use rig::model::{Cycle, Mode, Record, LOCKS, PAGE, PARTS, SUBSECTOR};
use rig::model::{BE, PE, PP, PW, RDLR, RES, SE, SSE, WRLR};
use swept::{addressed, Sweep};

const BYTES: usize = 524_288;
const SECTOR: usize = 65_536;

/// In standby with the latch set, and with these lock registers.
fn locked(locks: [u8; LOCKS]) -> Record {
    Record { latch: true, locks, ..Record::standby(6) }
}

/// A transaction from the given record, whose cycle is over afterwards, if it starts one; the answer.
fn send(sweep: &mut Sweep, from: Record, sent: Vec<u8>, pulses: u32, w: u32) -> u8 {
    let seen = sweep.call(Some(from.pack()), Call::Transact { sent, pulses, w });
    assert_eq!((seen.missing(), seen.answer() == 0), (0, sweep.pair.record() != from));
    sweep.call(None, Call::Wait(u32::MAX));
    seen.answer()
}

/// A page write on its way, from this place in the second page on.
fn writing(start: usize, slots: [u8; PAGE], named: usize) -> [u8; 304] {
    locked([2; LOCKS]).busy(2, Cycle::PageWrite { address: PAGE + start, slots, named }).pack()
}

/// From every place in a page on, every number of bytes: those become their slots, and the others stay.
#[test]
fn every_number_of_bytes_named() {
    let mut sweep = Sweep::new(6);
    for start in 0..PAGE {
        for named in 1..=PAGE {
            let (old, new) = (sweep.rng.byte(), sweep.rng.byte());
            sweep.put(PAGE, &[old; PAGE]);
            let end = sweep.rng.pick(&[2, 2, 3, u32::MAX]);
            sweep.call(Some(writing(start, [new; PAGE], named)), Call::Wait(end));
            let page = &sweep.pair.real.array[PAGE..2 * PAGE];
            for k in 0..PAGE {
                let expected = if k < named { new } else { old };
                assert_eq!(page[(start + k) % PAGE], expected, "{named} bytes from {start:02X} on");
            }
        }
    }
    sweep.pair.compare_array().unwrap();
}

/// Page writes from every place in a page on, shorter and longer than a page, of random bytes over random bytes.
#[test]
fn every_start_in_a_page() {
    let mut sweep = Sweep::new(6);
    for start in 0..PAGE {
        for length in [1, 2, 100, 255, 256, 257, 300, 511, 512, 513, 600] {
            let (page, data) = (sweep.rng.bytes(PAGE), sweep.rng.bytes(length));
            sweep.put(PAGE, &page);
            let sent = addressed(PW, PAGE + start, &data);
            assert_eq!(send(&mut sweep, locked([0; LOCKS]), sent, 0, 1), 0);
            let mut expected = page;
            data.iter().enumerate().for_each(|(k, byte)| expected[(start + k) % PAGE] = *byte);
            assert_eq!(sweep.pair.real.array[PAGE..2 * PAGE], expected);
        }
    }
}

/// Each byte over each byte, by a page of all bytes over a page of one.
#[test]
fn every_byte_over_every_byte() {
    let mut sweep = Sweep::new(6);
    let every: Vec<u8> = (0..=255).collect();
    for old in 0..=255 {
        sweep.put(PAGE, &[old; PAGE]);
        assert_eq!(send(&mut sweep, locked([0; LOCKS]), addressed(PW, PAGE, &every), 0, 0), 0);
        assert_eq!(sweep.pair.real.array[PAGE..2 * PAGE], every);
    }
}

/// Each old byte and each byte of a mask: what a cut page write leaves where it names, and elsewhere; yes or no.
#[test]
fn every_byte_of_a_cut_page_write() {
    let mut sweep = Sweep::new(6);
    for old in 0..=255_u8 {
        for (start, named) in [(0, 256), (0, 1), (1, 255), (0x80, 0x81), (0xFF, 2), (0xFF, 256)] {
            let slots = sweep.rng.bytes(PAGE).try_into().unwrap();
            let mask: Vec<u8> = (0..=255).map(|at: u8| at ^ old).collect();
            sweep.put(PAGE, &[old; PAGE]);
            let yes = u32::from(old) & 1;
            let lost = Call::Loss { mask: mask.clone(), yes };
            assert_eq!(sweep.call(Some(writing(start, slots, named)), lost).answer(), 0);
            let page = &sweep.pair.real.array[PAGE..2 * PAGE];
            for at in 0..PAGE {
                let is_named = (at + PAGE - start) % PAGE < named;
                let left = if is_named { old | mask[at] } else { old };
                assert_eq!(page[at], left, "{old:02X}, {named} from {start:02X} on, at {at:02X}");
            }
            assert_eq!(sweep.pair.record(), Record::standby(6), "and no lock is left");
        }
    }
}

/// Each page and each subsector is erased, from some place in it on, and cut with a random mask before.
#[test]
fn every_page_and_subsector_erased() {
    let mut sweep = Sweep::new(6);
    for (code, size) in [(PE, PAGE), (SSE, SUBSECTOR)] {
        for start in (0..BYTES).step_by(size) {
            let contents = sweep.rng.bytes(size);
            sweep.put(start, &contents);
            let sent = addressed(code, start + sweep.rng.below(size), &[]);
            let call = Call::Transact { sent: sent.clone(), pulses: 0, w: 1 };
            sweep.call(Some(locked([2; LOCKS]).pack()), call);
            let mask = sweep.rng.bytes(PAGE);
            sweep.call(None, Call::Loss { mask: mask.clone(), yes: 0 });
            let left = contents.iter().zip(mask.iter().cycle()).map(|(old, mask)| old | mask);
            assert!(sweep.pair.real.array[start..start + size].iter().copied().eq(left));
            assert_eq!(send(&mut sweep, locked([0; LOCKS]), sent, 0, 1), 0);
            assert!(sweep.pair.real.array[start..start + size].iter().all(|byte| *byte == 0xFF));
        }
        sweep.pair.compare_array().unwrap();
    }
}

/// Each value of each lock register, and each byte written to it; the others and W do not matter.
#[test]
fn every_lock_written() {
    let mut sweep = Sweep::new(6);
    for sector in 0..LOCKS {
        for value in 0..4 {
            for byte in 0..=255 {
                let mut locks = [0; LOCKS].map(|_| sweep.rng.byte() & 3);
                locks[sector] = value;
                let from = Record { bp: byte % 8, srwd: true, ..locked(locks) };
                let address =
                    sector * SECTOR + sweep.rng.below(SECTOR) + BYTES * (byte as usize % 32);
                let sent = addressed(WRLR, address, &[byte]);
                let frozen = value >= 2;
                let answer = send(&mut sweep, from, sent, 0, u32::from(byte) >> 7);
                assert_eq!(answer, if frozen { 19 } else { 0 });
                locks[sector] = if frozen { value } else { byte & 3 };
                assert_eq!(sweep.pair.record(), Record { locks, latch: frozen, ..from });
            }
        }
    }
}

/// Each lock register is read in each sector, from its first and its last byte on, of every length and with every
/// number of further pulses; without the latch, too.
#[test]
fn every_lock_read() {
    let mut sweep = Sweep::new(6);
    for sector in 0..LOCKS {
        for value in 0..4 {
            let mut from = locked([3 - value; LOCKS]);
            (from.locks[sector], from.latch) = (value, value % 2 == 0);
            for place in [sector * SECTOR, (sector + 1) * SECTOR - 1] {
                for length in 0..9 {
                    for pulses in 0..8 {
                        let sent = addressed(RDLR, place, &vec![0x5A; length]);
                        let call = Call::Transact { sent, pulses, w: 0 };
                        assert_eq!(sweep.call(Some(from.pack()), call).answer(), 0);
                        let line = &sweep.pair.real.filled[0][..4 + length];
                        assert_eq!(line, [&[0xFF; 4], &vec![value; length][..]].concat());
                        assert_eq!(sweep.pair.record(), from);
                    }
                }
            }
        }
    }
}

/// Each sector under each BP and each value of its lock register: what is stopped there, and a bulk erase.
#[test]
fn every_sector_under_every_lock() {
    let mut sweep = Sweep::new(6);
    for bp in 0..8 {
        for (sector, value) in
            (0..LOCKS).flat_map(|sector| (0..4).map(move |value| (sector, value)))
        {
            let mut locks = [2; LOCKS];
            locks[sector] = value;
            let from = Record { bp, ..locked(locks) };
            let open = PARTS[6].sectors - PARTS[6].protected[bp as usize];
            let stopped = sector >= open || value & 1 == 1;
            let place = sector * SECTOR + sweep.rng.below(SECTOR);
            for (code, data) in [(PP, &[0x12][..]), (PW, &[0x34]), (PE, &[]), (SSE, &[]), (SE, &[])]
            {
                sweep.put(place, &[0xFF; 1]);
                let call = Call::Transact { sent: addressed(code, place, data), pulses: 0, w: 1 };
                let answer = sweep.call(Some(from.pack()), call).answer();
                assert_eq!(answer, if stopped { 17 } else { 0 }, "{code:02X}, BP {bp}");
                sweep.call(None, Call::Wait(9));
            }
            let bulk =
                sweep.call(Some(from.pack()), Call::Transact { sent: vec![BE], pulses: 0, w: 1 });
            assert_eq!(bulk.answer(), if bp > 0 || value & 1 == 1 { 17 } else { 0 });
        }
    }
    sweep.pair.compare_array().unwrap();
}

/// A release of every length and with every number of further pulses, in each mode.
#[test]
fn every_release() {
    let mut sweep = Sweep::new(6);
    let standby = locked([1, 2, 3, 0, 0, 1, 2, 3]);
    let deep = Record { mode: Mode::Deep, ..standby };
    for (from, alone, longer) in
        [(standby, 0, 15), (deep, 0, 15), (standby.busy(5, Cycle::BulkErase), 12, 12)]
    {
        for n in 1..300 {
            for pulses in 0..8 {
                let mut sent = sweep.rng.bytes(n);
                sent[0] = RES;
                let seen = sweep.call(Some(from.pack()), Call::Transact { sent, pulses, w: 1 });
                let is_alone = n == 1 && pulses == 0;
                assert_eq!(seen.word(), if is_alone { alone } else { longer });
                let after = if is_alone && from == deep { standby } else { from };
                assert_eq!(sweep.pair.record(), after);
            }
        }
    }
}
