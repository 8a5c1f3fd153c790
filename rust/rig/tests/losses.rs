//! Cycles and power losses, libm25p.a against the model on whole ranges: a cut at every tick, every byte that a cut can
//! leave, every place of the parts, every byte of a packed record damaged, and wrong lengths in every mode.

#[path = "support/sweep.rs"]
mod swept;

use rig::compare::Call;
use rig::model::{Cycle, Mode, Record, CYCLE_AT, LOCK_DOWN, NAMED_AT, PAGE, PARTS, RECORD_BYTES};
use rig::model::{BE, PE, PP, PW, RDSR, SE, SMALL, SSE, WRSR};
use swept::{addressed, Sweep};

/// A part with the latch set, and with the same duration for every cycle; lock registers stop none of them.
fn timed(part: u8, ticks: u32) -> Record {
    let standby = Record::standby(part).lasting([ticks; 4]);
    let lock = if standby.figures().locks { LOCK_DOWN } else { 0 };
    Record { latch: true, locks: [lock, 0, 0, lock, 0, 0, lock, lock], ..standby }
}

/// What starts each kind of cycle, in the middle of a page and of a sector.
fn starts(sweep: &mut Sweep, part: u8) -> Vec<Vec<u8>> {
    let figures = &PARTS[part as usize];
    let address = figures.bytes / 2 + 300;
    let [data, written] = [(), ()].map(|()| sweep.rng.bytes(200));
    let erase = |code| addressed(code, address, &[]);
    let old = vec![addressed(PP, address, &data), erase(SE), vec![BE], vec![WRSR, 0x88]];
    let new = vec![addressed(PW, address + 50, &written), erase(PE), erase(SSE)];
    old.into_iter().chain(new).take(figures.kinds()).collect()
}

/// Every kind, of 1, 2, 3 and 5 ticks, cut after each tick, with masks of 00, of FF and random, with yes and with no;
/// then power is lost once more. The same instruction is also waited out and powered up after each tick.
#[test]
fn cuts_at_every_tick() {
    for part in SMALL.map(|part| part as u8) {
        let mut sweep = Sweep::new(part);
        let starts = starts(&mut sweep, part);
        for duration in [1, 2, 3, 5] {
            for sent in &starts {
                for passed in 0..duration {
                    for end in ends(&mut sweep, duration - passed) {
                        cycle(&mut sweep, timed(part, duration), sent, passed, end);
                    }
                }
            }
        }
        // there are eleven pairs of a duration and the ticks passed
        assert_eq!(sweep.tally.ends.seldom(11, &PARTS[part as usize]), [""; 0]);
        sweep.pair.compare_array().unwrap();
    }
}

/// The calls that end a cycle with so many ticks left.
fn ends(sweep: &mut Sweep, left: u32) -> Vec<Call> {
    let masks = [vec![0x00; PAGE], vec![0xFF; PAGE], sweep.rng.bytes(PAGE), sweep.rng.bytes(PAGE)];
    let losses = masks
        .into_iter()
        .flat_map(|mask| [0, 1, 256].map(|yes| Call::Loss { mask: mask.clone(), yes }));
    losses.chain([Call::Wait(left), Call::Wait(left + 1), Call::PowerUp]).collect()
}

/// A whole life of a cycle, in fresh contents: started, waited, ended, and power lost afterwards.
fn cycle(sweep: &mut Sweep, from: Record, sent: &[u8], passed: u32, end: Call) {
    let figures = from.figures();
    let sector = figures.bytes / 2;
    let contents = sweep.rng.bytes(2 * PAGE);
    sweep.put(sector + PAGE, &contents);
    let sent = Call::Transact { sent: sent.to_vec(), pulses: 0, w: 1 };
    assert_eq!(sweep.call(Some(from.pack()), sent).answer(), 0);
    for _ in 0..passed {
        sweep.call(None, Call::Wait(0));
        sweep.call(None, Call::Wait(1));
    }
    assert!(sweep.pair.record().cycle().is_some());
    sweep.call(None, end);
    assert_eq!(sweep.pair.record().mode, Mode::Standby);
    let mask = sweep.rng.bytes(PAGE);
    sweep.call(None, Call::Loss { mask, yes: 1 });
}

/// Those of the cycles that are of the part's kinds.
fn on(part: u8, cycles: Vec<Cycle>) -> impl Iterator<Item = Cycle> {
    let kinds = PARTS[part as usize].kinds();
    cycles.into_iter().filter(move |cycle| usize::from(cycle.kind()) <= kinds)
}

/// A page with these slots, on its way.
fn programming(slots: [u8; PAGE]) -> Record {
    Record::standby(0).busy(2, Cycle::Program { address: 0x123, slots })
}

/// Each old byte, each slot and each byte of a mask: what a cut program leaves.
#[test]
fn every_byte_of_a_cut_program() {
    let mut sweep = Sweep::new(0);
    let every: [u8; PAGE] = std::array::from_fn(|at| at as u8);
    for old in 0..=255_u8 {
        for slot in 0..=255_u8 {
            sweep.put(0x100, &[old; PAGE]);
            let from = programming([slot; PAGE]).pack();
            sweep.call(Some(from), Call::Loss { mask: every.to_vec(), yes: 0 });
            let page = &sweep.pair.real.array[0x100..0x200];
            let left = (0..=255).map(|mask| old & (slot | mask));
            assert!(page.iter().copied().eq(left), "{old:02X} {slot:02X}");
        }
    }
}

/// Each old byte and each byte of a mask: what a cut erase leaves in each page of its sector, and of the array.
#[test]
fn every_byte_of_a_cut_erase() {
    let mut sweep = Sweep::new(0);
    let every: [u8; PAGE] = std::array::from_fn(|at| at as u8);
    for old in 0..=255_u8 {
        for (cycle, pages) in
            [(Cycle::SectorErase { address: 0x7FF }, 4..8), (Cycle::BulkErase, 0..16)]
        {
            sweep.put(0, &[old; 4_096]);
            let from = Record::standby(0).busy(2, cycle).pack();
            sweep.call(Some(from), Call::Loss { mask: every.to_vec(), yes: 0 });
            for (page, bytes) in sweep.pair.real.array[..4_096].chunks(PAGE).enumerate() {
                let left = |mask: u8| if pages.contains(&page) { old | mask } else { old };
                assert!(bytes.iter().copied().eq((0..=255).map(left)), "{old:02X}, page {page}");
            }
        }
    }
}

/// Programs and writes in the first and the last page of every sector, erases from its last byte, on every part, under
/// every BP and with every lock: a cycle that is running is not asked for protection. Cut, waited out and powered up in
/// turn.
#[test]
fn every_sector() {
    for part in 0..PARTS.len() as u8 {
        let mut sweep = Sweep::new(part);
        let figures = &PARTS[part as usize];
        for sector in 0..figures.sectors {
            let first = sector * figures.sector_bytes;
            let last = first + figures.sector_bytes - 1;
            let bp = (sector % (figures.highest_bp as usize + 1)) as u8;
            let mut from = Record { bp, ..timed(part, 3) };
            if figures.locks {
                from.locks[sector] = sector as u8 % 4;
            }
            let slots: [u8; PAGE] = sweep.rng.bytes(PAGE).try_into().unwrap();
            let cycles = vec![
                Cycle::Program { address: first, slots },
                Cycle::Program { address: last, slots },
                Cycle::SectorErase { address: last },
                Cycle::PageWrite { address: first, slots, named: 100 },
                Cycle::PageWrite { address: last, slots, named: 100 },
                Cycle::PageErase { address: last },
                Cycle::SubsectorErase { address: last },
                Cycle::SubsectorErase { address: first },
            ];
            for cycle in on(part, cycles) {
                let mask = sweep.rng.bytes(PAGE);
                for end in [Call::Loss { mask, yes: 1 }, Call::Wait(2), Call::PowerUp] {
                    sweep.call(Some(from.busy(2, cycle).pack()), end);
                }
            }
        }
        sweep.pair.compare_array().unwrap();
    }
}

/// A record of each kind of cycle and of each mode.
fn records(part: u8) -> Vec<Record> {
    let standby = timed(part, 3);
    let (address, slots) = (0x123, [0x5A; PAGE]);
    let cycles = vec![
        Cycle::Program { address, slots },
        Cycle::SectorErase { address },
        Cycle::BulkErase,
        Cycle::Settings { bp: 2, srwd: true },
        Cycle::PageWrite { address, slots, named: 0x81 },
        Cycle::PageErase { address },
        Cycle::SubsectorErase { address },
    ];
    let busy = on(part, cycles).map(|cycle| standby.busy(2, cycle));
    let rest = [standby, Record { mode: Mode::Deep, ..standby }];
    busy.chain(rest).collect()
}

/// Every call on a record: a status read, a wait to the end, a power-up and a loss. How many are refused with 6.
fn refused(sweep: &mut Sweep, record: [u8; RECORD_BYTES]) -> usize {
    let mask = sweep.rng.bytes(PAGE);
    let status = Call::Transact { sent: vec![RDSR, 0], pulses: 0, w: 1 };
    let calls = [status, Call::Wait(3), Call::PowerUp, Call::Loss { mask, yes: 1 }];
    calls
        .into_iter()
        .filter_map(|call| (sweep.call(Some(record), call).answer() == 6).then_some(()))
        .count()
}

/// Each byte of a packed record in turn with several values, in every kind of cycle, in standby and in deep power-down,
/// on a part of either highest BP and on the M25PE40: all four calls say the same of it.
#[test]
fn every_byte_damaged() {
    for part in [0, 2, 6] {
        let mut sweep = Sweep::new(part);
        let (mut sound, mut unsound) = (0, 0);
        for record in records(part) {
            for at in 0..RECORD_BYTES {
                for value in [0, 1, 2, 3, 4, 5, 6, 7, 8, 0x10, 0x80, 0xFF] {
                    let mut bytes = record.pack();
                    bytes[at] = value;
                    match refused(&mut sweep, bytes) {
                        0 => sound += 1,
                        4 => unsound += 1,
                        some => panic!("byte {at} {value:02X}: {some} of 4 refused, {record:?}"),
                    }
                }
            }
        }
        assert!(sound > 2_000 && unsound > 12_000, "{sound} sound, {unsound} unsound");
    }
}

/// Every pair of bytes before the slots and behind them, with values around their limits.
#[test]
fn every_two_bytes_of_a_cycle_damaged() {
    let values = [0, 1, 3, 4, 0x0F, 0x10];
    for part in [0, 6] {
        let mut sweep = Sweep::new(part);
        let around: Vec<usize> =
            (CYCLE_AT..CYCLE_AT + 9).chain(CYCLE_AT + NAMED_AT - 1..RECORD_BYTES).collect();
        // of the larger part without the bulk erase, which takes its time
        let quick = |record: &Record| part == 0 || record.cycle() != Some(Cycle::BulkErase);
        for record in records(part).into_iter().filter(quick) {
            for (i, first) in around.iter().enumerate() {
                for second in &around[i + 1..] {
                    for value in values.into_iter().flat_map(|a| values.map(|b| [a, b])) {
                        let mut bytes = record.pack();
                        (bytes[*first], bytes[*second]) = (value[0], value[1]);
                        assert!([0, 4].contains(&refused(&mut sweep, bytes)));
                    }
                }
            }
        }
    }
}

/// Lengths of record, array and mask that are wrong, one or several at once, in every mode: 8, 6, 2, 41 in this order.
#[test]
fn wrong_lengths() {
    let mut sweep = Sweep::new(0);
    for record in records(0) {
        let mut unsound = record.pack();
        unsound[CYCLE_AT + 3] = 1;
        for (packed, sound) in [(record.pack(), true), (unsound, false)] {
            for record_len in [0, 28, 292, RECORD_BYTES - 1, RECORD_BYTES, RECORD_BYTES + 1] {
                for array_len in [0, 4_095, 4_096, 4_097] {
                    let right = (record_len == RECORD_BYTES, sound, array_len == 4_096);
                    let number = |behind| match right {
                        (false, _, _) => 8,
                        (_, false, _) => 6,
                        (_, _, false) => 2,
                        _ => behind,
                    };
                    let mut answer =
                        |call| sweep.call_lent(Some(packed), call, record_len, array_len).answer();
                    for mask_len in [0, 1, 255, 256, 257, 512] {
                        let loss = Call::Loss { mask: vec![0x3C; mask_len], yes: 1 };
                        assert_eq!(answer(loss), number(if mask_len == 256 { 0 } else { 41 }));
                    }
                    for call in [Call::Wait(0), Call::Wait(1), Call::Wait(3), Call::PowerUp] {
                        assert_eq!(answer(call), number(0));
                    }
                }
            }
        }
    }
}
