//! libm25p.a against the model on whole ranges: every first byte in every state, every length, every byte over
//! every byte, every start in a page, and every sector under every BP. What only the M25PE40 does is in `m25pe40.rs`.

#[path = "support/sweep.rs"]
mod swept;

use rig::compare::{Call, Seen};
use rig::model::{Cycle, Mode, Record, CODES, PARTS, PP, SE};
use swept::{addressed, Sweep};

/// Records of the part that differ in what the chip looks at.
fn states(part: u8) -> Vec<Record> {
    let standby = Record { latch: true, ..Record::standby(part) };
    let highest = PARTS[part as usize].highest_bp;
    let protected = Record { bp: highest, srwd: true, ..standby };
    let mut states = vec![
        standby,
        Record { latch: false, ..standby },
        Record { bp: 1, srwd: true, ..standby },
        Record { latch: false, ..protected },
        standby.busy(1, Cycle::BulkErase),
        standby.busy(2, Cycle::Settings { bp: highest, srwd: true }),
        protected.busy(1_000_000, Cycle::Program { address: 1_000, slots: [0xA5; 256] }),
    ];
    if PARTS[part as usize].deep {
        states.push(Record { mode: Mode::Deep, ..standby });
        states.push(Record { mode: Mode::Deep, latch: false, srwd: true, ..standby });
    }
    if PARTS[part as usize].locks {
        let slots = [0x5A; 256];
        let locked = Record { locks: [1, 2, 3, 0, 1, 2, 3, 0], ..standby };
        states.push(locked);
        states.push(Record { srwd: true, locks: [2; 8], ..standby });
        states.push(locked.busy(3, Cycle::PageWrite { address: 1_000, slots, named: 100 }));
        states.push(Record { mode: Mode::Deep, ..locked });
    }
    states
}

/// A transaction of these bytes, from the given record; a cycle that it starts is over afterwards.
fn send(sweep: &mut Sweep, from: Record, sent: Vec<u8>, pulses: u32, w: u32) -> Seen {
    let seen = sweep.call(Some(from.pack()), Call::Transact { sent, pulses, w });
    if from.cycle().is_none() && sweep.pair.record().cycle().is_some() {
        sweep.call(None, Call::Wait(u32::MAX));
    }
    seen
}

/// A transaction of n bytes, random but for the first, from the given record.
fn transact(sweep: &mut Sweep, from: Record, code: u8, n: usize, pulses: u32, w: u32) {
    let mut sent = sweep.rng.bytes(n);
    if n > 0 {
        sent[0] = code;
    }
    send(sweep, from, sent, pulses, w);
}

/// A program in the first page with these contents, and the same again when it is over, as what is missing stays so;
/// the bits missing.
fn program(sweep: &mut Sweep, page: &[u8], start: usize, data: &[u8]) -> u32 {
    sweep.put(0, page);
    let sent = addressed(PP, start, data);
    let [first, again] = [0, 1].map(|w| send(sweep, states(0)[0], sent.clone(), 0, w).missing());
    assert_eq!(first, again);
    first
}

#[test]
fn every_first_byte_in_every_state() {
    for part in 0..PARTS.len() as u8 {
        let mut sweep = Sweep::new(part);
        for from in states(part) {
            for code in 0..=255 {
                for n in 0..=6 {
                    for pulses in [0, 1, 7, 8] {
                        transact(&mut sweep, from, code, n, pulses, 0);
                        transact(&mut sweep, from, code, n, pulses, 1);
                    }
                }
            }
        }
        sweep.pair.compare_array().unwrap();
    }
}

#[test]
fn every_length() {
    for part in 0..PARTS.len() as u8 {
        let mut sweep = Sweep::new(part);
        let standby = states(part)[0];
        let no_bulk_erase = Record { bp: 1, ..standby };
        for n in (0..=530).chain(65_530..=65_538) {
            for code in CODES {
                transact(&mut sweep, no_bulk_erase, code, n, 0, 1);
            }
        }
        sweep.pair.compare_array().unwrap();
    }
}

/// A program of one byte: the bits missing are those of the byte that the array has not.
#[test]
fn every_byte_over_every_byte() {
    let mut sweep = Sweep::new(0);
    for before in 0..=255_u8 {
        for byte in 0..=255_u8 {
            let missing = program(&mut sweep, &[before], 0, &[byte]);
            assert_eq!(missing, (byte & !before).count_ones());
        }
    }
}

/// Programs from every place in a page on, shorter and longer than a page.
#[test]
fn every_start_in_a_page() {
    let mut sweep = Sweep::new(0);
    for start in 0..256 {
        for length in [1, 2, 100, 255, 256, 257, 300, 511, 512, 513, 600] {
            let (page, random) = (sweep.rng.bytes(256), sweep.rng.bytes(length));
            program(&mut sweep, &page, start, &random);
            let missing = program(&mut sweep, &page, start, &vec![0xFF; length]);
            let reached = (0..length.min(256)).map(|k| page[(start + k) % 256]);
            assert_eq!(missing, reached.map(u8::count_zeros).sum::<u32>());
            assert_eq!(program(&mut sweep, &page, start, &vec![0x00; length]), 0);
            assert_eq!(program(&mut sweep, &[0xFF; 256], start, &random), 0);
        }
    }
    assert_eq!(sweep.tally.programs.seldom(200), [""; 0], "programs that came too seldom");
}

#[test]
fn every_sector_under_every_bp() {
    // the sums of the paper's columns: 4, 4, 8, 64, 64, 4 and 8 sectors
    let protected_in_all = [7, 7, 39, 127, 127, 7, 39];
    for part in 0..PARTS.len() as u8 {
        let mut sweep = Sweep::new(part);
        let figures = &PARTS[part as usize];
        for bp in 0..=figures.highest_bp {
            let from = Record { bp, ..states(part)[0] };
            for first in (0..figures.bytes).step_by(figures.sector_bytes) {
                let last = first + figures.sector_bytes - 1;
                send(&mut sweep, from, addressed(SE, last, &[]), 0, 1);
                send(&mut sweep, from, addressed(PP, first, &[0xA5]), 0, 1);
                send(&mut sweep, from, addressed(PP, last, &[0x5A]), 0, 1);
            }
        }
        sweep.pair.compare_array().unwrap();
        assert_eq!(sweep.tally.answers[17], 3 * protected_in_all[part as usize]);
    }
}
