//! Random records: sound ones in every mode and cycle, and bytes that are mostly none.

use super::Generator;
use crate::model::*;

impl Generator {
    /// A sound record of the part.
    pub(super) fn record_of(&mut self, part: usize) -> Record {
        let highest = PARTS[part].highest_bp as usize;
        let bp = self.rng.below(highest + 1) as u8;
        let standby = Record {
            part: part as u8,
            bp: self.rng.pick(&[0, bp]),
            srwd: self.rng.one_in(3),
            latch: self.rng.one_in(2),
            mode: Mode::Standby,
            program: self.duration(),
            sector_erase: self.duration(),
            bulk_erase: self.duration(),
            write_status: self.duration(),
            locks: self.locks_of(part),
        };
        match self.rng.below(5) {
            0 => self.in_cycle(standby),
            1 if PARTS[part].deep => Record { mode: Mode::Deep, ..standby },
            _ => standby,
        }
    }

    /// Lock registers of the part: none set, one, or any.
    fn locks_of(&mut self, part: usize) -> [u8; LOCKS] {
        let mut locks = [0; LOCKS];
        match self.rng.below(4) {
            _ if !PARTS[part].locks => {}
            0 => locks[self.rng.below(LOCKS)] = 1 + self.rng.below(3) as u8,
            1 => locks.fill_with(|| self.rng.byte() & 3),
            2 => locks.fill_with(|| self.rng.byte() & LOCK_DOWN),
            _ => {}
        }
        locks
    }

    /// The same record in a cycle, which may be one that it would not start, and at any tick.
    fn in_cycle(&mut self, record: Record) -> Record {
        let cycle = self.cycle_of(record.part as usize);
        let left = self.duration();
        record.busy(self.rng.pick(&[left, record.duration(&cycle), 1, 2]), cycle)
    }

    /// A cycle of the part; on the large parts seldom a bulk erase.
    fn cycle_of(&mut self, part: usize) -> Cycle {
        let figures = &PARTS[part];
        let anywhere = self.rng.below(figures.bytes);
        let near = (self.spot + self.rng.below(600)) % figures.bytes;
        let address = self.rng.pick(&[0, figures.bytes - 1, anywhere, near, near]);
        let seldom = Self::large(part) && !self.rng.one_in(10);
        if figures.locks && self.rng.one_in(2) {
            let named = 1 + self.rng.below(PAGE);
            let named = self.rng.pick(&[1, 2, PAGE - 1, PAGE, named, named]);
            return match self.rng.below(4) {
                0 => Cycle::PageErase { address },
                1 => Cycle::SubsectorErase { address },
                _ => Cycle::PageWrite { address, slots: self.slots(), named },
            };
        }
        match self.rng.below(8) {
            0 | 1 if !seldom => Cycle::BulkErase,
            0..=3 => Cycle::SectorErase { address },
            4 => Cycle::Settings {
                bp: self.rng.byte() & figures.highest_bp,
                srwd: self.rng.one_in(2),
            },
            _ => Cycle::Program { address, slots: self.slots() },
        }
    }

    /// Slots as data leaves them: random, or FF but for some.
    fn slots(&mut self) -> [u8; PAGE] {
        let mut slots = [0xFF; PAGE];
        let (from, to) = (self.rng.below(PAGE), self.rng.below(PAGE + 1));
        match self.rng.below(4) {
            0 => slots.fill(0x00),
            1 => {}
            2 => self.rng.fill(&mut slots),
            _ => self.rng.fill(&mut slots[from.min(to)..from.max(to)]),
        }
        slots
    }

    /// A packed record that is mostly not sound, or one of another part.
    pub(crate) fn damaged(&mut self, now: &Record) -> Packed {
        let mut bytes = now.pack();
        let anywhere = self.rng.below(RECORD_BYTES);
        let ahead = self.rng.below(CYCLE_AT + SLOTS_AT);
        let behind = CYCLE_AT + NAMED_AT + self.rng.below(4 + LOCKS);
        let at = self.rng.pick(&[ahead, ahead, anywhere, behind]);
        let wrong = [0, 1, 0x8000_0000, 1_000_000, 1_000_001, 0x0100_0001, u32::MAX];
        match self.rng.below(14) {
            0 => return self.sound_record_of_any().pack(),
            // one of another part, said to be of this
            8 | 9 => {
                bytes = self.sound_record_of_any().pack();
                bytes[0] = now.part;
            }
            1 => self.rng.fill(&mut bytes),
            2 => bytes[at] ^= 1 << self.rng.below(8),
            3 => bytes[at] = self.rng.byte(),
            4 => bytes[self.rng.below(8)] = self.rng.pick(&[0, 1, 2, 3, 4, 5, 6, 7, 8, 255]),
            5 => {
                let field = 8 + 4 * self.rng.below(5);
                let number = self.rng.pick(&wrong);
                bytes[field..field + 4].copy_from_slice(&number.to_le_bytes());
            }
            6 => {
                let busy = self.in_cycle(*now);
                let wrong = !self.rng.one_in(4);
                bytes = Record { latch: busy.latch != wrong, ..busy }.pack();
            }
            7 => bytes = Record { mode: Mode::Deep, ..*now }.pack(),
            _ => return self.damaged_cycle(now),
        }
        bytes
    }

    /// A packed record with one field of its cycle changed, or a lock register; it may be one that is in no cycle.
    fn damaged_cycle(&mut self, now: &Record) -> Packed {
        let from = if self.rng.one_in(4) { *now } else { self.in_cycle(*now) };
        let mut bytes = from.pack();
        let cycle = &mut bytes[CYCLE_AT..LOCKS_AT];
        let anywhere = self.rng.below(PAGE);
        let slot = SLOTS_AT + self.rng.pick(&[0, PAGE - 1, anywhere]);
        match self.rng.below(11) {
            0 | 1 => cycle[0] = self.rng.pick(&[0, 1, 2, 3, 4, 5, 6, 7, 8, 9, 128, 255]),
            2 => cycle[1] = self.rng.pick(&[1, 2, 3, 4, 7, 8, 9, 128, 255]),
            3 => cycle[2] = self.rng.pick(&[1, 2, 3, 128, 255]),
            4 => cycle[3] = self.rng.pick(&[1, 128, 255]),
            5 => {
                let (size, random) = (now.figures().bytes as u32, self.rng.draw() as u32);
                let wide = [1, size - 1, size, size + 256, 1 << 24, 1 << 31, u32::MAX, random];
                cycle[4..SLOTS_AT].copy_from_slice(&self.rng.pick(&wide).to_le_bytes());
            }
            6 => cycle[slot] = self.rng.pick(&[1, 128, 255]),
            7 => cycle[SLOTS_AT..NAMED_AT].fill(self.rng.pick(&[0x00, 0xFF])),
            8 | 9 => {
                let wide = [0, 0, 1, 255, 256, 257, 512, 0x0001_0001, 1 << 24, u32::MAX];
                cycle[NAMED_AT..].copy_from_slice(&self.rng.pick(&wide).to_le_bytes());
            }
            _ => {
                let lock = LOCKS_AT + self.rng.below(LOCKS);
                bytes[lock] = self.rng.pick(&[1, 2, 3, 4, 5, 7, 8, 128, 255]);
            }
        }
        bytes
    }

    fn sound_record_of_any(&mut self) -> Record {
        let part = self.rng.below(PARTS.len());
        self.record_of(part)
    }
}
