//! The device record: soundness, status byte, lock registers, and the 304 packed bytes.

use super::cycle::{Cycle, CYCLE_BYTES};
use super::part::{Part, PARTS};
use super::transaction::Outcome;

/// Where the packed cycle begins.
pub const CYCLE_AT: usize = 28;

/// How many lock registers there are, one for each sector of the M25PE40, and where they begin.
pub const LOCKS: usize = 8;
pub const LOCKS_AT: usize = CYCLE_AT + CYCLE_BYTES;

/// The bits of a lock register.
pub const WRITE_LOCK: u8 = 0x01;
pub const LOCK_DOWN: u8 = 0x02;

/// The length of a packed record.
pub const RECORD_BYTES: usize = LOCKS_AT + LOCKS;

/// A packed record.
pub type Packed = [u8; RECORD_BYTES];

#[derive(Clone, Copy, Debug, PartialEq, Eq)]
pub enum Mode {
    Standby,
    /// With the ticks left, and the cycle that is running.
    Busy(u32, Cycle),
    Deep,
}

#[derive(Clone, Copy, Debug, PartialEq, Eq)]
pub struct Record {
    pub part: u8,
    pub bp: u8,
    pub srwd: bool,
    pub latch: bool,
    pub mode: Mode,
    pub program: u32,
    pub sector_erase: u32,
    pub bulk_erase: u32,
    pub write_status: u32,
    /// By sector; zero on a part that has none.
    pub locks: [u8; 8],
}

/// The limits of a duration, and of the ticks left.
pub fn is_duration(ticks: u32) -> bool {
    (1..=1_000_000).contains(&ticks)
}

/// The latch with so many ticks of a cycle left.
pub fn latch_at(left: u32) -> bool {
    left > 1
}

fn number(bytes: &[u8], at: usize) -> u32 {
    u32::from_le_bytes([bytes[at], bytes[at + 1], bytes[at + 2], bytes[at + 3]])
}

impl Record {
    /// A part in standby: BP 0, SRWD 0, latch reset, the durations of the paper's worked examples.
    pub fn standby(part: u8) -> Record {
        Record {
            part,
            bp: 0,
            srwd: false,
            latch: false,
            mode: Mode::Standby,
            program: 3,
            sector_erase: 5,
            bulk_erase: 9,
            write_status: 2,
            locks: [0; LOCKS],
        }
    }

    /// The same with these durations.
    pub fn lasting(self, durations: [u32; 4]) -> Record {
        let [program, sector_erase, bulk_erase, write_status] = durations;
        Record { program, sector_erase, bulk_erase, write_status, ..self }
    }

    /// The figures of this record's part.
    pub fn figures(&self) -> &'static Part {
        &PARTS[self.part as usize]
    }

    pub fn sound(&self) -> bool {
        let durations = [self.program, self.sector_erase, self.bulk_erase, self.write_status];
        self.part <= 6
            && self.bp <= self.figures().highest_bp
            && durations.into_iter().all(is_duration)
            && self.locks.into_iter().all(|lock| lock <= if self.figures().locks { 3 } else { 0 })
            && match self.mode {
                Mode::Standby => true,
                Mode::Busy(left, cycle) => {
                    let latch = self.latch == latch_at(left);
                    is_duration(left) && latch && cycle.within(self.figures())
                }
                Mode::Deep => self.part != 4,
            }
    }

    /// The same in a cycle with so many ticks left, and with their latch.
    pub fn busy(self, left: u32, cycle: Cycle) -> Record {
        Record { mode: Mode::Busy(left, cycle), latch: latch_at(left), ..self }
    }

    /// The same in standby, with the latch reset.
    pub fn rested(self) -> Record {
        Record { mode: Mode::Standby, latch: false, ..self }
    }

    /// The same with every lock register reset.
    pub fn unlocked(self) -> Record {
        Record { locks: [0; LOCKS], ..self }
    }

    /// The lock register of the sector in which an address lies; 0 where there is none.
    pub fn lock(&self, address: usize) -> u8 {
        self.locks.get(address / self.figures().sector_bytes).copied().unwrap_or(0)
    }

    /// Whether the address lies in a sector that BP or its lock register protects.
    pub fn protects(&self, address: usize) -> bool {
        let part = self.figures();
        let open = part.sectors - part.protected[self.bp as usize];
        address / part.sector_bytes >= open || self.lock(address) & WRITE_LOCK != 0
    }

    /// Whether any sector is protected.
    pub fn protects_any(&self) -> bool {
        self.bp > 0 || self.locks.iter().any(|lock| lock & WRITE_LOCK != 0)
    }

    /// The cycle that is running, if one is.
    pub fn cycle(&self) -> Option<Cycle> {
        match self.mode {
            Mode::Busy(_, cycle) => Some(cycle),
            _ => None,
        }
    }

    /// How long a cycle takes that starts now.
    pub fn duration(&self, cycle: &Cycle) -> u32 {
        match cycle {
            Cycle::Program { .. } | Cycle::PageWrite { .. } => self.program,
            Cycle::PageErase { .. } => self.program,
            Cycle::SectorErase { .. } | Cycle::SubsectorErase { .. } => self.sector_erase,
            Cycle::BulkErase => self.bulk_erase,
            Cycle::Settings { .. } => self.write_status,
        }
    }

    pub fn status(&self) -> u8 {
        let busy = self.cycle().is_some();
        u8::from(self.srwd) << 7 | self.bp << 2 | u8::from(self.latch) << 1 | u8::from(busy)
    }

    pub fn pack(&self) -> Packed {
        let (mode, left, cycle) = match self.mode {
            Mode::Standby => (0, 0, [0; CYCLE_BYTES]),
            Mode::Busy(left, cycle) => (1, left, cycle.pack()),
            Mode::Deep => (2, 0, [0; CYCLE_BYTES]),
        };
        let mut bytes = [0; RECORD_BYTES];
        bytes[0] = self.part;
        bytes[1] = self.bp;
        bytes[2] = u8::from(self.srwd);
        bytes[3] = u8::from(self.latch);
        bytes[4] = mode;
        bytes[8..12].copy_from_slice(&left.to_le_bytes());
        bytes[12..16].copy_from_slice(&self.program.to_le_bytes());
        bytes[16..20].copy_from_slice(&self.sector_erase.to_le_bytes());
        bytes[20..24].copy_from_slice(&self.bulk_erase.to_le_bytes());
        bytes[24..28].copy_from_slice(&self.write_status.to_le_bytes());
        bytes[CYCLE_AT..LOCKS_AT].copy_from_slice(&cycle);
        bytes[LOCKS_AT..].copy_from_slice(&self.locks);
        bytes
    }

    /// The sound record that packs to these bytes, if there is one.
    pub fn unpack(bytes: &[u8]) -> Option<Record> {
        let mode = match bytes[4] {
            0 => Mode::Standby,
            1 => Mode::Busy(number(bytes, 8), Cycle::unpack(&bytes[CYCLE_AT..LOCKS_AT])?),
            2 => Mode::Deep,
            _ => return None,
        };
        let record = Record {
            part: bytes[0],
            bp: bytes[1],
            srwd: bytes[2] != 0,
            latch: bytes[3] != 0,
            mode,
            program: number(bytes, 12),
            sector_erase: number(bytes, 16),
            bulk_erase: number(bytes, 20),
            write_status: number(bytes, 24),
            locks: bytes[LOCKS_AT..].try_into().ok()?,
        };
        (record.sound() && record.pack()[..] == *bytes).then_some(record)
    }
}

/// Changes a packed record that is accepted, or gives the number that it is refused with.
pub fn changed(
    accepted: Result<Record, u8>,
    record: &mut [u8],
    change: impl FnOnce(&mut Record),
) -> Outcome {
    match accepted {
        Ok(mut r) => {
            change(&mut r);
            record.copy_from_slice(&r.pack());
            Outcome::only(0)
        }
        Err(number) => Outcome::only(number),
    }
}
