//! The M25PE40 of the worked cases, on libm25p.a and on the model beside it.

use rig::compare::{Call, Seen};
use rig::model::{Record, PAGE};

use crate::swept::Sweep;

/// A chip with its last response.
pub struct Worked(pub Sweep);

/// Standby, BP 0, SRWD 0, latch set, no lock, durations 3, 5, 9, 2.
pub fn standby() -> Record {
    Record { latch: true, ..Record::standby(6) }
}

/// The same with these lock registers.
pub fn locked(locks: [u8; 8]) -> Record {
    Record { locks, ..standby() }
}

/// The same with one lock register.
pub fn lock(sector: usize, value: u8) -> Record {
    let mut record = standby();
    record.locks[sector] = value;
    record
}

/// An array of FF but for these bytes, and this record.
pub fn holding(from: Record, bytes: &[(usize, u8)]) -> Worked {
    let mut sweep = Sweep::new(from.part);
    sweep.put(0, &vec![0xFF; from.figures().bytes]);
    bytes.iter().for_each(|(at, byte)| sweep.put(*at, &[*byte]));
    sweep.call(Some(from.pack()), Call::Wait(0));
    Worked(sweep)
}

pub fn at(from: Record) -> Worked {
    holding(from, &[])
}

pub fn bytes(hex: &str) -> Vec<u8> {
    (0..hex.len()).step_by(2).map(|i| u8::from_str_radix(&hex[i..i + 2], 16).unwrap()).collect()
}

impl Worked {
    pub fn transact(&mut self, sent: &[u8], pulses: u32, w: u32) -> Seen {
        self.0.call(None, Call::Transact { sent: sent.to_vec(), pulses, w })
    }

    /// The answer, with W high and no further pulses.
    pub fn sent(&mut self, hex: &str) -> u8 {
        self.transact(&bytes(hex), 0, 1).answer()
    }

    /// The answer, with further pulses.
    pub fn pulsed(&mut self, hex: &str, pulses: u32) -> u8 {
        self.transact(&bytes(hex), pulses, 1).answer()
    }

    /// The response of an executed transaction, and its first and count.
    pub fn heard(&mut self, hex: &str, pulses: u32) -> (String, u64) {
        let seen = self.transact(&bytes(hex), pulses, 1);
        assert_eq!(seen.answer(), 0, "{hex}");
        let line = &self.0.pair.real.filled[0][..hex.len() / 2];
        (line.iter().map(|byte| format!("{byte:02X}")).collect(), seen.word() >> 8)
    }

    pub fn status(&mut self) -> u8 {
        bytes(&self.heard("0500", 0).0)[1]
    }

    pub fn wait(&mut self, ticks: u32) -> &mut Worked {
        self.0.call(None, Call::Wait(ticks));
        self
    }

    pub fn power_up(&mut self) -> &mut Worked {
        self.0.call(None, Call::PowerUp);
        self
    }

    /// A loss whose mask is this byte but for some.
    pub fn loss(&mut self, rest: u8, mask: &[(usize, u8)], yes: u32) -> &mut Worked {
        let mut all = vec![rest; PAGE];
        mask.iter().for_each(|(at, byte)| all[*at] = *byte);
        self.0.call(None, Call::Loss { mask: all, yes });
        self
    }

    pub fn array<const N: usize>(&self, places: [usize; N]) -> [u8; N] {
        places.map(|at| self.0.pair.real.array[at])
    }

    pub fn now(&self) -> Record {
        self.0.pair.record()
    }
}

/// First and count, as the bits of an answer from 8 on have them.
pub fn driven(first: u64, count: u64) -> u64 {
    first | count << 8
}

/// Each case begins anew: the answers.
pub fn apart(cases: &[(Record, &str, u8)]) {
    for (from, hex, answer) in cases {
        let mut chip = at(*from);
        assert_eq!(chip.sent(hex), *answer, "{hex}, {from:?}");
        if *answer != 0 {
            assert_eq!(chip.now(), *from, "{hex}: what is ignored changes nothing");
        }
    }
}
