//! Random calls for a bus: transactions that have something to do for the chosen chip, waits that end the cycles of some
//! chips and not of others, rows, chips, arrays and records that are right or nearly so.

use crate::bus_model::MOST_CHIPS;
use crate::compare::bus::{Call, Step, PLACES};
use crate::compare::{self, Filled, Source};
use crate::generate::Generator;
use crate::model::*;
use crate::rng::Rng;

pub struct BusGenerator {
    rng: Rng,
    parts: [usize; PLACES],
    /// How many of the places are the bus.
    chips: usize,
    /// For each place.
    calls: Vec<Generator>,
    /// The chip that was chosen last; it is chosen again mostly, so that it gets somewhere.
    last: usize,
}

/// What a call is about: how many of the records are lent, and whether it is odd, so that several of its lengths and
/// numbers may be wrong at once.
#[derive(Clone, Copy)]
struct Aim {
    chips: usize,
    odd: bool,
}

impl BusGenerator {
    /// For a bus with these parts; the places behind it have bench parts.
    pub fn new(parts: &[usize], seed: u64) -> BusGenerator {
        let mut rng = Rng::new(seed);
        let mut all = [0; PLACES];
        all[..parts.len()].copy_from_slice(parts);
        let calls = all.into_iter().map(|part| Generator::new(part, rng.draw())).collect();
        BusGenerator { rng, parts: all, chips: parts.len(), calls, last: 0 }
    }

    /// A sound record for each place.
    pub fn sound_records(&mut self) -> Vec<Record> {
        self.calls.iter_mut().map(|calls| calls.sound_record()).collect()
    }

    /// The next call for chips whose records are `now`; one in four is odd.
    pub fn step(&mut self, now: &[Record]) -> Step {
        let odd = self.rng.one_in(4);
        let aim = Aim { chips: self.count(odd), odd };
        let (call, response) = self.call(now, aim);
        let (row_len, array_len) = (self.row_len(aim), self.array_len(aim));
        let records = match self.rng.below(40) {
            _ if odd && self.rng.one_in(3) => self.damaged(now, aim.chips),
            0 => self.others(),
            1 => self.exchanged(now),
            _ => vec![],
        };
        Step { call, records, row_len, array_len, response }
    }

    /// How many of the records are lent: those of the bus, mostly.
    fn count(&mut self, odd: bool) -> usize {
        let any = self.rng.below(PLACES);
        match self.rng.below(12) {
            0..=3 if odd => self.rng.pick(&[0, PLACES, PLACES, MOST_CHIPS, 1, any]),
            4 => 1 + self.rng.below(self.chips),
            _ => self.chips,
        }
    }

    fn call(&mut self, now: &[Record], aim: Aim) -> (Call, Filled) {
        let busy: Vec<usize> = (0..aim.chips).filter(|at| now[*at].cycle().is_some()).collect();
        if self.rng.one_in(if busy.is_empty() { 16 } else { 3 }) {
            let place = if busy.is_empty() { 0 } else { self.rng.pick(&busy) };
            return (self.wait(now, place), Filled { bytes: vec![], len: 0 });
        }
        let place = self.place(aim.chips);
        let chip = self.number(place, aim);
        self.transaction(now, place, chip, aim.odd)
    }

    /// A wait that has something to do for the chip in this place, mostly.
    pub fn wait(&mut self, now: &[Record], place: usize) -> Call {
        Call::Wait(self.calls[place].ticks(&now[place]))
    }

    /// A transaction that has something to do for the chip in this place, mostly; it goes to the chip of this number.
    pub fn transaction(
        &mut self,
        now: &[Record],
        place: usize,
        chip: u32,
        odd: bool,
    ) -> (Call, Filled) {
        let (call, mut filled) = self.calls[place].transaction(&now[place], odd);
        match call {
            compare::Call::Transact { sent, pulses, w } => {
                (Call::Transact { chip, sent, pulses, w }, filled.remove(0))
            }
            _ => unreachable!("a transaction"),
        }
    }

    /// A place among so many.
    fn place(&mut self, chips: usize) -> usize {
        let any = self.rng.below(chips.max(1));
        if self.last >= chips {
            return any;
        }
        if self.rng.one_in(4) {
            self.last = any;
        }
        self.last
    }

    /// The number of the chip in this place, or one that is none, or looks like it when it is cut down.
    fn number(&mut self, place: usize, aim: Aim) -> u32 {
        let (own, chips) = (place as u32, aim.chips as u32);
        if !aim.odd || !self.rng.one_in(3) {
            return own;
        }
        let (any, random) = (self.rng.below(16) as u32, self.rng.draw() as u32);
        let wide = self.rng.pick(&[256, 512, 0x1_0000, 0x100_0000, 1 << 31, 0xFFFF_FF00]) + own;
        let near =
            self.rng.pick(&[chips, chips, chips + 1, chips + own, 8, 8 + own, 255, u32::MAX]);
        self.rng.pick(&[any, random, wide, wide, near, near])
    }

    /// The row's length: that of the records lent, or now and then no whole records.
    fn row_len(&mut self, aim: Aim) -> usize {
        let right = aim.chips * RECORD_BYTES;
        if !aim.odd || !self.rng.one_in(8) {
            return right;
        }
        let (part, most) = (1 + self.rng.below(RECORD_BYTES - 1), PLACES * RECORD_BYTES);
        let more = self.rng.pick(&[1, RECORD_BYTES - 1, part, RECORD_BYTES / 2]);
        let less = right.saturating_sub(more);
        self.rng.pick(&[less, (right + more).min(most + 1), aim.chips.max(1)])
    }

    fn bytes(&self, place: usize) -> usize {
        PARTS[self.parts[place]].bytes
    }

    /// The bytes of so many parts.
    fn sum(&self, chips: usize) -> usize {
        (0..chips).map(|place| self.bytes(place)).sum()
    }

    /// The array's length: the sum of the parts lent, or now and then a byte or a part more or less, or one chip's.
    fn array_len(&mut self, aim: Aim) -> usize {
        let (right, most) = (self.sum(aim.chips), self.sum(PLACES));
        if !aim.odd || !self.rng.one_in(3) {
            return right;
        }
        let (any, one) = (self.rng.below(PLACES), self.rng.below(aim.chips.max(1)));
        let (of_any, of_one) = (self.bytes(any), self.bytes(one));
        let near = self.rng.pick(&[right + 1, right.saturating_sub(1)]);
        let by_part = self.rng.pick(&[right + of_any, right.saturating_sub(of_one)]);
        let rows = self.rng.pick(&[aim.chips * of_one, self.sum(any), self.sum(self.chips)]);
        let anything = self.rng.below(most);
        let lengths = [near, near, near, by_part, by_part, of_one, rows, 0, anything];
        self.rng.pick(&lengths).min(most + 1)
    }

    /// Records that are mostly not sound, in one place or in two: in the row, or just behind it.
    fn damaged(&mut self, now: &[Record], chips: usize) -> Vec<(usize, Packed)> {
        let (one, other) = (self.rng.below(chips.max(1)), self.rng.below(PLACES));
        let last = chips.max(1) - 1;
        let place = self.rng.pick(&[one, one, self.last, last, 0, chips.min(PLACES - 1)]);
        let places = if self.rng.one_in(4) { vec![place, other] } else { vec![place] };
        places.into_iter().map(|place| (place, self.calls[place].damaged(&now[place]))).collect()
    }

    /// Other sound records in a place or in all.
    fn others(&mut self) -> Vec<(usize, Packed)> {
        let records = self.sound_records().into_iter().map(|record| record.pack()).enumerate();
        let one = self.rng.below(PLACES);
        let all = self.rng.one_in(2);
        records.filter(|(place, _)| all || *place == one).collect()
    }

    /// Two records in each other's place, so that the chips' bytes begin elsewhere and the sum stays.
    fn exchanged(&mut self, now: &[Record]) -> Vec<(usize, Packed)> {
        let [one, other] = [0; 2].map(|_| self.rng.below(self.chips));
        vec![(one, now[other].pack()), (other, now[one].pack())]
    }
}

/// The parts of a bus: mostly the bench part, some of the other small ones, and seldom larger.
pub fn parts(rng: &mut Rng) -> Vec<usize> {
    let chips = rng.pick(&[1, 2, 2, 3, 3, 4, 5, 6, 7, 8, 8]);
    let few = rng.pick(&[&[0][..], &[0, 0, 0, 1, 5], &[0, 0, 0, 6], &[0, 0, 0, 0, 0, 1, 2, 5, 6]]);
    (0..chips).map(|_| rng.pick(few)).collect()
}
