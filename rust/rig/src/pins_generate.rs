//! Random runs of raw pins: transactions clocked cleanly, disturbed, wandering, or no more than noise.

use crate::compare::{Call, Filled, Source, Step, SPARE};
use crate::generate::Generator;
use crate::model::*;
use crate::pins_model::*;
use crate::probe::{Probe, SpiMode};
use crate::rng::Rng;

/// A transaction that a run is to make.
struct Plan {
    sent: Vec<u8>,
    pulses: u32,
    w: bool,
}

pub struct PinsGenerator {
    rng: Rng,
    calls: Generator,
}

impl Source for PinsGenerator {
    fn new(part: usize, seed: u64) -> PinsGenerator {
        let mut rng = Rng::new(seed);
        let calls = Generator::new(part, rng.draw());
        PinsGenerator { rng, calls }
    }

    fn sound_record(&mut self) -> Record {
        self.calls.sound_record()
    }

    /// Half the runs start from another record.
    fn step(&mut self, now: &Record) -> Step {
        let step = self.calls.step(now);
        let other = self.rng.one_in(2).then(|| self.sound_record().pack());
        let record = step.record.or(other);
        let given = record.and_then(|record| Record::unpack(&record));
        let from = given.filter(|record| record.part == now.part).unwrap_or(*now);
        let mut samples = self.samples(from);
        if self.rng.one_in(12) && !samples.is_empty() {
            let odd = self.rng.pick(&[0x20, 0x40, 0x80, 0xE0]);
            let last = samples.len() - 1;
            let anywhere = self.rng.below(samples.len());
            samples[self.rng.pick(&[0, last, anywhere])] |= odd;
        }
        let n = samples.len();
        let behind = self.rng.below(40);
        let mut output_len = n + self.rng.pick(&[0, 0, 1, behind]);
        if self.rng.one_in(12) {
            output_len = self.rng.pick(&[0, n / 2, n.saturating_sub(1)]);
        }
        let filled = vec![Filled { bytes: self.rng.bytes(output_len + SPARE), len: output_len }];
        Step { call: Call::Pins { samples }, record, filled, ..step }
    }
}

impl PinsGenerator {
    fn samples(&mut self, from: Record) -> Vec<u8> {
        if self.rng.one_in(20) {
            let n = self.rng.below(200);
            return self.rng.bytes(n).iter().map(|byte| byte & 0x1F).collect();
        }
        let plans = self.plans(from);
        // A long transaction seldom gets through unless it is clocked cleanly: three in four are.
        let long = plans.iter().any(|plan| plan.sent.len() > 256);
        let kind = if long { self.rng.pick(&[0, 0, 0, 1]) } else { self.rng.below(4) };
        match kind {
            0 => self.clocked(&plans),
            1 => {
                let clean = self.clocked(&plans);
                self.disturbed(&clean)
            }
            _ => self.wandering(&plans),
        }
    }

    /// Transactions that have something to do in the states they are likely to meet.
    fn plans(&mut self, from: Record) -> Vec<Plan> {
        let mut now = from;
        let mut plans = Vec::new();
        for _ in 0..self.rng.below(6) {
            let mut call = self.calls.step(&now).call;
            let (mut sent, pulses, w) = loop {
                match call {
                    Call::Transact { sent, pulses, w } => break (sent, pulses % 8, w != 0),
                    _ => call = self.calls.step(&now).call,
                }
            };
            if !matches!(sent.first(), Some(&(PP | PW))) && !self.rng.one_in(30) {
                sent.truncate(self.rng.pick(&[6, 12, 30]));
            }
            sent.truncate(700);
            match (sent.first(), sent.len()) {
                (Some(&WREN), 1) => now.latch = true,
                (Some(&RES), _) => now.mode = Mode::Standby,
                (Some(&(WRDI | WRLR)), _) => now.latch = false,
                (Some(&(WRSR | PP | SE | BE | PW | PE | SSE)), _) if now.latch => {
                    now = now.busy(1, Cycle::BulkErase)
                }
                _ => {}
            }
            plans.push(Plan { sent, pulses, w });
        }
        plans
    }

    /// Clean clocking in mode 0 or 3; the last transaction may be unfinished.
    fn clocked(&mut self, plans: &[Plan]) -> Vec<u8> {
        let mode = self.rng.pick(&[SpiMode::Zero, SpiMode::Three]);
        let mut probe = Probe::new(mode, self.rng.pick(&[1, 1, 2, 3]));
        for plan in plans {
            probe.transaction(&plan.sent, plan.pulses, plan.w);
        }
        if let (Some(last), true) = (plans.last(), self.rng.one_in(4)) {
            probe.begin(&last.sent, last.pulses, last.w);
        }
        probe.samples
    }

    /// Clean samples with others put in between, changed or left out, more or less densely, or in a few places.
    fn disturbed(&mut self, clean: &[u8]) -> Vec<u8> {
        let few = 1 + clean.len() / 4;
        let seldom = self.rng.pick(&[4, 20, 100, 400, few, few]);
        let mut samples = Vec::new();
        let mut flipped = 0;
        for sample in clean {
            if self.rng.one_in(seldom) {
                match self.rng.below(8) {
                    0..=3 => self.paused(*sample, &mut samples),
                    4 => flipped ^= self.rng.pick(&[HOLD, HOLD, W, DATA, CLOCK]),
                    5 => flipped = 0,
                    6 => samples.push(sample ^ self.rng.pick(&[SELECT, HOLD, CLOCK, W])),
                    _ => continue,
                }
            }
            samples.push(sample ^ flipped);
        }
        samples
    }

    /// A stretch with Hold low, or a glitch of it, before this sample; the clock may run meanwhile.
    fn paused(&mut self, before: u8, samples: &mut Vec<u8>) {
        let mut levels = before;
        if self.rng.one_in(2) {
            levels ^= CLOCK;
        }
        for _ in 0..self.rng.below(6) {
            if self.rng.one_in(2) {
                levels ^= CLOCK;
            }
            if self.rng.one_in(30) {
                levels ^= SELECT;
            }
            let glitch = if self.rng.one_in(4) { HOLD } else { 0 };
            samples.push(levels & !HOLD | glitch);
        }
        if self.rng.one_in(2) {
            samples.push(before & !HOLD);
        }
    }

    /// Every pin goes its own way; data follows the plans as bits are taken, and Select mostly rises
    /// where a plan ends.
    fn wandering(&mut self, plans: &[Plan]) -> Vec<u8> {
        let clock = self.rng.pick(&[1, 1, 2, 3]);
        let hold = self.rng.pick(&[3, 10, 40, 400]);
        let mut pins = Pins::new(REST);
        let mut samples = Vec::new();
        let mut levels = REST;
        let mut begun = 0;
        let length = plans.iter().map(|plan| plan.sent.len() * 24 + 40).sum::<usize>() * clock;
        for _ in 0..length {
            if self.select_flips(&pins, plans.get(begun.max(1) - 1)) {
                levels ^= SELECT;
                begun += usize::from(levels & SELECT == 0);
            }
            if self.rng.one_in(clock) {
                levels ^= CLOCK;
            }
            let chance = if levels & HOLD == 0 { 4 } else { hold };
            if self.rng.one_in(chance) {
                levels ^= HOLD;
            }
            let starts = pins.selected() == (levels & SELECT != 0);
            let taken = if starts { 0 } else { pins.bits.len() };
            levels &= !(DATA | W);
            levels |= self.data_and_w(plans.get(begun.max(1) - 1), taken);
            Paper.sample(&mut pins, levels);
            samples.push(levels);
        }
        samples
    }

    fn select_flips(&mut self, pins: &Pins, plan: Option<&Plan>) -> bool {
        if !pins.selected() {
            return self.rng.one_in(3);
        }
        match plan {
            Some(plan) if pins.bits.len() >= plan.sent.len() * 8 + plan.pulses as usize => {
                self.rng.one_in(2)
            }
            _ => self.rng.one_in(600),
        }
    }

    /// The plan's next bit; W is mostly the plan's.
    fn data_and_w(&mut self, plan: Option<&Plan>, taken: usize) -> u8 {
        let planned = plan.and_then(|plan| plan.sent.get(taken / 8));
        let bit = planned.map_or(self.rng.one_in(2), |byte| byte >> (7 - taken % 8) & 1 == 1);
        let w = plan.is_none_or(|plan| plan.w) != self.rng.one_in(10);
        (if bit { DATA } else { 0 }) | if w { W } else { 0 }
    }
}
