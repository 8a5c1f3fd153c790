//! Random calls on a chip of libm25p.a, or on the model with a fault in it, from one start: what stays.

use rig::compare::{Call, Pair, Rules, Seen, Side, Source, Step, Tally};
use rig::model::{Record, RECORD_BYTES};
use rig::rng::Rng;

/// Calls from one start.
const CALLS: usize = 1_000;

/// A chip on which the calls are made.
pub trait Tried {
    fn new(start: Record, rules: Rules, rng: &mut Rng) -> Self;
    fn step(&mut self, step: &Step) -> Result<Seen, String>;
    fn side(&self) -> &Side;
}

/// The library; the model beside it tells what the chip answered within a run of raw pins or a batch.
impl Tried for Pair {
    fn new(start: Record, rules: Rules, rng: &mut Rng) -> Pair {
        Pair::new(start, rules, rng)
    }

    fn step(&mut self, step: &Step) -> Result<Seen, String> {
        self.step(step, &mut Tally::default())
    }

    fn side(&self) -> &Side {
        &self.real
    }
}

/// The model alone, to put a fault into it.
pub struct Modelled {
    side: Side,
    rules: Rules,
}

impl Tried for Modelled {
    fn new(start: Record, rules: Rules, rng: &mut Rng) -> Modelled {
        Modelled { side: Side::new(start, rng), rules }
    }

    fn step(&mut self, step: &Step) -> Result<Seen, String> {
        self.side.prepare(step);
        Ok(self.side.model_call(step, self.rules))
    }

    fn side(&self) -> &Side {
        &self.side
    }
}

/// A call that was made: its place in the list, what was asked of which record, and the chip at the start and now.
pub struct Made<'a> {
    pub call: usize,
    pub step: &'a Step,
    pub seen: &'a Seen,
    pub before: &'a Record,
    pub was: &'a Side,
    pub is: &'a Side,
}

/// Random calls that are allowed, on the record itself and on no other.
fn asked(source: &mut impl Source, now: &Record, allowed: fn(&mut Step) -> bool) -> Step {
    loop {
        let mut step = source.step(now);
        if step.record.is_none() && allowed(&mut step) {
            return step;
        }
    }
}

/// Many calls from one start: what did not stay, in words.
pub fn endures<S: Source, T: Tried>(
    start: Record,
    seed: u64,
    rules: Rules,
    allowed: fn(&mut Step) -> bool,
    mut look: impl FnMut(Made) -> Result<(), &'static str>,
) -> Result<(), String> {
    let mut rng = Rng::new(seed);
    let mut source = S::new(start.part as usize, rng.draw());
    let mut chip = T::new(start, rules, &mut rng);
    let was = chip.side().clone();
    for call in 1..=CALLS {
        let told = |what: &str| format!("{start:?}, seed {seed}, call {call}: {what}");
        let before = Record::unpack(&chip.side().record[..RECORD_BYTES]).expect("a sound record");
        let step = asked(&mut source, &before, allowed);
        let seen = chip.step(&step).map_err(|difference| told(&difference))?;
        let (step, seen, before, was, is) = (&step, &seen, &before, &was, chip.side());
        look(Made { call, step, seen, before, was, is }).map_err(told)?;
    }
    Ok(())
}

/// How often each answer of the chip or the host side came, those within a run of raw pins, a batch or a report singly.
#[derive(Clone, Copy)]
pub struct Answers([u64; 64]);

impl Answers {
    pub fn none() -> Answers {
        Answers([0; 64])
    }

    pub fn count(&mut self, made: &Made) {
        match made.step.call {
            Call::Pins { .. } | Call::Batch { .. } | Call::Report { .. } => {
                made.seen.chip.iter().for_each(|one| self.0[one.answer as usize] += 1);
            }
            _ => self.0[made.seen.answer() as usize] += 1,
        }
    }

    /// Each of these numbers came often.
    pub fn often(&self, part: usize, numbers: &[usize]) {
        for number in numbers {
            let times = self.0[*number];
            assert!(times >= 20, "part {part}: answer {number} came {times} times only");
        }
    }
}
