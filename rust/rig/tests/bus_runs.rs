//! What a chip on a bus does is its own: among some neighbours, among others, alone on a bus and by the single calls it
//! gives the same answers, and is left the same. And a call leaves alone what is not its own. RIG_SEED makes the runs
//! others.

use m25p::calls;
use rig::bus_generate::{parts, BusGenerator};
use rig::bus_model::{BusModel, CHIP};
use rig::compare::bus::{Call, Side, Step};
use rig::compare::{Filled, SPARE};
use rig::faults;
use rig::model::{Record, Transaction, PARTS, RECORD_BYTES};
use rig::rng::Rng;
use rig::{number, tell};

const SEED: u64 = 1;

/// Who makes the calls: the library, or the model with a fault in it.
#[derive(Clone, Copy)]
enum Maker {
    Library,
    Faulty(&'static dyn BusModel),
}

impl Maker {
    /// A call on a bus: the 64 bits.
    fn call(self, side: &mut Side, step: &Step) -> u64 {
        match self {
            Maker::Library => side.call(step),
            Maker::Faulty(rules) => side.model_call(step, rules),
        }
    }

    /// The same call on a chip that is on no bus.
    fn single(self, record: &mut [u8], array: &mut [u8], call: &Call, response: &mut [u8]) -> u64 {
        match (self, call) {
            (Maker::Library, Call::Transact { sent, pulses, w, .. }) => {
                calls::transact(record, array, sent, *pulses, *w, response).bits()
            }
            (Maker::Library, Call::Wait(ticks)) => calls::wait(record, array, *ticks).bits(),
            (_, Call::Transact { sent, pulses, w, .. }) => {
                let t = Transaction { sent, pulses: *pulses, w: *w };
                CHIP.transact(record, array, t, response).word()
            }
            (_, Call::Wait(ticks)) => CHIP.wait(record, array, *ticks).word(),
        }
    }
}

/// A bus with one chip to be looked at among its neighbours.
struct Run {
    maker: Maker,
    side: Side,
    parts: Vec<usize>,
    place: usize,
    generator: BusGenerator,
}

impl Run {
    /// A bus with these parts, on it the chip in this place and random neighbours.
    fn new(maker: Maker, bus: (Vec<usize>, usize), chip: (&[u8], &[u8]), rng: &mut Rng) -> Run {
        let (parts, place) = bus;
        let mut generator = BusGenerator::new(&parts, rng.draw());
        let mut side = Side::new(&generator.sound_records()[..parts.len()], rng);
        side.put(place, chip.0, chip.1);
        Run { maker, side, parts, place, generator }
    }

    /// The records, which are of the parts of this bus.
    fn records(&self) -> Result<Vec<Record>, String> {
        let records: Option<Vec<Record>> = self.side.records().collect();
        let records = records.ok_or("a record is not sound")?;
        let same =
            records.iter().map(|record| usize::from(record.part)).eq(self.parts.iter().copied());
        same.then_some(records).ok_or("a record is of another part".to_string())
    }

    /// A call on the whole bus: the 64 bits, and what became of the response.
    fn call(&mut self, call: Call, response: Filled) -> (u64, Vec<u8>) {
        let array_len = self.parts.iter().map(|part| PARTS[*part].bytes).sum();
        let row_len = self.parts.len() * RECORD_BYTES;
        let step = Step { call, records: vec![], row_len, array_len, response };
        self.side.prepare(&step);
        (self.maker.call(&mut self.side, &step), self.side.response().to_vec())
    }

    /// The same call for the chip as on another bus, by its number on this one.
    fn chip_call(&mut self, call: &Call, response: &Filled) -> (u64, Vec<u8>) {
        let mut call = call.clone();
        if let Call::Transact { chip, .. } = &mut call {
            *chip = self.place as u32;
        }
        self.call(call, Filled { bytes: response.bytes.clone(), len: response.len })
    }

    /// Some transactions of the neighbours.
    fn neighbours(&mut self, rng: &mut Rng) -> Result<(), String> {
        for _ in 0..rng.below(4) {
            let place = rng.below(self.parts.len());
            if place != self.place {
                let now = self.records()?;
                let (call, response) = self.generator.transaction(&now, place, place as u32, false);
                self.call(call, response);
            }
        }
        Ok(())
    }
}

/// What came in the runs.
#[derive(Default)]
struct Came {
    calls: u64,
    executed: u64,
    ended: u64,
}

/// A bus with a chip of this part somewhere in it.
fn bus_with(part: usize, rng: &mut Rng) -> (Vec<usize>, usize) {
    let mut parts = parts(rng);
    let place = rng.below(parts.len());
    parts[place] = part;
    (parts, place)
}

/// One chip in four runs: among neighbours, among others in another place, alone on a bus, and on none.
struct Four {
    maker: Maker,
    rng: Rng,
    runs: [Run; 3],
    record: Vec<u8>,
    array: Vec<u8>,
}

impl Four {
    fn new(maker: Maker, seed: u64) -> Four {
        let mut rng = Rng::new(seed);
        let part = rng.pick(&[0, 0, 0, 0, 1, 2, 5, 6, 6]);
        let record = BusGenerator::new(&[part], rng.draw()).sound_records()[0].pack().to_vec();
        let array = rng.bytes(PARTS[part].bytes);
        let [some, others] = [(); 2].map(|_| bus_with(part, &mut rng));
        let runs = [some, others, (vec![part], 0)];
        let runs = runs.map(|bus| Run::new(maker, bus, (&record, &array), &mut rng));
        Four { maker, rng, runs, record, array }
    }

    /// A call that has something to do for a chip with this record, and its response.
    fn asked(&mut self, now: Record) -> (Call, Filled) {
        let lone = &mut self.runs[2].generator;
        if self.rng.one_in(if now.cycle().is_some() { 2 } else { 8 }) {
            return (lone.wait(&[now], 0), Filled { bytes: self.rng.bytes(SPARE), len: 0 });
        }
        lone.transaction(&[now], 0, 0, self.rng.one_in(8))
    }

    /// The next call for the chip in all four, behind others of its neighbours: the first difference in words.
    fn step(&mut self, came: &mut Came) -> Result<(), String> {
        for run in &mut self.runs {
            run.neighbours(&mut self.rng)?;
        }
        let now = Record::unpack(&self.record).ok_or("a record is not sound")?;
        let (call, filled) = self.asked(now);
        let mut response = filled.bytes.clone();
        let lent = &mut response[..filled.len];
        let word = self.maker.single(&mut self.record, &mut self.array, &call, lent);
        for run in &mut self.runs {
            let answered = run.chip_call(&call, &filled);
            let told = |what| format!("{what} on a bus of {:?}, chip {}", run.parts, run.place);
            if answered != (word, response.clone()) {
                return Err(told("another answer or response"));
            }
            if run.side.chip(run.place) != (&self.record[..], &self.array[..]) {
                return Err(told("another record or other bytes"));
            }
        }
        let waited = matches!(call, Call::Wait(_));
        came.calls += 1;
        came.executed += u64::from(word as u8 == 0 && !waited);
        came.ended += u64::from(waited && now.cycle().is_some() && self.record[4] == 0);
        Ok(())
    }
}

/// So many calls for a chip in four runs: the first difference in words.
fn same_in_all(maker: Maker, seed: u64, calls: usize, came: &mut Came) -> Result<(), String> {
    let mut four = Four::new(maker, seed);
    (0..calls).try_for_each(|_| four.step(came)).map_err(|what| format!("seed {seed}: {what}"))
}

/// Two runs that agree on a chip and on what is sent to it and waited agree on its answers, and so do the single calls.
#[test]
fn neighbours_do_not_matter() {
    let mut seeds = Rng::new(number("RIG_SEED", SEED));
    let mut came = Came::default();
    for _ in 0..150 {
        same_in_all(Maker::Library, seeds.draw(), 100, &mut came).unwrap();
    }
    let Came { calls, executed, ended } = came;
    tell(&format!(
        "bus: {calls} calls the same in four runs, {executed} executed, {ended} cycles ended"
    ));
    assert!(executed > 3_000 && ended > 500);
}

/// The faults of what chips do to each other, and of where their bytes are, in the model instead of the library.
#[test]
fn neighbours_matter_with_a_fault() {
    let kinds = ["Begins", "Waits(", "Waited(", "Reaches(", "Afterwards("];
    let such = |name: &&str| kinds.iter().any(|kind| name.starts_with(kind));
    let mut seen = 0;
    for (name, fault) in faults::BUS.iter().filter(|(name, _)| such(name)) {
        let mut seeds = Rng::new(SEED);
        let differs =
            |_| same_in_all(Maker::Faulty(*fault), seeds.draw(), 40, &mut Came::default()).is_err();
        assert!((0..300).any(differs), "{name} was not seen");
        seen += 1;
    }
    tell(&format!("bus: {seen} faults seen by runs that differ"));
}

/// Random calls on a bus: the first byte, in words, that a call should have left alone.
fn leaves_alone(maker: Maker, seed: u64, answers: &mut [u64; 64]) -> Result<(), String> {
    let mut rng = Rng::new(seed);
    let parts = parts(&mut rng);
    let mut generator = BusGenerator::new(&parts, rng.draw());
    let records = generator.sound_records();
    let mut side = Side::new(&records, &mut rng);
    let own: Vec<u8> = records.iter().map(|record| record.part).collect();
    let mut now = records;
    for _ in 0..100 {
        let step = generator.step(&now);
        let kept = side.clone();
        side.prepare(&step);
        let before = side.clone();
        let answer = maker.call(&mut side, &step) as u8;
        side.stayed(&step, answer, &before).map_err(|what| format!("seed {seed}: {what}"))?;
        answers[usize::from(answer)] += 1;
        let left: Option<Vec<Record>> = side.records().collect();
        match left.filter(|left| left.iter().map(|record| record.part).eq(own.iter().copied())) {
            Some(left) => now = left,
            None => side = kept,
        }
    }
    Ok(())
}

/// A refused call changes nothing, a transaction the chosen record alone, and no call a byte around what it is lent.
#[test]
fn other_bytes_stay() {
    let mut seeds = Rng::new(number("RIG_SEED", SEED));
    let mut answers = [0; 64];
    for _ in 0..200 {
        leaves_alone(Maker::Library, seeds.draw(), &mut answers).unwrap();
    }
    let numbers = [8, 51, 52, 6, 53, 3, 4, 5];
    let refused = numbers.map(|number| answers[number]);
    tell(&format!("bus: nothing changed with {numbers:?}: {refused:?}"));
    assert!(refused.into_iter().all(|times| times >= 20));
}

/// Faults that change what should stay, in the model instead of the library.
#[test]
fn other_bytes_change_with_a_fault() {
    let kinds = ["Reaches(", "RefusalFills(", "ExecutedThough(", "RefusesOnTheWay", "WaitsAsFar"];
    let names = ["record_to_place_0", "record_to_the_next", "record_to_all", "others_lose"];
    let names = [&names[..], &["others_tick", "program_at_once", "response_beyond_n"]].concat();
    let such = |name: &str| {
        let after = name.strip_prefix("Afterwards(").unwrap_or("");
        kinds.iter().any(|kind| name.starts_with(kind))
            || names.iter().any(|one| after.starts_with(one))
    };
    let found: Vec<_> = faults::BUS.iter().filter(|(name, _)| such(name)).collect();
    assert_eq!(found.len(), 22);
    for (name, fault) in found {
        let mut seeds = Rng::new(SEED);
        let differs = |_| leaves_alone(Maker::Faulty(*fault), seeds.draw(), &mut [0; 64]).is_err();
        assert!((0..100).any(differs), "{name} was not seen");
    }
}
