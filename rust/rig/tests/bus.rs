//! Several chips on one bus against the model, and what holds of the calls themselves. RIG_CALLS and RIG_SEED make it
//! longer or another.

#[path = "support/parts.rs"]
#[allow(dead_code)]
mod parts;

use parts::{OFTEN, SEED};
use rig::bus_generate;
use rig::bus_model::BusModel;
use rig::compare::bus::{episode, Buses};
use rig::faults;
use rig::model::Paper;
use rig::rng::Rng;
use rig::{number, tell};

const DEFAULT_CALLS: u64 = 100_000;

/// The calls of one episode, and of one in twenty.
const EPISODE: u64 = 100;
const LONG: u64 = 1_000;

#[test]
fn calls_equal_model() {
    let (calls, seed) = (number("RIG_CALLS", DEFAULT_CALLS), number("RIG_SEED", SEED));
    tell(&format!("bus: seed {seed}, at least {calls} calls"));
    let mut tally = Buses::default();
    let mut seeds = Rng::new(seed);
    while tally.calls < calls {
        let parts = bus_generate::parts(&mut seeds);
        let calls = if seeds.one_in(20) { LONG } else { EPISODE };
        let same = episode(&parts, calls, seeds.draw(), &Paper, &mut tally);
        same.unwrap_or_else(|why| panic!("{why}"));
    }
    tell(&format!("bus: {}", tally.show()));
    assert_eq!(tally.seldom(OFTEN), [""; 0], "what came too seldom");
}

/// With a fault in the model the comparison finds a difference, in one of so many episodes; the calls until then.
fn sees(name: &str, fault: &dyn BusModel, episodes: usize) -> u64 {
    let mut seeds = Rng::new(SEED);
    let mut tally = Buses::default();
    let seen = (0..episodes).any(|_| {
        let parts = bus_generate::parts(&mut seeds);
        episode(&parts, EPISODE, seeds.draw(), fault, &mut tally).is_err()
    });
    assert!(seen, "{name} was not seen in {episodes} episodes");
    tally.calls
}

#[test]
fn faults_are_seen() {
    let calls: Vec<u64> = faults::BUS.iter().map(|(name, fault)| sees(name, *fault, 300)).collect();
    let (all, most) = (calls.iter().sum::<u64>(), calls.iter().max().unwrap());
    tell(&format!("bus: {} faults seen in {all} calls, in {most} at most", calls.len()));
}
