//! Random episodes over all seven parts, faults that they see, and what must have come often.

use rig::compare::{episode, Rules, Source, Tally, PAPER};
use rig::model::{CODES, PARTS};
use rig::rng::Rng;
use rig::{number, tell};

pub const SEED: u64 = 1;

/// How often what is to be seen must have come.
pub const OFTEN: u64 = 20;

/// The calls of one episode, and the share of all calls, by part.
pub struct Plan {
    pub episode: [u64; PARTS.len()],
    pub share: [u64; PARTS.len()],
}

/// Runs one episode after the other over all parts by their shares: at least so many calls. RIG_SEED makes them
/// others. An episode is told its part, its calls and its seed.
pub fn each_episode(
    what: &str,
    calls: u64,
    plan: &Plan,
    mut run: impl FnMut(usize, u64, u64) -> Result<(), String>,
) {
    let seed = number("RIG_SEED", SEED);
    tell(&format!("{what}: seed {seed}, at least {calls} calls"));
    let mut seeds = Rng::new(seed);
    let (all, mut shares, mut made) = (plan.share.iter().sum::<u64>(), 0, 0);
    for (part, share) in plan.share.into_iter().enumerate() {
        shares += share;
        while made < calls * shares / all {
            run(part, plan.episode[part], seeds.draw()).unwrap_or_else(|why| panic!("{why}"));
            made += plan.episode[part];
        }
    }
}

/// Library and model compared over at least so many calls.
pub fn compared<S: Source>(what: &str, calls: u64, plan: &Plan) -> Tally {
    let mut tally = Tally::default();
    each_episode(what, calls, plan, |part, calls, seed| {
        episode::<S>(part, calls, seed, PAPER, &mut tally)
    });
    tell(&format!("{what}: {}", tally.show()));
    tally
}

/// One of so many episodes on these parts in turn finds a difference.
pub fn differs(
    name: &str,
    plan: &Plan,
    parts: &[usize],
    episodes: usize,
    mut run: impl FnMut(usize, u64, u64) -> Result<(), String>,
) {
    let mut seeds = Rng::new(SEED);
    let parts = parts.iter().cycle().take(episodes);
    let seen = parts.into_iter().any(|part| run(*part, plan.episode[*part], seeds.draw()).is_err());
    assert!(seen, "{name} was not seen in {episodes} episodes");
}

/// With a fault in the model the same comparison finds a difference, in one of so many episodes on these parts in
/// turn.
pub fn sees<S: Source>(name: &str, rules: Rules, plan: &Plan, parts: &[usize], episodes: usize) {
    let mut tally = Tally::default();
    differs(name, plan, parts, episodes, |part, calls, seed| {
        episode::<S>(part, calls, seed, rules, &mut tally)
    });
}

/// Each of these numbers came often.
pub fn assert_often(what: &str, times: &[u64], numbers: impl IntoIterator<Item = u8>) {
    for number in numbers {
        let times = times[usize::from(number)];
        assert!(times >= OFTEN, "{what} {number} ({number:02X}) came {times} times only");
    }
}

/// Each of the chip's own numbers came often, and each instruction was executed often.
pub fn assert_chip_often(chip: &[u64], executed: &[u64]) {
    assert_often("the chip's number", chip, [0].into_iter().chain(11..=19));
    assert_often("an executed instruction", executed, CODES);
}
