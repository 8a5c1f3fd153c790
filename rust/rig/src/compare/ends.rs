//! How cycles went on and ended in a comparison, by kind.

use std::cmp::Ordering;
use std::collections::BTreeMap;

use super::{Call, Mode, Record, Seen, Step};
use crate::model::Part;

/// What can become of a cycle: three ways of waiting first.
const WAYS: [&str; 10] = [
    "waited in",
    "waited just out",
    "waited beyond",
    "powered up",
    "cut",
    "cut in its last tick",
    "cut with a mask of 00",
    "cut with a mask of FF",
    "cut with a yes",
    "cut with a no",
];

/// The kinds by number, from 1 on; an M25P part has the first four.
const KINDS: [&str; 7] = [
    "program",
    "sector erase",
    "bulk erase",
    "settings",
    "page write",
    "page erase",
    "subsector erase",
];

/// How often each came, by way and kind.
#[derive(Default)]
pub struct Ends(BTreeMap<(&'static str, u8), u64>);

impl Ends {
    /// Counts a call that was carried out on a busy record.
    pub fn count(&mut self, step: &Step, seen: &Seen, lent: &Record) {
        let Mode::Busy(left, cycle) = lent.mode else { return };
        if seen.answer() == 0 {
            for way in ways(&step.call, left) {
                *self.0.entry((way, cycle.kind())).or_default() += 1;
            }
        }
    }

    /// Counts a wait within a batch, where a cycle has no other way.
    pub fn wait(&mut self, ticks: u32, lent: &Record) {
        if let Mode::Busy(left, cycle) = lent.mode {
            *self.0.entry((waited(ticks, left), cycle.kind())).or_default() += 1;
        }
    }

    fn times(&self, way: &'static str, kind: usize) -> u64 {
        self.0.get(&(way, kind as u8 + 1)).copied().unwrap_or(0)
    }

    /// What came less than so many times, of the part's kinds.
    pub fn seldom(&self, times: u64, part: &Part) -> Vec<String> {
        self.seldom_of(&WAYS, times, part)
    }

    /// The same of the ways of waiting alone.
    pub fn seldom_waited(&self, times: u64, part: &Part) -> Vec<String> {
        self.seldom_of(&WAYS[..3], times, part)
    }

    fn seldom_of(&self, ways: &[&'static str], times: u64, part: &Part) -> Vec<String> {
        let all = ways.iter().flat_map(|way| (0..part.kinds()).map(move |kind| (*way, kind)));
        let seldom = all.filter(|(way, kind)| self.times(way, *kind) < times);
        seldom.map(|(way, kind)| format!("{} {way}", KINDS[kind])).collect()
    }

    pub fn show(&self) -> String {
        let times = |way| (0..KINDS.len()).map(move |kind| self.times(way, kind)).collect();
        let came = WAYS.map(|way| (way, times(way)));
        let came =
            came.into_iter().filter(|(_, times): &(_, Vec<u64>)| times.iter().any(|n| *n > 0));
        let ways: Vec<String> = came.map(|(way, times)| format!("{way} {times:?}")).collect();
        format!("cycles ({}): {}", KINDS.join(", "), ways.join("; "))
    }
}

/// The way that a wait is, with so many ticks left.
fn waited(ticks: u32, left: u32) -> &'static str {
    match ticks.cmp(&left) {
        Ordering::Less => "waited in",
        Ordering::Equal => "waited just out",
        Ordering::Greater => "waited beyond",
    }
}

/// The ways that a call is, with so many ticks left.
fn ways(call: &Call, left: u32) -> Vec<&'static str> {
    match call {
        Call::Wait(ticks) => vec![waited(*ticks, left)],
        Call::PowerUp => vec!["powered up"],
        Call::Loss { mask, yes } => {
            let all = |byte: u8| mask.iter().all(|of_mask| *of_mask == byte);
            let mut ways = vec!["cut", if *yes == 0 { "cut with a no" } else { "cut with a yes" }];
            ways.extend((left == 1).then_some("cut in its last tick"));
            ways.extend(all(0x00).then_some("cut with a mask of 00"));
            ways.extend(all(0xFF).then_some("cut with a mask of FF"));
            ways
        }
        _ => vec![],
    }
}
