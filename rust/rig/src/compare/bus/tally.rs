//! What came up in a comparison of buses, so that a test can see that nothing was left out.

use std::collections::BTreeMap;

use super::{Call, Side, Step};
use crate::bus_model::{bytes, chips, sound, sum, MOST_CHIPS};
use crate::model::{full_address, Cycle, Mode, Record, BE, PP, READ, RECORD_BYTES, WREN};

/// A call that was answered, and what it met.
pub struct Met<'a> {
    step: &'a Step,
    word: u64,
    /// The row as it was lent, and the records in it; none where one is not sound.
    row: &'a [u8],
    records: Vec<Option<Record>>,
    before: &'a Side,
    after: &'a Side,
}

impl<'a> Met<'a> {
    pub fn new(step: &'a Step, word: u64, before: &'a Side, after: &'a Side) -> Met<'a> {
        let row = &before.row()[..step.row_len];
        let records = before.records().take(chips(row)).collect();
        Met { step, word, row, records, before, after }
    }

    fn answer(&self) -> u8 {
        self.word as u8
    }

    fn is(&self, answer: u8) -> bool {
        self.answer() == answer
    }

    fn chips(&self) -> usize {
        chips(self.row)
    }

    /// What is sent to which chip, if anything is.
    fn sent(&self) -> Option<(u32, &[u8])> {
        match &self.step.call {
            Call::Transact { chip, sent, .. } => Some((*chip, sent)),
            Call::Wait(_) => None,
        }
    }

    /// The ticks of a wait that was carried out.
    fn waited(&self) -> Option<u32> {
        match self.step.call {
            Call::Wait(ticks) if self.is(0) => Some(ticks),
            _ => None,
        }
    }

    /// The chip of a transaction that was refused with 52, which is such, of so many.
    fn not_there(&self, such: impl FnOnce(usize, usize) -> bool) -> bool {
        self.is(52) && self.sent().is_some_and(|sent| such(sent.0 as usize, self.chips()))
    }

    /// Whether a record at such a place is not sound, the first argument; the second is the chosen one.
    fn unsound(&self, such: impl Fn(usize, usize) -> bool) -> bool {
        let chosen = self.sent().map_or(usize::MAX, |sent| sent.0 as usize);
        (0..self.chips()).any(|at| self.records[at].is_none() && such(at, chosen))
    }

    /// Whether such a record alone is not sound, and the call is refused for it.
    fn unsound_alone(&self, such: impl Fn(usize, usize) -> bool) -> bool {
        self.is(6)
            && self.unsound(such)
            && self.records.iter().filter(|record| record.is_none()).count() == 1
    }

    /// By how many bytes the array is longer than the sum of the parts.
    fn longer(&self) -> isize {
        self.step.array_len as isize - sum(self.row) as isize
    }

    /// Whether the array is refused, and it is longer by so many bytes as a part in such a place has.
    fn longer_by_part(&self, sign: isize) -> bool {
        let mut parts = self.row.chunks_exact(RECORD_BYTES).map(bytes);
        self.is(53) && parts.any(|bytes| self.longer() == sign * bytes as isize)
    }

    /// Whether more than 65,536 bytes are sent, there are more than 7 further pulses, or the response is short.
    fn host(&self) -> [bool; 3] {
        let Call::Transact { sent, pulses, .. } = &self.step.call else { return [false; 3] };
        [sent.len() > 65_536, *pulses > 7, self.step.response.len < sent.len()]
    }

    /// The chosen place and its record, where the transaction was answered by the chip.
    fn chosen(&self) -> Option<(usize, &Record)> {
        let place = self.sent().filter(|_| matches!(self.answer(), 0 | 11..=19))?.0 as usize;
        Some((place, self.records[place].as_ref()?))
    }

    /// Whether the code was executed by a chip that is such: its place, and how many there are.
    fn executed(&self, code: u8, such: impl Fn(usize, usize) -> bool) -> bool {
        let code = self.sent().is_some_and(|sent| sent.1.first() == Some(&code));
        self.is(0) && code && self.chosen().is_some_and(|chosen| such(chosen.0, self.chips()))
    }

    /// Whether a transaction was executed beside a chip that is such.
    fn beside(&self, such: fn(&Record) -> bool) -> bool {
        let Some((place, _)) = self.chosen().filter(|_| self.is(0)) else { return false };
        let mut others = (0..self.chips()).filter(|other| *other != place);
        others.any(|other| self.records[other].as_ref().is_some_and(such))
    }

    /// Whether a read went beyond the chip's last byte, with a chip behind.
    fn rolled_over(&self) -> bool {
        self.executed(READ, |place, chips| place + 1 < chips)
            && self.sent().zip(self.chosen()).is_some_and(|((_, sent), (_, record))| {
                let bytes = record.figures().bytes;
                full_address(sent) % bytes + sent.len() - 4 > bytes
            })
    }

    /// How many ticks are left of each chip's cycle.
    fn left(&self) -> impl Iterator<Item = Option<u32>> + '_ {
        self.records.iter().map(|record| match record.as_ref()?.mode {
            Mode::Busy(left, _) => Some(left),
            _ => None,
        })
    }

    /// How many cycles a wait ended, and how many it did not.
    fn ended(&self) -> Option<(usize, usize)> {
        let ticks = self.waited()?;
        let ended = self.left().flatten().filter(|left| *left <= ticks).count();
        Some((ended, self.left().flatten().count() - ended))
    }

    /// Whether a wait ended the cycle of a chip that is such: its place, how many there are, and the cycle.
    fn ends(&self, such: fn(usize, usize, &Cycle) -> bool) -> bool {
        let Some(ticks) = self.waited() else { return false };
        self.records.iter().enumerate().any(|(place, record)| {
            let mode = record.as_ref().map(|record| record.mode);
            matches!(mode, Some(Mode::Busy(left, cycle))
                if left <= ticks && such(place, self.chips(), &cycle))
        })
    }

    /// Whether the bytes of a chip that is such have changed: its place, and how many there are.
    fn changed(&self, such: fn(usize, usize) -> bool) -> bool {
        let Some(ticks) = self.waited().filter(|ticks| *ticks > 0) else { return false };
        let mut ends = self.left().map(|left| left.is_some_and(|left| left <= ticks));
        let changed = |place| self.before.chip(place).1 != self.after.chip(place).1;
        (0..self.chips())
            .any(|place| ends.next() == Some(true) && such(place, self.chips()) && changed(place))
    }

    /// Whether some busy chip stands behind one that is not.
    fn busy_behind_idle(&self) -> bool {
        let busy: Vec<bool> = self.left().map(|left| left.is_some()).collect();
        self.waited().is_some_and(|ticks| ticks > 0)
            && busy.windows(2).any(|two| two == [false, true])
    }

    /// Whether each chip is of another part than the one before it.
    fn mixed(&self) -> bool {
        let parts: Vec<u8> = self.row.chunks_exact(RECORD_BYTES).map(|record| record[0]).collect();
        self.is(0) && parts.len() > 1 && parts.windows(2).all(|two| two[0] != two[1])
    }
}

/// What is counted.
type Event = (&'static str, fn(&Met) -> bool);

/// What was refused, and what else would have refused it.
const REFUSED: [Event; 43] = [
    ("a row of no bytes", |m| m.is(51) && m.step.row_len == 0),
    ("a row of nine sound records", |m| {
        m.is(51) && m.chips() == 9 && m.records.iter().all(|record| record.is_some())
    }),
    ("a row of nine that would fit its array", |m| {
        m.is(51) && m.chips() == 9 && m.longer() == 0 && !m.unsound(|_, _| true)
    }),
    ("a row of nine, one not sound", |m| m.is(51) && m.chips() == 9 && m.unsound(|_, _| true)),
    ("51 before 52", |m| m.is(51) && m.sent().is_some_and(|sent| sent.0 as usize >= m.chips())),
    ("51 before 53", |m| m.is(51) && m.longer() != 0),
    ("a byte short of whole records", |m| m.is(8) && m.step.row_len % RECORD_BYTES == 303),
    ("a byte more than whole records", |m| m.is(8) && m.step.row_len % RECORD_BYTES == 1),
    ("8 below one record", |m| m.is(8) && m.chips() == 0),
    ("8 above eight records", |m| m.is(8) && m.chips() >= MOST_CHIPS),
    ("8 before 52", |m| m.is(8) && m.sent().is_some_and(|sent| sent.0 as usize >= m.chips())),
    ("8 before 6", |m| m.is(8) && m.unsound(|_, _| true)),
    ("chip just behind the row", |m| m.not_there(|chip, chips| chip == chips)),
    ("chip 8 of eight", |m| m.not_there(|chip, chips| chip == 8 && chips == 8)),
    ("a chip below 8 that is not there", |m| m.not_there(|chip, _| chip < 8)),
    ("chip 255", |m| m.not_there(|chip, _| chip == 255)),
    ("chip 2^32 - 1", |m| m.not_there(|chip, _| chip == u32::MAX as usize)),
    ("a chip of 9 to 31 bits", |m| {
        m.not_there(|chip, chips| chip > 255 && chip >> 31 == 0 && chip % 256 < chips)
    }),
    ("a chip of 17 to 31 bits", |m| {
        m.not_there(|chip, chips| chip >> 16 != 0 && chip >> 31 == 0 && chip % 65_536 < chips)
    }),
    ("a chip with the highest bit", |m| {
        m.not_there(|chip, chips| chip >> 31 == 1 && chip % (1 << 31) < chips)
    }),
    ("52 before 6", |m| m.is(52) && m.unsound(|_, _| true)),
    ("52 before 53", |m| m.is(52) && m.longer() != 0 && !m.unsound(|_, _| true)),
    ("52, all else right", |m| m.is(52) && m.longer() == 0 && !m.unsound(|_, _| true)),
    ("the chosen one not sound", |m| m.unsound_alone(|at, chosen| at == chosen)),
    ("one before the chosen not sound", |m| m.unsound_alone(|at, chosen| at < chosen)),
    ("one behind the chosen not sound", |m| m.unsound_alone(|at, chosen| at > chosen)),
    ("the last of eight not sound", |m| m.chips() == 8 && m.unsound_alone(|at, _| at == 7)),
    ("the first of eight not sound", |m| m.chips() == 8 && m.unsound_alone(|at, _| at == 0)),
    ("not sound behind the row", |m| {
        m.is(0) && m.step.records.iter().any(|(at, one)| *at >= m.chips() && !sound(one))
    }),
    ("waited for, and the first not sound", |m| {
        m.sent().is_none() && m.unsound_alone(|at, _| at == 0)
    }),
    ("waited for, and a later one not sound", |m| {
        m.sent().is_none() && m.unsound_alone(|at, _| at > 0)
    }),
    ("6, and a busy one before", |m| {
        let busy = m.left().position(|left| left.is_some()).unwrap_or(usize::MAX);
        m.sent().is_none() && m.unsound_alone(|at, _| at > busy)
    }),
    ("6 before 53", |m| m.is(6) && m.longer() != 0),
    ("array a byte short", |m| m.is(53) && m.longer() == -1),
    ("array a byte long", |m| m.is(53) && m.longer() == 1),
    ("array a part short", |m| m.longer_by_part(-1)),
    ("array a part long", |m| m.longer_by_part(1)),
    ("array of no bytes", |m| m.is(53) && m.step.array_len == 0),
    ("array of the chosen one alone", |m| {
        let chosen = m.sent().and_then(|sent| m.records.get(sent.0 as usize).copied().flatten());
        m.is(53) && chosen.is_some_and(|one| one.figures().bytes == m.step.array_len)
    }),
    ("53 before 3", |m| m.is(53) && m.host() == [true, false, false]),
    ("53 before 4", |m| m.is(53) && m.host() == [false, true, false]),
    ("53 before 5", |m| m.is(53) && m.host() == [false, false, true]),
    ("53 of a busy row waited for", |m| {
        m.is(53) && m.sent().is_none() && m.left().flatten().count() > 0
    }),
];

/// What was carried out.
const CARRIED_OUT: [Event; 35] = [
    ("parts all unlike", |m| m.mixed()),
    ("bits missing behind the first", |m| {
        m.word >> 48 != 0 && m.executed(PP, |place, _| place > 0)
    }),
    ("driven behind the first", |m| m.executed(READ, |place, _| place > 0) && m.word >> 16 != 0),
    ("a read that rolls over", |m| m.rolled_over()),
    ("programmed first", |m| m.executed(PP, |place, chips| place == 0 && chips > 1)),
    ("programmed last", |m| m.executed(PP, |place, chips| place > 0 && place + 1 == chips)),
    ("programmed between", |m| m.executed(PP, |place, chips| place > 0 && place + 1 < chips)),
    ("programmed last of eight", |m| m.executed(PP, |place, _| place == 7)),
    ("bulk erase among others", |m| m.executed(BE, |_, chips| chips > 1)),
    ("enabled beside a latch reset", |m| m.executed(WREN, |_, _| true) && m.beside(|r| !r.latch)),
    ("beside a busy chip", |m| m.beside(|r| r.cycle().is_some())),
    ("beside a deep chip", |m| m.beside(|r| r.mode == Mode::Deep)),
    ("beside a chip with its latch set", |m| m.beside(|r| r.latch)),
    ("beside a chip with protection", |m| m.beside(|r| r.bp > 0)),
    ("beside a chip with locks", |m| m.beside(|r| r.locks != [0; 8])),
    ("busy itself, the others not", |m| {
        m.chips() > 1 && m.is(12) && m.left().flatten().count() == 1
    }),
    ("waited, none busy", |m| m.ended() == Some((0, 0))),
    ("waited, one ended alone", |m| m.ended() == Some((1, 0))),
    ("waited, some ended and some not", |m| m.ended().is_some_and(|(a, b)| a > 0 && b > 0)),
    ("waited, several ended", |m| m.ended().is_some_and(|(a, _)| a > 1)),
    ("waited, several not ended", |m| m.ended().is_some_and(|(a, b)| a == 0 && b > 1)),
    ("waited, busy behind idle", |m| m.busy_behind_idle()),
    ("ended first", |m| m.ends(|place, chips, _| place == 0 && chips > 1)),
    ("ended last", |m| m.ends(|place, chips, _| place > 0 && place + 1 == chips)),
    ("ended last of eight", |m| m.ends(|place, _, _| place == 7)),
    ("program ended behind the first", |m| m.ends(|at, _, c| at > 0 && c.kind() == 1)),
    ("sector erase ended behind the first", |m| m.ends(|at, _, c| at > 0 && c.kind() == 2)),
    ("bulk erase ended between", |m| m.ends(|at, n, c| at > 0 && at + 1 < n && c.kind() == 3)),
    ("settings ended behind the first", |m| m.ends(|at, _, c| at > 0 && c.kind() == 4)),
    ("page write ended behind the first", |m| m.ends(|at, _, c| at > 0 && c.kind() == 5)),
    ("page erase ended behind the first", |m| m.ends(|at, _, c| at > 0 && c.kind() == 6)),
    ("subsector erase ended behind the first", |m| m.ends(|at, _, c| at > 0 && c.kind() == 7)),
    ("bytes of the first changed", |m| m.changed(|place, chips| place == 0 && chips > 1)),
    ("bytes of the last changed", |m| m.changed(|place, chips| place > 0 && place + 1 == chips)),
    ("bytes between changed", |m| m.changed(|place, chips| place > 0 && place + 1 < chips)),
];

/// The answers of a transaction, and of a wait.
const TRANSACT: [u8; 18] = [0, 3, 4, 5, 6, 8, 11, 12, 13, 14, 15, 16, 17, 18, 19, 51, 52, 53];
const WAIT: [u8; 5] = [0, 6, 8, 51, 53];

/// How often each came, by its name.
#[derive(Default)]
pub struct Buses {
    pub calls: u64,
    came: BTreeMap<String, u64>,
}

impl Buses {
    pub fn count(&mut self, met: &Met) {
        self.calls += 1;
        let events = REFUSED.iter().chain(&CARRIED_OUT).filter(|(_, is)| is(met));
        let mut came: Vec<String> = events.map(|(name, _)| name.to_string()).collect();
        let call = if met.sent().is_some() { "transact" } else { "wait" };
        came.push(answered(call, met.answer()));
        if met.is(0) {
            came.push(of_chips(call, met.chips()));
        }
        if let Some((place, _)) = met.chosen() {
            came.push(chosen(place));
        }
        came.into_iter().for_each(|name| *self.came.entry(name).or_default() += 1);
    }

    /// All that should come.
    fn wanted() -> Vec<String> {
        let events = REFUSED.iter().chain(&CARRIED_OUT).map(|(name, _)| name.to_string());
        let answers = TRANSACT.iter().map(|number| answered("transact", *number));
        let waits = WAIT.iter().map(|number| answered("wait", *number));
        let rows = |call| (1..=MOST_CHIPS).map(move |chips| of_chips(call, chips));
        let places = (0..MOST_CHIPS).map(chosen);
        let all = events.chain(answers).chain(waits).chain(places);
        all.chain(rows("transact")).chain(rows("wait")).collect()
    }

    fn times(&self, name: &str) -> u64 {
        self.came.get(name).copied().unwrap_or(0)
    }

    /// What came less than so many times.
    pub fn seldom(&self, times: u64) -> Vec<String> {
        Self::wanted().into_iter().filter(|name| self.times(name) < times).collect()
    }

    /// All counts in a line.
    pub fn show(&self) -> String {
        let came = Self::wanted().into_iter().map(|name| format!("{name} {}", self.times(&name)));
        format!("{} calls; {}", self.calls, came.collect::<Vec<_>>().join(", "))
    }
}

fn answered(call: &str, number: u8) -> String {
    format!("{call} {number}")
}

fn of_chips(call: &str, chips: usize) -> String {
    format!("{call} with {chips} chips")
}

fn chosen(place: usize) -> String {
    format!("chip {place} chosen")
}
