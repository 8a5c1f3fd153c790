//! Deliberate faults of a bus: all of them, and those of what is refused, which chip is chosen, and where its bytes lie.

use super::named;
use super::neighbours::*;
use super::waits::*;
use crate::bus_model::*;
use crate::model::{Outcome, Paper, Transaction, DP, RECORD_BYTES, RES, WRDI, WREN};

/// All of them.
pub const BUS: &[(&str, &dyn BusModel)] = named![
    // 51 is given before 8
    TransactInOrder(&[51, 8, 52, 6, 53, 3, 4, 5]),
    // 52 is given before 51
    TransactInOrder(&[8, 52, 51, 6, 53, 3, 4, 5]),
    // 6 is given before 51
    TransactInOrder(&[8, 6, 51, 52, 53, 3, 4, 5]),
    // 52 is given after 6
    TransactInOrder(&[8, 51, 6, 52, 53, 3, 4, 5]),
    // 52 is given after 53
    TransactInOrder(&[8, 51, 6, 53, 52, 3, 4, 5]),
    // 53 is given before 51
    TransactInOrder(&[8, 53, 51, 52, 6, 3, 4, 5]),
    // 53 is given before 6
    TransactInOrder(&[8, 51, 52, 53, 6, 3, 4, 5]),
    // 53 is given after 3, 4 or 5
    TransactInOrder(&[8, 51, 52, 6, 3, 53, 4, 5]),
    TransactInOrder(&[8, 51, 52, 6, 4, 53, 3, 5]),
    TransactInOrder(&[8, 51, 52, 6, 5, 53, 3, 4]),
    TransactInOrder(&[8, 51, 52, 6, 53, 4, 3, 5]),
    TransactInOrder(&[8, 51, 52, 6, 53, 3, 5, 4]),
    // what is sent is looked at first
    TransactInOrder(&[3, 4, 5, 8, 51, 52, 6, 53]),
    WaitInOrder(&[51, 8, 6, 53]),
    WaitInOrder(&[8, 6, 51, 53]),
    WaitInOrder(&[8, 51, 53, 6]),
    WaitInOrder(&[8, 53, 51, 6]),
    // a wait does not look at the records, or at the array
    WaitInOrder(&[8, 51, 53]),
    WaitInOrder(&[8, 51, 6]),
    TransactInOrder(&[8, 51, 52, 6, 3, 4, 5]),
    Tells(|number| if number == 53 { 2 } else { number }),
    Tells(|number| if number == 52 { 51 } else { number }),
    Tells(|number| if number == 51 { 8 } else { number }),
    Tells(|number| if number == 8 { 51 } else { number }),
    Whole(|_| true),
    Whole(|length| length > 0 && length % RECORD_BYTES == 0),
    Whole(|length| length >= RECORD_BYTES),
    Whole(|length| length % RECORD_BYTES == 0 && length <= MOST_CHIPS * RECORD_BYTES),
    Whole(|length| length % 8 == 0),
    // a row of none
    RowFits(|chips| chips <= 8),
    // a row of nine
    RowFits(|chips| (1..=9).contains(&chips)),
    RowFits(|chips| chips >= 1),
    // no row of eight
    RowFits(|chips| (1..8).contains(&chips)),
    // no row of one
    RowFits(|chips| (2..=8).contains(&chips)),
    // chips count from 1
    Chooses(|chip, chips| (1..=chips).contains(&chip).then(|| chip - 1)),
    Chooses(|chip, chips| (chip % (1 << 8) < chips).then_some(chip % (1 << 8))),
    Chooses(|chip, chips| (chip % (1 << 16) < chips).then_some(chip % (1 << 16))),
    Chooses(|chip, chips| (chip % (1 << 31) < chips).then_some(chip % (1 << 31))),
    Chooses(|chip, chips| (chip % MOST_CHIPS < chips).then_some(chip % MOST_CHIPS)),
    Chooses(|chip, chips| Some(chip % chips.max(1))),
    Chooses(|chip, chips| Some(chip.min(chips.max(1) - 1))),
    Chooses(|chip, chips| (chip <= chips).then_some(chip)),
    Chooses(|chip, chips| (chip < chips.max(1) - 1).then_some(chip)),
    // chips count from the end
    Chooses(|chip, chips| (chip < chips).then(|| chips - 1 - chip)),
    Chooses(|chip, chips| (chip < chips).then_some(0)),
    Sound(|row, chosen| records(row).skip(chosen.unwrap_or(0)).take(1).all(sound)),
    Sound(|row, chosen| records(row).take(chosen.map_or(MOST_CHIPS, |place| place + 1)).all(sound)),
    Sound(|row, chosen| records(row).skip(chosen.unwrap_or(0)).all(sound)),
    Sound(|row, _| records(row).take(1).all(sound)),
    Sound(|row, _| records(row).skip(1).all(sound)),
    Sound(|row, _| records(row).take(chips(row) - 1).all(sound)),
    Sound(|row, _| records(row).any(sound)),
    // of the others the part alone
    Sound(part_known),
    // a wait looks at busy records alone
    Sound(|row, chosen| chosen.is_some() && records(row).all(sound) || records(row).all(busy_sound)),
    ArrayFits(|length, row, _| length >= sum(row)),
    ArrayFits(|length, row, _| length <= sum(row)),
    ArrayFits(|length, row, _| length == sum(row) || length == sum(row) + 1),
    ArrayFits(|length, row, _| length == sum(row) || length + 1 == sum(row)),
    ArrayFits(|length, row, _| length == chips(row) * bytes(row)),
    ArrayFits(|length, row, _| length == chips(row) * largest(row)),
    // up to the chosen one is enough
    ArrayFits(|length, row, chosen| {
        let lent = chosen.map_or(row.len(), |place| packed(place).end.min(row.len()));
        length == sum(row) || length == sum(&row[..lent])
    }),
    // that of the chosen one alone will do
    ArrayFits(|length, row, chosen| {
        let own = chosen.and_then(|place| row.get(packed(place))).map(bytes);
        length == sum(row) || Some(length) == own
    }),
    Begins(|_, _| 0),
    Begins(|row, place| place * largest(row)),
    Begins(|row, place| place * bytes(row)),
    Begins(|row, place| place * bytes(&row[packed(place)])),
    // off by one byte
    Begins(|row, place| Paper.begin(row, place) + 1),
    Begins(|row, place| Paper.begin(row, place).saturating_sub(1)),
    // off by one chip
    Begins(|row, place| Paper.begin(row, place) + bytes(&row[packed(place)])),
    Begins(|row, place| Paper.begin(row, place.saturating_sub(1))),
    // the last chip's bytes come first
    Begins(|row, place| sum(&row[packed(place).end..])),
    // the largest part's bytes come first
    Begins(|row, place| {
        let own = bytes(&row[packed(place)]);
        let larger = records(row).map(bytes).filter(|bytes| *bytes > own).sum::<usize>();
        larger + records(row).take(place).map(bytes).filter(|bytes| *bytes == own).sum::<usize>()
    }),
    Waits(first_alone),
    Waits(last_alone),
    Waits(all_but_the_first),
    Waits(all_but_the_last),
    Waits(up_to_the_first_idle),
    Waits(up_to_the_first_end),
    Waits(first_busy_alone),
    Waits(no_deep),
    Waits(until_the_first_end),
    Waits(one_after_the_other),
    Waits(ending_ones_alone),
    Waits(|row, ticks| vec![ticks / row.len() as u32; row.len()]),
    Waits(|row, ticks| vec![ticks % 256; row.len()]),
    Waits(|row, ticks| vec![ticks % 65_536; row.len()]),
    Waits(|row, ticks| vec![ticks.saturating_add(1); row.len()]),
    Waited(records_alone),
    Waited(bytes_alone),
    Waited(bulk_erases_all),
    Waited(ends_are_told),
    Waited(settings_reach_all),
    RefusesOnTheWay,
    WaitsAsFarAsBytesGo,
    Afterwards(record_to_place_0),
    Afterwards(record_to_the_next),
    Afterwards(record_to_all),
    Afterwards(record_stays),
    Reaches(WREN),
    Reaches(WRDI),
    Reaches(DP),
    Reaches(RES),
    Afterwards(others_lose_their_latch),
    Afterwards(others_tick),
    Afterwards(status_of_any),
    Afterwards(busy_bus),
    Afterwards(deep_bus),
    Afterwards(latch_of_any),
    Afterwards(protected_by_any),
    Afterwards(locked_by_any),
    Afterwards(read_runs_on),
    Afterwards(address_over_all),
    Afterwards(program_at_once),
    Afterwards(response_beyond_n),
    Afterwards(first_from_the_row),
    Afterwards(number_alone),
    Afterwards(missing_not_told),
    RefusalFills(51),
    RefusalFills(52),
    RefusalFills(6),
    RefusalFills(53),
    RefusalFills(3),
    RefusalFills(4),
    RefusalFills(5),
    ExecutedThough(6),
    ExecutedThough(4),
];

/// Those that large parts alone show: their bytes begin above 16,777,215.
pub const LARGE_BUS: &[(&str, &dyn BusModel)] = named![
    Begins(|row, place| Paper.begin(row, place) % (1 << 24)),
    Begins(|row, place| Paper.begin(row, place).min(1 << 24)),
];

/// The chosen place of a transaction.
fn chosen(asked: &Asked) -> Option<usize> {
    match asked {
        Asked::Transact { chip, .. } => Some(*chip as usize),
        Asked::Wait => None,
    }
}

/// The refusals of a transaction are looked at in another order, or not all of them.
struct TransactInOrder(&'static [u8]);

impl BusModel for TransactInOrder {
    fn order(&self, asked: &Asked) -> &'static [u8] {
        match asked {
            Asked::Transact { .. } => self.0,
            Asked::Wait => Paper.order(asked),
        }
    }
}

/// Those of a wait.
struct WaitInOrder(&'static [u8]);

impl BusModel for WaitInOrder {
    fn order(&self, asked: &Asked) -> &'static [u8] {
        match asked {
            Asked::Transact { .. } => Paper.order(asked),
            Asked::Wait => self.0,
        }
    }
}

/// A call is refused with another number.
struct Tells(fn(u8) -> u8);

impl BusModel for Tells {
    fn refusal(&self, lent: &Lent) -> u8 {
        self.0(Paper.refusal(lent))
    }
}

/// Rows of other lengths are records alone.
struct Whole(fn(usize) -> bool);

impl BusModel for Whole {
    fn whole(&self, length: usize) -> bool {
        self.0(length)
    }
}

/// Other numbers of chips are a row.
struct RowFits(fn(usize) -> bool);

impl BusModel for RowFits {
    fn row_fits(&self, chips: usize) -> bool {
        self.0(chips)
    }
}

/// A number chooses another place, or one where there is none.
struct Chooses(fn(usize, usize) -> Option<usize>);

impl BusModel for Chooses {
    fn in_row(&self, chip: u32, chips: usize) -> bool {
        self.0(chip as usize, chips).is_some()
    }

    fn place(&self, chip: u32, chips: usize) -> usize {
        self.0(chip as usize, chips).unwrap_or(0)
    }
}

/// Other rows are sound.
struct Sound(fn(&[u8], Option<usize>) -> bool);

impl BusModel for Sound {
    fn sound(&self, row: &[u8], asked: &Asked) -> bool {
        self.0(row, chosen(asked))
    }
}

/// The chosen record is sound, and the others are of parts that there are.
fn part_known(row: &[u8], chosen: Option<usize>) -> bool {
    let mut places = records(row).enumerate();
    places.all(|(place, record)| sound(record) || Some(place) != chosen && bytes(record) > 0)
}

/// Whether the record is sound, or not busy.
fn busy_sound(record: &[u8]) -> bool {
    sound(record) || record[4] != 1
}

/// Other lengths of an array are right.
struct ArrayFits(fn(usize, &[u8], Option<usize>) -> bool);

impl BusModel for ArrayFits {
    fn array_fits(&self, length: usize, row: &[u8], asked: &Asked) -> bool {
        self.0(length, row, chosen(asked))
    }
}

/// The bytes of the largest part in a row.
fn largest(row: &[u8]) -> usize {
    records(row).map(bytes).max().unwrap_or(0)
}

/// A chip's bytes begin elsewhere, as far as the array goes.
struct Begins(fn(&[u8], usize) -> usize);

impl BusModel for Begins {
    fn begin(&self, row: &[u8], place: usize) -> usize {
        self.0(row, place).min(sum(row) - bytes(&row[packed(place)]))
    }
}

/// A transaction that is refused with this number fills its response with FF, as far as it is sent for.
struct RefusalFills(u8);

impl BusModel for RefusalFills {
    fn transact(&self, buffers: &mut Buffers, chip: u32, t: Transaction) -> Outcome {
        let outcome = BUS_PAPER.transact(buffers, chip, t);
        if outcome.answer == self.0 {
            buffers.response.iter_mut().take(t.sent.len()).for_each(|byte| *byte = 0xFF);
        }
        outcome
    }
}

/// A transaction that is refused with this number changes the record as if it were not, where that can be.
struct ExecutedThough(u8);

impl BusModel for ExecutedThough {
    fn transact(&self, buffers: &mut Buffers, chip: u32, t: Transaction) -> Outcome {
        let outcome = BUS_PAPER.transact(buffers, chip, t);
        if outcome.answer == self.0 {
            let (record, bytes) = Paper.lend(buffers.row, buffers.array, chip as usize);
            let pulses = t.pulses % 8;
            CHIP.transact(record, bytes, Transaction { pulses, ..t }, buffers.response);
        }
        outcome
    }
}
