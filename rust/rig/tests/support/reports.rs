//! Reports of one's own choice on a chip of libm25p.a and on the model; a difference ends the test.

use rig::compare::{Call, Filled, Step, SPARE};
use rig::model::{Packed, PARTS, RECORD_BYTES};
use rig::report_model::{numbers, totals, NUMBERS};

use crate::swept::Sweep;

/// Totals as a week begins.
pub const NONE: [u64; NUMBERS] = [0; NUMBERS];

/// A report on these totals, from another packed record perhaps, with buffers of these lengths: the 64 bits, and the
/// numbers that it leaves, those behind the named length too.
pub fn lent(
    sweep: &mut Sweep,
    record: Option<Packed>,
    items: &[u8],
    lengths: [usize; 3],
    before: &[u64],
) -> (u64, Vec<u64>) {
    let mut filled = lengths.map(|len| Filled { bytes: sweep.rng.bytes(len + SPARE), len });
    let longer = filled[2].bytes.split_off(filled[2].bytes.len().min(8 * before.len()));
    let fitting = totals(before).into_iter().take(filled[2].bytes.len());
    filled[2].bytes = fitting.chain(longer).collect();
    let array_len = PARTS[usize::from(sweep.pair.record().part)].bytes;
    let call = Call::Report { items: items.to_vec() };
    let step = Step { call, record, record_len: RECORD_BYTES, array_len, filled: filled.into() };
    let seen = sweep.pair.step(&step, &mut sweep.tally);
    let word = seen.unwrap_or_else(|difference| panic!("{difference}")).word();
    (word, numbers(&sweep.pair.real.filled[2]))
}

/// A report with buffers just long enough.
pub fn report(
    sweep: &mut Sweep,
    record: Option<Packed>,
    items: &[u8],
    before: &[u64],
) -> (u64, Vec<u64>) {
    let room = Call::Report { items: items.to_vec() }.room();
    lent(sweep, record, items, [room[0], room[1], room[2]], before)
}

/// The numbers that are not 0, each with its place.
pub fn counted(numbers: &[u64]) -> Vec<(usize, u64)> {
    numbers.iter().copied().enumerate().filter(|(_, number)| *number != 0).collect()
}
