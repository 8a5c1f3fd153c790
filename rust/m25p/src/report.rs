//! Reports: a batch that is counted, too. What the transactions of many batches did is summed up in [`Totals`].
//!
//! [`Chip::report`](crate::Chip::report) carries the items of a [batch](crate::batch) out and adds to the totals
//! that it is lent, so that those of a week are the sums over its days. Waits count nowhere. A report that is
//! refused counts for nothing and changes nothing; the next one goes on from the state before it.
//!
//! ```
//! use m25p::batch::Item;
//! use m25p::report::Totals;
//! use m25p::{Answer, Chip, Durations, Part};
//!
//! let send = |sent| Item::Transaction { sent, pulses: 0, w_high: true };
//! let wait = Item::Wait { ticks: Durations::default().program };
//! let day = [send(&[0x06]), send(&[0x02, 1, 0, 0, 0x5A]), send(&[0x06]), wait, send(&[0x05, 0])];
//! let mut bytes = Vec::new();
//! for item in day {
//!     item.append(&mut bytes)?;
//! }
//!
//! let mut chip = Chip::deliver(Part::M25p40, Durations::default())?;
//! let mut totals = Totals::default();
//! for _ in 0..7 {
//!     let done = chip.report(&bytes, &mut totals)?;
//!     assert_eq!(done.answers, [0, 0, 12, 0, 0]);
//! }
//! assert_eq!((totals.executed[0x06], totals.executed[0x02], totals.executed[0x05]), (7, 7, 7));
//! assert_eq!((totals.answers[0], totals.answers[12], totals.transactions()), (21, 7, 28));
//! assert_eq!((totals.driven, totals.programs[1]), (7, 7));
//!
//! // A day that would take a total above 64 bits is refused.
//! totals.driven = u64::MAX;
//! assert_eq!(chip.report(&bytes, &mut totals), Err(Answer::TotalsOverflow));
//! # Ok::<(), Box<dyn std::error::Error>>(())
//! ```

/// What the transactions of reports did, summed up.
#[derive(Clone, Debug, PartialEq, Eq)]
pub struct Totals {
    /// How many transactions were executed (answer 0), by the first byte sent.
    pub executed: [u64; 256],
    /// How often a transaction got each answer, by its number.
    pub answers: [u64; 32],
    /// How many bytes the chip drove, an FF that was driven too.
    pub driven: u64,
    /// How many page programs (02) were executed, by the addressed sector. A page write (0A) is none.
    pub programs: [u64; 64],
}

/// What the items of a report answered and drove.
#[derive(Clone, Debug, PartialEq, Eq)]
pub struct Reported {
    /// The responses one after the other, see [`Batch::responses`](crate::Batch::responses).
    pub responses: Vec<u8>,
    /// The answer number of each item, see [`Batch::answers`](crate::Batch::answers).
    pub answers: Vec<u8>,
}

/// The bytes of one number.
const NUMBER: usize = size_of::<u64>();

impl Totals {
    /// The length of the totals as bytes: 353 numbers of eight.
    pub const BYTES: usize = (256 + 32 + 1 + 64) * NUMBER;

    /// The totals that these bytes are, as the C call has them: the numbers in the order of the fields,
    /// little-endian.
    pub fn from_bytes(bytes: &[u8; Self::BYTES]) -> Totals {
        let mut totals = Totals::default();
        for (number, bytes) in totals.numbers_mut().zip(bytes.chunks_exact(NUMBER)) {
            *number = u64::from_le_bytes(bytes.try_into().expect("eight bytes"));
        }
        totals
    }

    /// The bytes that these totals are, see [`from_bytes`](Totals::from_bytes).
    pub fn to_bytes(&self) -> [u8; Self::BYTES] {
        let mut bytes = [0; Self::BYTES];
        for (bytes, number) in bytes.chunks_exact_mut(NUMBER).zip(self.numbers()) {
            bytes.copy_from_slice(&number.to_le_bytes());
        }
        bytes
    }

    /// How many transactions there were: the sum of the answers.
    pub fn transactions(&self) -> u128 {
        self.answers.iter().map(|count| u128::from(*count)).sum()
    }

    /// The numbers in the order of their bytes.
    fn numbers(&self) -> impl Iterator<Item = &u64> {
        let Totals { executed, answers, driven, programs } = self;
        executed.iter().chain(answers).chain([driven]).chain(programs)
    }

    fn numbers_mut(&mut self) -> impl Iterator<Item = &mut u64> {
        let Totals { executed, answers, driven, programs } = self;
        executed.iter_mut().chain(answers).chain([driven]).chain(programs)
    }
}

/// All zero, as the first report wants them.
impl Default for Totals {
    fn default() -> Totals {
        Totals { executed: [0; 256], answers: [0; 32], driven: 0, programs: [0; 64] }
    }
}
