//! The answers of the calls: their numbers, and the 64 bits that carry them.

use std::fmt;

/// What a call answers, with the number that it has in the C calls.
///
/// From 1 to 10 and from 21 on, the call was refused and has changed nothing. From 11 to 19 the chip ignored
/// the transaction: record and array stay, and what it drives reads FF.
#[derive(Clone, Copy, Debug, PartialEq, Eq, Hash)]
#[repr(u8)]
pub enum Answer {
    /// The call was carried out.
    Executed = 0,
    /// Delivery: no such part.
    UnknownPart = 1,
    /// The array's length is not the part's.
    ArrayLength = 2,
    /// A transaction of more than 65,536 bytes.
    SentLength = 3,
    /// More than 7 further pulses.
    Pulses = 4,
    /// The response is shorter than what is sent.
    ResponseLength = 5,
    /// The record, or one of a row, is not sound, or not packed so.
    RecordUnsound = 6,
    /// Delivery: a duration outside 1 to 1,000,000.
    Duration = 7,
    /// The packed record is not [`RECORD_BYTES`](crate::RECORD_BYTES) long, or a row of them not a multiple of that.
    RecordLength = 8,
    /// Batch, report: a cut item, a flag above 16, or a wait not of length 4.
    BadItem = 9,
    /// Batch, report: a buffer is too short.
    BatchRoom = 10,
    /// No whole byte was sent.
    NoBytes = 11,
    /// The chip is busy, and this is not a status read.
    Busy = 12,
    /// The chip is in deep power-down, and this is not the release from it.
    Deep = 13,
    /// The first byte is not an instruction of this part.
    UnknownCode = 14,
    /// The number of bytes, or of further pulses, is not as the instruction needs.
    WrongForm = 15,
    /// The write enable latch is needed and not set.
    LatchNeeded = 16,
    /// The sector, or for a bulk erase anything, is protected.
    Protected = 17,
    /// The status register is frozen: SRWD is set and W is low.
    StatusFrozen = 18,
    /// The lock register is frozen: its lock-down bit is set.
    LockFrozen = 19,
    /// Raw pins: a sample with one of the bits 5 to 7 set.
    SampleBits = 21,
    /// Raw pins: a transaction of more than 65,536 bytes.
    PinsLength = 22,
    /// Raw pins: the output is shorter than the samples.
    OutputLength = 23,
    /// Image: no such part.
    ImagePart = 31,
    /// Image: its length is not the part's, see [`Part::image_bytes`](crate::Part::image_bytes).
    ImageLength = 32,
    /// Image: a block's number or sums are wrong; [`Reply::blocks`] is the first such block's place.
    BadBlock = 33,
    /// Image: the list of a salvage has fewer places than the image has blocks.
    ListRoom = 34,
    /// Power loss: the mask is not [`MASK_BYTES`](crate::MASK_BYTES) long.
    MaskLength = 41,
    /// Bus: a row of no chip, or of more than [`MOST_CHIPS`](crate::bus::MOST_CHIPS).
    RowLength = 51,
    /// Bus: the chosen chip is not in the row.
    ChipNotThere = 52,
    /// Bus: the array's length is not the sum of the parts' sizes; it stands in the place of
    /// [`Answer::ArrayLength`].
    BusArray = 53,
    /// Report: a total that 64 bits cannot hold.
    TotalsOverflow = 71,
}

impl Answer {
    /// All answers, by number.
    pub const ALL: [Answer; 32] = [
        Answer::Executed,
        Answer::UnknownPart,
        Answer::ArrayLength,
        Answer::SentLength,
        Answer::Pulses,
        Answer::ResponseLength,
        Answer::RecordUnsound,
        Answer::Duration,
        Answer::RecordLength,
        Answer::BadItem,
        Answer::BatchRoom,
        Answer::NoBytes,
        Answer::Busy,
        Answer::Deep,
        Answer::UnknownCode,
        Answer::WrongForm,
        Answer::LatchNeeded,
        Answer::Protected,
        Answer::StatusFrozen,
        Answer::LockFrozen,
        Answer::SampleBits,
        Answer::PinsLength,
        Answer::OutputLength,
        Answer::ImagePart,
        Answer::ImageLength,
        Answer::BadBlock,
        Answer::ListRoom,
        Answer::MaskLength,
        Answer::RowLength,
        Answer::ChipNotThere,
        Answer::BusArray,
        Answer::TotalsOverflow,
    ];

    /// The number in the C calls.
    pub const fn number(self) -> u8 {
        self as u8
    }

    /// The answer with this number.
    pub fn numbered(number: u8) -> Option<Answer> {
        Answer::ALL.into_iter().find(|answer| answer.number() == number)
    }

    /// Whether the chip ignored the transaction: 11 to 19.
    pub const fn ignored(self) -> bool {
        matches!(self.number(), 11..=19)
    }

    /// An error unless the call was carried out.
    pub const fn executed(self) -> Result<(), Answer> {
        match self {
            Answer::Executed => Ok(()),
            other => Err(other),
        }
    }

    const fn words(self) -> &'static str {
        match self {
            Answer::Executed => "carried out",
            Answer::UnknownPart => "there is no such part",
            Answer::ArrayLength => "the array's length is not the part's",
            Answer::SentLength => "more than 65,536 bytes are sent",
            Answer::Pulses => "there are more than 7 further pulses",
            Answer::ResponseLength => "the response is shorter than what is sent",
            Answer::RecordUnsound => "the record is not sound, or not packed so",
            Answer::Duration => "a duration is outside 1 to 1,000,000",
            Answer::RecordLength => "the packed record has another length",
            Answer::BadItem => "an item is cut, has a flag above 16, or is a wait not of length 4",
            Answer::BatchRoom => "a buffer is too short for all items of the batch",
            Answer::NoBytes => "no whole byte was sent",
            Answer::Busy => "the chip is busy, and this is not a status read",
            Answer::Deep => "the chip is in deep power-down, and this is not the release from it",
            Answer::UnknownCode => "the first byte is not an instruction of this part",
            Answer::WrongForm => "bytes or further pulses are not as the instruction needs",
            Answer::LatchNeeded => "the write enable latch is needed and not set",
            Answer::Protected => "the sector, or for a bulk erase anything, is protected",
            Answer::StatusFrozen => "the status register is frozen: SRWD is set and W is low",
            Answer::LockFrozen => "the lock register is frozen: its lock-down bit is set",
            Answer::SampleBits => "a sample has one of the bits 5 to 7 set",
            Answer::PinsLength => "a transaction has more than 65,536 bytes",
            Answer::OutputLength => "the output is shorter than the samples",
            Answer::ImagePart => "there is no such part that an image could be of",
            Answer::ImageLength => "the image's length is not the part's",
            Answer::BadBlock => "a block of the image is bad: its number or its sums are wrong",
            Answer::ListRoom => "the list has fewer places than the image has blocks",
            Answer::MaskLength => "the mask is not 256 bytes long",
            Answer::RowLength => "the row has no chip, or more than 8",
            Answer::ChipNotThere => "there is no such chip in the row",
            Answer::BusArray => "the array's length is not the sum of the row's parts",
            Answer::TotalsOverflow => "there would be a total that 64 bits cannot hold",
        }
    }
}

impl fmt::Display for Answer {
    fn fmt(&self, f: &mut fmt::Formatter) -> fmt::Result {
        f.pad(self.words())
    }
}

impl std::error::Error for Answer {}

/// The most bits that can be missing: those of a page.
const MOST_MISSING: u32 = 2_048;

/// The 64 bits that a call returns: the answer, for a transaction what was driven, the bits missing, and for an image
/// a block's place or how many blocks were changed.
#[derive(Clone, Copy, Debug, PartialEq, Eq)]
pub struct Reply(u64);

impl Reply {
    pub(crate) const fn new(bits: u64) -> Reply {
        Reply(bits)
    }

    /// The 64 bits as they came.
    pub const fn bits(self) -> u64 {
        self.0
    }

    /// The answer.
    ///
    /// # Panics
    ///
    /// Where the number is not in the table, more than 2,048 bits are missing, or some are though the answer
    /// is not 0: the library is another than this crate was written for.
    pub fn answer(self) -> Answer {
        let answer = Answer::numbered(self.0 as u8).expect("an answer number of the table");
        let most = if answer == Answer::Executed { MOST_MISSING } else { 0 };
        let missing = self.missing();
        assert!(missing <= most, "{missing} bits missing, {answer:?}: this is another library");
        answer
    }

    /// The first driven position.
    pub const fn first(self) -> usize {
        (self.0 >> 8) as u8 as usize
    }

    /// The driven count.
    pub const fn count(self) -> usize {
        (self.0 >> 16) as u32 as usize
    }

    /// Of an image that was read, where the answer is [`Answer::BadBlock`]: the place of the first bad block. Of an
    /// image that was salvaged: how many blocks were changed. The same bits as the driven count of a transaction.
    pub const fn blocks(self) -> usize {
        self.count()
    }

    /// The bits missing: how many a page program wanted 1 that were 0 in the array. Above 0, an erase should
    /// have come first.
    pub const fn missing(self) -> u32 {
        (self.0 >> 48) as u32
    }
}
