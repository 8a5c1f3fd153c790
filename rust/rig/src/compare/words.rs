//! A call of the comparison in words, so that it can be made again by hand.

use super::{Call, Step};
use crate::model::RECORD_BYTES;
use crate::report_model::TOTALS_BYTES;

/// The first of the bytes in hex.
pub fn hex(bytes: &[u8], most: usize) -> String {
    let text: String = bytes.iter().take(most).map(|byte| format!("{byte:02X}")).collect();
    text + if bytes.len() > most { "..." } else { "" }
}

/// A call, and what it was lent.
pub fn describe(step: &Step, before: &[u8]) -> String {
    let record = step.record.as_ref().map_or(&before[..RECORD_BYTES], |record| &record[..]);
    let call = match &step.call {
        Call::Deliver { part, durations } => format!("deliver part {part} {durations:?}"),
        Call::Transact { sent, pulses, w } => {
            format!("transact n {} {} pulses {pulses} w {w}", sent.len(), hex(sent, 40))
        }
        Call::Wait(ticks) => format!("wait {ticks}"),
        Call::PowerUp => "power-up".to_string(),
        Call::Loss { mask, yes } => {
            format!("loss mask n {} {} yes {yes}", mask.len(), hex(mask, 256))
        }
        Call::Pins { samples } => format!("{} samples {}", samples.len(), hex(samples, 2_000)),
        Call::Batch { items } => format!("batch of {} bytes {}", items.len(), hex(items, 2_000)),
        Call::Report { items } => {
            let totals = hex(&step.filled[2].bytes, TOTALS_BYTES);
            format!("report of {} bytes {} on {totals}", items.len(), hex(items, 2_000))
        }
    };
    let filled: Vec<usize> = step.filled.iter().map(|filled| filled.len).collect();
    let (record, record_len, array_len) = (hex(record, 400), step.record_len, step.array_len);
    format!(
        "{call}, record {record}, record_len {record_len}, array_len {array_len}, filled {filled:?}"
    )
}
