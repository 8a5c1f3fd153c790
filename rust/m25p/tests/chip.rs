//! The chip that owns its buffers: refused deliveries, a short life of an M25P40 on libm25p.a and of an M25PE40, missing
//! erases, power losses, and what parts and answers are called.

use std::error::Error;

use m25p::{calls, pins, Answer, Buffer, Chip, Cycle, Durations, Part};
use m25p::{Run, MASK_BYTES, RECORD_BYTES};

fn executed(chip: &mut Chip, sent: &[u8]) -> Vec<u8> {
    let response = chip.transact(sent, 0, true);
    assert_eq!(response.answer, Answer::Executed, "{sent:02X?}");
    response.line
}

#[test]
fn refused_deliveries() {
    let none = Durations { program: 0, ..Durations::default() };
    assert_eq!(Chip::deliver(Part::M25p128, none).err(), Some(Answer::Duration));
    let (mut record, mut array) = ([0; RECORD_BYTES], []);
    let reply = calls::deliver(&mut record, 7, &mut array, Durations::default());
    assert_eq!((reply.answer(), record), (Answer::UnknownPart, [0; RECORD_BYTES]));
}

#[test]
fn program_erase_and_power() {
    let mut chip = Chip::deliver(Part::M25p40, Durations::default()).unwrap();
    assert_eq!(executed(&mut chip, &[0x9F, 0, 0, 0, 0]), [0xFF, 0x20, 0x20, 0x13, 0x00]);
    executed(&mut chip, &[0x06]);
    executed(&mut chip, &[0x02, 0x07, 0xFF, 0xFF, 0x12, 0x34]);
    let busy = chip.transact(&[0x06], 0, true);
    assert_eq!((busy.answer, &busy.line[..]), (Answer::Busy, &[0xFF][..]));
    for left in [3, 2, 1] {
        assert_eq!((chip.array()[0x7_FFFF], chip.array()[0x7_FF00]), (0xFF, 0xFF), "{left} left");
        chip.wait(1);
    }
    assert_eq!((chip.array()[0x7_FFFF], chip.array()[0x7_FF00]), (0x12, 0x34));
    chip.array_mut()[0] = 0x56;
    let read = chip.transact(&[0x03, 0x07, 0xFF, 0xFF, 0, 0], 5, false).executed().unwrap();
    assert_eq!((read.driven(), &read.line[..4]), (&[0x12, 0x56][..], &[0xFF; 4][..]));
    executed(&mut chip, &[0x06]);
    executed(&mut chip, &[0xC7]);
    assert_eq!(chip.array()[0], 0x56);
    chip.power_up();
    assert_eq!(executed(&mut chip, &[0x05, 0]), [0xFF, 0x00]);
    assert!(chip.array().iter().all(|byte| *byte == 0xFF));
    assert_eq!(chip.record()[..8], [2, 0, 0, 0, 0, 0, 0, 0]);
    assert_eq!(chip.part(), Part::M25p40);
}

/// A page write both ways, a sector that is locked, and the power that opens it.
#[test]
fn page_write_and_locks() {
    let mut chip = in_cycle(Part::M25pe40, &[0x0A, 0x07, 0x00, 0xFF, 0xA5, 0xFF]);
    chip.wait(Durations::default().program);
    assert_eq!(chip.array()[0x7_00FE..=0x7_0100], [0x5A, 0xA5, 0x5A]);
    assert_eq!(chip.array()[0x7_0000..0x7_0002], [0xFF, 0x5A]);
    executed(&mut chip, &[0x06]);
    executed(&mut chip, &[0xE5, 0x07, 0x00, 0x00, 0x03]);
    assert_eq!(executed(&mut chip, &[0xE8, 0x07, 0xFF, 0xFF, 0, 0])[4..], [0x03, 0x03]);
    executed(&mut chip, &[0x06]);
    assert_eq!(chip.transact(&[0xE5, 0x07, 0, 0, 0], 0, true).answer, Answer::LockFrozen);
    assert_eq!(chip.transact(&[0xDB, 0x07, 0, 0], 0, true).answer, Answer::Protected);
    chip.power_up();
    assert_eq!(chip.record()[296..], [0; 8]);
    executed(&mut chip, &[0x06]);
    executed(&mut chip, &[0xDB, 0x07, 0, 0]);
}

/// A chip of this part, all 5A, in the cycle that the bytes start.
fn in_cycle(part: Part, sent: &[u8]) -> Chip {
    let mut chip = Chip::deliver(part, Durations::default()).unwrap();
    chip.array_mut().fill(0x5A);
    executed(&mut chip, &[0x06]);
    executed(&mut chip, sent);
    chip
}

/// The settings show as the cycle ends, not before.
#[test]
fn status_write() {
    let mut chip = in_cycle(Part::Bench, &[0x01, 0xFF]);
    for status in [0x03, 0x01, 0x8C] {
        assert_eq!(executed(&mut chip, &[0x05, 0]), [0xFF, status]);
        chip.wait(1);
    }
}

/// A running cycle as the packed record has it: kind, new BP and SRWD, address, slots.
#[test]
fn packed_cycles() {
    let packed = |sent: &[u8]| in_cycle(Part::Bench, sent).record()[28..].to_vec();
    let mut program = vec![0xFF; 276];
    program[..8].copy_from_slice(&[1, 0, 0, 0, 0xFF, 0x0E, 0, 0]);
    (program[8 + 255], program[8]) = (0x12, 0x34);
    program[264..].fill(0x00);
    assert_eq!(packed(&[0x02, 0xF0, 0xFE, 0xFF, 0x12, 0x34]), program);
    let rest = |head: &[u8]| [head, &vec![0; 276 - head.len()]].concat();
    assert_eq!(packed(&[0xD8, 0xF0, 0xFE, 0xFF]), rest(&[2, 0, 0, 0, 0xFF, 0x0E]));
    assert_eq!(packed(&[0xC7]), rest(&[3]));
    assert_eq!(packed(&[0x01, 0xFF]), rest(&[4, 3, 1]));
    assert_eq!(packed(&[0x06]), rest(&[]));
}

/// The running cycle by its name, from its first tick to its last.
#[test]
fn running_cycles() {
    let address = 0x0EFF;
    for (sent, cycle, ticks) in [
        (&[0x02, 0xF0, 0xFE, 0xFF, 0x12][..], Cycle::Program { address }, 3),
        (&[0xD8, 0xF0, 0xFE, 0xFF], Cycle::SectorErase { address }, 5),
        (&[0xC7], Cycle::BulkErase, 9),
        (&[0x01, 0x84], Cycle::StatusWrite { bp: 1, srwd: true }, 2),
    ] {
        running(Part::Bench, sent, cycle, ticks);
    }
    let address = 0x7_FEFF;
    for (sent, cycle, ticks) in [
        (&[0x0A, 0xFF, 0xFE, 0xFF, 1, 2][..], Cycle::PageWrite { address, named: 2 }, 3),
        (&[0xDB, 0xFF, 0xFE, 0xFF], Cycle::PageErase { address }, 3),
        (&[0x20, 0xFF, 0xFE, 0xFF], Cycle::SubsectorErase { address }, 5),
    ] {
        running(Part::M25pe40, sent, cycle, ticks);
    }
}

/// The bytes start this cycle, of so many ticks.
fn running(part: Part, sent: &[u8], cycle: Cycle, ticks: u32) {
    let mut chip = in_cycle(part, sent);
    for _ in 0..ticks {
        assert_eq!(chip.cycle(), Some(cycle));
        chip.wait(1);
    }
    assert_eq!(chip.cycle(), None);
}

/// Power lost in each kind of cycle: what the array holds then, in the mask's first place and behind it.
#[test]
fn power_losses() {
    let mut mask = [0x00; MASK_BYTES];
    mask[1] = 0x0F;
    let left = |sent: &[u8], places: &[usize]| {
        let mut chip = in_cycle(Part::M25p10a, sent);
        chip.wait(1);
        chip.loss(&mask, true);
        let lost = chip.clone();
        chip.loss(&[0xFF; MASK_BYTES], true);
        assert_eq!(chip, lost, "a second loss changes nothing more");
        assert_eq!(executed(&mut chip, &[0x05, 0]), [0xFF, 0x00]);
        places.iter().map(|at| chip.array()[*at]).collect::<Vec<u8>>()
    };
    let program = [0x02, 0x01, 0x02, 0x00, 0x00, 0x00];
    assert_eq!(left(&program, &[0x1_0200, 0x1_0201, 0x1_0202, 0x201]), [0x00, 0x0A, 0x5A, 0x5A]);
    let erased = [0x5A, 0x5F, 0x5F, 0x5A, 0x5A];
    let places = [0x8000, 0x8001, 0xFF01, 0x1, 0x1_0001];
    assert_eq!(left(&[0xD8, 0x00, 0x80, 0x00], &places), erased);
    assert_eq!(left(&[0xC7], &[0x0, 0x1, 0x1_FF01]), [0x5A, 0x5F, 0x5F]);
    let mut chip = in_cycle(Part::M25pe40, &[0x0A, 0x00, 0x00, 0x00, 0x00, 0x00]);
    chip.loss(&[0x0F; MASK_BYTES], false);
    assert_eq!(chip.array()[..3], [0x5F, 0x5F, 0x5A], "the bytes that are named");
}

#[test]
fn power_loss_in_a_status_write() {
    for (yes, status) in [(true, 0x8C), (false, 0x00)] {
        let mut chip = in_cycle(Part::Bench, &[0x01, 0xFF]);
        chip.loss(&[0x00; MASK_BYTES], yes);
        assert_eq!(executed(&mut chip, &[0x05, 0]), [0xFF, status]);
        assert!(chip.array().iter().all(|byte| *byte == 0x5A));
    }
}

/// Write enable and a program of these bytes in page 1, which is over afterwards: the bits missing.
fn missing(chip: &mut Chip, data: &[u8]) -> u32 {
    executed(chip, &[0x06]);
    let program = chip.transact(&[&[0x02, 0x00, 0x01, 0xFE], data].concat(), 0, true);
    assert_eq!(program.answer, Answer::Executed);
    chip.wait(Durations::default().program);
    program.missing
}

/// A rewrite in place is counted, where data went and nowhere else; after an erase it is not.
#[test]
fn missing_erase() {
    let mut chip = Chip::deliver(Part::M25p10a, Durations::default()).unwrap();
    assert_eq!(missing(&mut chip, &[0xFF, 0x0F, 0x00, 0x00]), 0, "the page is blank");
    assert_eq!(missing(&mut chip, &[0xFF]), 0, "FF over FF");
    assert_eq!(missing(&mut chip, &[0xFF, 0xAA, 0xFF, 0x01]), 2 + 8 + 1);
    assert_eq!(missing(&mut chip, &[0x12, 0x02, 0x00, 0x00]), 0, "ones only where ones are");
    assert_eq!(missing(&mut chip, &[[0x00; 256], [0xFF; 256]].concat()), 6 + 7 + 8 + 8);
    executed(&mut chip, &[0x06]);
    assert_eq!(chip.transact(&[0xD8, 0x00, 0x01, 0x00], 0, true).missing, 0);
    chip.wait(Durations::default().sector_erase);
    assert_eq!(missing(&mut chip, &[0xFF, 0xAA, 0xFF, 0x01]), 0, "after an erase");
}

/// The samples of a transaction with the clock low in between.
fn clocked(sent: &[u8]) -> Vec<u8> {
    let low = pins::REST & !pins::SELECT;
    let bits = sent.iter().flat_map(|byte| (0..8).rev().map(move |bit| byte >> bit & 1));
    let pulses =
        bits.flat_map(|bit| [low | (bit * pins::DATA), low | (bit * pins::DATA) | pins::CLOCK]);
    [low].into_iter().chain(pulses).chain([low, pins::REST]).collect()
}

/// Raw pins hand up the bits missing, too.
#[test]
fn missing_erase_over_pins() {
    let mut chip = Chip::deliver(Part::Bench, Durations::default()).unwrap();
    chip.array_mut()[..3].fill(0x00);
    let program = [clocked(&[0x06]), clocked(&[0x02, 0, 0, 0, 0xFF, 0xFF, 0xFF, 0xFF])].concat();
    let run = chip.pins(&[program, clocked(&[0x05, 0])].concat()).unwrap();
    assert_eq!((run.missing, chip.array()[0]), (24, 0x00));
}

#[test]
fn refused_transactions() {
    let mut chip = Chip::deliver(Part::Bench, Durations::default()).unwrap();
    let before = chip.clone();
    let long = chip.transact(&vec![0x05; 65_537], 0, true);
    assert_eq!(
        (long.answer, long.line.len(), long.driven()),
        (Answer::SentLength, 65_537, &[][..])
    );
    assert_eq!(chip.transact(&[0x06], 8, true).executed(), Err(Answer::Pulses));
    assert_eq!(chip.pins(&[pins::REST, 0x80]), Err(Answer::SampleBits));
    let silent = Run { output: vec![pins::NOT_DRIVEN; 2], missing: 0 };
    assert_eq!(chip.pins(&[pins::REST, pins::HOLD]), Ok(silent));
    assert_eq!(chip, before);
}

/// Records and arrays that lie in buffers or elsewhere, of the part's size or of another.
#[test]
fn calls_on_slices() {
    let mut record = Buffer::from(vec![7; RECORD_BYTES]);
    let mut array = vec![0; Part::Bench.bytes() + 1];
    let (part, durations) = (Part::Bench.number(), [1, 2, 3, 4].into());
    let reply = calls::deliver(&mut record, part, &mut array, durations);
    assert_eq!((reply.bits(), &record[..]), (2, &[7; RECORD_BYTES][..]));
    let reply = calls::deliver(&mut record, part, &mut array[1..], durations);
    assert_eq!((reply.bits(), array[0], array[1]), (0, 0, 0xFF));
    let mut response = [9; 6];
    let sent = [0x9F, 0, 0, 0];
    let reply = calls::transact(&mut record, &mut array[1..], &sent, 0, 1, &mut response);
    assert_eq!((reply.answer(), reply.first(), reply.count()), (Answer::Executed, 1, 3));
    assert_eq!(reply.missing(), 0);
    assert_eq!(response, [0xFF, 0x00, 0x00, 0x0C, 9, 9]);
    let (array, mask) = (&mut array[1..], [0; MASK_BYTES]);
    assert_eq!(calls::wait(&mut record[1..], array, 1).answer(), Answer::RecordLength);
    assert_eq!(calls::wait(&mut record, &mut array[1..], 0).answer(), Answer::ArrayLength);
    assert_eq!(calls::power_up(&mut record, &mut array[1..]).answer(), Answer::ArrayLength);
    assert_eq!(calls::loss(&mut record, &mut array[1..], &mask, 0).answer(), Answer::ArrayLength);
    assert_eq!(calls::loss(&mut record, array, &mask[1..], 0).answer(), Answer::MaskLength);
    assert_eq!(calls::loss(&mut record, array, &mask, 0).bits(), 0);
    record[5] = 1;
    assert_eq!(calls::power_up(&mut record, array).answer(), Answer::RecordUnsound);
    assert_eq!(calls::loss(&mut record, array, &[], 0).answer(), Answer::RecordUnsound);
}

#[test]
fn sectors() {
    assert_eq!(Part::ALL.map(Part::sectors), [4, 4, 8, 64, 64, 4, 8]);
    for part in Part::ALL {
        let (size, last) = (part.sector_bytes(), part.sectors() - 1);
        assert_eq!(size * part.sectors(), part.bytes());
        [0, size - 1].into_iter().for_each(|address| erases(part, 0, address));
        [last * size, part.bytes() - 1].into_iter().for_each(|address| erases(part, last, address));
    }
}

/// A sector erase clears just this sector by an address in it.
fn erases(part: Part, sector: usize, address: usize) {
    let mut chip = Chip::deliver(part, Durations::default()).unwrap();
    chip.array_mut().fill(0);
    chip.transact(&[0x06], 0, true).executed().unwrap();
    let [_, high, middle, low] = (address as u32).to_be_bytes();
    chip.transact(&[0xD8, high, middle, low], 0, true).executed().unwrap();
    chip.wait(Durations::default().sector_erase);
    let (before, rest) = chip.array().split_at(sector * part.sector_bytes());
    let (erased, behind) = rest.split_at(part.sector_bytes());
    assert!(erased.iter().all(|byte| *byte == 0xFF), "{part} {sector}");
    assert!(before.iter().chain(behind).all(|byte| *byte == 0), "{part} {sector}");
}

#[test]
fn parts_and_answers() {
    for (number, part) in Part::ALL.into_iter().enumerate() {
        assert_eq!((part.number(), Part::numbered(part.number())), (number as u32, Some(part)));
        for name in [part.name().to_lowercase(), part.name().to_uppercase(), part.to_string()] {
            assert_eq!(name.parse(), Ok(part));
        }
        assert!(Chip::deliver(part, Durations::default()).is_ok());
    }
    assert_eq!(Part::numbered(7), None);
    let refusal = "M25P64".parse::<Part>().unwrap_err();
    let sentence = "There is no part M25P64; the parts are 0 bench, 1 M25P10-A, 2 M25P40, 3 M25P32, 4 M25P128, 5 M25P10-A-older, 6 M25PE40.";
    assert_eq!(refusal.to_string(), sentence);
    let mut before = None;
    for answer in Answer::ALL {
        assert_eq!(Answer::numbered(answer.number()), Some(answer));
        assert!(before < Some(answer.number()) && !answer.to_string().is_empty());
        before = Some(answer.number());
    }
    let error: Box<dyn Error> = Answer::Protected.into();
    assert!(error.to_string().contains("protected"));
    assert!(Answer::Protected.ignored() && Answer::LockFrozen.ignored());
    assert!(!Answer::BatchRoom.ignored() && !Answer::SampleBits.ignored());
}
