//! Reports: the totals as bytes, what counts where and what does not, the limit of every number, and a chip that ends as a
//! batch leaves it.

#[path = "support/items.rs"]
mod support;

use m25p::batch::Item;
use m25p::{calls, Answer, Bus, Chip, Durations, Part, Reported, Totals};
use support::{chip, send, written, Lent, DAY, MARK};

/// How many numbers the totals are.
const NUMBERS: usize = 353;

/// The totals with this in number `k` and 0 elsewhere.
fn alone(k: usize, number: u64) -> Totals {
    let mut bytes = [0; Totals::BYTES];
    bytes[8 * k..8 * k + 8].copy_from_slice(&number.to_le_bytes());
    Totals::from_bytes(&bytes)
}

/// Number `k` of the totals.
fn number(totals: &Totals, k: usize) -> u64 {
    u64::from_le_bytes(totals.to_bytes()[8 * k..8 * k + 8].try_into().unwrap())
}

/// What a row adds to totals of zeros, on a part as delivered.
fn counted(part: Part, row: &[Item]) -> Totals {
    let mut chip = Chip::deliver(part, Durations::default()).unwrap();
    let mut totals = Totals::default();
    chip.report(&written(row), &mut totals).unwrap();
    totals
}

/// Executed ones, answers, driven bytes and programs lie one after the other, the lowest byte of each first.
#[test]
fn bytes_of_totals() {
    assert_eq!((Totals::BYTES, Totals::default().to_bytes()), (2_824, [0; 2_824]));
    let bytes: [u8; Totals::BYTES] = std::array::from_fn(|i| (i % 251) as u8);
    let totals = Totals::from_bytes(&bytes);
    assert_eq!(totals.to_bytes(), bytes);
    let at = |k: usize| u64::from_le_bytes(std::array::from_fn(|i| ((8 * k + i) % 251) as u8));
    assert_eq!(totals.executed, std::array::from_fn(at));
    assert_eq!(totals.answers, std::array::from_fn(|i| at(256 + i)));
    assert_eq!(totals.driven, at(288));
    assert_eq!(totals.programs, std::array::from_fn(|i| at(289 + i)));
    assert_eq!(alone(1, 0x0102).to_bytes()[7..11], [0, 2, 1, 0]);
}

#[test]
fn transactions_beyond_64_bits() {
    let totals = Totals { answers: [u64::MAX; 32], ..Totals::default() };
    assert_eq!(totals.transactions(), 32 * u128::from(u64::MAX));
    let others = Totals { executed: [1; 256], driven: 1, programs: [1; 64], ..Totals::default() };
    assert_eq!(others.transactions(), 0);
}

/// What the day adds, counted by hand.
fn day() -> Totals {
    let mut totals = Totals { driven: 1 + 2 + 2, ..Totals::default() };
    for (code, times) in [(0x06, 1), (0x02, 1), (0x05, 2), (0x03, 1)] {
        totals.executed[code] = times;
    }
    for (answer, times) in [(0, 5), (11, 1), (12, 1), (15, 1)] {
        totals.answers[answer] = times;
    }
    totals.programs[0] = 1;
    totals
}

/// The day in a report: responses, answers and chip are those of the batch.
#[test]
fn a_day() {
    let (mut one, mut other) = (chip(), chip());
    let mut totals = Totals::default();
    let done = one.report(&written(&DAY), &mut totals).unwrap();
    let batch = other.batch(&written(&DAY)).unwrap();
    assert_eq!(done, Reported { responses: batch.responses, answers: batch.answers });
    assert!(one == other && one != chip());
    assert_eq!((&totals, totals.transactions()), (&day(), 8));
}

/// The day at once, and cut in two behind every item: the second report goes on from the first.
#[test]
fn two_reports_are_one() {
    let mut whole = chip();
    let expected = whole.report(&written(&DAY), &mut Totals::default()).unwrap();
    for cut in 0..=DAY.len() {
        let (mut chip, mut totals) = (chip(), Totals::default());
        let mut done = chip.report(&written(&DAY[..cut]), &mut totals).unwrap();
        let rest = chip.report(&written(&DAY[cut..]), &mut totals).unwrap();
        done.responses.extend(rest.responses);
        done.answers.extend(rest.answers);
        assert_eq!((&done, &totals), (&expected, &day()), "cut behind {cut} items");
        assert!(chip == whole, "cut behind {cut} items");
    }
}

/// Waits alone, and no items, add nothing, though a wait ends a cycle.
#[test]
fn waits_count_nowhere() {
    let mut chip = chip();
    let mut totals = Totals::default();
    chip.report(&written(&[send(&[0x06]), send(&[0xC7])]), &mut totals).unwrap();
    let before = totals.clone();
    let waits = [0, 1, u32::MAX].map(|ticks| Item::Wait { ticks });
    assert_eq!(chip.report(&written(&waits), &mut totals).unwrap().answers, [0; 3]);
    assert_eq!((chip.cycle(), &totals), (None, &before));
    let nothing = Reported { responses: vec![], answers: vec![] };
    assert_eq!((chip.report(&[], &mut totals), totals), (Ok(nothing), before));
}

/// Bytes are driven by reads of all kinds, an FF too, and none of an instruction that drives nothing.
#[test]
fn driven_bytes() {
    let row: [(&[u8], u64); 8] = [
        (&[0x9F, 0, 0, 0, 0], 4),
        (&[0x9F], 0),
        (&[0x05, 0, 0], 2),
        (&[0x03, 0, 0, 0, 0xFF, 0xFF, 0xFF], 3),
        (&[0x0B, 0, 0, 0, 0, 0, 0], 2),
        (&[0xAB, 0, 0, 0, 0], 1),
        (&[0x06], 0),
        (&[0x77, 0, 0], 0),
    ];
    for (sent, driven) in row {
        assert_eq!(counted(Part::M25p40, &[send(sent)]).driven, driven, "{sent:02X?}");
    }
    let all = row.map(|(sent, _)| send(sent));
    assert_eq!(counted(Part::M25p40, &all).driven, 12);
}

/// The parts, and how many sectors each has.
const SECTORS: [(Part, usize); 7] = [
    (Part::Bench, 4),
    (Part::M25p10a, 4),
    (Part::M25p40, 8),
    (Part::M25p32, 64),
    (Part::M25p128, 64),
    (Part::M25p10aOlder, 4),
    (Part::M25pe40, 8),
];

/// A page program at this address, on its own: it is enabled before and waited for after.
fn program(address: usize) -> Vec<u8> {
    let [_, high, middle, low] = (address as u32).to_be_bytes();
    let sent = [0x02, high, middle, low, 0x5A];
    written(&[send(&[0x06]), send(&sent), Item::Wait { ticks: Durations::default().program }])
}

/// Sector s is programmed s + 1 times: at its first and its last byte, and by the highest addresses that mean these.
#[test]
fn programs_by_sector() {
    for (part, sectors) in SECTORS {
        let (size, highest) = (part.bytes() / sectors, (1 << 24) - part.bytes());
        let addresses = |sector| {
            let (first, last) = (sector * size, (sector + 1) * size - 1);
            [first, last, highest + first, highest + last].into_iter().cycle().take(sector + 1)
        };
        let row: Vec<u8> = (0..sectors).flat_map(addresses).flat_map(program).collect();
        let mut chip = Chip::deliver(part, Durations::default()).unwrap();
        let mut totals = Totals::default();
        chip.report(&row, &mut totals).unwrap();
        let times = |sector| if sector < sectors { sector as u64 + 1 } else { 0 };
        assert_eq!(totals.programs, std::array::from_fn(times), "{part}");
        let programs = totals.programs.iter().sum();
        assert_eq!((totals.executed[0x02], totals.answers[0]), (programs, 2 * programs), "{part}");
    }
}

/// A page write is executed, and no program.
#[test]
fn page_writes_are_no_programs() {
    let row = [send(&[0x06]), send(&[0x0A, 1, 0, 0, 0x5A])];
    let totals = counted(Part::M25pe40, &row);
    assert_eq!((totals.executed[0x0A], totals.answers[0], totals.programs), (1, 2, [0; 64]));
}

/// Programs that the chip ignores are in the answers alone, and so is a transaction without bytes.
#[test]
fn ignored_transactions() {
    let program = send(&[0x02, 0, 0, 0, 0x5A]);
    let pulsed = Item::Transaction { sent: &[0x02, 0, 0, 0, 0x5A], pulses: 1, w_high: true };
    let wait = Item::Wait { ticks: 1_000_000 };
    let protect = [send(&[0x06]), send(&[0x01, 0x1C]), wait, send(&[0x06])];
    let row = [&[program, pulsed, send(&[0x02, 0, 0, 0]), send(&[]), send(&[0x77])], &protect[..]];
    let row = [row.concat(), vec![program, send(&[0xB9]), program]].concat();
    let totals = counted(Part::M25p40, &row);
    let mut expected = Totals::default();
    for (code, times) in [(0x06, 2), (0x01, 1), (0xB9, 1)] {
        expected.executed[code] = times;
    }
    for (answer, times) in [(0, 4), (11, 1), (13, 1), (14, 1), (15, 2), (16, 1), (17, 1)] {
        expected.answers[answer] = times;
    }
    assert_eq!(totals, expected);
}

/// Each number in turn so large that its sum is just 2^64 - 1, which is good, and one larger, which is refused. A number
/// of 2^64 - 1 to which the day adds nothing is good, too.
#[test]
fn limit_of_every_number() {
    let (items, day, before) = (written(&DAY), day(), chip());
    for k in 0..NUMBERS {
        let added = number(&day, k);
        let (mut done, mut totals) = (before.clone(), alone(k, u64::MAX - added));
        assert!(done.report(&items, &mut totals).is_ok() && done != before, "number {k}");
        assert_eq!(number(&totals, k), u64::MAX, "number {k}");
        if added > 0 {
            let full = alone(k, u64::MAX - added + 1);
            let (mut done, mut totals) = (before.clone(), full.clone());
            assert_eq!(done.report(&items, &mut totals), Err(Answer::TotalsOverflow), "number {k}");
            assert!(done == before && totals == full, "number {k}");
        }
    }
}

/// A bad item at the end of a day refuses all of it; the next day goes on from before it.
#[test]
fn refused_reports() {
    let (mut chip, mut totals) = (chip(), alone(288, 7));
    let (before, full) = (chip.clone(), totals.clone());
    for end in [&[1][..], &[1, 0, 0], &[0, 0, 17], &[3, 0, 16, 0, 0, 0]] {
        let items = [&written(&DAY), end].concat();
        assert_eq!(chip.report(&items, &mut totals), Err(Answer::BadItem), "{end:?}");
        assert_eq!((&chip, &totals), (&before, &full), "{end:?}");
    }
    assert!(chip.report(&written(&DAY), &mut totals).is_ok());
    assert_eq!(totals, Totals { driven: 7 + 5, ..day() });
}

/// Buffers of just the length that is needed and longer are good, and one byte less in any of them is not. What stands
/// in the totals before is added to, what lies behind them stays.
#[test]
fn room() {
    let items = written(&[send(&[0x9F, 0]), Item::Wait { ticks: 1 }, send(&[0x06])]);
    let mut sums = Totals::from_bytes(&[MARK; Totals::BYTES]);
    sums.executed[0x9F] += 1;
    sums.executed[0x06] += 1;
    sums.answers[0] += 2;
    sums.driven += 1;
    for more in [[0, 0, 0], [1, 3, 9]] {
        let mut lent = Lent::new(3 + more[0], 3 + more[1], Totals::BYTES + more[2]);
        assert_eq!(lent.carry(calls::report, &items).bits(), 0);
        let marked = |start: &[u8], behind| [start, &vec![MARK; behind]].concat();
        assert_eq!(lent.responses, marked(&[0xFF, 0x00, 0xFF], more[0]));
        assert_eq!(lent.answers, marked(&[0, 0, 0], more[1]));
        assert_eq!(lent.last, marked(&sums.to_bytes(), more[2]));
        assert_eq!(lent.record[3], 1);
    }
    for (responses, answers, totals) in [(2, 3, 2_824), (3, 2, 2_824), (3, 3, 2_823), (0, 0, 0)] {
        let mut lent = Lent::new(responses, answers, totals);
        let before = lent.clone();
        assert_eq!(lent.carry(calls::report, &items).bits(), u64::from(Answer::BatchRoom.number()));
        assert_eq!(lent, before);
    }
    let mut full = Lent::new(3, 3, Totals::BYTES);
    full.last.fill(0xFF);
    let before = full.clone();
    assert_eq!((full.carry(calls::report, &items).bits(), full), (71, before));
}

/// The order of the refusals: 8, 6, 2, 9, 10, 71.
#[test]
fn order_of_refusals() {
    let mut lent = Lent::new(0, 1, Totals::BYTES);
    let mut answer = |change: fn(&mut Lent), items: &[u8]| {
        change(&mut lent);
        lent.carry(calls::report, items).answer()
    };
    assert_eq!(answer(|lent| lent.last.fill(0xFF), &[0, 0, 0]), Answer::TotalsOverflow);
    assert_eq!(answer(|lent| lent.last.truncate(2_823), &[0, 0, 0]), Answer::BatchRoom);
    assert_eq!(answer(|_| (), &[0, 0, 17]), Answer::BadItem);
    assert_eq!(answer(|lent| lent.array.truncate(4_095), &[0, 0, 17]), Answer::ArrayLength);
    assert_eq!(answer(|lent| lent.record[5] = 1, &[0, 0, 17]), Answer::RecordUnsound);
    assert_eq!(answer(|lent| lent.record.truncate(303), &[0, 0, 17]), Answer::RecordLength);
}

/// A report on one chip of a row is that on the chip alone, and the others stay.
#[test]
fn chip_of_a_row() {
    let durations = Durations::default();
    let mut bus = Bus::deliver(&[(Part::Bench, durations), (Part::M25p40, durations)]).unwrap();
    let neighbour = (*bus.record(0), bus.array(0).to_vec());
    let mut chip = Chip::deliver(Part::M25p40, durations).unwrap();
    let (mut one, mut other) = (Totals::default(), Totals::default());
    let items = written(&DAY);
    assert_eq!(bus.report(1, &items, &mut one), chip.report(&items, &mut other));
    assert_eq!((&one, &other), (&day(), &day()));
    assert_eq!(bus.record(1), chip.record());
    assert!(bus.array(1) == chip.array() && neighbour == (*bus.record(0), bus.array(0).to_vec()));
}
