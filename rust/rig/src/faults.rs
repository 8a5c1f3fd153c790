//! Deliberate faults: readings of the paper that look right and are not, each in the place of one rule of the
//! model. The comparison is made with each of them, to show that it would be seen.

mod batch;
mod blocks;
mod bus;
mod carried;
mod chip;
mod cycles;
mod images;
mod items;
mod leftovers;
mod locks;
mod losses;
mod missing;
mod neighbours;
mod pins;
mod report;
mod room;
mod salvage;
mod soundness;
mod totals;
mod waits;
mod walk;
mod writes;

pub use batch::BATCH;
pub use bus::{BUS, LARGE_BUS};
pub use images::{IMAGE, LARGE_IMAGE};
pub use pins::{LONG, SHORT};
pub use report::REPORT;

use crate::model::{Cycle, Model, Record};
use crate::model::{BE, DP, PE, PP, PW, RDLR, RES, SE, SSE, WRDI, WREN, WRLR};
use chip::*;
use cycles::*;
use locks::{CycleUnlocks, FrozenByW, NoLatchFor, PowerUpKeepsLocks};
use locks::{Drives, Frozen, Knows, Needs, NotStopped, ReleaseSigns, Stops, Unlocks, Writes};
use losses::{CutByte, CutReachesAll, LastTickIsSafe};
use losses::{MaskBeforeArray, UnusedMaskUnchecked, YesCutToAByte};
use missing::*;
use soundness::{NotTaken, PutRight};
use writes::{CountsPageWrites, Lasts, Names, Reaches, Written};
use writes::{PowerUpErasesThePageWrite, PowerUpForgetsThePageWrite};

/// Pairs each fault with its name.
macro_rules! named {
    ($($fault:expr),* $(,)?) => { &[$((stringify!($fault), &$fault)),*] };
}
use named;

/// The faults of the calls, raw pins, batches, reports and images apart.
pub const CHIP: &[(&str, &dyn Model)] = named![
    AndDataIntoSlots,
    RunOnPage,
    Afterwards(latch_lost_when_ignored),
    FrozenOnWLowAlone,
    WLowStopsProgram,
    NeverFrozen,
    FrozenAtBpZeroAlone,
    ProtectedWithWHighAlone,
    BulkErasesUnprotectedOnly,
    StoresOverOldBytes,
    ReadStopsAtTheEnd,
    AddressNotReduced,
    Afterwards(response_beyond_n),
    Afterwards(refusal_writes_response),
    CountsEveryByte,
    PulsesCutToAByte,
    WCutToAByte,
    BitFourKept,
    DeepResetsLatch,
    // protection is looked at before the latch
    LooksInOrder([11, 14, 12, 13, 15, 17, 16, 18, 19]),
    // busy is looked at before unknown codes
    LooksInOrder([11, 12, 14, 13, 15, 16, 17, 18, 19]),
    Delivery(duration_before_length),
    OlderIdentifies,
    NeitherIdentifies,
    CountsWhereNoDataWent,
    CountsZerosOverOnes,
    CountsReplacedBytes,
    CountsTheFirstByte,
    SentBlankWantsNothing,
    CountsInTheNextPage,
    CountsBytes,
    CountsErased(SE),
    CountsErased(BE),
    CountsIgnored(12),
    CountsIgnored(13),
    CountsIgnored(15),
    CountsIgnored(16),
    CountsIgnored(17),
    Afterwards(array_at_the_start),
    SettingsAtTheStart,
    EqualSettingsAtOnce,
    Afterwards(slots_not_packed),
    Afterwards(settings_remembered),
    Remembers(start_of_page),
    Remembers(start_of_sector),
    Remembers(address_as_sent),
    Remembers(empty_slots),
    LastTickMissed,
    EffectOneTickEarly,
    WaitForgetsTheArray,
    WaitForgetsTheSettings,
    ProtectedAtTheEnd,
    LengthAtTheEndAlone,
    // the latch falls with the busy bit, soundness apart
    LatchInCycle(true),
    // the latch falls as the cycle starts, soundness apart
    LatchInCycle(false),
    LatchKeptAfterCycle,
    PowerUpKeepsDeep,
    PowerUpClearsSettings,
    PowerUpForgetsTheArray,
    PowerUpForgetsTheSettings,
    PutRight(soundness::zero_bytes),
    PutRight(soundness::busy_latch),
    PutRight(soundness::cycle_outside_one),
    PutRight(soundness::unused_settings),
    PutRight(soundness::zero_byte_of_a_cycle),
    PutRight(soundness::unused_address),
    PutRight(soundness::unused_slots),
    PutRight(soundness::address_beyond),
    PutRight(soundness::new_bp_above),
    PutRight(soundness::new_srwd_above_one),
    PutRight(soundness::kind_above_seven),
    PutRight(soundness::busy_of_no_kind),
    NotTaken(soundness::longer_than_its_duration),
    NotTaken(soundness::in_a_protected_place),
    CutByte(losses::program_ors),
    CutByte(losses::program_completes),
    CutByte(losses::program_of_the_mask),
    CutByte(losses::erase_leaves_the_mask),
    CutByte(losses::erase_is_absent),
    CutByte(losses::mask_at_the_index),
    CutByte(losses::mask_from_the_address),
    CutByte(losses::mask_upside_down),
    losses::Afterwards(losses::cycle_stays),
    losses::Afterwards(losses::busy_stays),
    losses::Afterwards(losses::latch_stays),
    losses::Afterwards(losses::deep_stays),
    losses::Afterwards(losses::settings_are_reset),
    losses::Afterwards(losses::no_completes),
    losses::Afterwards(losses::yes_is_absent),
    losses::Afterwards(losses::cut_settings_are_reset),
    YesCutToAByte,
    LastTickIsSafe,
    CutReachesAll,
    UnusedMaskUnchecked,
    MaskBeforeArray,
];

/// Those of what only the M25PE40 has.
pub const M25PE40: &[(&str, &dyn Model)] = named![
    Knows { part: 2, code: PW, known: true },
    Knows { part: 2, code: PE, known: true },
    Knows { part: 2, code: SSE, known: true },
    Knows { part: 2, code: WRLR, known: true },
    Knows { part: 2, code: RDLR, known: true },
    Knows { part: 6, code: RES, known: false },
    Knows { part: 6, code: DP, known: false },
    ReleaseSigns,
    Needs(locks::long_release),
    Needs(locks::pulsed_release),
    Needs(locks::longer_lock_read),
    Needs(locks::whole_lock_read),
    Needs(locks::long_lock_write),
    Needs(locks::one_page_at_most),
    NoLatchFor(WRLR),
    NoLatchFor(PW),
    NoLatchFor(PE),
    NoLatchFor(SSE),
    // a frozen register is looked at before the latch
    LooksInOrder([11, 14, 12, 13, 15, 19, 16, 17, 18]),
    Stops(locks::bulk_erase_by_bp_alone),
    Stops(locks::bulk_erase_by_all_locks),
    Stops(locks::program_by_lock_down),
    Stops(locks::bulk_erase_by_lock_down),
    Stops(locks::page_write_by_lock_alone),
    Stops(locks::lock_write_by_protection),
    Stops(locks::lock_of_the_next),
    NotStopped(PP),
    NotStopped(SE),
    NotStopped(PW),
    NotStopped(PE),
    NotStopped(SSE),
    Frozen(locks::never),
    Frozen(locks::unless_equal),
    Frozen(locks::unless_stricter),
    Frozen(locks::by_any),
    Frozen(locks::by_write_lock),
    FrozenByW,
    Writes(locks::keeping_the_latch),
    Writes(locks::all),
    Writes(locks::setting),
    Writes(locks::exchanged),
    Writes(locks::clean_alone),
    Writes(locks::in_a_cycle),
    Unlocks(WREN),
    Unlocks(WRDI),
    Unlocks(DP),
    CycleUnlocks,
    PowerUpKeepsLocks { in_a_cycle: true },
    PowerUpKeepsLocks { in_a_cycle: false },
    Delivery(locks_delivered),
    losses::Afterwards(losses::locks_stay),
    losses::Afterwards(losses::locks_stay_at_rest),
    Drives(locks::lock_once),
    Drives(locks::locks_in_order),
    Drives(locks::reserved_ones),
    Drives(locks::lock_after_a_byte),
    Written(writes::clearing),
    Written(writes::setting_bits),
    Written(writes::erasing_the_rest),
    Written(writes::all_slots),
    Names(writes::from_the_beginning),
    Names(writes::up_to_the_end),
    Names(writes::one_less),
    Reaches { kind: 6, like: |address| Cycle::SectorErase { address } },
    Reaches { kind: 6, like: |address| Cycle::SubsectorErase { address } },
    Reaches { kind: 7, like: |address| Cycle::SectorErase { address } },
    Reaches { kind: 7, like: |address| Cycle::PageErase { address } },
    Reaches { kind: 2, like: |address| Cycle::SubsectorErase { address } },
    Lasts { kind: 5, like: |r| r.sector_erase },
    Lasts { kind: 6, like: |r| r.sector_erase },
    Lasts { kind: 7, like: |r| r.program },
    Lasts { kind: 7, like: |r| r.bulk_erase },
    CountsPageWrites,
    Remembers(writes::every_byte_named),
    Remembers(writes::page_named),
    Remembers(writes::address_of_the_last),
    Remembers(writes::first_bytes),
    Remembers(writes::start_of_the_erased),
    Remembers(empty_slots_written),
    Afterwards(program_names),
    Afterwards(equal_bytes_at_once),
    PowerUpForgetsThePageWrite,
    PowerUpErasesThePageWrite,
    CutByte(losses::small_erase_completes),
    CutByte(losses::named_forgotten),
    CutByte(losses::page_write_completes),
    CutByte(losses::page_write_programs),
    PutRight(soundness::unused_named),
    PutRight(soundness::named_beyond),
    PutRight(soundness::lock_bits_above),
    PutRight(soundness::locks_elsewhere),
    PutRight(soundness::kinds_elsewhere),
    NotTaken(soundness::unnamed_slots),
    NotTaken(soundness::deep_unsigned),
    NotTaken(soundness::lock_down_alone),
];

/// The fault of this name, of the calls.
pub fn named_so(name: &str) -> &'static dyn Model {
    let found = CHIP.iter().chain(M25PE40).find(|fault| fault.0 == name);
    found.unwrap_or_else(|| panic!("no fault {name}")).1
}

/// Changes a packed record that is sound.
fn amend(record: &mut [u8], change: impl FnOnce(&mut Record)) {
    let mut r = Record::unpack(record).expect("a sound record");
    change(&mut r);
    record.copy_from_slice(&r.pack());
}
