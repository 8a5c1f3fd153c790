//! A proved software stand-in for M25P and M25PE serial flash: the calls of `libm25p.a` as safe Rust.
//!
//! A [`Chip`] is one of the [parts](Part) with its contents. It takes SPI transactions, each one period of
//! Chip Select low, or the raw samples of its pins, and does what the data sheet says and nothing else. Time
//! is counted in ticks and passes only when it is told to ([`Chip::wait`]). A program, an erase or a status
//! write is a cycle: it changes array or settings with its last tick, and where power is lost before
//! ([`Chip::loss`]), it is cut. What is refused or ignored is an [`Answer`], which is an error, too.
//!
//! ```
//! use m25p::{Answer, Chip, Durations, Part, MASK_BYTES};
//!
//! fn main() -> Result<(), Answer> {
//!     let mut chip = Chip::deliver(Part::M25p40, Durations::default())?;
//!     let identification = chip.transact(&[0x9F, 0, 0, 0], 0, true).executed()?;
//!     assert_eq!(identification.driven(), [0x20, 0x20, 0x13]);
//!
//!     let program = [0x02, 0x00, 0x00, 0x10, 0x5A];
//!     let ignored = chip.transact(&program, 0, true);
//!     assert_eq!(ignored.answer, Answer::LatchNeeded);
//!     assert_eq!(ignored.answer.to_string(), "the write enable latch is needed and not set");
//!
//!     chip.transact(&[0x06], 0, true).executed()?;
//!     chip.transact(&program, 0, true).executed()?;
//!     assert_eq!(chip.array()[0x10], 0xFF);
//!     chip.wait(Durations::default().program);
//!     assert_eq!(chip.array()[0x10], 0x5A);
//!
//!     // FF over 5A: four bits are wanted 1 and stay 0, as no erase came first.
//!     chip.transact(&[0x06], 0, true).executed()?;
//!     let rewrite = chip.transact(&[0x02, 0x00, 0x00, 0x10, 0xFF], 0, true).executed()?;
//!     assert_eq!((rewrite.missing, chip.array()[0x10]), (4, 0x5A));
//!     chip.wait(Durations::default().program);
//!
//!     // Power is lost in mid-program: of 5A the bits 3 and 1 were to go, and bit 1 was not reached.
//!     chip.transact(&[0x06], 0, true).executed()?;
//!     chip.transact(&[0x02, 0x00, 0x00, 0x10, 0x50], 0, true).executed()?;
//!     chip.loss(&[0x02; MASK_BYTES], false);
//!     assert_eq!(chip.array()[0x10], 0x52);
//!     Ok(())
//! }
//! ```
//!
//! A day's transactions and waits can be given as one row of bytes ([`Chip::batch`]), which the module
//! [`batch`] writes and reads. A report (module [`report`]) is a batch whose transactions are counted, too.
//!
//! A chip's contents can be kept on disk as an image, whose blocks have sums; where some of it is damaged, the rest can
//! be saved (module [`image`]).
//!
//! Up to eight chips can share one bus (module [`bus`]): a transaction goes to the one that is named, and time passes for
//! all of them.
//!
//! The functions in [`calls`] are the C calls themselves, on slices of any length.
//!
//! `libm25p.a` is for x86-64 and is linked there: the build takes it from `M25P_LIB_DIR`, or from
//! `target/staticlib`, where `./archive` puts it. On another processor a program makes the calls
//! under the emulator of the Rattle kit, in memory that it shares with this process, and nothing else
//! changes for the user of this crate. The feature `bridge` asks for that program on x86-64, too.

#![deny(missing_docs)]

mod answer;
pub mod batch;
mod buffer;
pub mod bus;
pub mod calls;
mod chip;
mod cycle;
mod durations;
pub mod image;
mod part;
pub mod pins;
pub mod report;

// Where the library runs: in this process, or behind a bridge on a machine that can't link it.
#[cfg(any(not(target_arch = "x86_64"), feature = "bridge"))]
#[path = "library/bridge.rs"]
mod library;
#[cfg(all(target_arch = "x86_64", not(feature = "bridge")))]
#[path = "library/direct.rs"]
mod library;

#[cfg(any(not(target_arch = "x86_64"), feature = "bridge"))]
#[allow(dead_code)]
mod kit;

pub use answer::{Answer, Reply};
pub use buffer::Buffer;
pub use bus::Bus;
pub use chip::{Batch, Chip, Response, Run};
pub use cycle::Cycle;
pub use durations::Durations;
pub use part::{Part, UnknownPart};
pub use report::{Reported, Totals};

/// The length of a packed record.
pub const RECORD_BYTES: usize = 304;

/// The length of a power loss's mask: a byte for each byte of a page.
pub const MASK_BYTES: usize = 256;
