//! The rig: a model of the written rules, and what compares libm25p.a with it.
//!
//! `rust/run` compares; RIG_CALLS, RIG_RUNS and RIG_SEED make the run longer or another one.
//! `cargo run --release --bin timing` measures.

pub mod batch_generate;
pub mod batch_model;
pub mod bench_model;
pub mod bus_generate;
pub mod bus_model;
pub mod compare;
pub mod faults;
pub mod generate;
pub mod image_generate;
pub mod image_model;
// C programs of the tests are built as the bridge of m25p is.
#[path = "../../m25p/src/kit.rs"]
pub mod kit;
pub mod model;
pub mod pins_generate;
pub mod pins_model;
pub mod plain_pins;
pub mod probe;
pub mod report_generate;
pub mod report_model;
// The tools draw a power loss from a seed.
#[path = "../../tools/src/rng.rs"]
pub mod rng;

/// Writes a line past the tests' capture, so that it is always seen.
pub fn tell(text: &str) {
    use std::io::Write;
    let _ = writeln!(std::io::stderr(), "{text}");
}

/// The decimal number in an environment variable, or the default without one.
pub fn number(name: &str, default: u64) -> u64 {
    match std::env::var(name) {
        Ok(text) => text.parse().unwrap_or_else(|_| panic!("{name} is a decimal number")),
        Err(_) => default,
    }
}
