//! C and C++ programs over m25p.h and libm25p.a, built with warnings as errors, and what they print. Those of batches are
//! in `c_batch.rs`, of reports in `c_report.rs`, of images in `c_image.rs`, of a bus in `c_bus.rs`.

#[path = "support/c.rs"]
#[allow(dead_code)]
mod c;

use std::path::Path;
use std::process::{Command, Output};

use c::{file, prints};
use rig::kit;

const FIRST: &str = "\
identification   00 00 0C
write enable     done
program          done
status           03
status           00
read             66 6C 61 73 68 FF
write enable     done
rewrite          done, 3 bits missing: erase first
read             62 6C 61 72 68 FF
";

#[test]
fn first_program() {
    prints("-std=c99", "examples/first.c", FIRST);
}

/// Runs a command to its end, if it is on the machine.
fn run(name: &str, words: &[&str]) -> Option<Output> {
    Command::new(name).args(words).output().ok()
}

/// The commands of docs/C-CALLS.md for any processor: a static program of the distribution's compiler for
/// x86-64, run by itself on that processor and by qemu-user elsewhere.
#[test]
fn static_program() {
    const COMPILER: &str = "x86_64-linux-gnu-gcc";
    let skipped = |what: &str| rig::tell(&format!("skipped: the static program needs {what}"));
    let directory = Path::new(env!("CARGO_TARGET_TMPDIR"));
    let (empty, program) = (directory.join("empty.c"), directory.join("static_first"));
    std::fs::write(&empty, "int main(void) { return 0; }\n").unwrap();
    let (program, include) = (program.to_str().unwrap(), file("include"));
    let tried = run(COMPILER, &["-static", empty.to_str().unwrap(), "-o", program]);
    if !tried.is_some_and(|tried| tried.status.success()) {
        return skipped(&format!("{COMPILER} and a static C library for it"));
    }
    let (source, archive) = (file("examples/first.c"), Path::new(env!("M25P_ARCHIVE")));
    let words = ["-O2", "-static", "-I", include.to_str().unwrap(), source.to_str().unwrap()];
    let words = [&words[..], &[archive.to_str().unwrap(), "-o", program]].concat();
    let built = run(COMPILER, &words).unwrap();
    assert!(built.status.success(), "{}", String::from_utf8_lossy(&built.stderr));
    let ended = if kit::NATIVE { run(program, &[]) } else { run("qemu-x86_64", &[program]) };
    let Some(ended) = ended else { return skipped("qemu-x86_64 (qemu-user)") };
    assert_eq!((ended.status.success(), &ended.stdout[..]), (true, FIRST.as_bytes()));
}

/// No promise fixes the order of a call's arguments; this program and the names below do.
#[test]
fn order_of_arguments() {
    let expected = "\
m25p_deliver: right, 22 of 22 exchanges noticed
m25p_transact: right, 21 of 21 exchanges noticed
m25p_wait: right, 4 of 4 exchanges noticed
m25p_power_up: right, 2 of 2 exchanges noticed
m25p_loss: right, 9 of 9 exchanges noticed
m25p_pins: right, 12 of 12 exchanges noticed
m25p_batch: right, 30 of 30 exchanges noticed
m25p_report: right, 30 of 30 exchanges noticed
m25p_image_write: right, 4 of 4 exchanges noticed
m25p_image_read: right, 4 of 4 exchanges noticed
m25p_image_salvage: right, 4 of 4 exchanges noticed
m25p_bus_transact: right, 27 of 27 exchanges noticed
m25p_bus_wait: right, 4 of 4 exchanges noticed
";
    prints("-std=c99", "rust/rig/c/arguments.c", expected);
}

/// What stands between a call's brackets behind `before` and its name, parted by commas.
fn between<'a>(text: &'a str, before: &str, call: &str) -> Vec<&'a str> {
    let found = text.split(before).find_map(|rest| rest.trim_start().strip_prefix(call));
    let found = found.and_then(|rest| rest.trim_start().strip_prefix('('));
    let (inside, _) = found.and_then(|rest| rest.split_once(')')).expect(call);
    inside.split(',').map(str::trim).filter(|word| !word.is_empty()).collect()
}

/// The names of a C declaration's arguments.
fn declared(page: &str, call: &str) -> Vec<String> {
    let text = std::fs::read_to_string(file(page)).unwrap();
    let name = |word: &&str| word.rsplit([' ', '*']).next().unwrap().to_string();
    between(&text, "uint64_t ", call).iter().map(name).collect()
}

/// The names of a call of the library, a slice as C has it: a pointer and its length.
fn proved(call: &str) -> Vec<String> {
    let text = std::fs::read_to_string(file("crates/m25p_c/src/lib.rt")).unwrap();
    let arguments = between(&text, "pub extern \"C\" fn ", call);
    let names = arguments.iter().flat_map(|argument| {
        let (name, kind) = argument.split_once(':').expect("a name and its type");
        let name = name.replace("packed", "record");
        if kind.contains("[u8]") {
            vec![name.clone(), format!("{name}_len")]
        } else {
            vec![name]
        }
    });
    names.collect()
}

/// The calls, and how many arguments each has.
const CALLS: [(&str, usize); 13] = [
    ("m25p_deliver", 9),
    ("m25p_transact", 10),
    ("m25p_wait", 5),
    ("m25p_power_up", 4),
    ("m25p_loss", 7),
    ("m25p_pins", 8),
    ("m25p_batch", 12),
    ("m25p_report", 12),
    ("m25p_image_write", 5),
    ("m25p_image_read", 5),
    ("m25p_image_salvage", 5),
    ("m25p_bus_transact", 11),
    ("m25p_bus_wait", 5),
];

/// The header, its page and the library name the same arguments in the same order.
#[test]
fn names_of_arguments() {
    for (call, count) in CALLS {
        let header = declared("include/m25p.h", call);
        assert_eq!(header.len(), count, "{call}");
        assert_eq!(header, declared("docs/C-CALLS.md", call), "{call}");
        assert_eq!(header, proved(call), "{call}");
    }
}

#[test]
fn header_in_cpp() {
    prints("-std=c++11", "rust/rig/c/header.cpp", "");
}

const EMPTY: &str = "\
deliver record: 8 0 0 0
deliver array: 2 0 0 0
deliver both: 8 0 0 0
wait record: 8 0 0 0
wait array: 2 0 0 0
power-up record: 8 0 0 0
power-up array: 2 0 0 0
loss record: 8 0 0 0
loss array: 2 0 0 0
loss mask: 41 0 0 0
loss all: 8 0 0 0
transact record: 8 0 0 0
transact array: 2 0 0 0
transact sent: 11 0 0 0
transact response: 5 0 0 0
transact sent and response: 11 0 0 0
transact all: 8 0 0 0
pins record: 8 0 0 0
pins array: 2 0 0 0
pins samples: 0 0 0 0
pins output: 23 0 0 0
pins samples and output: 0 0 0 0
pins all: 8 0 0 0
";

const LIMITS: &str = "\
lengths beyond 32 bits
deliver record: 8 0 0 0
deliver array: 2 0 0 0
wait record: 8 0 0 0
wait array: 2 0 0 0
power-up record: 8 0 0 0
power-up array: 2 0 0 0
loss record: 8 0 0 0
loss array: 2 0 0 0
loss mask: 41 0 0 0
transact record: 8 0 0 0
transact array: 2 0 0 0
transact sent: 3 0 0 0
transact response: 0 1 3 0
FF 00 00 0C
pins record: 8 0 0 0
pins array: 2 0 0 0
pins output: 0 0 0 0
2 2 2
full numbers
part 256: 1 0 0 0
part 65536: 1 0 0 0
program 1000001: 7 0 0 0
write status 2^32-1: 7 0 0 0
pulses 256: 4 0 0 0
pulses 2^31: 4 0 0 0
W 0: 18 0 0 0
W 256: 0 0 0 0
wait 2^32-1: 0 0 0 0
longest transactions
read 65536: 0 4 65532 0
read 65537: 3 0 0 0
short response: 5 0 0 0
program 65536: 0 0 0 0
raw pins
rest: 0 0 0 0
bit 7: 21 0 0 0
short output: 23 0 0 0
rewrites
00 in 3 bytes: 0 0 0 0
FF over 00 in 3 bytes: 0 0 0 24
A5 over 00 in 2 bytes: 0 0 0 8
FF where no 00 is: 0 0 0 0
00 in a page: 0 0 0 0
FF over 00 in a page: 0 0 0 2048
FF over 00 in 60000 bytes: 0 0 0 2048
erase: 0 0 0 0
program while busy: 12 0 0 0
wait: 0 0 0 0
FF after the erase: 0 0 0 0
protect: 0 0 0 0
power-up: 0 0 0 0
FF over 00, protected: 17 0 0 0
deliver: 0 0 0 0
FF after the delivery: 0 0 0 0
losses
mask of 255: 41 0 0 0
0 0 1
mask of 257: 41 0 0 0
0 0 1
no: 0 0 0 0
0 0 0
yes 1: 0 0 0 0
2 1 0
yes 256: 0 0 0 0
2 1 0
yes 2^31: 0 0 0 0
2 1 0
once more: 0 0 0 0
locks
deliver: 0 0 0 0
lock without the latch: 16 0 0 0
lock: 0 0 0 0
look: 0 4 2 0
FF 03 03
page write, locked: 17 0 0 0
lock, frozen: 19 0 0 0
3
power-up: 0 0 0 0
0
page write: 0 0 0 0
5 2
wait: 0 0 0 0
12 34 FF
parts
bench: 0 0 0, 00 00 0C, 0B
M25P10-A: 0 0 0, 20 20 11, 10
M25P40: 0 0 0, 20 20 13, 12
M25P32: 0 0 0, 20 20 16, 15
M25P128: 0 0 14, 20 20 18, FF
older M25P10-A: 0 14 0, FF FF FF, 10
M25PE40: 0 0 15, 20 80 13, FF
part 7: 1 0 0 0
";

#[test]
fn limits() {
    let expected = format!("empty slices, an address\n{EMPTY}{LIMITS}empty slices, NULL\n{EMPTY}");
    prints("-std=c99", "rust/rig/c/boundary.c", &expected);
}
