//! flashrom against the server, where flashrom is on the machine: in PATH or in an sbin directory, or the
//! one that FLASHROM names.

mod support;

use std::fs;
use std::path::PathBuf;
use std::process::Command;
use std::time::Instant;

use m25p::{image, Part};
use support::flashrom::{find, tell, Flashrom};
use support::{scratch, Server};
use tools::rng::Rng;
use tools::serprog::PARTS;

/// A server and what flashrom needs to talk to it.
struct Bench {
    flashrom: Flashrom,
    server: Server,
    image: PathBuf,
}

impl Bench {
    /// A server for the part with this image, if there is a flashrom. It tells of a missing erase.
    fn new(test: &str, part: &str, contents: &[u8], options: &[&str]) -> Option<Bench> {
        let program = find(test)?;
        let directory = scratch(&format!("flashrom_{test}_{part}"));
        let image = directory.join("chip.bin");
        fs::write(&image, contents).unwrap();
        let options = [options, &["--warn-missing"]].concat();
        let server = Server::start(part, &options, Some(&image));
        let flashrom = Flashrom { program, directory, port: server.port };
        Some(Bench { flashrom, server, image })
    }

    fn read(&self, part: &str) -> Vec<u8> {
        let file = self.flashrom.directory.join("read.bin");
        self.flashrom.succeed(&["-c", part, "-r"], Some(&file));
        fs::read(&file).unwrap()
    }

    fn status(&self) -> u8 {
        self.server.client().operate(&[0x05], 1)[0]
    }

    /// Ends the server, whose image has these contents then. In no program an erase was missing.
    fn end(self, contents: &[u8]) {
        self.end_having_told(contents, "");
    }

    /// The same of a server that has told this on standard error.
    fn end_having_told(self, contents: &[u8], told: &str) {
        let end = self.server.stop();
        assert!(end.status.success() && end.printed.is_empty(), "{}", end.complaints);
        assert_eq!(end.complaints, told);
        assert!(fs::read(&self.image).unwrap() == contents, "the image");
    }
}

/// The part that flashrom knows by this name.
fn named(name: &str) -> Part {
    PARTS.into_iter().find(|(known, _)| *known == name).unwrap().1
}

/// Pages of random bytes here and there, and in the first and the last place; else FF.
fn sparse(bytes: usize, seed: u64) -> Vec<u8> {
    let mut rng = Rng::new(seed);
    let mut contents = vec![0xFF; bytes];
    let last = bytes / 256 - 1;
    for page in (0..20).map(|_| rng.below(last)).chain([0, last]).collect::<Vec<usize>>() {
        rng.fill(&mut contents[256 * page..256 * (page + 1)]);
    }
    contents
}

/// Random bytes all over.
fn full(bytes: usize, seed: u64) -> Vec<u8> {
    Rng::new(seed).bytes(bytes)
}

/// Probe, read, write, verify, read back, write with one byte changed, erase; with contents of this form.
fn life(part: &str, form: fn(usize, u64) -> Vec<u8>) {
    let bytes = named(part).bytes();
    let first = form(bytes, 1);
    let Some(bench) = Bench::new("life", part, &first, &[]) else { return };
    let start = Instant::now();
    let probe = bench.flashrom.succeed(&[], None);
    let found: Vec<&str> = probe.lines().filter(|line| line.starts_with("Found ")).collect();
    assert_eq!(found.len(), 1, "{probe}");
    assert!(found[0].contains(&format!("\"{part}\"")), "{probe}");
    assert!(bench.read(part) == first, "read");

    let mut second = form(bytes, 2);
    let writing = Instant::now();
    let (fine, said) = bench.flashrom.write(part, &second);
    let writing = writing.elapsed();
    assert!(fine && said.contains("VERIFIED."), "{said}");
    assert!(fs::read(&bench.image).unwrap() == second, "the image, as soon as flashrom has ended");
    bench
        .flashrom
        .succeed(&["-c", part, "-v"], Some(&bench.flashrom.directory.join("written.bin")));
    assert!(bench.read(part) == second, "read back");

    // One byte, which is random in either form, needs an erase, as all its bits change.
    second[bytes - 77] ^= 0xFF;
    let (fine, said) = bench.flashrom.write(part, &second);
    assert!(fine && said.contains("VERIFIED."), "{said}");
    assert!(bench.read(part) == second, "read back with one byte changed");

    bench.flashrom.succeed(&["-c", part, "-E"], None);
    let erased = vec![0xFF; bytes];
    assert!(bench.read(part) == erased, "read back erased");
    let (all, writing) = (start.elapsed().as_secs_f32(), writing.as_secs_f32());
    tell(&format!("{part}: {all:.1} s, of which writing the image took {writing:.1} s"));
    bench.end(&erased);
}

#[test]
fn m25p10_a() {
    life("M25P10-A", full);
}

#[test]
fn m25p40() {
    life("M25P40", full);
}

#[test]
fn m25p32() {
    life("M25P32", full);
}

/// flashrom programs this one byte by byte: two full images would take most of a minute.
#[test]
fn m25p10() {
    life("M25P10", sparse);
}

#[test]
fn m25p128() {
    life("M25P128", full);
}

#[test]
fn m25pe40() {
    life("M25PE40", full);
}

/// The whole array is protected, and flashrom unlocks it, writes, and restores BP and SRWD.
#[test]
fn unlocks_and_restores() {
    for (name, part) in PARTS {
        let (highest_bp, bytes) = (part.highest_bp(), part.bytes());
        for srwd in ["0", "1"] {
            let options = ["--bp", &highest_bp.to_string(), "--srwd", srwd];
            let old = sparse(bytes, 3);
            let Some(bench) = Bench::new("unlocks", name, &old, &options) else { return };
            let before = bench.status();
            assert_eq!(before, highest_bp << 2 | if srwd == "1" { 0x80 } else { 0 });
            let contents = sparse(bytes, 4);
            let (fine, said) = bench.flashrom.write(name, &contents);
            assert!(fine && said.contains("VERIFIED."), "{name}:\n{said}");
            assert_eq!(bench.status(), before, "{name}: BP and SRWD are restored");
            bench.end(&contents);
        }
    }
}

/// SRWD set and W low: flashrom can't unlock, its write fails, and the array stays. On the M25P40 BP 4
/// protects all of it already.
#[test]
fn hardware_protection_holds() {
    let highest = PARTS.map(|(name, part)| (name, part.highest_bp()));
    for (part, bp) in highest.into_iter().chain([("M25P40", 4)]) {
        let bytes = named(part).bytes();
        let options = ["--bp", &bp.to_string(), "--srwd", "1", "--w", "0"];
        let contents = sparse(bytes, 5);
        let Some(bench) = Bench::new("holds", part, &contents, &options) else { return };
        let before = bench.status() & !0x02;
        let (fine, said) = bench.flashrom.write(part, &sparse(bytes, 6));
        assert!(!fine, "{part}: the write succeeded:\n{said}");
        assert_eq!(bench.status() & !0x02, before, "{part}: BP and SRWD stay");
        assert!(bench.read(part) == contents, "{part}: the array stays");
        bench.end(&contents);
    }
}

/// W low with SRWD reset freezes nothing.
#[test]
fn w_low_alone() {
    let contents = sparse(Part::M25p40.bytes(), 8);
    let options = ["--bp", "7", "--w", "0"];
    let old = sparse(Part::M25p40.bytes(), 7);
    let Some(bench) = Bench::new("w_low", "M25P40", &old, &options) else { return };
    let (fine, said) = bench.flashrom.write("M25P40", &contents);
    assert!(fine, "{said}");
    assert_eq!(bench.status(), 0x1C);
    bench.end(&contents);
}

/// A chip in deep power-down is hidden from a probe by name until a RES wakes it.
#[test]
fn deep_power_down_hides() {
    let contents = sparse(Part::M25p40.bytes(), 9);
    let Some(bench) = Bench::new("deep", "M25P40", &contents, &[]) else { return };
    bench.server.client().operate(&[0xB9], 0);
    assert!(!bench.flashrom.run(&["-c", "M25P40"], None).0, "hidden");
    assert!(!bench.flashrom.run(&["-c", "M25P40"], None).0, "still hidden");
    bench.server.client().operate(&[0xAB], 0);
    bench.flashrom.succeed(&["-c", "M25P40"], None);
    bench.end(&contents);
}

/// The M25PE40 has another release: not the one of a probe, which reads a signature with it. AB alone wakes it.
#[test]
fn deep_power_down_hides_the_m25pe40() {
    let contents = sparse(Part::M25pe40.bytes(), 16);
    let Some(bench) = Bench::new("deep", "M25PE40", &contents, &[]) else { return };
    bench.server.client().operate(&[0xB9], 0);
    for words in [&[][..], &[], &["-c", "M25PE40"]] {
        assert!(!bench.flashrom.run(words, None).0, "hidden, {words:?}");
    }
    bench.server.client().operate(&[0xAB], 0);
    bench.flashrom.succeed(&[], None);
    bench.end(&contents);
}

/// Writes the lock register of the sector at this address.
fn lock(bench: &Bench, address: [u8; 3], value: u8) {
    let mut client = bench.server.client();
    client.operate(&[0x06], 0);
    client.operate(&[&[0xE5], &address[..], &[value]].concat(), 0);
}

/// Pages in the sectors 1, 3 and 5 are to change, and sector 3 is locked: flashrom, which knows of no lock, tries its
/// three ways to erase and gives up, with what comes before it written. Opened again, the sector is written; frozen, it
/// is not until the server has ended, which is the power.
#[test]
fn locked_sector_fails_the_write() {
    let (part, bytes) = ("M25PE40", Part::M25pe40.bytes());
    let old = full(bytes, 17);
    let pages = [0x1_0000, 0x3_8000, 0x5_0000].map(|at| at..at + 256);
    let mut contents = old.clone();
    pages.iter().for_each(|page| contents[page.clone()].iter_mut().for_each(|byte| *byte ^= 0xFF));
    let mut before_it = old.clone();
    before_it[pages[0].clone()].copy_from_slice(&contents[pages[0].clone()]);
    let Some(bench) = Bench::new("locked", part, &old, &[]) else { return };
    let fails = |bench: &Bench| {
        let (fine, said) = bench.flashrom.write(part, &contents);
        assert!(!fine && said.contains("No usable erase functions left."), "{said}");
        assert_eq!(said.matches("ERASE FAILED!").count(), 3, "{said}");
        assert!(bench.read(part) == before_it, "the locked sector stays, and what comes behind it");
    };
    lock(&bench, [0x03, 0x12, 0x34], 0x01);
    fails(&bench);
    assert_eq!(bench.server.client().operate(&[0xE8, 0x03, 0xFF, 0xFF], 2), [0x01, 0x01]);
    lock(&bench, [0x03, 0x00, 0x00], 0x03);
    lock(&bench, [0x03, 0x00, 0x00], 0x00);
    fails(&bench);
    bench.end(&before_it);
    let Some(bench) = Bench::new("locked", part, &before_it, &[]) else { return };
    lock(&bench, [0x03, 0x00, 0x00], 0x01);
    lock(&bench, [0x03, 0x00, 0x00], 0x00);
    let (fine, said) = bench.flashrom.write(part, &contents);
    assert!(fine && said.contains("VERIFIED."), "{said}");
    bench.end(&contents);
}

/// A blank chip needs no erase, so that only the verification notices the locked sector; all others are written.
#[test]
fn locked_blank_sector_fails_the_verification() {
    let (part, bytes) = ("M25PE40", Part::M25pe40.bytes());
    let Some(bench) = Bench::new("locked_blank", part, &vec![0xFF; bytes], &[]) else { return };
    lock(&bench, [0x03, 0x12, 0x34], 0x03);
    let mut contents = full(bytes, 18);
    let (fine, said) = bench.flashrom.write(part, &contents);
    assert!(!fine && said.contains("Verifying flash... FAILED at 0x00030000!"), "{said}");
    contents[0x3_0000..0x4_0000].fill(0xFF);
    bench.end(&contents);
}

/// One that is found by its signature is not hidden: the probe's RES wakes it.
#[test]
fn deep_power_down_does_not_hide_the_older() {
    let contents = sparse(named("M25P10").bytes(), 10);
    let Some(bench) = Bench::new("deep", "M25P10", &contents, &[]) else { return };
    bench.server.client().operate(&[0xB9], 0);
    assert_eq!(bench.status(), 0xFF, "deep power-down");
    bench.flashrom.succeed(&["-c", "M25P10"], None);
    assert!(bench.read("M25P10") == contents);
    bench.end(&contents);
}

/// Power is lost in the third program of a write to a blank chip: flashrom says at which byte the page differs, and its
/// write fails. All other pages are written, and a second write puts this one right.
#[test]
fn cut_program_fails_the_verification() {
    for part in ["M25P10-A", "M25P40", "M25P128", "M25PE40"] {
        let bytes = named(part).bytes();
        let (contents, options) = (full(bytes, 11), ["--cut-after", "3", "--seed", "5"]);
        let Some(bench) = Bench::new("cut_program", part, &vec![0xFF; bytes], &options) else {
            return;
        };
        let (fine, said) = bench.flashrom.write(part, &contents);
        let mask = Rng::new(5).bytes(256);
        let mut left = contents.clone();
        left[0x200..0x300].iter_mut().zip(mask).for_each(|(byte, mask)| *byte |= mask);
        let first = (0..bytes).find(|at| left[*at] != contents[*at]).unwrap();
        assert!(!fine, "{part}: the write succeeded:\n{said}");
        assert!(said.contains(&format!("FAILED at 0x{first:08x}!")), "{part}: {said}");
        assert!(said.contains("Your flash chip is in an unknown state."), "{part}: {said}");
        assert!(bench.read(part) == left, "{part}: the page that was cut, and no other");
        let (fine, said) = bench.flashrom.write(part, &contents);
        assert!(fine && said.contains("VERIFIED."), "{part}: the second write:\n{said}");
        let told = "Power was lost in cycle 3, a page program (02) at 000200, and is back; \
                    --cut-after 3 --seed 5 repeats it.\n";
        bench.end_having_told(&contents, told);
    }
}

/// Power is lost in the first erase of a write: flashrom looks at what it erased, says so, and erases once more.
#[test]
fn cut_erase_is_seen_and_repeated() {
    for (part, erase) in [("M25P40", "a sector erase (D8)"), ("M25PE40", "a subsector erase (20)")]
    {
        let bytes = named(part).bytes();
        let (old, contents) = (full(bytes, 12), full(bytes, 13));
        let Some(bench) = Bench::new("cut_erase", part, &old, &["--cut-after", "1"]) else {
            return;
        };
        let (fine, said) = bench.flashrom.write(part, &contents);
        assert!(said.contains("ERASE FAILED!"), "{said}");
        assert!(fine && said.contains("VERIFIED."), "{said}");
        let told = format!(
            "Power was lost in cycle 1, {erase} at 000000, and is back; --cut-after 1 --seed 1 repeats it.\n"
        );
        bench.end_having_told(&contents, &told);
    }
}

/// Power is lost as flashrom unlocks the chip, and by the seed the status write is absent: the whole array stays.
#[test]
fn cut_unlocking() {
    let (part, bytes) = ("M25P40", Part::M25p40.bytes());
    let old = sparse(bytes, 14);
    let options = ["--bp", "7", "--cut-after", "1", "--seed", "1"];
    let Some(bench) = Bench::new("cut_unlocking", part, &old, &options) else { return };
    let (fine, said) = bench.flashrom.write(part, &sparse(bytes, 15));
    assert!(!fine && said.contains("Block protection could not be disabled!"), "{said}");
    assert_eq!(bench.status() & !0x02, 0x1C, "BP stays");
    let told = "Power was lost in cycle 1, a status write (01) of 00 that is absent, and is back; \
                --cut-after 1 --seed 1 repeats it.\n";
    bench.end_having_told(&old, told);
}

/// An image in blocks stays one, and the command `image` gives back as raw bytes what flashrom wrote.
#[test]
fn image_in_blocks() {
    for (name, part) in [("M25P40", Part::M25p40), ("M25P10-A", Part::M25p10a)] {
        let blocks = |array: &[u8]| image::write(part, array).unwrap();
        let (old, contents) = (full(part.bytes(), 19), full(part.bytes(), 20));
        let Some(bench) = Bench::new("blocks", name, &blocks(&old), &[]) else { return };
        assert!(bench.read(name) == old, "{name}: read");
        let (fine, said) = bench.flashrom.write(name, &contents);
        assert!(fine && said.contains("VERIFIED."), "{name}: {said}");
        assert!(bench.read(name) == contents, "{name}: read back");
        let again = bench.flashrom.directory.join("again.bin");
        let mut read = Command::new(env!("CARGO_BIN_EXE_image"));
        read.args(["read", "--part", name]).args([&bench.image, &again]);
        assert!(read.output().unwrap().status.success());
        assert!(fs::read(&again).unwrap() == contents, "{name}: image read");
        bench.end(&blocks(&contents));
    }
}
