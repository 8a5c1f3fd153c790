//! The command `image` at work: every part there and back, byte for byte by the rule, and what is printed.

#[path = "support/image.rs"]
#[allow(dead_code)]
mod image;

use std::fs::{self, Permissions};
use std::os::unix::fs::{symlink, PermissionsExt};
use std::path::Path;

use image::blocks::{array, at, filled_up, image_of};
use image::desk::{found, printed};
use image::desk_of;
use m25p::Part;

/// The parts by number: name, bytes of the array, blocks, bytes of the image.
const PARTS: [(&str, usize, usize, usize); 7] = [
    ("bench", 4_096, 9, 4_608),
    ("M25P10-A", 131_072, 261, 133_632),
    ("M25P40", 524_288, 1_041, 532_992),
    ("M25P32", 4_194_304, 8_323, 4_261_376),
    ("M25P128", 16_777_216, 33_289, 17_043_968),
    ("M25P10-A-older", 131_072, 261, 133_632),
    ("M25PE40", 524_288, 1_041, 532_992),
];

/// Array to image to array, and a check and a salvage of the image, in which nothing is bad.
#[test]
fn every_part_there_and_back() {
    let desk = desk_of("parts");
    for (part, (name, bytes, blocks, image_bytes)) in Part::ALL.into_iter().zip(PARTS) {
        let contents = array(part, 1);
        desk.put("chip.bin", &contents);
        let run = |words: &[&str]| desk.prints(&[words, &["--force", "--part", name]].concat());
        let made = desk.makes("chip.img", || run(&["write", "chip.bin", "chip.img"]));
        assert_eq!(made, format!("blocks {blocks}, bytes {image_bytes}\n"));
        assert!(desk.get("chip.img") == image_of(&contents), "{name}: the image");
        let read = desk.makes("again.bin", || run(&["read", "chip.img", "again.bin"]));
        assert_eq!(read, format!("blocks {blocks}, bytes {bytes}\n"));
        assert!(desk.get("again.bin") == contents, "{name}: the array");
        let good = format!("blocks {blocks}, good {blocks}, wrong number 0, wrong sums 0");
        assert_eq!(desk.prints(&["check", "--part", name, "chip.img"]), format!("{good}\n"));
        let kept = desk.makes("kept.img", || run(&["salvage", "chip.img", "kept.img"]));
        assert_eq!(kept, format!("{good}, bytes lost 0\n"));
        assert!(desk.get("kept.img") == image_of(&contents), "{name}: salvaged");
    }
}

/// By name in any case or by number; options before, between and behind the plain words.
#[test]
fn words_in_any_order() {
    let desk = desk_of("order");
    desk.put("chip.bin", array(Part::M25p10aOlder, 2));
    desk.put("old", "");
    let part = ["--part", "m25p10-a-OLDER"];
    for words in [
        &["write", "chip.bin", "old", "--force", "--part", "5"][..],
        &["--force", "--part", "M25P10-A", "write", "chip.bin", "old"],
        &["write", "--part", "1", "chip.bin", "--force", "old"],
        &[&part[..], &["write", "chip.bin", "--force", "old"]].concat(),
    ] {
        desk.put("old", "what was there");
        assert_eq!(desk.prints(words), "blocks 261, bytes 133632\n", "{words:?}");
        assert!(desk.get("old") == image_of(&desk.get("chip.bin")));
    }
    let good = "blocks 261, good 261, wrong number 0, wrong sums 0\n";
    for words in [["check", "old", "--part", "1"], ["--part", "1", "check", "old"]] {
        assert_eq!(desk.prints(&words), good);
    }
}

/// What fills up the last block may be anything; who reads drops it, and a salvage leaves it.
#[test]
fn filler() {
    let desk = desk_of("filler");
    let contents = array(Part::Bench, 3);
    let image = filled_up(&contents, 0x00);
    assert!(image != image_of(&contents));
    desk.put("chip.img", &image);
    let good = "blocks 9, good 9, wrong number 0, wrong sums 0";
    assert_eq!(desk.prints(&["check", "--part", "0", "chip.img"]), format!("{good}\n"));
    let kept = desk.prints(&["salvage", "--part", "0", "chip.img", "kept.img"]);
    assert_eq!(kept, format!("{good}, bytes lost 0\n"));
    assert!(desk.get("kept.img") == image);
    desk.prints(&["read", "--part", "0", "chip.img", "chip.bin"]);
    assert!(desk.get("chip.bin") == contents);
    desk.prints(&["write", "--part", "0", "chip.bin", "again.img"]);
    assert!(desk.get("again.img") == image_of(&contents), "image to image need not be the same");
}

/// A file that is there is replaced if asked for: its permission bits stay, and so does a link to it.
#[test]
fn replaced() {
    let desk = desk_of("replaced");
    let contents = array(Part::Bench, 4);
    desk.put("chip.bin", &contents);
    desk.put("chip.img", image_of(&contents));
    symlink("old", desk.path("link")).unwrap();
    for (words, result) in [
        (["write", "chip.bin", "link"], image_of(&contents)),
        (["read", "chip.img", "link"], contents.clone()),
        (["salvage", "chip.img", "link"], image_of(&contents)),
    ] {
        desk.put("old", "what was there");
        fs::set_permissions(desk.path("old"), Permissions::from_mode(0o640)).unwrap();
        desk.prints(&[&["--force", "--part", "bench"], &words[..]].concat());
        assert!(desk.get("old") == result, "{words:?}");
        let mode = fs::metadata(desk.path("old")).unwrap().permissions().mode();
        assert_eq!(mode & 0o777, 0o640, "{words:?}");
        assert!(fs::symlink_metadata(desk.path("link")).unwrap().is_symlink());
    }
    assert_eq!(desk.prints(&["check", "--part", "0", "link"]).lines().count(), 1);
    assert_eq!(fs::read_dir(desk.path("")).unwrap().count(), 4, "nothing else is left");
}

/// Whoever reads only the beginning gets it, and nothing is complained of; the results are written before.
#[test]
fn output_that_is_not_read_to_its_end() {
    let desk = desk_of("pipe");
    let part = Part::M25p128;
    desk.put("zero.img", vec![0; part.image_bytes()]);
    let first = "block 1: wrong number 0: bytes 504 to 1007 (0x0001F8 to 0x0003EF)";
    for (words, lost) in [("check zero.img", ""), ("salvage zero.img new.img", " are lost")] {
        let line = format!("{{ \"$COMMAND\" --part 4 {words}; echo $? >status; }} | head -n 1");
        let head = printed(desk.shell(&line).output().unwrap());
        assert_eq!(head, format!("{first}{lost}\n"));
        assert_eq!(desk.get("status"), b"1\n");
    }
    let mut salvaged = vec![0xFF; part.bytes()];
    salvaged[..504].fill(0);
    assert!(desk.get("new.img") == image_of(&salvaged));
    desk.put("chip.bin", array(Part::Bench, 5));
    desk.put("few.img", vec![0; Part::Bench.image_bytes()]);
    let checks = ["check --part 4 zero.img", "check --part 0 few.img"];
    for words in checks.into_iter().chain(["--help", "write --part 0 chip.bin made.img"]) {
        let full = desk.shell(&format!("\"$COMMAND\" {words} >/dev/full")).output().unwrap();
        let said = String::from_utf8(full.stderr).unwrap();
        assert!(said.starts_with("Standard output cannot be written: "), "{words}: {said}");
        assert_eq!(full.status.code(), Some(1));
    }
    assert!(desk.get("made.img") == image_of(&desk.get("chip.bin")));
}

#[test]
fn help() {
    let desk = desk_of("help");
    let help = desk.prints(&["--help"]);
    assert!(help.starts_with("Usage: image write --part PART IN OUT [--force]\n"));
    let words = ["image read --part", "image check --part PART IN\n", "image salvage --part"];
    for word in words.iter().chain(&["--force", "wrong number", "wrong sums", "M25PE40", "33"]) {
        assert!(help.contains(word), "{word}");
    }
    for task in ["write", "read", "check", "salvage"] {
        assert_eq!(desk.prints(&[task, "--help"]), help);
    }
}

/// The listing on the front page is what its commands print, of an image with the damage that it tells of.
#[test]
fn the_front_page() {
    let root = Path::new(env!("CARGO_MANIFEST_DIR")).join("../..");
    let page = fs::read_to_string(root.join("README.md")).unwrap();
    let (_, behind) = page.split_once("-- check --part M25P40 chip.img\n```\n\n```\n").unwrap();
    let (listing, behind) = behind.split_once("```").unwrap();
    let desk = desk_of("front_page");
    let contents = array(Part::M25p40, 6);
    let mut image = image_of(&contents);
    let (front, rest) = image.split_at_mut(at(18).start);
    front[at(17)].swap_with_slice(&mut rest[..512]);
    image[at(1_040).start + 100] ^= 0x10;
    desk.put("chip.img", &image);
    assert_eq!(found(desk.run(&["check", "--part", "M25P40", "chip.img"])), listing);
    let salvaged = found(desk.run(&["salvage", "--part", "M25P40", "chip.img", "mended.img"]));
    let total = salvaged.lines().last().unwrap();
    assert!(behind.contains(&format!("`{total}`")), "{total}");
}
