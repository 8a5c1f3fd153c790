//! The command `image` at a terminal: a line on standard error says which step goes on, and is erased at the end.

#[path = "support/image.rs"]
#[allow(dead_code)]
mod image;
#[path = "support/screen.rs"]
mod screen;

use image::blocks::{array, image_of};
use image::{common, desk, desk_of};
use m25p::Part;
use screen::seen;

/// The steps in one line, each over the one before, which is erased in the end.
fn line_of(steps: &[&str]) -> String {
    let mut width = 0;
    let mut line = String::new();
    for step in steps {
        line += &format!("\r{step:width$}");
        width = width.max(step.len());
    }
    line + "\r" + &" ".repeat(width) + "\r"
}

/// The steps of each task on a small part and on the largest, then what is printed.
#[test]
fn steps() {
    let desk = desk_of("steps");
    for (part, blocks, bytes, image_bytes) in
        [(Part::Bench, 9, 4_096, 4_608), (Part::M25p128, 33_289, 16_777_216, 17_043_968)]
    {
        desk.put("chip.bin", array(part, 1));
        let run = |words: &str| {
            let (text, status) = seen(&desk, &format!("exec \"$COMMAND\" --part {part} {words}"));
            assert_eq!(status, Some(0), "{text}");
            text
        };
        let [reading, reading_image] = [bytes, image_bytes].map(|n| format!("reading {n} bytes"));
        let [writing, writing_image] = [bytes, image_bytes].map(|n| format!("writing {n} bytes"));
        let (converting, checking) =
            (format!("converting {blocks} blocks"), format!("checking {blocks} blocks"));
        assert_eq!(
            run("write --force chip.bin chip.img"),
            line_of(&[&reading, &converting, &writing_image])
                + &format!("blocks {blocks}, bytes {image_bytes}\r\n")
        );
        assert_eq!(
            run("read --force chip.img again.bin"),
            line_of(&[&reading_image, &converting, &writing])
                + &format!("blocks {blocks}, bytes {bytes}\r\n")
        );
        let good = format!("blocks {blocks}, good {blocks}, wrong number 0, wrong sums 0");
        let checked = line_of(&[&reading_image, &checking]) + &format!("{good}\r\n");
        assert_eq!(run("check chip.img"), checked);
        let salvaged = line_of(&[&reading_image, &checking, &writing_image]);
        let kept = format!("{good}, bytes lost 0\r\n");
        assert_eq!(run("salvage --force chip.img kept.img"), salvaged + &kept);
    }
}

/// The line is gone before a sentence and before the bad blocks are told.
#[test]
fn bad_images() {
    let desk = desk_of("bad");
    let mut image = image_of(&array(Part::Bench, 2));
    image[512] = 7;
    desk.put("bad.img", &image);
    let (text, status) = seen(&desk, "exec \"$COMMAND\" --part 0 read bad.img new");
    let line = line_of(&["reading 4608 bytes", "converting 9 blocks"]);
    assert!(text.starts_with(&format!("{line}bad.img is refused with 33: block 1 is bad; ")));
    assert_eq!((text.ends_with(".\r\n"), status), (true, Some(1)), "{text}");
    let (text, status) = seen(&desk, "exec \"$COMMAND\" --part 0 check bad.img");
    let line = line_of(&["reading 4608 bytes", "checking 9 blocks"]);
    let block = "block 1: wrong number 7: bytes 504 to 1007 (0x0001F8 to 0x0003EF)\r\n";
    assert!(text.starts_with(&format!("{line}{block}")), "{text}");
    assert_eq!(status, Some(2));
    desk.put("bad.img", vec![0xA5; 532_992]);
    let (text, _) = seen(&desk, "exec \"$COMMAND\" --part 2 check bad.img");
    let line = line_of(&["reading 532992 bytes", "checking 1041 blocks"]);
    let first = "block 0: wrong number 2779096485: bytes 0 to 503 (0x000000 to 0x0001F7)\r\n";
    assert!(text.starts_with(&format!("{line}{first}")) && text.len() > 1 << 16, "a long list");
    assert_eq!(text.matches("checking").count(), 1);
    for (file, sentence) in [("none", "none cannot be read: "), ("bad.img", "bad.img has 532992 ")]
    {
        let (text, status) = seen(&desk, &format!("exec \"$COMMAND\" --part 0 check {file}"));
        assert!(text.starts_with(sentence), "no step, no line: {text}");
        assert_eq!(status, Some(1));
    }
}

/// It is standard error that counts, whatever standard output is.
#[test]
fn standard_error_alone() {
    let desk = desk_of("stderr");
    desk.put("chip.img", image_of(&array(Part::Bench, 3)));
    let good = "blocks 9, good 9, wrong number 0, wrong sums 0";
    let (text, _) = seen(&desk, "exec \"$COMMAND\" --part 0 check chip.img 2>said");
    assert_eq!((text, desk.get("said")), (format!("{good}\r\n"), vec![]));
    let (text, _) = seen(&desk, "exec \"$COMMAND\" --part 0 check chip.img >printed");
    assert_eq!(text, line_of(&["reading 4608 bytes", "checking 9 blocks"]));
    assert_eq!(desk.get("printed"), format!("{good}\n").as_bytes());
}
