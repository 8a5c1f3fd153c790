//! Damaged images: what a check and a salvage print of each kind of damage, what a salvage leaves, what a read says.

#[path = "support/image.rs"]
#[allow(dead_code)]
mod image;

use image::blocks::{array, at, block, image_of};
use image::desk::{found, Desk};
use image::desk_of;
use m25p::Part;

/// What happens to a block.
type Damage<'a> = &'a dyn Fn(&mut [u8]);

/// A bad block: its place, and the line of a check behind that.
type Bad = (usize, String);

/// Puts a damaged image on the desk: a check and a salvage of it print these lines, the salvage leaves a good block of
/// FF in each place, and a read names the first one and makes nothing.
fn damaged(desk: &Desk, part: Part, image: &[u8], bad: &[Bad], lost: usize) {
    let name = part.name();
    desk.put("bad.img", image);
    let lines = |end| bad.iter().map(move |(at, line)| format!("block {at}: {line}{end}\n"));
    let count = |word| bad.iter().filter(|(_, line)| line.contains(word)).count();
    let (blocks, number, sums) = (part.blocks(), count("wrong number"), count("wrong sums"));
    let good = blocks - bad.len();
    let totals = format!("blocks {blocks}, good {good}, wrong number {number}, wrong sums {sums}");
    let checked = desk.run(&["check", "--part", name, "bad.img"]);
    assert_eq!(found(checked), lines("").collect::<String>() + &totals + "\n");
    let words = ["salvage", "--part", name, "bad.img", "mended.img", "--force"];
    let salvaged = desk.makes("mended.img", || found(desk.run(&words)));
    let end = format!("{totals}, bytes lost {lost}\n");
    assert_eq!(salvaged, lines(" are lost").collect::<String>() + &end);
    let mut mended = image.to_vec();
    for (place, _) in bad {
        mended[at(*place)].copy_from_slice(&block(*place as u32, *place as u32, &[0xFF; 504]));
    }
    assert!(desk.get("mended.img") == mended, "the bad blocks alone have changed");
    for words in [&["bad.img", "new.bin"][..], &["bad.img", "mended.img", "--force"]] {
        let sentence = desk.refused(&[&["read", "--part", name], words].concat(), "");
        let expected = format!(
            "bad.img is refused with 33: block {} is bad; image check lists every bad block, and image salvage puts \
             good ones of FF in their place.",
            bad[0].0
        );
        assert_eq!(sentence, expected);
    }
}

/// A salvaged image is a good one: nothing more is lost, and it can be read as this array.
fn mended(desk: &Desk, part: Part, array: &[u8]) {
    let (name, blocks) = (part.name(), part.blocks());
    let nothing = format!("blocks {blocks}, good {blocks}, wrong number 0, wrong sums 0");
    assert_eq!(desk.prints(&["check", "--part", name, "mended.img"]), format!("{nothing}\n"));
    let words = ["salvage", "--part", name, "mended.img", "twice.img", "--force"];
    assert_eq!(desk.prints(&words), format!("{nothing}, bytes lost 0\n"));
    assert!(desk.get("twice.img") == desk.get("mended.img"), "a second salvage changes nothing");
    desk.prints(&["read", "--part", name, "mended.img", "read.bin", "--force"]);
    assert!(desk.get("read.bin") == array);
}

/// A single block of the bench part, damaged in each way.
#[test]
fn each_kind_of_damage() {
    let desk = desk_of("kinds");
    let part = Part::Bench;
    let contents = array(part, 1);
    let (image, block_3) = (image_of(&contents), &contents[3 * 504..4 * 504]);
    let bytes = "bytes 1512 to 2015 (0x0005E8 to 0x0007DF)";
    let number = |number: u32| format!("wrong number {number}: {bytes}");
    let sums = format!("wrong sums: {bytes}");
    let cases: [(Damage, &str); 13] = [
        // A number that is wrong, with sums that are right for the place, and for the number.
        (&|b| b[0] = 7, &number(7)),
        (&|b| b[1] = 1, &number(259)),
        (&|b| b[2] = 1, &number(65_539)),
        (&|b| b[3] = 0x80, &number(0x8000_0003)),
        (&|b| b.copy_from_slice(&block(7, 7, block_3)), &number(7)),
        // Both are wrong: the number comes first.
        (&|b| (b[0], b[4]) = (2, b[4] ^ 1), &number(2)),
        (&|b| b.fill(0x00), &number(0)),
        (&|b| b.fill(0xFF), &number(u32::MAX)),
        // Either sum, a byte of the array, the first and the last, and the sums of another place.
        (&|b| b[5] ^= 0x80, &sums),
        (&|b| b[6] ^= 0x01, &sums),
        (&|b| b[8] ^= 0x01, &sums),
        (&|b| b[511] ^= 0x80, &sums),
        (&|b| b.copy_from_slice(&block(3, 4, block_3)), &sums),
    ];
    let mut lost = contents.clone();
    lost[3 * 504..4 * 504].fill(0xFF);
    for (damage, line) in cases {
        let mut image = image.clone();
        damage(&mut image[at(3)]);
        damaged(&desk, part, &image, &[(3, line.to_string())], 504);
        mended(&desk, part, &lost);
    }
}

/// Two blocks that were exchanged name each other; blocks that have moved up name their own place.
#[test]
fn blocks_in_the_wrong_place() {
    let desk = desk_of("places");
    let part = Part::M25p10a;
    let contents = array(part, 2);
    let mut image = image_of(&contents);
    let (front, rest) = image.split_at_mut(at(200).start);
    front[at(17)].swap_with_slice(&mut rest[..512]);
    let bad = [
        (17, "wrong number 200: bytes 8568 to 9071 (0x002178 to 0x00236F)".to_string()),
        (200, "wrong number 17: bytes 100800 to 101303 (0x0189C0 to 0x018BB7)".to_string()),
    ];
    damaged(&desk, part, &image, &bad, 1_008);
    let mut lost = contents.clone();
    bad.iter().for_each(|(place, _)| lost[504 * place..504 * (place + 1)].fill(0xFF));
    mended(&desk, part, &lost);

    let image = image_of(&contents);
    let moved = [&image[512..], &image[..512]].concat();
    desk.put("moved.img", &moved);
    let printed = found(desk.run(&["check", "--part", "1", "moved.img"]));
    for (place, line) in printed.lines().enumerate().take(261) {
        let number = if place == 260 { 0 } else { place + 1 };
        assert!(line.starts_with(&format!("block {place}: wrong number {number}: ")), "{line}");
    }
    assert!(printed.ends_with("\nblocks 261, good 0, wrong number 261, wrong sums 0\n"));
}

/// The first and the last block of every part; the last one has fewer bytes of the array, and its filler counts.
#[test]
fn first_and_last_block() {
    let desk = desk_of("ends");
    for (part, last, bytes) in [
        (Part::Bench, 8, "bytes 4032 to 4095 (0x000FC0 to 0x000FFF)"),
        (Part::M25p10a, 260, "bytes 131040 to 131071 (0x01FFE0 to 0x01FFFF)"),
        (Part::M25p40, 1_040, "bytes 524160 to 524287 (0x07FF80 to 0x07FFFF)"),
        (Part::M25p32, 8_322, "bytes 4194288 to 4194303 (0x3FFFF0 to 0x3FFFFF)"),
        (Part::M25p128, 33_288, "bytes 16777152 to 16777215 (0xFFFFC0 to 0xFFFFFF)"),
        (Part::M25p10aOlder, 260, "bytes 131040 to 131071 (0x01FFE0 to 0x01FFFF)"),
        (Part::M25pe40, 1_040, "bytes 524160 to 524287 (0x07FF80 to 0x07FFFF)"),
    ] {
        let mut contents = array(part, 3);
        let mut image = image_of(&contents);
        *image.last_mut().unwrap() = 0x00;
        image[0] = 1;
        let number = "wrong number 1: bytes 0 to 503 (0x000000 to 0x0001F7)".to_string();
        let bad = [(0, number), (last, format!("wrong sums: {bytes}"))];
        let kept = 504..504 * last;
        damaged(&desk, part, &image, &bad, part.bytes() - kept.len());
        contents[..kept.start].fill(0xFF);
        contents[kept.end..].fill(0xFF);
        mended(&desk, part, &contents);
    }
}

/// Damage here and there, of both kinds in one image, is listed in order.
#[test]
fn many_blocks() {
    let desk = desk_of("many");
    let part = Part::M25p40;
    let mut contents = array(part, 4);
    let mut image = image_of(&contents);
    let mut bad = Vec::new();
    for place in (0..1_041).filter(|place| place % 3 == 1) {
        let first = 504 * place;
        let last = part.bytes().min(first + 504) - 1;
        contents[first..=last].fill(0xFF);
        let bytes = format!("bytes {first} to {last} (0x{first:06X} to 0x{last:06X})");
        let line = match place % 2 == 0 {
            true => format!("wrong number {}: {bytes}", place ^ 0x100),
            false => format!("wrong sums: {bytes}"),
        };
        image[512 * place + 1 + 3 * (place % 2)] ^= 1;
        bad.push((place, line));
    }
    assert_eq!(bad.len(), 347);
    damaged(&desk, part, &image, &bad, 347 * 504);
    mended(&desk, part, &contents);
}

/// Every block of the largest part is bad, and each is printed.
#[test]
fn all_blocks_of_the_largest_part() {
    let desk = desk_of("all");
    let part = Part::M25p128;
    let mut image = image_of(&array(part, 5));
    image.chunks_mut(512).for_each(|block| block[7] ^= 0x40);
    desk.put("bad.img", &image);
    let printed = found(desk.run(&["salvage", "--part", "4", "bad.img", "mended.img"]));
    assert_eq!(printed.lines().count(), 33_290);
    for (place, line) in printed.lines().enumerate().take(33_289) {
        assert!(line.starts_with(&format!("block {place}: wrong sums: bytes {} to ", 504 * place)));
    }
    let end = "\nblocks 33289, good 0, wrong number 0, wrong sums 33289, bytes lost 16777216\n";
    assert!(printed.ends_with(end));
    mended(&desk, part, &vec![0xFF; part.bytes()]);
}

/// A block of 512 bytes 00 is a good one in the first place, and in no other.
#[test]
fn zeros() {
    let desk = desk_of("zeros");
    desk.put("zero.img", vec![0; 4_608]);
    let printed = found(desk.run(&["check", "--part", "0", "zero.img"]));
    let places: Vec<&str> = printed.lines().map(|line| line.split(':').next().unwrap()).collect();
    assert_eq!(places[..8], [1, 2, 3, 4, 5, 6, 7, 8].map(|place| format!("block {place}")));
    assert_eq!(printed.lines().last(), Some("blocks 9, good 1, wrong number 8, wrong sums 0"));
}
