//! Worked cases of images, by hand from the paper, on libm25p.a and on the model beside it: heads, whole images, what
//! is read and what is salvaged of them, and refused calls.
//!
//! How the sums were worked out. A byte b with k bytes behind it in the block adds b to the first sum and (k + 1) b
//! to the second; a start of n adds n and 504 n. Of 504 bytes FF this makes 504 * 255 = 128,520 and 255 * (1 + ... +
//! 504) = 255 * 127,260 = 32,451,300, which is 62,984 (F608) and 10,980 (2AE4) modulo 65,536. So block n of an array
//! of FF has 62,984 + n and 10,980 + 504 n.

#[path = "support/images.rs"]
mod images;

use images::{asked, compared, UNTOUCHED};
use rig::image_model::Call;
use rig::model::PARTS;

const BLOCK: usize = 512;

/// The blocks of each part.
const BLOCKS: [usize; PARTS.len()] = [9, 261, 1_041, 8_323, 33_289, 261, 1_041];

/// A call: the 64 bits, and what the library leaves as image and as array or list.
fn ask(call: Call, part: u32, image: &[u8], other: &[u8]) -> (u64, Vec<u8>, Vec<u8>) {
    let (word, left) = compared(&asked(call, part, [image, other], [image.len(), other.len()]));
    (word, left.image.named().to_vec(), left.other.named().to_vec())
}

/// The image of an array.
fn write(part: u32, array: &[u8]) -> Vec<u8> {
    let blocks = BLOCKS[part as usize];
    let (word, image, left) = ask(Call::Write, part, &vec![UNTOUCHED; blocks * BLOCK], array);
    assert_eq!(word, 0);
    assert!(left == array);
    image
}

/// A read of the bench part: the 64 bits, and the array.
fn read(image: &[u8]) -> (u64, Vec<u8>) {
    let (word, left, array) = ask(Call::Read, 0, image, &[UNTOUCHED; 4_096]);
    assert!(left == image);
    (word, array)
}

/// A salvage of the bench part with nine places: the 64 bits, the image, and the list in hex up to the last byte that
/// was touched.
fn salvage(image: &[u8]) -> (u64, Vec<u8>, String) {
    let (word, image, list) = ask(Call::Salvage, 0, image, &[UNTOUCHED; 72]);
    let end = list.iter().rposition(|byte| *byte != UNTOUCHED).map_or(0, |at| at + 1);
    (word, image, hex(&list[..end]))
}

fn hex(bytes: &[u8]) -> String {
    bytes.iter().map(|byte| format!("{byte:02X}")).collect()
}

/// The head of a block: number, first sum, second sum.
fn head(image: &[u8], place: usize) -> String {
    let head = &image[place * BLOCK..][..8];
    [hex(&head[..4]), hex(&head[4..6]), hex(&head[6..])].join(" ")
}

fn data(image: &[u8], place: usize) -> &[u8] {
    &image[place * BLOCK + 8..][..504]
}

/// A head in hex with spaces goes over that of a block.
fn put_head(image: &mut [u8], place: usize, head: &str) {
    let head = head.replace(' ', "");
    for (k, byte) in image[place * BLOCK..][..8].iter_mut().enumerate() {
        *byte = u8::from_str_radix(&head[2 * k..][..2], 16).unwrap();
    }
}

/// The heads of an array of FF, bench part.
const ERASED: [&str; 9] = [
    "00000000 08F6 E42A",
    "01000000 09F6 DC2C",
    "02000000 0AF6 D42E",
    "03000000 0BF6 CC30",
    "04000000 0CF6 C432",
    "05000000 0DF6 BC34",
    "06000000 0EF6 B436",
    "07000000 0FF6 AC38",
    "08000000 10F6 A43A",
];

/// The heads of an array of zeros: sums n and 504 n. The last block has 64 zeros and 440 bytes FF: 8 + 440 * 255 =
/// 112,208, and 8 * 504 + 255 * (1 + ... + 440) = 4,032 + 255 * 97,020 = 24,744,132; 46,672 (B650) and 37,060 (90C4).
const ZEROS: [&str; 9] = [
    "00000000 0000 0000",
    "01000000 0100 F801",
    "02000000 0200 F003",
    "03000000 0300 E805",
    "04000000 0400 E007",
    "05000000 0500 D809",
    "06000000 0600 D00B",
    "07000000 0700 C80D",
    "08000000 50B6 C490",
];

/// A block of zeros in place 8 with its sums, 8 and 8 * 504 = 4,032 (0FC0).
const ZEROS_THROUGHOUT: &str = "08000000 0800 C00F";

#[test]
fn erased_and_zeros() {
    for (byte, heads) in [(0xFF, ERASED), (0x00, ZEROS)] {
        let image = write(0, &[byte; 4_096]);
        for (place, expected) in heads.into_iter().enumerate() {
            assert_eq!(head(&image, place), expected);
        }
        assert!((0..8).all(|place| data(&image, place) == [byte; 504]));
        assert_eq!(data(&image, 8)[..64], [byte; 64]);
        assert_eq!(data(&image, 8)[64..], [0xFF; 440]);
        assert_eq!(read(&image), (0, vec![byte; 4_096]));
    }
}

/// Array byte a is a modulo 256. A run from 0 up to m with r bytes behind it adds m (m + 1) / 2, and (m + r + 1)
/// times that less the squares up to m. Block 0 has 0 to 255 and 0 to 247: 32,640 + 30,628 = 63,268 (F724), and 504 *
/// 32,640 - 5,559,680 + 248 * 30,628 - 5,053,620 = 13,433,004, which is 63,660 (F8AC). Block 1 has 248 to 255, 0 to
/// 255 and 0 to 239: 1 + 2,012 + 32,640 + 28,680 = 63,333 (F765), and 504 + 1,006,964 + 10,629,760 + 2,303,960 =
/// 13,941,188, which is 47,556 (B9C4). Block 8 has 192 to 255 and 440 bytes FF: 8 + 14,304 + 112,200 = 126,512, which
/// is 60,976 (EE30), and 4,032 + 6,736,800 + 24,740,100 = 31,480,932, which is 23,652 (5C64).
#[test]
fn counting() {
    let array: Vec<u8> = (0..4_096).map(|at| at as u8).collect();
    let image = write(0, &array);
    let heads = [(0, "00000000 24F7 ACF8"), (1, "01000000 65F7 C4B9"), (8, "08000000 30EE 645C")];
    for (place, expected) in heads {
        assert_eq!(head(&image, place), expected);
    }
    assert_eq!(data(&image, 1)[..9], [248, 249, 250, 251, 252, 253, 254, 255, 0]);
    assert_eq!(data(&image, 8)[62..66], [0xFE, 0xFF, 0xFF, 0xFF]);
    assert_eq!(data(&image, 8)[..2], [0xC0, 0xC1]);
    assert_eq!(read(&image), (0, array));
}

/// One byte 01 in zeros: the first of a block adds 504 to the second sum, the last adds 1.
#[test]
fn single_bytes() {
    let mut array = [0x00; 4_096];
    for at in [0, 1_007, 1_008 + 503 - 9] {
        array[at] = 0x01;
    }
    let image = write(0, &array);
    assert_eq!(head(&image, 0), "00000000 0100 F801");
    // 1 + 1, and 504 + 1
    assert_eq!(head(&image, 1), "01000000 0200 F901");
    // 2 + 1, and 1,008 + 10 = 1,018
    assert_eq!(head(&image, 2), "02000000 0300 FA03");
    assert_eq!(head(&image, 3), ZEROS[3]);
}

/// Erased larger parts: numbers of two bytes, the last blocks, and where the first sum is 65,535 and 0.
#[test]
fn larger_parts() {
    let cases: [(u32, &[(usize, &str)]); 6] = [
        (
            1,
            &[
                (255, "FF000000 07F7 EC20"),
                (256, "00010000 08F7 E422"),
                (260, "04010000 0CF7 C42A"),
            ],
        ),
        (2, &[(300, "2C010000 34F7 8479"), (1_040, "10040000 18FA 642A")]),
        (3, &[(2_551, "F7090000 FFFF 2CC9"), (2_552, "F8090000 0000 24CB")]),
        (3, &[(8_322, "82200000 8A16 D42A")]),
        (4, &[(33_288, "08820000 1078 A42A"), (32_768, "00800000 0876 E42A")]),
        (6, &[(1_039, "0F040000 17FA 6C28")]),
    ];
    for (part, heads) in cases {
        let array = vec![0xFF; PARTS[part as usize].bytes];
        let image = write(part, &array);
        for (place, expected) in heads {
            assert_eq!(head(&image, *place), *expected);
            assert!(data(&image, *place) == [0xFF; 504]);
        }
    }
}

/// Zeros and FF throughout, as images: a block of zeros is good in place 0 alone.
#[test]
fn empty_disks() {
    let untouched = vec![UNTOUCHED; 4_096];
    assert_eq!(read(&[0x00; 4_608]), (0x1_0021, untouched.clone()));
    assert_eq!(read(&[0xFF; 4_608]), (0x21, untouched));

    let (word, image, list) = salvage(&[0x00; 4_608]);
    assert_eq!(word, 0x8_0000);
    assert_eq!(list, (1..9).map(|n| format!("0{n}00000001000000")).collect::<String>());
    assert!(image[..BLOCK] == [0x00; BLOCK]);
    assert_eq!((1..9).map(|place| head(&image, place)).collect::<Vec<_>>(), ERASED[1..]);
    assert!(read(&image) == (0, [&[0x00; 504][..], &[0xFF; 3_592]].concat()));

    let (word, image, list) = salvage(&[0xFF; 4_608]);
    assert_eq!(word, 0x9_0000);
    assert_eq!(list, (0..9).map(|n| format!("0{n}00000001000000")).collect::<String>());
    assert!(image == write(0, &[0xFF; 4_096]));
}

/// Block 3 has number 7, block 5 a byte that is off by one, block 6 a first and block 7 a second sum that is off by
/// 256; block 8 is filled up with zeros and says so.
#[test]
fn salvaged() {
    let mut image = write(0, &[0x00; 4_096]);
    put_head(&mut image, 3, "07000000 0300 E805");
    image[5 * BLOCK + 8 + 100] = 0x01;
    put_head(&mut image, 6, "06000000 0601 D00B");
    put_head(&mut image, 7, "07000000 0700 C80C");
    image[8 * BLOCK..].fill(0x00);
    put_head(&mut image, 8, ZEROS_THROUGHOUT);
    assert_eq!(read(&image), (0x3_0021, vec![UNTOUCHED; 4_096]));

    let (word, after, list) = salvage(&image);
    assert_eq!(word, 0x4_0000);
    let listed = ["0300000001000000", "0500000002000000", "0600000002000000", "0700000002000000"];
    assert_eq!(list, listed.concat());
    for (place, erased) in ERASED.into_iter().enumerate() {
        let lost = [3, 5, 6, 7].contains(&place);
        let block = place * BLOCK..(place + 1) * BLOCK;
        assert_eq!(after[block.clone()] != image[block], lost);
        assert!(!lost || head(&after, place) == erased && data(&after, place) == [0xFF; 504]);
    }
    let (word, array) = read(&after);
    assert_eq!(word, 0);
    let erased = |at: usize| [3, 5, 6, 7].contains(&(at / 504));
    assert!(array
        .iter()
        .enumerate()
        .all(|(at, byte)| *byte == if erased(at) { 0xFF } else { 0x00 }));

    let (word, again, list) = salvage(&after);
    assert_eq!((word, list.as_str()), (0, ""));
    assert!(again == after);
}

/// What is wrong with a block of zeros in place 2 by its head alone, with the sums 2 and 1,008 (03F0).
#[test]
fn heads() {
    let cases = [
        ("02000000 0200 F003", 0),
        ("03000000 0200 F003", 1),
        ("01000000 0200 F003", 1),
        ("02010000 0200 F003", 1),
        ("02000100 0200 F003", 1),
        ("02000080 0200 F003", 1),
        ("00000002 0200 F003", 1),
        ("02000000 0300 F003", 2),
        ("02000000 0201 F003", 2),
        ("02000000 0200 F103", 2),
        ("02000000 0200 F002", 2),
        ("02000000 F003 0200", 2),
        ("02000000 0002 03F0", 2),
        // as from 0 on, and as right blocks of the places 0 and 3
        ("02000000 0000 0000", 2),
        ("00000000 0000 0000", 1),
        ("03000000 0300 E805", 1),
        // both wrong
        ("01000000 0000 0000", 1),
        ("FFFFFFFF FFFF FFFF", 1),
    ];
    for (head, reason) in cases {
        let mut image = write(0, &[0x00; 4_096]);
        put_head(&mut image, 2, head);
        let (word, after, list) = salvage(&image);
        if reason == 0 {
            assert_eq!((read(&image).0, word, list.as_str()), (0, 0, ""));
            continue;
        }
        assert_eq!((read(&image).0, word), (0x2_0021, 0x1_0000), "{head}");
        assert_eq!(list, format!("020000000{reason}000000"), "{head}");
        put_head(&mut image, 2, ERASED[2]);
        image[2 * BLOCK + 8..3 * BLOCK].fill(0xFF);
        assert!(after == image, "{head}");
    }
}

/// Changes in an array of 50: two bytes exchanged and two that keep the first sum are seen; three that keep both are
/// not, and the array that is read has them.
#[test]
fn what_sums_see() {
    let mut array = [0x50; 4_096];
    array[10] = 0x51;
    let image = write(0, &array);
    let changed = |changes: &[(usize, u8)]| {
        let mut image = image.clone();
        changes.iter().for_each(|(at, byte)| image[8 + at] = *byte);
        image
    };
    for seen in
        [&[(10, 0x50), (11, 0x51)][..], &[(20, 0x51), (21, 0x4F)], &[(0, 0x51)], &[(503, 0x4F)]]
    {
        let image = changed(seen);
        assert_eq!(read(&image), (0x21, vec![UNTOUCHED; 4_096]));
        assert_eq!(salvage(&image).2, "0000000002000000");
    }
    // a second sum that stays: 2 * 100 bytes from the end +1, 100 bytes from the end -2
    assert_eq!(read(&changed(&[(304, 0x51), (404, 0x4E)])).0, 0x21);
    let kept = changed(&[(100, 0x51), (150, 0x4E), (200, 0x51)]);
    let (word, after, list) = salvage(&kept);
    assert_eq!((word, list.as_str()), (0, ""));
    assert!(after == kept);
    [(100, 0x51), (150, 0x4E), (200, 0x51)].into_iter().for_each(|(at, byte)| array[at] = byte);
    assert_eq!(read(&kept), (0, array.to_vec()));
}

/// The last block of an array of zeros: filled up with zeros it needs the sums of those.
#[test]
fn other_filler() {
    let array = vec![0x00; 4_096];
    let right = write(0, &array);
    let mut image = right.clone();
    image[8 * BLOCK + 8 + 64..].fill(0x00);
    assert_eq!(read(&image), (0x8_0021, vec![UNTOUCHED; 4_096]));
    let (word, after, list) = salvage(&image);
    assert_eq!((word, list.as_str()), (0x1_0000, "0800000002000000"));
    assert_eq!((head(&after, 8).as_str(), data(&after, 8)), (ERASED[8], &[0xFF; 504][..]));

    put_head(&mut image, 8, ZEROS_THROUGHOUT);
    assert_eq!(read(&image), (0, array.clone()));
    let (word, after, list) = salvage(&image);
    assert_eq!((word, list.as_str()), (0, ""));
    assert!(after == image && write(0, &array) == right && right != image);
}

/// With everything wrong, and then one thing after the other put right.
#[test]
fn order_of_refusals() {
    let mut bad = write(0, &[0xFF; 4_096]);
    bad[6 * BLOCK] = 0x07;
    let long = [&bad[..], &[0xFF; BLOCK]].concat();
    let good = write(0, &[0xFF; 4_096]);
    let array = vec![UNTOUCHED; 4_097];
    let refused = |call, part, image: &[u8], other: &[u8], expected| {
        let (word, image_left, other_left) = ask(call, part, image, other);
        assert_eq!(word, expected);
        assert!(image_left == image && other_left == other);
    };
    for part in [7, 8, 255, 256, 0x1_0000, 1 << 31, u32::MAX] {
        refused(Call::Write, part, &long, &array, 31);
        refused(Call::Read, part, &long, &array, 31);
        refused(Call::Salvage, part, &long, &array[..71], 31);
        refused(Call::Read, part, &good, &array[..4_096], 31);
    }
    for image in [&long[..], &bad[..4_607], &long[..4_609], &bad[..4_096], &[]] {
        refused(Call::Write, 0, image, &array, 32);
        refused(Call::Read, 0, image, &array, 32);
        refused(Call::Salvage, 0, image, &array[..71], 32);
        refused(Call::Salvage, 0, image, &array[..72], 32);
    }
    for length in [4_097, 4_095, 0] {
        refused(Call::Write, 0, &bad, &array[..length], 2);
        refused(Call::Read, 0, &bad, &array[..length], 2);
    }
    for length in [71, 64, 8, 9, 0] {
        refused(Call::Salvage, 0, &bad, &array[..length], 34);
        refused(Call::Salvage, 0, &good, &array[..length], 34);
    }
    refused(Call::Read, 0, &bad, &array[..4_096], 0x6_0021);
}

/// Odd bytes behind nine places, and further places: they stay.
#[test]
fn longer_lists() {
    for length in [72, 73, 79, 80, 81, 200] {
        let (word, _, list) = ask(Call::Salvage, 0, &[0xFF; 4_608], &vec![UNTOUCHED; length]);
        assert_eq!(word, 0x9_0000);
        assert_eq!(hex(&list[64..72]), "0800000001000000");
        assert!(list[72..].iter().all(|byte| *byte == UNTOUCHED));
    }
}
