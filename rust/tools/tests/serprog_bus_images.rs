//! The files of several chips on the server's bus: one for each, of which the selected chip's alone is written, those
//! that are refused, and those that can't be written.

#[path = "support/blocks.rs"]
#[allow(dead_code)]
mod blocks;
mod support;

use std::fs;
use std::os::unix::fs::{symlink, MetadataExt};
use std::path::{Path, PathBuf};

use blocks::{array, image_of};
use m25p::Part;
use support::served::{pin_state, program, refusal, serves};
use support::{scratch, Server};
use tools::serprog::Images;

const ROW: &str = "M25P40,M25P10-A,M25PE40";
const CHIPS: [Part; 3] = [Part::M25p40, Part::M25p10a, Part::M25pe40];

/// A directory with a random image for each chip of the row; the middle one is in blocks.
fn files(name: &str) -> ([PathBuf; 3], [Vec<u8>; 3]) {
    let directory = scratch(&format!("bus_{name}"));
    let paths = ["a.bin", "b.img", "c.bin"].map(|name| directory.join(name));
    let contents = [0, 1, 2].map(|chip| {
        let mut contents = array(CHIPS[chip], chip as u64);
        contents[0x400..0x800].fill(0xFF);
        contents
    });
    for chip in 0..3 {
        fs::write(&paths[chip], in_file(chip, &contents[chip])).unwrap();
    }
    (paths, contents)
}

/// Contents as they stand in the file of this chip.
fn in_file(chip: usize, contents: &[u8]) -> Vec<u8> {
    if chip == 1 {
        image_of(contents)
    } else {
        contents.to_vec()
    }
}

/// The words of the row and its files.
fn words(paths: &[PathBuf]) -> Vec<&str> {
    paths.iter().flat_map(|path| ["--image", path.to_str().unwrap()]).collect()
}

/// A server with this chip selected.
fn serving(paths: &[PathBuf], select: usize) -> Server {
    let select = select.to_string();
    Server::start(ROW, &[&["--select", &select], &words(paths)[..]].concat(), None)
}

/// The sentence with which a server with these files is refused.
fn refused(paths: &[PathBuf]) -> String {
    refusal(&[&["--part", ROW], &words(paths)[..]].concat(), None)
}

/// Which file is behind each name; a file that is written back becomes another.
fn inodes(paths: &[PathBuf; 3]) -> [u64; 3] {
    [0, 1, 2].map(|chip| fs::metadata(&paths[chip]).unwrap().ino())
}

/// Each chip in turn is programmed: its file has the byte at once, in its form, and the others are not written at all.
#[test]
fn file_of_the_selected_chip_alone() {
    let (paths, mut contents) = files("selected");
    for select in [1, 0, 2] {
        let before = inodes(&paths);
        let server = serving(&paths, select);
        serves(&server, &contents[select]);
        let mut client = server.client();
        program(&mut client, 0x456, 0x5A);
        contents[select][0x456] = 0x5A;
        assert!(pin_state(&mut client, 0));
        for chip in 0..3 {
            assert!(fs::read(&paths[chip]).unwrap() == in_file(chip, &contents[chip]), "{chip}");
            assert_eq!(inodes(&paths)[chip] == before[chip], chip != select, "file {chip}");
        }
        drop(client);
        let end = server.stop();
        assert_eq!((end.status.success(), &end.complaints[..]), (true, ""));
        assert_eq!(fs::read_dir(paths[0].parent().unwrap()).unwrap().count(), 3, "no more files");
    }
}

/// Without files every chip starts erased.
#[test]
fn no_files() {
    let server = Server::start("M25P40,M25P10-A", &["--select", "1"], None);
    assert_eq!(server.client().operate(&[0x9F], 3), [0x20, 0x20, 0x11]);
    serves(&server, &vec![0xFF; Part::M25p10a.bytes()]);
    assert!(server.stop().status.success());
}

/// The sentence of the row with another file for this chip.
fn refused_with(paths: &[PathBuf; 3], chip: usize, path: &Path) -> String {
    let mut paths = paths.clone();
    paths[chip] = path.to_path_buf();
    refused(&paths)
}

/// A file that does not fit its chip is named with it, with its length and those that would fit; all files stay.
#[test]
fn files_that_do_not_fit() {
    let (paths, contents) = files("fit");
    let before = inodes(&paths);
    let [a, b, c] = [0, 1, 2].map(|chip| paths[chip].canonicalize().unwrap());
    let (blocks, raw, none) = (b.display(), a.display(), c.with_file_name("none.bin"));
    assert_eq!(
        refused(&[b.clone(), a.clone(), c.clone()]),
        format!(
            "Chip 0, the M25P40: The image {blocks} has 133632 bytes, which is the length of an image of the M25P10-A \
             or the M25P10-A-older; the part has 524288, or 532992 in blocks.\n"
        )
    );
    assert_eq!(
        refused(&[c.clone(), a.clone(), b.clone()]),
        format!(
            "Chip 1, the M25P10-A: The image {raw} has 524288 bytes, which is the length of the array of the M25P40 or \
             the M25PE40; the part has 131072, or 133632 in blocks.\n"
        )
    );
    let older = refusal(
        &[&["--part", "M25P40,M25P10"], &words(&[c.clone(), a.clone()])[..]].concat(),
        None,
    );
    let start = format!("Chip 1, the M25P10: The image {raw} has 524288 bytes, ");
    assert!(older.starts_with(&start), "{older}");
    let missing = refused_with(&paths, 2, &none);
    let start = format!("Chip 2, the M25PE40: The image {} can't be read: ", none.display());
    assert!(missing.starts_with(&start), "{missing}");
    let mut bad = image_of(&contents[1]);
    bad[512 * 9 + 100] ^= 1;
    fs::write(&b, &bad).unwrap();
    let sentence = refused(&paths);
    let start =
        format!("Chip 1, the M25P10-A: The image {blocks} is refused with 33: block 9 is bad; ");
    assert!(sentence.starts_with(&start), "{sentence}");
    assert!(fs::read(&b).unwrap() == bad && inodes(&paths) == before);
    assert!(fs::read(&a).unwrap() == contents[0] && fs::read(&c).unwrap() == contents[2]);
}

/// The M25P40 and the M25PE40 have one size, but they do not share a file, by whatever name.
#[test]
fn file_that_is_given_twice() {
    let (paths, contents) = files("twice");
    let links = scratch("bus_links");
    let (soft, hard) = (links.join("soft.bin"), links.join("hard.bin"));
    symlink(&paths[0], &soft).unwrap();
    fs::hard_link(&paths[0], &hard).unwrap();
    for path in [&paths[0], &soft, &hard] {
        let shown = path.display();
        let expected = format!("The image {shown} is given for both chip 0 and chip 2.\n");
        assert_eq!(refused_with(&paths, 2, path), expected);
    }
    assert!(fs::read(&paths[0]).unwrap() == contents[0]);
}

/// A second server is refused that has any of the files; all are free again when the first has ended.
#[test]
fn every_file_is_locked() {
    let (paths, contents) = files("locked");
    let server = serving(&paths, 1);
    for (chip, part) in CHIPS.into_iter().enumerate() {
        let sentence = refusal(&["--part", part.name()], Some(&paths[chip]));
        assert!(sentence.ends_with("is in use by another server.\n"), "{sentence}");
    }
    let row = refused(&paths);
    assert!(row.starts_with("Chip 0, the M25P40: ") && row.ends_with("another server.\n"), "{row}");
    assert!(server.stop().status.success());
    let server = serving(&paths, 2);
    serves(&server, &contents[2]);
    assert!(server.stop().status.success());
}

/// Where one file can't be written, it stays and is named with its chip, and so at the end.
#[test]
fn file_that_cannot_be_written() {
    let (paths, contents) = files("unwritable");
    let server = serving(&paths, 1);
    let taken = paths[1].with_file_name(format!("b.img.{}.new", server.child.id()));
    fs::create_dir(&taken).unwrap();
    let mut client = server.client();
    program(&mut client, 0x456, 0x5A);
    assert!(!pin_state(&mut client, 0), "not acknowledged");
    drop(client);
    let end = server.stop();
    let shown = paths[1].canonicalize().unwrap().display().to_string();
    let start = format!("Chip 1, the M25P10-A: The image {shown} can't be written and stays as it");
    let lines: Vec<&str> = end.complaints.lines().collect();
    assert!(lines.len() == 3 && lines.iter().all(|line| line.starts_with(&start)), "{lines:?}");
    assert_eq!(end.status.code(), Some(1));
    for chip in 0..3 {
        assert!(fs::read(&paths[chip]).unwrap() == in_file(chip, &contents[chip]), "{chip}");
    }
}

/// All arrays have changed, and some files can't be written: each of these is named, and the others are written.
#[test]
fn failures_are_named_and_the_others_saved() {
    for failing in [&[1][..], &[0, 2], &[0], &[2]] {
        let (paths, old) = files("failing");
        let mut images = Images::open(&paths, &CHIPS).unwrap();
        assert!(images.contents().eq(old.iter().map(|array| &array[..])));
        let taken = |chip: usize| {
            let name = paths[chip].file_name().unwrap().to_str().unwrap();
            paths[chip].with_file_name(format!("{name}.{}.new", std::process::id()))
        };
        failing.iter().for_each(|chip| fs::create_dir(taken(*chip)).unwrap());
        let new = CHIPS.map(|part| array(part, 9));
        let sentences = images.store(new.iter().map(|array| &array[..])).unwrap_err();
        assert_eq!(sentences.lines().count(), failing.len(), "{sentences}");
        for (chip, line) in failing.iter().zip(sentences.lines()) {
            assert!(line.starts_with(&format!("Chip {chip}, the {}: ", CHIPS[*chip])), "{line}");
            assert!(line.contains("can't be written and stays as it was: "), "{line}");
        }
        for chip in 0..3 {
            let expected = if failing.contains(&chip) { &old[chip] } else { &new[chip] };
            assert!(fs::read(&paths[chip]).unwrap() == in_file(chip, expected), "chip {chip}");
        }
        failing.iter().for_each(|chip| fs::remove_dir(taken(*chip)).unwrap());
        assert_eq!(images.store(new.iter().map(|array| &array[..])), Ok(()), "the next time");
        assert!((0..3).all(|chip| fs::read(&paths[chip]).unwrap() == in_file(chip, &new[chip])));
    }
}
