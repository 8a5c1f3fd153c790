//! The image of a serprog server as a process: when it is written back, whose it is, that it is whole at every moment,
//! and that it stays raw or in blocks as it was.

#[path = "support/blocks.rs"]
#[allow(dead_code)]
mod blocks;
mod support;

use std::fs;
use std::os::unix::fs::{symlink, MetadataExt, PermissionsExt};
use std::sync::atomic::{AtomicBool, Ordering};
use std::thread;

use blocks::{filled_up, image_of};
use m25p::Part;
use support::served::{ends_well, image, pin_state, program, refusal, serves, BYTES};
use support::{scratch, Server};
use tools::serprog::Image;

const PART: Part = Part::M25p10a;

/// A program that still runs as its client goes is not in the image; as the server ends, it is.
#[test]
fn cycle_that_runs_at_the_end() {
    let (path, mut contents) = image("running");
    let server = Server::start("M25P10-A", &["--program", "1000", "--trace"], Some(&path));
    let mut client = server.client();
    client.operate(&[0x06], 0);
    client.operate(&[0x02, 0x00, 0x06, 0x00, 0x5A], 0);
    assert!(pin_state(&mut client, 0));
    assert!(fs::read(&path).unwrap() == contents, "the program is still running");
    drop(client);
    let end = server.stop();
    contents[0x600] = 0x5A;
    assert!(fs::read(&path).unwrap() == contents, "the program is completed");
    assert_eq!(end.printed.last().unwrap(), "p = 0 -");
}

/// When a client lets the pins go, the image is written before that is acknowledged.
#[test]
fn image_is_written_as_the_pins_are_released() {
    let (path, mut contents) = image("released");
    let server = Server::start("m25p10-a", &[], Some(&path));
    let mut client = server.client();
    for (at, byte) in [(0x900, 0x55), (0xA00, 0x66)] {
        program(&mut client, at, byte);
        assert!(pin_state(&mut client, 1));
        assert!(fs::read(&path).unwrap() == contents, "only when the pins are let go");
        contents[at] = byte;
        assert!(pin_state(&mut client, 0));
        assert!(fs::read(&path).unwrap() == contents, "at once");
    }
    ends_well(server, &path, &contents);
}

/// One server has an image at a time, by whatever name, also after it was replaced.
#[test]
fn second_server_is_refused() {
    let (path, mut contents) = image("second");
    let link = scratch("second_from").join("link.bin");
    symlink(&path, &link).unwrap();
    let refused = || {
        for name in [&path, &link] {
            let sentence = refusal(&["--part", "M25P10-A"], Some(name));
            let shown = path.canonicalize().unwrap();
            let expected = format!("The image {} is in use by another server.\n", shown.display());
            assert_eq!(sentence, expected);
        }
    };
    let server = Server::start("M25P10-A", &[], Some(&path));
    refused();
    let mut client = server.client();
    program(&mut client, 0xB00, 0x77);
    assert!(pin_state(&mut client, 0));
    refused();
    contents[0xB00] = 0x77;
    ends_well(server, &path, &contents);
    ends_well(Server::start("M25P10-A", &[], Some(&link)), &path, &contents);
}

/// SIGTERM with a client in mid-command is an end, too; SIGKILL leaves the image as it was.
#[test]
fn signals() {
    let (path, mut contents) = image("signals");
    let mut server = Server::start("M25P10-A", &[], Some(&path));
    let mut client = server.client();
    program(&mut client, 0x500, 0x11);
    server.child.kill().unwrap();
    server.child.wait().unwrap();
    assert!(fs::read(&path).unwrap() == contents);

    let server = Server::start("M25P10-A", &[], Some(&path));
    let mut client = server.client();
    program(&mut client, 0x600, 0x22);
    client.send(&[0x13, 9]);
    contents[0x600] = 0x22;
    ends_well(server, &path, &contents);
}

/// Where the image can't be written, it stays; the next client's end is another try.
#[test]
fn image_that_cannot_be_written() {
    let (path, contents) = image("unwritable");
    let programmed = [&contents[..0x700], &[0x33], &contents[0x701..]].concat();
    for free_again in [true, false] {
        fs::write(&path, &contents).unwrap();
        let server = Server::start("M25P10-A", &[], Some(&path));
        let taken = path.with_file_name(format!("chip.bin.{}.new", server.child.id()));
        fs::create_dir(&taken).unwrap();
        let mut client = server.client();
        program(&mut client, 0x700, 0x33);
        assert!(!pin_state(&mut client, 0), "not acknowledged");
        drop(client);
        serves(&server, &programmed);
        assert!(fs::read(&path).unwrap() == contents);
        if free_again {
            fs::remove_dir(&taken).unwrap();
            serves(&server, &programmed);
        }
        let end = server.stop();
        assert!(end.complaints.contains("can't be written and stays as it was"));
        assert_eq!(end.status.code(), Some(if free_again { 0 } else { 1 }));
        assert!(fs::read(&path).unwrap() == if free_again { &programmed[..] } else { &contents });
    }
}

/// Whoever reads the image while it is written back sees it whole, before or after, and no second server
/// gets hold of it in between.
#[test]
fn image_is_replaced_as_a_whole() {
    let path = scratch("whole").join("chip.bin");
    fs::write(&path, vec![0; BYTES]).unwrap();
    let mut image = Image::open(&path, PART).unwrap();
    let done = AtomicBool::new(false);
    let looks = thread::scope(|scope| {
        let watch = scope.spawn(|| {
            let mut looks = 0;
            while !done.load(Ordering::Relaxed) {
                let seen = fs::read(&path).unwrap();
                assert!(seen.len() == BYTES && seen.iter().all(|byte| *byte == seen[0]));
                assert!(Image::open(&path, PART).is_err_and(|e| e.contains("in use")));
                looks += 1;
            }
            looks
        });
        (1..=100).for_each(|byte| image.store(&vec![byte; BYTES]).unwrap());
        done.store(true, Ordering::Relaxed);
        watch.join().unwrap()
    });
    assert!(looks > 10, "only {looks} looks");
    assert!(fs::read(&path).unwrap() == vec![100; BYTES]);
}

#[test]
fn links_and_permissions_stay() {
    let (path, mut contents) = image("links");
    fs::set_permissions(&path, fs::Permissions::from_mode(0o640)).unwrap();
    let link = scratch("links_from").join("chip.bin");
    symlink(&path, &link).unwrap();
    let server = Server::start("M25P10-A", &[], Some(&link));
    program(&mut server.client(), 0x800, 0x44);
    contents[0x800] = 0x44;
    ends_well(server, &path, &contents);
    assert!(fs::symlink_metadata(&link).unwrap().is_symlink());
    assert_eq!(fs::metadata(&path).unwrap().permissions().mode() & 0o777, 0o640);
}

/// An image in blocks is served as the array in it, and written back as an image in blocks. While the array is what it
/// was, the file stays, and so does what fills up its last block; then that becomes FF.
#[test]
fn image_in_blocks() {
    let (path, mut contents) = image("blocks");
    let blocks = filled_up(&contents, 0x00);
    fs::write(&path, &blocks).unwrap();
    let before = fs::metadata(&path).unwrap().ino();
    let server = Server::start("M25P10-A", &[], Some(&path));
    serves(&server, &contents);
    assert!(pin_state(&mut server.client(), 0));
    ends_well(server, &path, &blocks);
    assert_eq!(fs::metadata(&path).unwrap().ino(), before, "not written at all");

    let server = Server::start("M25P10-A", &[], Some(&path));
    let mut client = server.client();
    for (at, byte) in [(0x300, 0x12), (BYTES - 1, 0x34)] {
        program(&mut client, at, byte);
        contents[at] = byte;
        assert!(pin_state(&mut client, 0));
        assert!(fs::read(&path).unwrap() == image_of(&contents), "at once");
    }
    drop(client);
    ends_well(server, &path, &image_of(&contents));
    let server = Server::start("M25P10-A", &[], Some(&path));
    serves(&server, &contents);
    ends_well(server, &path, &image_of(&contents));
}

/// An image in blocks with a bad one is refused, as is one of another part; both stay, and are not locked.
#[test]
fn bad_image_in_blocks() {
    let (path, contents) = image("bad_blocks");
    let good = image_of(&contents);
    let shown = path.canonicalize().unwrap();
    for (block, byte) in [(0, 0), (7, 4), (7, 511), (260, 511)] {
        let mut bad = good.clone();
        bad[512 * block + byte] ^= 0x20;
        bad[512 * 260] ^= 0x01;
        fs::write(&path, &bad).unwrap();
        let expected = format!(
            "The image {} is refused with 33: block {block} is bad; image check lists every bad block, and image \
             salvage puts good ones of FF in their place.\n",
            shown.display()
        );
        assert_eq!(refusal(&["--part", "M25P10-A"], Some(&path)), expected);
        assert!(fs::read(&path).unwrap() == bad);
    }
    fs::write(&path, &good).unwrap();
    let other = refusal(&["--part", "M25PE40"], Some(&path));
    let expected = format!(
        "The image {} has 133632 bytes, which is the length of an image of the M25P10-A or the M25P10-A-older; the \
         part has 524288, or 532992 in blocks.\n",
        shown.display()
    );
    assert_eq!(other, expected);
    ends_well(Server::start("M25P10", &[], Some(&path)), &path, &good);
}
