//! The serprog server as a process: bad peers, one client after another, the trace, the warning of a missing erase, a
//! power loss, and refusals to start.

mod support;

use std::fs;
use std::io::{Read, Write};
use std::net::{Ipv4Addr, Shutdown, TcpListener};
use std::thread;

use support::served::{ends_well, image, program, refusal, serves, BYTES};
use support::{eventually, Server};
use tools::rng::Rng;
use tools::serprog::{operation, ACK, MOST_READ, NAK};

/// Each transaction and wait as a line of the bench, with its answer.
#[test]
fn trace() {
    let server = Server::start("m25p40", &["--trace", "--w", "0"], None);
    assert_eq!(server.client().operate(&[0x9F], 3), [0x20, 0x20, 0x13]);
    server.client().operate(&[0xC7], 0);
    let lines = ["x 0 0 9F000000 = 0 FF202013", "w 1 = 0 -", "x 0 0 C7 = 16 FF", "w 1 = 0 -"];
    assert_eq!(server.stop().printed, lines);
}

/// The first missing erase is told on standard error, once in the server's life; the trace has them all.
#[test]
fn missing_erase() {
    let server = Server::start("M25P10-A", &["--trace", "--warn-missing"], None);
    for (address, byte) in [(0x123, 0x0F), (0x123, 0x3C), (0x123, 0xFF), (0x400, 0x55)] {
        program(&mut server.client(), address, byte);
    }
    let end = server.stop();
    let sentence = "An erase was missing: the program in page 000100 wants 2 bits 1 that are 0. \
                    Further ones are not told.\n";
    assert_eq!((end.status.success(), &end.complaints[..]), (true, sentence));
    let programs = end.printed.iter().filter(|line| line.starts_with("x 1 0 02"));
    let ends = programs.map(|line| line.split_once(" = 0 FFFFFFFFFF").unwrap().1);
    assert_eq!(ends.collect::<Vec<&str>>(), ["", " missing 2", " missing 6", ""]);
}

/// Without the option nothing is told; with it, a closed standard error does not end the server.
#[test]
fn missing_erase_that_nobody_hears_of() {
    for (options, closed) in [(&[][..], false), (&["--warn-missing"], true)] {
        let mut server = Server::start("M25P10-A", options, None);
        if closed {
            server.child.stderr = None;
        }
        for byte in [0x0F, 0xFF, 0xFF] {
            program(&mut server.client(), 0x123, byte);
        }
        let mut contents = vec![0xFF; BYTES];
        contents[0x123] = 0x0F;
        serves(&server, &contents);
        let end = server.stop();
        assert_eq!((end.status.success(), &end.complaints[..]), (true, ""));
    }
}

/// Power is lost in the second program, and told once on standard error; the server goes on, and the image has what was
/// left of that program.
#[test]
fn power_loss() {
    let (path, mut contents) = image("power_loss");
    let server = Server::start("M25P10-A", &["--cut-after", "2", "--seed", "7"], Some(&path));
    for address in [0x3FE, 0x4FE, 0x5FE] {
        program(&mut server.client(), address, 0x00);
    }
    (contents[0x3FE], contents[0x5FE]) = (0x00, 0x00);
    contents[0x4FE] = Rng::new(7).bytes(256)[0xFE];
    assert!(![0x00, 0xFF].contains(&contents[0x4FE]), "the seed cuts this byte");
    serves(&server, &contents);
    let end = server.stop();
    let line = "Power was lost in cycle 2, a page program (02) at 0004FE, and is back; \
                --cut-after 2 --seed 7 repeats it.\n";
    assert_eq!((end.status.success(), &end.complaints[..]), (true, line));
    assert!(fs::read(&path).unwrap() == contents, "the image");
}

/// A closed standard error does not keep power from being lost, nor the server from going on.
#[test]
fn power_loss_that_nobody_hears_of() {
    let (path, mut contents) = image("unheard_loss");
    let mut server = Server::start("M25P10-A", &["--cut-after", "1"], Some(&path));
    server.child.stderr = None;
    for address in [0x400, 0x500] {
        program(&mut server.client(), address, 0x00);
    }
    (contents[0x400], contents[0x500]) = (Rng::new(1).byte(), 0x00);
    serves(&server, &contents);
    ends_well(server, &path, &contents);
}

#[test]
fn hang_up_in_mid_command() {
    let (path, mut contents) = image("hang_up");
    let server = Server::start("M25P10-A", &[], Some(&path));
    let program_5a = operation(&[0x02, 0x00, 0x02, 0x00, 0x5A], 0);
    for cut in 1..program_5a.len() {
        let mut client = server.client();
        client.operate(&[0x06], 0);
        client.send(&program_5a[..cut]);
    }
    serves(&server, &contents);
    let mut client = server.client();
    program(&mut client, 0x300, 0xA5);
    client.send(&program_5a[..9]);
    client.stream.shutdown(Shutdown::Both).unwrap();
    contents[0x300] = 0xA5;
    eventually("the image is written back", || fs::read(&path).unwrap() == contents);
    serves(&server, &contents);
    ends_well(server, &path, &contents);
}

#[test]
fn unknown_commands_and_absurd_lengths() {
    let (path, contents) = image("absurd");
    let server = Server::start("M25P10-A", &[], Some(&path));
    let mut client = server.client();
    for command in (0x16..=0xFF).chain([0x06, 0x09, 0x0A, 0x0C, 0x0D]) {
        client.send(&[command]);
        assert_eq!(client.receive(1), [NAK], "command {command:02X}");
    }
    client.send(&operation(&vec![0x06; 0xFF_FFFF], 0xFF_FFFF));
    assert_eq!(client.receive(1), [NAK]);
    client.send(&operation(&[0x03, 0, 0, 0], 0xFF_FFFF));
    assert_eq!(client.receive(1), [NAK]);
    assert_eq!(client.operate(&[0x9F], 3), [0x20, 0x20, 0x11]);
    client.send(&[0x13, 0xFF, 0xFF, 0xFF, 0xFF, 0xFF, 0xFF, 1, 2, 3]);
    drop(client);
    serves(&server, &contents);
    ends_well(server, &path, &contents);
}

/// A client that asks and never listens, and clients that talk nonsense.
#[test]
fn deaf_and_mad_clients() {
    let (path, contents) = image("mad");
    let server = Server::start("M25P10-A", &[], Some(&path));
    let mut deaf = server.client();
    deaf.send(&operation(&[0x03, 0, 0, 0], MOST_READ).repeat(1_000));
    drop(deaf);
    serves(&server, &contents);
    let mut rng = Rng::new(1);
    for _ in 0..200 {
        let mut client = server.client();
        let length = rng.below(5_000);
        // No byte of a write enable, so nothing can change.
        let nonsense: Vec<u8> = rng.bytes(length).into_iter().filter(|b| *b != 0x06).collect();
        client.send(&nonsense);
    }
    // Nonsense may have put the chip into deep power-down; one more client wakes it.
    server.client().operate(&[0xAB], 0);
    serves(&server, &contents);
    ends_well(server, &path, &contents);
}

#[test]
fn one_client_after_another() {
    let (path, mut contents) = image("clients");
    let server = Server::start("M25P10-A", &[], Some(&path));
    let mut first = server.client();
    let mut second = server.client();
    second.send(&operation(&[0x03, 0, 0x04, 0], 1));
    program(&mut first, 0x400, 0x77);
    assert!(fs::read(&path).unwrap() == contents, "not written while the client is there");
    drop(first);
    assert_eq!(second.receive(2), [ACK, 0x77], "the second client waits for the first");
    contents[0x400] = 0x77;
    assert!(fs::read(&path).unwrap() == contents, "written before the second is served");
    drop(second);
    serves(&server, &contents);
    ends_well(server, &path, &contents);
}

/// A client that never pauses does not keep the server from ending.
#[test]
fn end_under_load() {
    let (path, contents) = image("load");
    let server = Server::start("M25P10-A", &[], Some(&path));
    let mut client = server.client();
    client.operate(&[0x05], 1);
    let busy = thread::spawn(move || {
        let polls = operation(&[0x05], 0).repeat(100);
        // Bounded, and long enough to outlive the server.
        (0..1_000_000).all(|_| {
            client.stream.write_all(&polls).is_ok()
                && client.stream.read_exact(&mut [0; 100]).is_ok()
        })
    });
    ends_well(server, &path, &contents);
    assert!(!busy.join().unwrap(), "the server has ended first");
}

#[test]
fn refusals_to_start() {
    let (path, contents) = image("refusals");
    let before = fs::metadata(&path).unwrap().modified().unwrap();
    let holder = TcpListener::bind((Ipv4Addr::LOCALHOST, 0)).unwrap();
    let port = holder.local_addr().unwrap().port().to_string();
    let busy = refusal(&["--part", "M25P10-A", "--port", &port], Some(&path));
    assert!(busy.starts_with(&format!("Port {port} can't be had: ")), "{busy}");
    let large = refusal(&["--part", "M25P40"], Some(&path));
    let lengths = "has 131072 bytes, which is the length of the array of the M25P10-A or the \
                   M25P10-A-older; the part has 524288, or 532992 in blocks.\n";
    assert!(large.ends_with(lengths), "{large}");
    let bad = refusal(&["--part", "M25P10-A", "--w", "2"], Some(&path));
    assert_eq!(bad, "--w is 0 to 1, not 2.\n");
    let none = refusal(&["--part", "M25P10-A"], Some(&path.with_file_name("none.bin")));
    assert!(none.contains("none.bin can't be read: "), "{none}");
    let directory = refusal(&["--part", "M25P10-A"], path.parent());
    assert!(directory.ends_with("is not a file.\n"), "{directory}");
    assert!(fs::read(&path).unwrap() == contents);
    assert_eq!(fs::metadata(&path).unwrap().modified().unwrap(), before);
    assert_eq!(fs::read_dir(path.parent().unwrap()).unwrap().count(), 1);
}
