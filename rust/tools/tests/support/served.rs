//! What tests of a server do again and again, with an image of the M25P10-A.

use std::fs;
use std::path::{Path, PathBuf};
use std::process::Command;

use super::{eventually, scratch, Client, Server};
use tools::rng::Rng;
use tools::serprog::{ACK, MOST_READ, NAK, SYNCNOP, S_PIN_STATE};

pub const BYTES: usize = 131_072;

/// An image for the M25P10-A in a directory of its own: random, but erased from 256 on.
pub fn image(name: &str) -> (PathBuf, Vec<u8>) {
    let mut contents = vec![0xFF; BYTES];
    Rng::new(1).fill(&mut contents[..256]);
    let path = scratch(name).join("chip.bin");
    fs::write(&path, &contents).unwrap();
    (path, contents)
}

/// Programs a byte and waits for the end of the cycle by polling.
pub fn program(client: &mut Client, address: usize, byte: u8) {
    client.operate(&[0x06], 0);
    let address = address.to_be_bytes();
    client.operate(&[&[0x02], &address[5..], &[byte]].concat(), 0);
    eventually("the program ends", || client.operate(&[0x05], 1) == [0x00]);
}

/// Sets the state of the pin drivers; 0 lets the pins go. Whether it is acknowledged.
pub fn pin_state(client: &mut Client, state: u8) -> bool {
    client.send(&[S_PIN_STATE, state]);
    client.receive(1) == [ACK]
}

/// What the server does next: it answers, and with these contents.
pub fn serves(server: &Server, contents: &[u8]) {
    let mut client = server.client();
    client.send(&[SYNCNOP]);
    assert_eq!(client.receive(2), [NAK, ACK]);
    let mut read = Vec::new();
    while read.len() < contents.len() {
        let address = read.len().to_be_bytes();
        read.extend(client.operate(&[&[0x03], &address[5..]].concat(), MOST_READ));
    }
    assert!(read == contents, "the chip's contents");
}

pub fn ends_well(server: Server, path: &Path, contents: &[u8]) {
    let end = server.stop();
    assert!(end.status.success());
    assert_eq!((end.printed.len(), &end.complaints[..]), (0, ""));
    assert!(fs::read(path).unwrap() == contents, "the image");
    assert_eq!(fs::read_dir(path.parent().unwrap()).unwrap().count(), 1, "nothing else is left");
}

/// The sentence with which the server refuses to start.
pub fn refusal(options: &[&str], image: Option<&Path>) -> String {
    let mut command = Command::new(env!("CARGO_BIN_EXE_serprog"));
    command.args(options);
    if let Some(image) = image {
        command.arg("--image").arg(image);
    }
    let output = command.output().unwrap();
    assert_eq!((output.status.code(), &output.stdout[..]), (Some(1), &b""[..]));
    let text = String::from_utf8(output.stderr).unwrap();
    assert!(text.lines().count() == 1 && text.ends_with(".\n"), "one sentence: {text}");
    text
}
