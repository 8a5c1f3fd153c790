//! A serprog server that runs as a process, and a small client for it.

mod common;
#[allow(dead_code)]
pub mod flashrom;
#[allow(dead_code)]
pub mod served;

use std::io::{BufRead, BufReader, Read, Write};
use std::net::{Ipv4Addr, TcpStream};
use std::path::Path;
use std::process::{Child, Command, ExitStatus, Stdio};
use std::sync::mpsc::{channel, Receiver};
use std::thread;

pub use common::{eventually, scratch};
use common::{send_signal, PATIENCE, SIGTERM};
use tools::serprog::{operation, ACK};

pub struct Server {
    pub child: Child,
    pub port: u16,
    lines: Receiver<String>,
}

/// How a server ended, what it has printed behind its port, and what it had to complain of.
pub struct End {
    pub status: ExitStatus,
    pub printed: Vec<String>,
    pub complaints: String,
}

impl Server {
    /// Starts a server on a free port.
    pub fn start(part: &str, options: &[&str], image: Option<&Path>) -> Server {
        let mut command = Command::new(env!("CARGO_BIN_EXE_serprog"));
        command.args(["--part", part]).args(options);
        command.stdout(Stdio::piped()).stderr(Stdio::piped());
        if let Some(image) = image {
            command.arg("--image").arg(image);
        }
        let mut child = command.spawn().expect("the server starts");
        let output = BufReader::new(child.stdout.take().unwrap());
        let (sender, lines) = channel();
        thread::spawn(move || {
            output.lines().map_while(Result::ok).try_for_each(|l| sender.send(l))
        });
        let first = lines.recv_timeout(PATIENCE).expect("the server says its port");
        let port = first.strip_prefix("listening on 127.0.0.1:").expect("a loopback port");
        Server { child, port: port.parse().unwrap(), lines }
    }

    pub fn client(&self) -> Client {
        let stream = TcpStream::connect((Ipv4Addr::LOCALHOST, self.port)).unwrap();
        stream.set_read_timeout(Some(PATIENCE)).unwrap();
        stream.set_write_timeout(Some(PATIENCE)).unwrap();
        Client { stream }
    }

    /// SIGTERM, and the server's end.
    pub fn stop(mut self) -> End {
        send_signal(self.child.id(), SIGTERM);
        let mut status = None;
        eventually("the server ends", || {
            status = self.child.try_wait().unwrap();
            status.is_some()
        });
        let mut complaints = String::new();
        if let Some(mut said) = self.child.stderr.take() {
            said.read_to_string(&mut complaints).unwrap();
        }
        End { status: status.unwrap(), printed: self.lines.iter().collect(), complaints }
    }
}

impl Drop for Server {
    fn drop(&mut self) {
        let _ = self.child.kill();
        let _ = self.child.wait();
    }
}

pub struct Client {
    pub stream: TcpStream,
}

impl Client {
    pub fn send(&mut self, bytes: &[u8]) {
        self.stream.write_all(bytes).unwrap();
    }

    pub fn receive(&mut self, length: usize) -> Vec<u8> {
        let mut answer = vec![0; length];
        self.stream.read_exact(&mut answer).expect("an answer in time");
        answer
    }

    /// An SPI operation that is acknowledged, and what was read.
    pub fn operate(&mut self, sent: &[u8], read: usize) -> Vec<u8> {
        self.send(&operation(sent, read));
        assert_eq!(self.receive(1), [ACK]);
        self.receive(read)
    }
}
