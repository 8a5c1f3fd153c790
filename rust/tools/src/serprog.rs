//! The serprog protocol over the selected chip of a bus: what flashrom sends, and the answer to each command.
//!
//! An SPI operation is one transaction: the sent bytes, then as many dummy bytes as are to be read.

mod board;
mod cut;
mod image;
mod images;
mod options;
mod parts;
mod server;

pub use board::Board;
pub use image::Image;
pub use images::Images;
pub use options::{Options, KNOWN, USAGE};
pub use parts::PARTS;
pub use server::Server;

use std::io::{self, BufReader, Read, Write};

pub const ACK: u8 = 0x06;
pub const NAK: u8 = 0x15;

// The commands, with the protocol's names.
pub const NOP: u8 = 0x00;
pub const Q_IFACE: u8 = 0x01;
pub const Q_CMDMAP: u8 = 0x02;
pub const Q_PGMNAME: u8 = 0x03;
pub const Q_SERBUF: u8 = 0x04;
pub const Q_BUSTYPE: u8 = 0x05;
pub const Q_OPBUF: u8 = 0x07;
pub const Q_WRNMAXLEN: u8 = 0x08;
pub const O_INIT: u8 = 0x0B;
pub const O_DELAY: u8 = 0x0E;
pub const O_EXEC: u8 = 0x0F;
pub const SYNCNOP: u8 = 0x10;
pub const Q_RDNMAXLEN: u8 = 0x11;
pub const S_BUSTYPE: u8 = 0x12;
pub const O_SPIOP: u8 = 0x13;
pub const S_SPI_FREQ: u8 = 0x14;
pub const S_PIN_STATE: u8 = 0x15;

/// The commands that are answered with more than NAK.
pub const COMMANDS: [u8; 17] = [
    NOP,
    Q_IFACE,
    Q_CMDMAP,
    Q_PGMNAME,
    Q_SERBUF,
    Q_BUSTYPE,
    Q_OPBUF,
    Q_WRNMAXLEN,
    O_INIT,
    O_DELAY,
    O_EXEC,
    SYNCNOP,
    Q_RDNMAXLEN,
    S_BUSTYPE,
    O_SPIOP,
    S_SPI_FREQ,
    S_PIN_STATE,
];

/// The most bytes sent in one operation, and the most bytes read: together 65,536, the longest transaction.
pub const MOST_WRITTEN: usize = 32_768;
pub const MOST_READ: usize = 32_768;
const _: () = assert!(MOST_WRITTEN + MOST_READ <= 65_536);

const VERSION: u16 = 1;
const NAME: &[u8; 16] = b"Pisculomu\0\0\0\0\0\0\0";
const SPI: u8 = 8;

/// TCP holds a client back by itself; the protocol wants a large number then.
const SERIAL_BUFFER: u16 = 0xFFFF;

/// The size of the operation buffer, and what a delay takes of it.
pub const OPERATION_BUFFER: usize = 0xFFFF;
pub const DELAY_BYTES: usize = 5;

/// An SPI operation as a client sends it.
pub fn operation(sent: &[u8], read: usize) -> Vec<u8> {
    let (written, read) = (sent.len().to_le_bytes(), read.to_le_bytes());
    [&[O_SPIOP], &written[..3], &read[..3], sent].concat()
}

/// Answers a client's commands until it hangs up: an error if that is within a command. When the client
/// lets the pins go, which is the last that flashrom does, `released` is called before the answer, and
/// says whether all is well.
pub fn serve(
    link: impl Read + Write,
    board: &mut Board,
    released: impl FnMut(&Board) -> bool,
) -> io::Result<()> {
    let mut session = Session { link: BufReader::new(link), board, released, delay: 0, used: 0 };
    loop {
        let mut command = [0];
        if session.link.read(&mut command)? == 0 {
            return Ok(());
        }
        let answer = session.answer(command[0])?;
        session.link.get_mut().write_all(&answer)?;
    }
}

/// One client's connection, with its operation buffer: the delays in it, and how much of it they take.
struct Session<'a, L, R> {
    link: BufReader<L>,
    board: &'a mut Board,
    released: R,
    delay: u64,
    used: usize,
}

impl<L: Read, R: FnMut(&Board) -> bool> Session<'_, L, R> {
    fn answer(&mut self, command: u8) -> io::Result<Vec<u8>> {
        Ok(match command {
            NOP => vec![ACK],
            SYNCNOP => vec![NAK, ACK],
            Q_IFACE => ack(&VERSION.to_le_bytes()),
            Q_CMDMAP => ack(&command_map()),
            Q_PGMNAME => ack(NAME),
            Q_SERBUF => ack(&SERIAL_BUFFER.to_le_bytes()),
            Q_BUSTYPE => ack(&[SPI]),
            Q_OPBUF => ack(&OPERATION_BUFFER.to_le_bytes()[..2]),
            Q_WRNMAXLEN => ack(&MOST_WRITTEN.to_le_bytes()[..3]),
            Q_RDNMAXLEN => ack(&MOST_READ.to_le_bytes()[..3]),
            S_BUSTYPE => ack_if(self.parameter::<1>()?[0] & SPI != 0),
            O_INIT => self.initialize(),
            O_DELAY => self.delay()?,
            O_EXEC => self.execute(),
            O_SPIOP => self.operate()?,
            S_SPI_FREQ => match self.parameter::<4>()? {
                [0, 0, 0, 0] => vec![NAK],
                frequency => ack(&frequency),
            },
            S_PIN_STATE => match self.parameter::<1>()? {
                [0] => ack_if((self.released)(self.board)),
                _ => vec![ACK],
            },
            _ => vec![NAK],
        })
    }

    fn parameter<const N: usize>(&mut self) -> io::Result<[u8; N]> {
        let mut bytes = [0; N];
        self.link.read_exact(&mut bytes)?;
        Ok(bytes)
    }

    fn initialize(&mut self) -> Vec<u8> {
        self.delay = 0;
        self.used = 0;
        vec![ACK]
    }

    /// Puts a delay into the operation buffer.
    fn delay(&mut self) -> io::Result<Vec<u8>> {
        let micros = u32::from_le_bytes(self.parameter()?);
        let fits = self.used + DELAY_BYTES <= OPERATION_BUFFER;
        if fits {
            self.delay += u64::from(micros);
            self.used += DELAY_BYTES;
        }
        Ok(ack_if(fits))
    }

    /// Time passes by the delays in the operation buffer, which is empty then.
    fn execute(&mut self) -> Vec<u8> {
        self.board.delay(self.delay);
        self.initialize()
    }

    /// An SPI operation; a length above its limit is refused once its bytes have come, so that the next
    /// byte is a command again.
    fn operate(&mut self) -> io::Result<Vec<u8>> {
        let lengths = self.parameter::<6>()?;
        let (written, read) = (length(&lengths[..3]), length(&lengths[3..]));
        if written > MOST_WRITTEN || read > MOST_READ {
            self.discard(written)?;
            return Ok(vec![NAK]);
        }
        let mut sent = vec![0; written];
        self.link.read_exact(&mut sent)?;
        Ok(match self.board.operate(sent, read) {
            Some(response) => ack(&response),
            None => vec![NAK],
        })
    }

    fn discard(&mut self, bytes: usize) -> io::Result<()> {
        let gone = io::copy(&mut (&mut self.link).take(bytes as u64), &mut io::sink())?;
        if gone < bytes as u64 {
            return Err(io::ErrorKind::UnexpectedEof.into());
        }
        Ok(())
    }
}

fn ack(bytes: &[u8]) -> Vec<u8> {
    [&[ACK], bytes].concat()
}

fn ack_if(fine: bool) -> Vec<u8> {
    vec![if fine { ACK } else { NAK }]
}

/// A number of three bytes, low byte first.
fn length(bytes: &[u8]) -> usize {
    bytes.iter().rev().fold(0, |number, byte| number << 8 | usize::from(*byte))
}

/// A bit for each command, from the lowest of the first byte on.
fn command_map() -> [u8; 32] {
    let mut map = [0; 32];
    for command in COMMANDS {
        map[usize::from(command / 8)] |= 1 << (command % 8);
    }
    map
}
