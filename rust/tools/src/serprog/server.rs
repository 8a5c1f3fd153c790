//! The server: one client after another on a loopback port. The images are written back when a client lets
//! the pins go, before that is acknowledged, and behind each client.

use std::io::{self, Read, Write};
use std::net::{Ipv4Addr, SocketAddr, TcpListener, TcpStream};
use std::sync::atomic::{AtomicBool, Ordering};
use std::thread;
use std::time::Duration;

use super::{serve, Board, Images, Options};

/// How long the server sleeps between two looks for a client.
const LOOK: Duration = Duration::from_millis(5);

/// How long a client's silence lasts before the server looks whether it should stop.
const PATIENCE: Duration = Duration::from_millis(100);

pub struct Server {
    listener: TcpListener,
    board: Board,
    images: Images,
}

impl Server {
    /// Reads the images and takes the port, or says in a sentence why not.
    pub fn start(options: &Options) -> Result<Server, String> {
        let images = Images::open(&options.images, &options.parts)?;
        let listener = TcpListener::bind((Ipv4Addr::LOCALHOST, options.port))
            .and_then(|listener| listener.set_nonblocking(true).map(|()| listener))
            .map_err(|e| format!("Port {} can't be had: {e}.", options.port))?;
        let mut board = Board::new(options);
        images.contents().enumerate().for_each(|(chip, contents)| board.fill(chip, contents));
        Ok(Server { listener, board, images })
    }

    /// From now on each call to the selected chip is written down, with its answer.
    pub fn trace(&mut self, into: Box<dyn Write + Send>) {
        self.board.trace(into);
    }

    /// The first program from now on in which an erase was missing is told in a sentence.
    pub fn warn_missing(&mut self, into: Box<dyn Write + Send>) {
        self.board.warn_missing(into);
    }

    /// Power will be lost in the cycle of this number, see [`Board::cut_after`].
    pub fn cut_after(&mut self, cycle: u32, seed: u32, into: Box<dyn Write + Send>) {
        self.board.cut_after(cycle, seed, into);
    }

    /// The address to be told to clients.
    pub fn address(&self) -> io::Result<SocketAddr> {
        self.listener.local_addr()
    }

    /// Serves until told to stop; a cycle that is running then is completed. Where an image can't be written,
    /// `complain` is told, and the next time is another try; at the end it is an error.
    pub fn run(&mut self, stop: &AtomicBool, complain: impl Fn(&str)) -> Result<(), String> {
        while !stop.load(Ordering::Relaxed) {
            let Ok((stream, _)) = self.listener.accept() else {
                thread::sleep(LOOK);
                continue;
            };
            let Server { board, images, .. } = self;
            let mut stored = |board: &Board| {
                images.store(board.arrays()).map_err(|sentences| complain(&sentences)).is_ok()
            };
            // However a client ends, the next one is served.
            let _ = Link::new(stream, stop).and_then(|link| serve(link, board, &mut stored));
            stored(board);
        }
        self.board.finish();
        self.images.store(self.board.arrays())
    }
}

/// A client's stream that waits as long as the client does, but not past the stop.
struct Link<'a> {
    stream: TcpStream,
    stop: &'a AtomicBool,
}

impl Link<'_> {
    fn new(stream: TcpStream, stop: &AtomicBool) -> io::Result<Link<'_>> {
        stream.set_nonblocking(false)?;
        stream.set_nodelay(true)?;
        stream.set_read_timeout(Some(PATIENCE))?;
        stream.set_write_timeout(Some(PATIENCE))?;
        Ok(Link { stream, stop })
    }

    /// Tries until something came of it, the client has hung up, or the server stops.
    fn patiently<T>(
        &mut self,
        mut attempt: impl FnMut(&mut TcpStream) -> io::Result<T>,
    ) -> io::Result<T> {
        use io::ErrorKind::{Interrupted, TimedOut, WouldBlock};
        while !self.stop.load(Ordering::Relaxed) {
            match attempt(&mut self.stream) {
                Err(e) if matches!(e.kind(), Interrupted | TimedOut | WouldBlock) => {}
                end => return end,
            }
        }
        Err(io::ErrorKind::ConnectionAborted.into())
    }
}

impl Read for Link<'_> {
    fn read(&mut self, bytes: &mut [u8]) -> io::Result<usize> {
        self.patiently(|stream| stream.read(bytes))
    }
}

impl Write for Link<'_> {
    fn write(&mut self, bytes: &[u8]) -> io::Result<usize> {
        self.patiently(|stream| stream.write(bytes))
    }

    fn flush(&mut self) -> io::Result<()> {
        Ok(())
    }
}
