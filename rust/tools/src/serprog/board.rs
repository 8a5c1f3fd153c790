//! The chips on their board, of which one is selected: the level of W, and time, which passes for all of them by a tick
//! for each transaction and by delays. Nothing sleeps. What happens can be traced, a missing erase be told, and power be
//! lost in a cycle.

use std::io::Write;

use m25p::{Bus, Cycle, Response};

use super::cut::{Cut, Loss};
use super::options::Options;

const WREN: u8 = 0x06;
const WRSR: u8 = 0x01;

pub struct Board {
    bus: Bus,
    /// The chip that is talked to. The others are never busy and have no latch set: power has nothing to take there.
    select: usize,
    w_high: bool,
    tick_us: u32,
    /// Microseconds that have passed but do not make a tick yet.
    rest: u64,
    trace: Option<Box<dyn Write + Send>>,
    /// Where the first missing erase is to be told, until it is.
    warning: Option<Box<dyn Write + Send>>,
    /// The cycle that power is to be lost in.
    cut: Option<Cut>,
}

impl Board {
    /// The parts as delivered, and the selected one with BP and SRWD as the options have them.
    pub fn new(options: &Options) -> Board {
        let chips: Vec<_> = options.parts.iter().map(|part| (*part, options.durations)).collect();
        let bus = Bus::deliver(&chips).expect("the options are checked");
        let (select, w_high, tick_us) = (options.select, options.w_high, options.tick_us);
        let (trace, warning, cut) = (None, None, None);
        let mut board = Board { bus, select, w_high, tick_us, rest: 0, trace, warning, cut };
        let status = u8::from(options.srwd) << 7 | options.bp << 2;
        if status != 0 {
            board.transact(&[WREN], true);
            board.transact(&[WRSR, status], true);
            board.wait(u64::from(options.durations.write_status));
        }
        board
    }

    /// One transaction: the bytes sent, then `read` dummy bytes. Hands back what came during these, or
    /// none if the transaction was refused by the host side.
    pub fn operate(&mut self, mut sent: Vec<u8>, read: usize) -> Option<Vec<u8>> {
        let written = sent.len();
        sent.resize(written + read, 0);
        let running = self.cycle().is_some();
        let Response { answer, mut line, .. } = self.transact(&sent, self.w_high);
        if !running {
            self.cut();
        }
        self.wait(1);
        let heard = answer.executed().is_ok() || answer.ignored();
        heard.then(|| line.split_off(written))
    }

    /// Microseconds pass; what does not make a tick is kept for the next time.
    pub fn delay(&mut self, micros: u64) {
        let micros = self.rest + micros;
        let tick = u64::from(self.tick_us);
        self.rest = micros % tick;
        if micros >= tick {
            self.wait(micros / tick);
        }
    }

    /// From now on each call is written down, with its answer.
    pub fn trace(&mut self, into: Box<dyn Write + Send>) {
        self.trace = Some(into);
    }

    /// The first program from now on in which an erase was missing is told in a sentence.
    pub fn warn_missing(&mut self, into: Box<dyn Write + Send>) {
        self.warning = Some(into);
    }

    /// Power will be lost in the cycle of this number, counted from 1 from now on, as soon as it has started. By
    /// the seed comes what the loss leaves of it. It is told in a line.
    pub fn cut_after(&mut self, cycle: u32, seed: u32, into: Box<dyn Write + Send>) {
        self.cut = Some(Cut::new(cycle, seed, into));
    }

    /// A cycle that is still running is completed, as by a power-up.
    pub fn finish(&mut self) {
        if self.cycle().is_some() {
            self.bus.power_up(self.select);
            self.note("p = 0 -");
        }
    }

    /// The contents of the selected chip; a cycle that is still running has changed nothing of them.
    pub fn array(&self) -> &[u8] {
        self.bus.array(self.select)
    }

    /// The contents of each chip.
    pub fn arrays(&self) -> impl Iterator<Item = &[u8]> {
        (0..self.bus.parts().len()).map(|chip| self.bus.array(chip))
    }

    /// The contents that a chip starts with, of its part's size.
    pub fn fill(&mut self, chip: usize, contents: &[u8]) {
        self.bus.array_mut(chip).copy_from_slice(contents);
    }

    fn cycle(&self) -> Option<Cycle> {
        self.bus.cycle(self.select)
    }

    fn transact(&mut self, sent: &[u8], w_high: bool) -> Response {
        let response = self.bus.transact(self.select, sent, 0, w_high);
        if self.trace.is_some() {
            let (answer, w) = (response.answer.number(), u8::from(w_high));
            let line = match sent {
                [] => format!("x {w} 0 = {answer} -"),
                sent => format!("x {w} 0 {} = {answer} {}", hex(sent), hex(&response.line)),
            };
            let missing = match response.missing {
                0 => String::new(),
                bits => format!(" missing {bits}"),
            };
            self.note(&format!("{line}{missing}"));
        }
        if response.missing > 0 {
            self.warn(sent, response.missing);
        }
        response
    }

    /// Tells of a program in which an erase was missing, if none was told of before.
    fn warn(&mut self, sent: &[u8], missing: u32) {
        let Some(mut into) = self.warning.take() else { return };
        let address = sent[1..4].iter().fold(0, |high, byte| high << 8 | usize::from(*byte));
        let page = address % self.array().len() / 256 * 256;
        let wants = match missing {
            1 => "1 bit 1 that is 0".to_string(),
            bits => format!("{bits} bits 1 that are 0"),
        };
        let program = format!("the program in page {page:06X} wants {wants}");
        let _ = writeln!(into, "An erase was missing: {program}. Further ones are not told.");
    }

    /// Power is lost if a cycle has just started, and it is the one: before its first tick, so that one of a
    /// single tick is cut, too.
    fn cut(&mut self) {
        let cycle = self.cycle();
        let (Some(cut), Some(cycle)) = (&mut self.cut, cycle) else { return };
        if let Some(Loss { mask, yes }) = cut.started(cycle) {
            self.bus.loss(self.select, &mask, yes);
            self.note(&format!("loss {} {} = 0 -", u8::from(yes), hex(&mask)));
        }
    }

    /// No cycle is longer than the greatest wait of one call.
    fn wait(&mut self, ticks: u64) {
        let ticks = u32::try_from(ticks).unwrap_or(u32::MAX);
        self.bus.wait(ticks);
        if self.trace.is_some() {
            self.note(&format!("w {ticks} = 0 -"));
        }
    }

    /// Writes a line into the trace, if there is one.
    fn note(&mut self, line: &str) {
        if let Some(trace) = &mut self.trace {
            let _ = writeln!(trace, "{line}");
        }
    }
}

fn hex(bytes: &[u8]) -> String {
    let mut text = String::with_capacity(2 * bytes.len());
    for byte in bytes {
        for digit in [byte >> 4, byte & 15] {
            text.push(b"0123456789ABCDEF"[usize::from(digit)] as char);
        }
    }
    text
}
