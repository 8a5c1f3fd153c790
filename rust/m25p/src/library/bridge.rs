//! The calls where libm25p.a can't be linked: a program, c/bridge.c, makes them under the kit's emulator,
//! in memory that it shares with this process.

use std::io::{Read, Write};
use std::path::Path;
use std::process::{Child, ChildStdin, ChildStdout, Stdio};
use std::sync::{Mutex, OnceLock};

use self::room::{Lent, Room};
pub use self::shared::Held;
use crate::kit;

mod room;
mod shared;

// The calls by the numbers that c/bridge.c knows them by.
const DELIVER: u32 = 0;
const TRANSACT: u32 = 1;
const WAIT: u32 = 2;
const POWER_UP: u32 = 3;
const PINS: u32 = 4;
const LOSS: u32 = 5;
const BATCH: u32 = 6;
const IMAGE_WRITE: u32 = 7;
const IMAGE_READ: u32 = 8;
const IMAGE_SALVAGE: u32 = 9;
const BUS_TRANSACT: u32 = 10;
const BUS_WAIT: u32 = 11;
const REPORT: u32 = 12;

pub fn deliver(record: &mut [u8], part: u32, array: &mut [u8], durations: [u32; 4]) -> u64 {
    let [program, sector_erase, bulk_erase, write_status] = durations;
    let numbers = [part, program, sector_erase, bulk_erase, write_status];
    call(DELIVER, &numbers, &mut [Lent::Changed(record), Lent::Changed(array)])
}

pub fn transact(
    record: &mut [u8],
    array: &mut [u8],
    sent: &[u8],
    pulses: u32,
    w: u32,
    response: &mut [u8],
) -> u64 {
    let (record, array) = (Lent::Changed(record), Lent::Changed(array));
    let (sent, response) = (Lent::Kept(sent), Lent::Changed(response));
    call(TRANSACT, &[pulses, w], &mut [record, array, sent, response])
}

pub fn wait(record: &mut [u8], array: &mut [u8], ticks: u32) -> u64 {
    call(WAIT, &[ticks], &mut [Lent::Changed(record), Lent::Changed(array)])
}

pub fn power_up(record: &mut [u8], array: &mut [u8]) -> u64 {
    call(POWER_UP, &[], &mut [Lent::Changed(record), Lent::Changed(array)])
}

pub fn loss(record: &mut [u8], array: &mut [u8], mask: &[u8], yes: u32) -> u64 {
    let (record, array) = (Lent::Changed(record), Lent::Changed(array));
    call(LOSS, &[yes], &mut [record, array, Lent::Kept(mask)])
}

pub fn pins(record: &mut [u8], array: &mut [u8], samples: &[u8], output: &mut [u8]) -> u64 {
    let (record, array) = (Lent::Changed(record), Lent::Changed(array));
    call(PINS, &[], &mut [record, array, Lent::Kept(samples), Lent::Changed(output)])
}

pub fn batch(
    record: &mut [u8],
    array: &mut [u8],
    items: &[u8],
    responses: &mut [u8],
    answers: &mut [u8],
    missing: &mut [u8],
) -> u64 {
    let (record, array) = (Lent::Changed(record), Lent::Changed(array));
    let (items, responses) = (Lent::Kept(items), Lent::Changed(responses));
    let (answers, missing) = (Lent::Changed(answers), Lent::Changed(missing));
    call(BATCH, &[], &mut [record, array, items, responses, answers, missing])
}

pub fn report(
    record: &mut [u8],
    array: &mut [u8],
    items: &[u8],
    responses: &mut [u8],
    answers: &mut [u8],
    totals: &mut [u8],
) -> u64 {
    let (record, array) = (Lent::Changed(record), Lent::Changed(array));
    let (items, responses) = (Lent::Kept(items), Lent::Changed(responses));
    let (answers, totals) = (Lent::Changed(answers), Lent::Changed(totals));
    call(REPORT, &[], &mut [record, array, items, responses, answers, totals])
}

pub fn image_write(part: u32, array: &[u8], image: &mut [u8]) -> u64 {
    call(IMAGE_WRITE, &[part], &mut [Lent::Kept(array), Lent::Changed(image)])
}

pub fn image_read(part: u32, image: &[u8], array: &mut [u8]) -> u64 {
    call(IMAGE_READ, &[part], &mut [Lent::Kept(image), Lent::Changed(array)])
}

pub fn image_salvage(part: u32, image: &mut [u8], list: &mut [u8]) -> u64 {
    call(IMAGE_SALVAGE, &[part], &mut [Lent::Changed(image), Lent::Changed(list)])
}

pub fn bus_transact(
    row: &mut [u8],
    array: &mut [u8],
    chip: u32,
    sent: &[u8],
    pulses: u32,
    w: u32,
    response: &mut [u8],
) -> u64 {
    let (row, array) = (Lent::Changed(row), Lent::Changed(array));
    let (sent, response) = (Lent::Kept(sent), Lent::Changed(response));
    call(BUS_TRANSACT, &[chip, pulses, w], &mut [row, array, sent, response])
}

pub fn bus_wait(row: &mut [u8], array: &mut [u8], ticks: u32) -> u64 {
    call(BUS_WAIT, &[ticks], &mut [Lent::Changed(row), Lent::Changed(array)])
}

/// The one form of a call: which it is, its numbers, and its slices, each in the order of the C call's
/// arguments.
fn call(number: u32, numbers: &[u32], lent: &mut [Lent]) -> u64 {
    static BRIDGE: OnceLock<Mutex<Bridge>> = OnceLock::new();
    let bridge = BRIDGE.get_or_init(|| Mutex::new(Bridge::start()));
    let mut bridge =
        bridge.lock().expect("the bridge to libm25p.a still works after earlier calls");
    let places = bridge.room.lend(lent);
    let request = request(number, numbers, lent, &places);
    let answer = bridge.ask(&request);
    bridge.room.take_back(lent, &places);
    answer
}

/// The bytes of a request, as c/bridge.c reads them: the call, how many numbers and slices there are, the
/// numbers, and of each slice where it lies and its length.
fn request(number: u32, numbers: &[u32], lent: &[Lent], places: &[usize]) -> Vec<u8> {
    let head = [number, numbers.len() as u32, lent.len() as u32];
    let mut request: Vec<u8> = head.iter().chain(numbers).flat_map(|n| n.to_le_bytes()).collect();
    for (slice, place) in lent.iter().zip(places) {
        request.extend((*place as u64).to_le_bytes());
        request.extend((slice.bytes().len() as u64).to_le_bytes());
    }
    request
}

struct Bridge {
    child: Child,
    requests: ChildStdin,
    answers: ChildStdout,
    room: Room,
}

impl Bridge {
    fn start() -> Bridge {
        let command = kit::command(Path::new(env!("M25P_BRIDGE")));
        let mut command = command.unwrap_or_else(|why| panic!("{why}"));
        command.args(shared::arguments()).stdin(Stdio::piped()).stdout(Stdio::piped());
        let child = command.spawn();
        let mut child = child.unwrap_or_else(|e| panic!("the bridge to libm25p.a: {e}"));
        let (requests, answers) = (child.stdin.take().unwrap(), child.stdout.take().unwrap());
        Bridge { child, requests, answers, room: Room::default() }
    }

    fn ask(&mut self, request: &[u8]) -> u64 {
        let mut answer = [0; 8];
        let sent = self.requests.write_all(request);
        if let Err(e) = sent.and_then(|()| self.answers.read_exact(&mut answer)) {
            let _ = self.child.kill();
            let ended = self.child.wait().map_or_else(|e| e.to_string(), |ended| ended.to_string());
            panic!("the bridge to libm25p.a gave no answer: {e}; it ended with {ended}");
        }
        u64::from_le_bytes(answer)
    }
}
