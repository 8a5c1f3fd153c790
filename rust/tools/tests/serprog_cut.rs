//! Power lost in a cycle of the server's chip, without a network: which cycle, what is left of it, what is told, and
//! that the board goes on.

#[path = "support/told.rs"]
mod told;

use m25p::Part;
use told::Told;
use tools::rng::Rng;
use tools::serprog::{Board, Options};

/// The mask of a seed, and whether its status write is complete.
fn drawn(seed: u32) -> (Vec<u8>, bool) {
    let mut rng = Rng::new(u64::from(seed));
    (rng.bytes(256), rng.one_in(2))
}

/// A board of the part, all 5A, whose power is lost in this cycle; what it tells.
fn board(options: &Options, cycle: u32, seed: u32) -> (Board, Told) {
    let (mut board, told) = (Board::new(options), Told::default());
    board.fill(0, &vec![0x5A; options.parts[0].bytes()]);
    board.cut_after(cycle, seed, Box::new(told.clone()));
    (board, told)
}

fn status(board: &mut Board) -> u8 {
    board.operate(vec![0x05], 1).unwrap()[0]
}

/// Write enable and this instruction.
fn start(board: &mut Board, sent: &[u8]) {
    board.operate(vec![0x06], 0);
    board.operate(sent.to_vec(), 0);
}

/// What is told of a loss in a cycle.
fn line(cycle: u32, seed: u32, what: &str) -> String {
    format!("Power was lost in cycle {cycle}, {what}, and is back; --cut-after {cycle} --seed {seed} repeats it.\n")
}

/// Each kind of program and erase: its bytes by the seed's mask, told in a line, and a chip that is ready at once,
/// however long the cycle would have been. The next cycles are whole.
#[test]
fn programs_and_erases() {
    let program = [0x02, 0xFE, 0x12, 0xFE, 0x00, 0x0F, 0xF0];
    let slot = |at: usize| {
        [(0x0012FE, 0x00), (0x0012FF, 0x0F), (0x001200, 0xF0)].into_iter().find(|s| s.0 == at)
    };
    let (seed, options) = (3, Options::of(Part::M25p10a));
    let mask = drawn(seed).0;
    for (sent, what) in [
        (&program[..], "a page program (02) at 0012FE"),
        (&[0xD8, 0x00, 0x81, 0x23], "a sector erase (D8) at 008123"),
        (&[0xC7], "a bulk erase (C7)"),
    ] {
        let (mut board, told) = board(&options, 1, seed);
        start(&mut board, sent);
        assert_eq!((status(&mut board), told.text()), (0x00, line(1, seed, what)));
        for (at, byte) in board.array().iter().enumerate() {
            let mask = mask[at % 256];
            let expected = match sent[0] {
                0x02 if at / 256 == 0x12 => 0x5A & (slot(at).map_or(0xFF, |slot| slot.1) | mask),
                0xD8 if at / 0x8000 == 1 => 0x5A | mask,
                0xC7 => 0x5A | mask,
                _ => 0x5A,
            };
            assert_eq!(*byte, expected, "{what}, byte {at:06X}");
        }
        start(&mut board, &[0xD8, 0x00, 0x00, 0x00]);
        assert_eq!(
            status(&mut board),
            0x03,
            "the latch was reset, and the next erase is a whole one"
        );
        board.delay(1_000_000);
        assert!(board.array()[..0x8000].iter().all(|byte| *byte == 0xFF));
        assert_eq!((status(&mut board), told.text()), (0x00, line(1, seed, what)), "once");
    }
}

/// The cycles of the M25PE40: its erases over their area, and a page write over the bytes that it names alone. Lock
/// registers are open afterwards.
#[test]
fn page_writes_and_small_erases() {
    let (seed, options) = (4, Options::of(Part::M25pe40));
    let mask = drawn(seed).0;
    for (sent, what, reached) in [
        (
            &[0x0A, 0xFE, 0x12, 0xFE, 0x00, 0x0F, 0xF0][..],
            "a page write (0A) of 3 bytes at 0612FE",
            &[0x612FE..0x61300, 0x61200..0x61201][..],
        ),
        (
            &[0x0A, 0x00, 0x00, 0x00, 0x00],
            "a page write (0A) of 1 byte at 000000",
            &[0x00..0x01, 0x00..0x01],
        ),
        (
            &[0xDB, 0x00, 0x81, 0x23],
            "a page erase (DB) at 008123",
            &[0x8100..0x8200, 0x8100..0x8200],
        ),
        (
            &[0x20, 0x00, 0x81, 0x23],
            "a subsector erase (20) at 008123",
            &[0x8000..0x9000, 0x8000..0x9000],
        ),
    ] {
        let (mut board, told) = board(&options, 1, seed);
        start(&mut board, &[0xE5, 0x07, 0x00, 0x00, 0x03]);
        assert_eq!((told.text(), status(&mut board)), (String::new(), 0x00), "no cycle");
        start(&mut board, sent);
        assert_eq!((status(&mut board), told.text()), (0x00, line(1, seed, what)));
        for (at, byte) in board.array().iter().enumerate() {
            let cut = reached.iter().any(|area| area.contains(&at));
            assert_eq!(
                *byte,
                if cut { 0x5A | mask[at % 256] } else { 0x5A },
                "{what}, byte {at:06X}"
            );
        }
        assert_eq!(board.operate(vec![0xE8, 0x07, 0x00, 0x00], 1), Some(vec![0x00]));
    }
}

/// A status write is complete or absent by the seed; the settings at the server's start are no cycle that counts.
#[test]
fn status_writes() {
    let mut seen = [false; 2];
    for seed in 0..16 {
        let options = Options { bp: 3, srwd: true, ..Options::of(Part::M25p10a) };
        let (mut board, told) = board(&options, 1, seed);
        assert_eq!((status(&mut board), told.text()), (0x8C, String::new()));
        start(&mut board, &[0x01, 0x04]);
        let complete = drawn(seed).1;
        let (after, end) = if complete { (0x04, "complete") } else { (0x8C, "absent") };
        assert_eq!(status(&mut board), after);
        assert_eq!(told.text(), line(1, seed, &format!("a status write (01) of 04 that is {end}")));
        seen[usize::from(complete)] = true;
    }
    assert_eq!(seen, [true; 2]);
}

/// Cycles are counted as they start; what is ignored and what is read in a cycle does not count, and a cycle of one
/// tick is cut like any other.
#[test]
fn counted_cycles() {
    for ticks in [1, 4] {
        let mut options = Options { bp: 1, ..Options::of(Part::M25p10a) };
        options.durations = [ticks; 4].into();
        let (mut board, told) = board(&options, 3, 5);
        for address in [0x00, 0x01, 0x02] {
            start(&mut board, &[0xC7]);
            start(&mut board, &[0x02, 0x01, 0x80, address, 0x00]);
            assert_eq!(
                (told.text(), status(&mut board)),
                (String::new(), 0x06),
                "protected, ignored"
            );
            start(&mut board, &[0x02, 0x00, 0x30, address, 0x00]);
            while status(&mut board) & 1 == 1 {
                board.operate(vec![0x06], 0);
            }
        }
        assert_eq!(told.text(), line(3, 5, "a page program (02) at 003002"));
        let cut = 0x5A & drawn(5).0[2];
        assert_eq!(board.array()[0x3000..0x3004], [0x00, 0x00, cut, 0x5A]);
    }
}

/// The same seed leaves the same bytes, another seed others; power that is never lost is never told of.
#[test]
fn seeds() {
    let left = |cycle, seed| {
        let (mut board, told) = board(&Options::of(Part::M25p10a), cycle, seed);
        start(&mut board, &[0xC7]);
        board.finish();
        (board.array().to_vec(), told.text())
    };
    assert_eq!(left(1, 8), left(1, 8));
    assert!(left(1, 8).0 != left(1, 9).0);
    assert_eq!(left(2, 8), (vec![0xFF; Part::M25p10a.bytes()], String::new()));
}

/// A trace has the loss between the calls, with what it was given.
#[test]
fn traced() {
    let (mut board, trace) = (board(&Options::of(Part::M25p10a), 1, 2).0, Told::default());
    board.trace(Box::new(trace.clone()));
    start(&mut board, &[0xC7]);
    let (mask, yes) = drawn(2);
    let mask: String = mask.iter().map(|byte| format!("{byte:02X}")).collect();
    let loss = format!("loss {} {mask} = 0 -", u8::from(yes));
    let lines = ["x 1 0 06 = 0 FF", "w 1 = 0 -", "x 1 0 C7 = 0 FF", &loss, "w 1 = 0 -"];
    assert_eq!(trace.text().lines().collect::<Vec<&str>>(), lines);
}
