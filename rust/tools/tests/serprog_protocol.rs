//! The serprog protocol without a network: each command's answer, the limits, time, bits missing in trace and
//! warning, and the options. Power losses are in `serprog_cut.rs`.

#[path = "support/told.rs"]
mod told;

use std::ffi::OsString;
use std::io::{self, Cursor, ErrorKind, Read, Write};
use std::path::Path;

use m25p::Part;
use told::Told;
use tools::serprog::*;

/// A client that has said all it will say.
struct Talk {
    said: Cursor<Vec<u8>>,
    heard: Vec<u8>,
}

impl Read for Talk {
    fn read(&mut self, bytes: &mut [u8]) -> io::Result<usize> {
        self.said.read(bytes)
    }
}

impl Write for Talk {
    fn write(&mut self, bytes: &[u8]) -> io::Result<usize> {
        self.heard.write(bytes)
    }

    fn flush(&mut self) -> io::Result<()> {
        Ok(())
    }
}

/// How a client ends that says this, and what it hears.
fn talk(board: &mut Board, said: &[u8]) -> (io::Result<()>, Vec<u8>) {
    let mut talk = Talk { said: Cursor::new(said.to_vec()), heard: Vec::new() };
    (serve(&mut talk, board, |_| true), talk.heard)
}

/// What a client hears that says whole commands.
fn hear(board: &mut Board, said: &[u8]) -> Vec<u8> {
    let (end, heard) = talk(board, said);
    end.unwrap();
    heard
}

fn board() -> Board {
    Board::new(&Options::of(Part::M25p40))
}

fn delay(micros: u32) -> Vec<u8> {
    [&[O_DELAY], &micros.to_le_bytes()[..]].concat()
}

fn status(board: &mut Board) -> u8 {
    hear(board, &operation(&[0x05], 1))[1]
}

#[test]
fn answers() {
    let board = &mut board();
    assert_eq!(hear(board, &[]), []);
    assert_eq!(hear(board, &[NOP]), [ACK]);
    assert_eq!(hear(board, &[SYNCNOP]), [NAK, ACK]);
    assert_eq!(hear(board, &[Q_IFACE]), [ACK, 1, 0]);
    assert_eq!(hear(board, &[Q_PGMNAME]), b"\x06Pisculomu\0\0\0\0\0\0\0");
    assert_eq!(hear(board, &[Q_SERBUF]), [ACK, 0xFF, 0xFF]);
    assert_eq!(hear(board, &[Q_BUSTYPE]), [ACK, 8]);
    assert_eq!(hear(board, &[Q_OPBUF]), [ACK, 0xFF, 0xFF]);
    assert_eq!(hear(board, &[Q_WRNMAXLEN]), [ACK, 0, 0x80, 0]);
    assert_eq!(hear(board, &[Q_RDNMAXLEN]), [ACK, 0, 0x80, 0]);
    assert_eq!(hear(board, &[S_BUSTYPE, 8, S_BUSTYPE, 15, S_BUSTYPE, 7]), [ACK, ACK, NAK]);
    assert_eq!(hear(board, &[S_SPI_FREQ, 1, 2, 3, 4]), [ACK, 1, 2, 3, 4]);
    assert_eq!(hear(board, &[S_SPI_FREQ, 0, 0, 0, 0]), [NAK]);
    assert_eq!(hear(board, &[S_PIN_STATE, 0, S_PIN_STATE, 1]), [ACK, ACK]);
    assert_eq!(hear(board, &[O_INIT, O_EXEC]), [ACK, ACK]);
    assert_eq!(hear(board, &operation(&[0x9F], 4)), [ACK, 0x20, 0x20, 0x13, 0x00]);
    assert_eq!(hear(board, &operation(&[], 0)), [ACK]);
    assert_eq!(hear(board, &operation(&[], 2)), [ACK, 0xFF, 0xFF]);
}

/// The command map names the commands that are not refused when all their bytes are there.
#[test]
fn command_map() {
    let board = &mut board();
    let map = hear(board, &[Q_CMDMAP]);
    assert_eq!(map.len(), 33);
    for command in 0..=255_u8 {
        let named = map[1 + usize::from(command / 8)] >> (command % 8) & 1 == 1;
        // An operation of 8 bytes, a delay, a frequency, a bus type; what is left over are NOPs.
        let parameters = [8, 0, 0, 0, 0, 0, 0, 0, 0, 0, 0, 0, 0, 0];
        let heard = hear(board, &[&[command], &parameters[..]].concat());
        assert_eq!(named, heard[0] == ACK || command == SYNCNOP, "command {command:02X}");
        assert_eq!(named, COMMANDS.contains(&command));
    }
}

#[test]
fn limits() {
    let board = &mut board();
    for (written, read, fine) in [
        (MOST_WRITTEN, MOST_READ, true),
        (MOST_WRITTEN + 1, 0, false),
        (1, MOST_READ + 1, false),
        (0, 0xFF_FFFF, false),
        (0xFF_FFFF, 0xFF_FFFF, false),
        (0xFF_FFFF, 0, false),
    ] {
        let mut sent = vec![0; written];
        sent.iter_mut().take(1).for_each(|code| *code = 0x05);
        let said = [operation(&sent, read), vec![SYNCNOP]].concat();
        let heard = hear(board, &said);
        if fine {
            assert_eq!(heard.len(), 1 + read + 2);
            assert!(heard[1..=read].iter().all(|byte| *byte == 0x00));
        } else {
            assert_eq!(heard, [NAK, NAK, ACK], "{written} written, {read} read");
        }
    }
}

#[test]
fn operation_buffer() {
    let board = &mut board();
    let most = OPERATION_BUFFER / DELAY_BYTES;
    let heard = hear(board, &delay(u32::MAX).repeat(most + 1));
    assert!(heard[..most].iter().all(|byte| *byte == ACK));
    assert_eq!(heard[most..], [NAK]);
    let emptied = [delay(1).repeat(most), vec![O_INIT], delay(1), vec![O_EXEC], delay(1)].concat();
    assert!(hear(board, &emptied).iter().all(|byte| *byte == ACK));
}

/// A sector erase of 10 ticks of 1,000 microseconds: each operation is a tick, delays count when they
/// are executed, and what is left of a tick is kept.
#[test]
fn time() {
    let mut options = Options::of(Part::M25p40);
    options.durations.sector_erase = 10;
    let board = &mut Board::new(&options);
    let start = [operation(&[0x06], 0), operation(&[0xD8, 0, 0, 0], 0)].concat();
    hear(board, &start);
    let polls = (0..9).map(|_| status(board)).collect::<Vec<u8>>();
    assert_eq!(polls, [3, 3, 3, 3, 3, 3, 3, 3, 1], "the latch falls one tick before the end");
    assert_eq!(status(board), 0);

    hear(board, &[start.clone(), delay(7_999)].concat());
    hear(board, &[O_EXEC]);
    hear(board, &[delay(4_999), delay(2_001), vec![O_EXEC]].concat());
    assert_eq!(status(board), 3, "8 of 10 ticks have passed");
    hear(board, &[delay(999), vec![O_EXEC]].concat());
    assert_eq!(status(board), 1, "9 of 10 ticks have passed");
    assert_eq!(status(board), 0);

    hear(board, &[start.clone(), delay(4_999), vec![O_EXEC]].concat());
    hear(board, &[delay(2_002), vec![O_EXEC]].concat());
    assert_eq!(status(board), 1, "7,001 microseconds and the 999 that were left are 8 ticks");
    assert_eq!(status(board), 0);

    hear(board, &[start, delay(u32::MAX).repeat(9_000), vec![O_EXEC]].concat());
    assert_eq!(status(board), 0);
}

/// A client that hangs up at any byte: only whole operations are carried out, and a program that has started comes
/// about with its last tick.
#[test]
fn cut_at_any_byte() {
    let enable = operation(&[0x06], 0);
    let program = operation(&[0x02, 0, 0, 0, 0x12, 0x34], 0);
    let whole = enable.len() + program.len();
    let said = [enable.clone(), program, delay(9_000), vec![O_EXEC]].concat();
    let ends = [0, enable.len(), whole, whole + 5, whole + 6];
    for cut in 0..=said.len() {
        let board = &mut board();
        let (end, _) = talk(board, &said[..cut]);
        let clean = ends.contains(&cut);
        assert_eq!(
            end.map_err(|e| e.kind()),
            if clean { Ok(()) } else { Err(ErrorKind::UnexpectedEof) }
        );
        let programmed = |board: &Board| board.array()[..2] == [0x12, 0x34];
        let blank = |board: &Board| board.array().iter().all(|byte| *byte == 0xFF);
        assert!(if cut == said.len() { programmed(board) } else { blank(board) }, "cut at {cut}");
        board.delay(1_000);
        assert!(if cut >= whole { programmed(board) } else { blank(board) }, "cut at {cut}");
    }
    let (end, heard) = talk(&mut board(), &[O_SPIOP, 0xFF, 0xFF, 0xFF, 0, 0, 0, 1, 2, 3]);
    assert_eq!((end.unwrap_err().kind(), heard), (ErrorKind::UnexpectedEof, vec![]));
}

#[test]
fn settings_at_start() {
    for ((_, part), bp) in PARTS.into_iter().zip([3, 7, 5, 1, 2, 6]) {
        for w_high in [false, true] {
            let options = Options { bp, srwd: true, w_high, ..Options::of(part) };
            assert_eq!(status(&mut Board::new(&options)), 0x80 | bp << 2);
        }
    }
}

/// Write enable and a program, whose cycle is over then.
fn program(board: &mut Board, address: u32, data: &[u8]) {
    let sent = [&[0x02], &address.to_be_bytes()[1..], data].concat();
    let cycle = [operation(&[0x06], 0), operation(&sent, 0), delay(9_000), vec![O_EXEC]].concat();
    assert!(hear(board, &cycle).iter().all(|byte| *byte == ACK));
}

/// A program's line ends with the bits missing, if there are any.
#[test]
fn trace_of_bits_missing() {
    let (board, told) = (&mut board(), Told::default());
    board.trace(Box::new(told.clone()));
    program(board, 0x1FE, &[0x00, 0x00, 0x00]);
    program(board, 0x1FE, &[0xFF, 0xFF, 0xFF]);
    program(board, 0x1FD, &[0xFF]);
    let told = told.text();
    let programs: Vec<&str> = told.lines().filter(|line| line.starts_with("x 1 0 02")).collect();
    let expected = [
        "x 1 0 020001FE000000 = 0 FFFFFFFFFFFFFF",
        "x 1 0 020001FEFFFFFF = 0 FFFFFFFFFFFFFF missing 24",
        "x 1 0 020001FDFF = 0 FFFFFFFFFF",
    ];
    assert_eq!(programs, expected);
    assert_eq!(told.matches("missing").count(), 1);
}

/// The first program in which an erase was missing is told, with its page within the part, and no further one.
#[test]
fn warning_of_a_missing_erase() {
    for (data, wants) in [([0, 0, 4], "1 bit 1 that is 0"), ([0xFF; 3], "24 bits 1 that are 0")] {
        let (board, told) = (&mut board(), Told::default());
        board.warn_missing(Box::new(told.clone()));
        program(board, 0x07_FFFE, &[0; 3]);
        program(board, 0x07_FFFE, &[0; 3]);
        assert_eq!(told.text(), "", "no bit is missing");
        let sentence = format!(
            "An erase was missing: the program in page 07FF00 wants {wants}. Further ones are not told.\n"
        );
        for (address, data) in [(0xF7_FFFE, &data[..]), (0x07_FFFE, &[0xFF]), (0, &[0]), (0, &[1])]
        {
            program(board, address, data);
            assert_eq!(told.text(), sentence);
        }
    }
}

fn parsed(line: &str) -> Result<Options, String> {
    Options::parse(line.split(' ').filter(|word| !word.is_empty()).map(OsString::from))
}

/// The usage tells of each option, and of no other.
#[test]
fn usage() {
    let words = USAGE.lines().filter_map(|line| line.strip_prefix("  ")?.split(' ').next());
    let told: Vec<&str> = words.filter(|word| word.starts_with("--")).collect();
    assert_eq!(told, KNOWN);
}

#[test]
fn options() {
    for (name, part) in PARTS {
        assert_eq!(parsed(&format!("--part {name}")), Ok(Options::of(part)));
        assert_eq!(parsed(&format!("--part {}", name.to_lowercase())), Ok(Options::of(part)));
    }
    let line = "--port 65535 --w 0 --tick-us 10 --bp 7 --srwd 1 --program 1 --sector-erase 2 \
                --bulk-erase 1000000 --write-status 3 --trace --image a/b --part M25P128 \
                --warn-missing";
    let options = parsed(line).unwrap();
    let durations = options.durations;
    assert_eq!((&options.parts[..], options.select), (&[Part::M25p128][..], 0));
    assert_eq!((options.port, options.tick_us), (65_535, 10));
    assert_eq!((options.bp, options.srwd, options.w_high, options.trace), (7, true, false, true));
    assert_eq!((durations.program, durations.sector_erase), (1, 2));
    assert_eq!((durations.bulk_erase, durations.write_status), (1_000_000, 3));
    assert_eq!(options.images, [Path::new("a/b")]);
    assert!(options.warn_missing && !parsed("--part M25P40 --trace").unwrap().warn_missing);
    assert_eq!((options.cut_after, options.seed), (None, 1));
    let cut = |line: &str| parsed(&format!("--part M25P40 {line}")).map(|o| (o.cut_after, o.seed));
    assert_eq!(cut("--cut-after 1000000000"), Ok((Some(1_000_000_000), 1)));
    assert_eq!(cut("--seed 0 --cut-after 1"), Ok((Some(1), 0)));
    assert_eq!(cut("--cut-after 7 --seed 4294967295"), Ok((Some(7), u32::MAX)));
}

#[test]
fn refused_options() {
    let part = "--part M25P10-A";
    for (line, sentence) in [
        ("", "--part is missing: M25P10-A, M25P40, M25P32, M25P128, M25P10 or M25PE40."),
        ("--part", "--part has no value."),
        (
            "--part M25P05",
            "--part is M25P10-A, M25P40, M25P32, M25P128, M25P10 or M25PE40, not M25P05.",
        ),
        (&format!("{part} {part}"), "--part is given twice."),
        (&format!("{part} --size 3"), "--size is not an option."),
        (&format!("{part} chip.bin"), "chip.bin is not an option."),
        (&format!("{part} --port 65536"), "--port is 0 to 65535, not 65536."),
        (&format!("{part} --port +80"), "--port is 0 to 65535, not +80."),
        (&format!("{part} --w 2"), "--w is 0 to 1, not 2."),
        (&format!("{part} --tick-us 0"), "--tick-us is 1 to 1000000000, not 0."),
        (&format!("{part} --program 0"), "--program is 1 to 1000000, not 0."),
        (&format!("{part} --bulk-erase 1000001"), "--bulk-erase is 1 to 1000000, not 1000001."),
        (&format!("{part} --srwd yes"), "--srwd is 0 to 1, not yes."),
        (&format!("{part} --bp 4"), "--bp is 0 to 3 on the M25P10-A, not 4."),
        ("--part M25P10 --bp 4", "--bp is 0 to 3 on the M25P10, not 4."),
        ("--bp 8 --part M25P40", "--bp is 0 to 7, not 8."),
        (&format!("{part} --trace --trace"), "--trace is given twice."),
        (&format!("{part} --warn-missing --warn-missing"), "--warn-missing is given twice."),
        (&format!("{part} --warn-missing 1"), "1 is not an option."),
        (&format!("{part} --image"), "--image has no value."),
        (&format!("{part} --image a --image b"), "--image is given twice."),
        (&format!("{part} --cut-after 0"), "--cut-after is 1 to 1000000000, not 0."),
        (&format!("{part} --cut-after"), "--cut-after has no value."),
        (&format!("{part} --cut-after x"), "--cut-after is 1 to 1000000000, not x."),
        (
            &format!("{part} --cut-after 1000000001"),
            "--cut-after is 1 to 1000000000, not 1000000001.",
        ),
        (&format!("{part} --cut-after 1 --seed -1"), "--seed is 0 to 4294967295, not -1."),
        (&format!("{part} --seed 1"), "--seed is given without --cut-after."),
    ] {
        assert_eq!(parsed(line), Err(sentence.to_string()), "{line}");
    }
}
