//! The command `report` at work: its table and its JSON, on every part and over many files.

#[path = "support/report.rs"]
#[allow(dead_code)]
mod report;

use std::fs;
use std::path::Path;

use m25p::report::Totals;
use m25p::{image, Chip, Durations, Part};
use report::batch::random;
use report::json::Value;
use report::{count, desk_of, lines, outside, program, told, totals_of};
use tools::report::Week;
use tools::rng::Rng;

/// A day with something of everything: 11 transactions that are executed, and one for each answer from 11 to 18.
const DAY: &str = "x 1 0 9F000000\nx 1 0 06\nx 1 0 02030000A5\nx 1 0 0500\nx 1 0 0300000000\nw 3\nx 1 0\n\
                   x 1 0 0303000000\nx 1 0 06\nx 1 0 0184\nw 2\nx 1 0 06\nx 1 0 0207000000\nx 0 0 0100\n\
                   x 1 0 04\nx 1 0 02030000A5\nx 1 0 9E\nx 1 1 06\nx 1 0 B9\nx 1 0 05\nx 1 0 AB\n";

/// Another one: three programs in sector 3 and one in sector 0.
fn other_day() -> String {
    [0x03_0000, 0x03_FFFF, 0x03_8000, 0x00_FFFF].map(program).concat()
}

const TABLE: &str = "\
M25P40, files 2: taken 2, refused 0
transactions 27, driven bytes 5

executed, by instruction
   1  01 WRSR
   5  02 PP
   1  03 READ
   1  04 WRDI
   1  05 RDSR
   7  06 WREN
   1  9F RDID
   1  AB RES
   1  B9 DP

answers, by number
  19   0 executed
   1  11 no whole byte was sent
   1  12 the chip is busy, and this is not a status read
   1  13 the chip is in deep power-down, and this is not the release from it
   1  14 the first byte is not an instruction of this part
   1  15 bytes or further pulses are not as the instruction needs
   1  16 the write enable latch is needed and not set
   1  17 the sector, or for a bulk erase anything, is protected
   1  18 the status register is frozen: SRWD is set and W is low

page programs, by sector
   1   0 000000-00FFFF ##########
   0   1 010000-01FFFF
   0   2 020000-02FFFF
   4   3 030000-03FFFF ########################################
   0   4 040000-04FFFF
   0   5 050000-05FFFF
   0   6 060000-06FFFF
   0   7 070000-07FFFF
";

#[test]
fn table() {
    let desk = desk_of("table");
    desk.put("mon", lines(DAY));
    desk.put("tue", lines(&other_day()));
    for words in [
        &["--part", "M25P40", "mon", "tue"][..],
        &["mon", "--part", "2", "tue"],
        &["mon", "tue", "--part", "m25p40", "--durations", "3,5,9,2"],
    ] {
        assert_eq!(desk.unchanged(|| desk.prints(words)), TABLE);
    }
}

/// The same as JSON, byte by byte.
#[test]
fn json() {
    let desk = desk_of("json");
    desk.put("tue", lines(&(program(0x400) + "x 1 0 0500\nx 1 0 06\nx 1 0 02000000FF\n")));
    let printed = desk.unchanged(|| desk.prints(&["--part", "0", "--json", "tue", "tue"]));
    let expected = r#"{
  "part": "bench",
  "taken": 2,
  "refused": [],
  "transactions": 10,
  "driven_bytes": 2,
  "executed": [
    {"code": 2, "name": "PP", "count": 3},
    {"code": 5, "name": "RDSR", "count": 2},
    {"code": 6, "name": "WREN", "count": 3}
  ],
  "answers": [
    {"number": 0, "meaning": "executed", "count": 8},
    {"number": 12, "meaning": "the chip is busy, and this is not a status read", "count": 2}
  ],
  "sectors": [
    {"sector": 0, "first": 0, "last": 1023, "programs": 2},
    {"sector": 1, "first": 1024, "last": 2047, "programs": 1},
    {"sector": 2, "first": 2048, "last": 3071, "programs": 0},
    {"sector": 3, "first": 3072, "last": 4095, "programs": 0}
  ],
  "cycle_running": true
}
"#;
    assert_eq!(printed, expected);
    let words = ["-c", "import json, sys; json.load(sys.stdin)"];
    assert_ne!(outside::takes("python3", &words, printed.as_bytes()), Some(false));
}

/// What the M25PE40 alone has: its names, a page write that is no page program, and 19.
#[test]
fn m25pe40() {
    let desk = desk_of("pe");
    let lock =
        "x 1 0 06\nx 1 0 E501000003\nx 1 0 06\nx 1 0 E501000000\nx 1 0 E801000000\nx 1 0 04\n";
    let writes = "x 1 0 06\nx 1 0 0A020000A5\nw 3\nx 1 0 06\nx 1 0 DB020000\nw 3\nx 1 0 06\n\
                  x 1 0 20020000\nw 5\nx 1 0 B9\nx 1 0 AB\n";
    desk.put("mon", lines(&(program(0x02_0000) + writes + lock)));
    let printed = desk.prints(&["mon", "--part", "M25PE40"]);
    let executed = ["1  02 PP", "1  04 WRDI", "6  06 WREN", "1  0A PW", "1  20 SSE", "1  AB RDP"];
    let more = ["1  B9 DP", "1  DB PE", "1  E5 WRLR", "1  E8 RDLR"];
    let rows: Vec<&str> = printed.lines().skip(4).take(10).map(str::trim_start).collect();
    assert_eq!(rows, [&executed[..], &more].concat(), "{printed}");
    assert!(printed.contains("\n   1  19 the lock register is frozen: its lock-down bit is set\n"));
    assert!(
        printed.contains("\n   0   1 010000-01FFFF\n   1   2 020000-02FFFF ######"),
        "{printed}"
    );
}

/// Programs all over a part and beyond its end, from one file to the next: the sectors of single calls.
fn scattered(rng: &mut Rng, part: Part) -> Vec<u8> {
    let address = |rng: &mut Rng| match rng.below(4) {
        0 => rng.below(0x100_0000),
        1 => rng.below(part.sectors()) * part.sector_bytes(),
        2 => (rng.below(part.sectors()) + 1) * part.sector_bytes() - 1,
        _ => rng.below(part.bytes()),
    };
    lines(&(0..200).map(|_| program(address(rng))).collect::<String>())
}

/// Over many files of every part: what the calls made singly come to, and where they lead.
#[test]
fn totals_of_single_calls() {
    let desk = desk_of("single");
    let mut rng = Rng::new(12);
    for part in Part::ALL {
        let mut chip = Chip::deliver(part, [2, 3, 4, 1].into()).unwrap();
        let mut totals = Totals::default();
        let names = ["mon", "tue", "wed", "thu"];
        for (day, name) in names.into_iter().enumerate() {
            let batch = if day % 2 == 0 { random(&mut rng) } else { scattered(&mut rng, part) };
            desk.put(name, &batch);
            count(&mut chip, &batch, &mut totals);
        }
        let options =
            ["--json", "--part", part.name(), "--durations", "2,3,4,1", "--save", "array"];
        let report = Value::read(&desk.prints(&[&options[..], &names].concat()));
        assert_eq!(totals_of(&report), totals, "{part}");
        assert!(desk.get("array") == chip.array(), "{part}");
        assert_eq!(report.at("cycle_running").word(), chip.cycle().is_some().to_string());
        assert_eq!((report.at("part").text(), report.at("taken").number()), (part.name(), 4));
        sectors(&report, part);
    }
}

/// Every sector of the part is there, and its addresses.
fn sectors(report: &Value, part: Part) {
    let sectors = report.at("sectors").list();
    assert_eq!(sectors.len(), part.sectors());
    let mut next = 0;
    for (number, sector) in sectors.iter().enumerate() {
        assert_eq!(sector.names(), ["sector", "first", "last", "programs"]);
        assert_eq!(sector.at("sector").number(), number as u64);
        assert_eq!(sector.at("first").number(), next);
        next = sector.at("last").number() + 1;
    }
    assert_eq!(next, part.bytes() as u64);
}

/// The sums of some totals.
fn sum(weeks: [&Totals; 2]) -> Totals {
    let [a, b] = weeks.map(Totals::to_bytes);
    let numbers = a.chunks_exact(8).zip(b.chunks_exact(8)).flat_map(|(a, b)| {
        let [a, b] = [a, b].map(|bytes| u64::from_le_bytes(bytes.try_into().unwrap()));
        (a + b).to_le_bytes()
    });
    Totals::from_bytes(&numbers.collect::<Vec<u8>>().try_into().unwrap())
}

/// Two reports, the second on the chip that the first has left, come to the sums of one over both, at every parting.
#[test]
fn two_reports_are_one() {
    let desk = desk_of("two");
    let mut rng = Rng::new(3);
    let files = ["a", "b", "c", "d"].map(|name| desk.path(name));
    files.iter().for_each(|file| fs::write(file, random(&mut rng)).unwrap());
    for part in [Part::Bench, Part::M25p40, Part::M25pe40] {
        let week = || Week::new(Chip::deliver(part, Durations::default()).unwrap());
        let take = |mut week: Week, files: &[std::path::PathBuf]| {
            files.iter().for_each(|file| week.take(file).unwrap());
            week
        };
        let all = take(week(), &files);
        for parting in 0..=files.len() {
            let first = take(week(), &files[..parting]);
            let second = take(Week::new(first.chip), &files[parting..]);
            assert_eq!(sum([&first.totals, &second.totals]), all.totals, "{part} {parting}");
            assert!(second.chip == all.chip && first.taken + second.taken == 4);
        }
    }
}

/// By the command: the second report begins with the array that the first has saved.
#[test]
fn saved_between_two_reports() {
    let desk = desk_of("saved");
    for (name, day) in [("mon", [5, 0x10_0000]), ("tue", [0x20_0005, 5])] {
        let read = "x 1 0 030000050000\n";
        desk.put(name, lines(&(day.map(program).concat() + read)));
    }
    let report = |words: &[&str]| {
        let words = [&["--part", "M25P32", "--json"], words].concat();
        totals_of(&Value::read(&desk.prints(&words)))
    };
    let both = report(&["mon", "tue", "--save", "both"]);
    let mon = report(&["mon", "--save", "chip"]);
    let tue = report(&["tue", "--image", "chip", "--save", "chip"]);
    assert_eq!(sum([&mon, &tue]), both);
    assert!(desk.get("chip") == desk.get("both") && both.programs[..64].iter().sum::<u64>() == 4);
}

/// The array at the start in either form, saved in the same form, and never unasked.
#[test]
fn image_and_save() {
    let desk = desk_of("image");
    let mut array: Vec<u8> = (0..4_096).map(|i| (i % 241) as u8).collect();
    array[0x10] = 0xFF;
    let blocks = |array: &[u8]| image::write(Part::Bench, array).unwrap();
    desk.put("raw", &array);
    desk.put("blocks", blocks(&array));
    desk.put("mon", lines(&(program(0x10) + "x 1 0 0300001000\n")));
    let run = |words: &[&str]| desk.prints(&[&["--part", "0", "mon"], words].concat());
    let plain = desk.unchanged(|| run(&["--image", "raw"]));
    assert_eq!(desk.unchanged(|| run(&["--image", "blocks"])), plain);
    array[0x10] = 0xA5;
    let save = |image, save| run(&["--image", image, "--save", save]);
    assert_eq!(desk.makes("raw.new", || save("raw", "raw.new")), plain);
    assert_eq!(desk.makes("blocks.new", || save("blocks", "blocks.new")), plain);
    assert_eq!(desk.makes("blocks", || save("blocks", "blocks")), plain);
    assert_eq!(desk.get("raw.new"), array);
    assert_eq!((desk.get("blocks.new"), desk.get("blocks")), (blocks(&array), blocks(&array)));
    desk.makes("fresh", || run(&["--save", "fresh"]));
    assert_eq!(desk.get("fresh")[0x0F..0x12], [0xFF, 0xA5, 0xFF]);
}

/// A cycle that still runs at the end is said; durations are as asked for, and the next file goes on in mid-cycle.
#[test]
fn durations_and_the_end() {
    let desk = desk_of("end");
    desk.put("mon", lines("x 1 0 06\nx 1 0 02000010A5\nw 2\n"));
    desk.put("tue", lines("w 1\nx 1 0 0300001000\n"));
    let running = "\n\na cycle is still running: its change is not in the array\n";
    let run = |words: &[&str]| desk.prints(&[&["--part", "0", "--durations"], words].concat());
    let monday = run(&["3,1,1,1", "mon"]);
    assert!(monday.ends_with(running), "{monday}");
    let both = run(&["3,1,1,1", "mon", "tue"]);
    assert!(both.contains("driven bytes 1\n") && both.contains("3   0 executed"), "{both}");
    assert!(!both.contains("a cycle"), "{both}");
    let late = run(&["4,1,1,1", "mon", "tue"]);
    assert!(late.contains("driven bytes 0\n") && late.contains("1  12 the chip"), "{late}");
    assert!(late.ends_with(running));
}

/// Bars of other lengths: the most have all of it, none nothing, and a single program a little.
#[test]
fn bars() {
    let desk = desk_of("bars");
    let times = |address, times| program(address).repeat(times);
    desk.put("mon", lines(&(times(0, 100) + &times(1_024, 99) + &times(2_048, 1))));
    let printed = desk.prints(&["--part", "bench", "mon"]);
    let (_, sectors) = printed.split_once("page programs, by sector\n").unwrap();
    let expected = format!(
        "  100   0 000000-0003FF {}\n   99   1 000400-0007FF {}\n    1   2 000800-000BFF #\n    0   3 \
         000C00-000FFF\n",
        "#".repeat(40),
        "#".repeat(39)
    );
    assert_eq!(sectors, expected);
}

/// A file without items is one, too, and so is a file a second time.
#[test]
fn nothing_and_again() {
    let desk = desk_of("nothing");
    desk.put("none", "");
    desk.put("mon", lines(&program(0xC00)));
    let nothing = "M25P10-A-older, files 1: taken 1, refused 0\ntransactions 0, driven bytes 0\n\n\
                   executed, by instruction\n\nanswers, by number\n\npage programs, by sector\n  0   0 \
                   000000-007FFF\n  0   1 008000-00FFFF\n  0   2 010000-017FFF\n  0   3 018000-01FFFF\n";
    assert_eq!(desk.prints(&["--part", "M25P10-A-older", "none"]), nothing);
    let words = ["--part", "0", "mon", "none", "./mon", "mon", "none"];
    let printed = desk.prints(&words);
    assert!(
        printed.starts_with("bench, files 5: taken 5, refused 0\ntransactions 6,"),
        "{printed}"
    );
    assert!(printed.ends_with("  3   3 000C00-000FFF ########################################\n"));
}

/// More files than a program can have open, read one after another.
#[test]
fn many_files() {
    let desk = desk_of("many");
    let batch = lines(&program(0x01_0000));
    let names: Vec<String> = (0..2_000).map(|number| format!("{number}.batch")).collect();
    names.iter().for_each(|name| desk.put(name, &batch));
    let words: Vec<&str> =
        ["--part", "2"].into_iter().chain(names.iter().map(|n| &n[..])).collect();
    let printed = desk.prints(&words);
    assert!(printed.starts_with("M25P40, files 2000: taken 2000, refused 0\ntransactions 4000, "));
    assert!(printed.contains("\n  2000   1 010000-01FFFF ###"), "{printed}");
}

#[test]
fn help() {
    let desk = desk_of("help");
    let help = desk.prints(&["--help"]);
    assert!(help.starts_with("Usage: report --part PART FILE..."));
    for word in ["--image", "--save", "--svg", "--json", "--durations", "71", "exit status"] {
        assert!(help.contains(word), "{word}");
    }
    // Every key of the JSON is told.
    desk.put("mon", lines("x 1 0 06\n"));
    let report = Value::read(&desk.prints(&["--json", "--part", "0", "mon"]));
    for name in report.names() {
        assert!(help.contains(name), "{name}");
    }
}

/// The report on the front page is what its commands say and print.
#[test]
fn the_front_page() {
    let root = Path::new(env!("CARGO_MANIFEST_DIR")).join("../..");
    let page = fs::read_to_string(root.join("README.md")).unwrap();
    let (commands, behind) = page.split_once(" --svg week.svg\n```\n\n```\n").unwrap();
    let (listing, _) = behind.split_once("```").unwrap();
    let (_, typed) = commands.rsplit_once("printf '").unwrap();
    let tuesday = typed.split_once('\'').unwrap().0.replace("\\n", "\n");
    let monday = lines(&fs::read_to_string(root.join("examples/first.txt")).unwrap());
    let desk = desk_of("front_page");
    desk.put("wed.batch", &monday[..40]);
    desk.put("mon.batch", monday);
    desk.put("tue.batch", lines(&tuesday));
    let words = ["--part", "M25P40", "mon.batch", "tue.batch", "wed.batch", "--svg", "week.svg"];
    let (printed, said, status) = desk.makes("week.svg", || told(desk.run(&words)));
    assert_eq!((said + &printed, status), (listing.to_string(), Some(2)));
}
