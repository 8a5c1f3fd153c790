//! flashrom against one chip of several on the server's bus, where flashrom is on the machine.

mod support;

use std::fs;
use std::os::unix::fs::MetadataExt;
use std::path::{Path, PathBuf};

use m25p::Part;
use support::flashrom::{find, Flashrom};
use support::{scratch, Server};
use tools::rng::Rng;

const TWO: [Part; 2] = [Part::M25p40, Part::M25p10a];

/// A row of chips with a file for each, in a directory of the test's own.
struct Row<'a> {
    test: &'a str,
    parts: &'a [Part],
    directory: PathBuf,
    files: Vec<PathBuf>,
}

impl Row<'_> {
    /// Random files.
    fn new<'a>(test: &'a str, parts: &'a [Part]) -> Row<'a> {
        let directory = scratch(&format!("flashrom_bus_{test}"));
        let file = |chip| directory.join(format!("chip{chip}.bin"));
        let files: Vec<PathBuf> = (0..parts.len()).map(file).collect();
        for (file, (part, seed)) in files.iter().zip(parts.iter().zip(1..)) {
            fs::write(file, Rng::new(seed).bytes(part.bytes())).unwrap();
        }
        Row { test, parts, directory, files }
    }

    /// A server with this chip selected, and a flashrom that talks to it, if there is one.
    fn serve(&self, select: usize) -> Option<(Server, Flashrom)> {
        let program = find(self.test)?;
        let names: Vec<&str> = self.parts.iter().map(|part| part.name()).collect();
        let select = select.to_string();
        let mut options = vec!["--warn-missing", "--select", &select];
        self.files.iter().for_each(|file| options.extend(["--image", file.to_str().unwrap()]));
        let server = Server::start(&names.join(","), &options, None);
        let flashrom = Flashrom { program, directory: self.directory.clone(), port: server.port };
        Some((server, flashrom))
    }

    /// What the file of a chip has.
    fn image(&self, chip: usize) -> Vec<u8> {
        fs::read(&self.files[chip]).unwrap()
    }

    /// Every file but this chip's: what it has, and which file it is.
    fn others(&self, chip: usize) -> Vec<(Vec<u8>, u64)> {
        let seen = |file: &Path| (fs::read(file).unwrap(), fs::metadata(file).unwrap().ino());
        let others = self.files[..chip].iter().chain(&self.files[chip + 1..]);
        others.map(|file| seen(file)).collect()
    }
}

/// Ends the server, which has had nothing to complain of.
fn end(server: Server) {
    let end = server.stop();
    assert_eq!((end.status.success(), &end.complaints[..]), (true, ""));
}

/// Probe, read, write and verify, erase: all of it is the selected chip's, and the files of the others are not even
/// written anew.
fn life(row: &Row, select: usize) {
    let Some((server, flashrom)) = row.serve(select) else { return };
    let (part, others) = (row.parts[select], row.others(select));
    let probe = flashrom.succeed(&[], None);
    let found: Vec<&str> = probe.lines().filter(|line| line.starts_with("Found ")).collect();
    assert!(found.len() == 1 && found[0].contains(&format!("\"{part}\"")), "{probe}");
    let other = row.parts.iter().find(|other| **other != part).unwrap();
    assert!(!flashrom.run(&["-c", other.name()], None).0, "the {other} is not selected");

    let read = row.directory.join("read.bin");
    flashrom.succeed(&["-c", part.name(), "-r"], Some(&read));
    assert!(fs::read(&read).unwrap() == row.image(select), "read");
    let contents = Rng::new(99).bytes(part.bytes());
    let (fine, said) = flashrom.write(part.name(), &contents);
    assert!(fine && said.contains("VERIFIED."), "{said}");
    assert!(row.image(select) == contents && row.others(select) == others, "written");
    flashrom.succeed(&["-c", part.name(), "-E"], None);
    let erased = vec![0xFF; part.bytes()];
    assert!(row.image(select) == erased && row.others(select) == others, "erased");
    end(server);
    assert!(row.image(select) == erased && row.others(select) == others, "at the end");
}

/// Two chips of different parts, flashrom on either of them.
#[test]
fn either_of_two() {
    life(&Row::new("last_of_two", &TWO), 1);
    life(&Row::new("first_of_two", &TWO), 0);
}

/// Eight chips, among them three of one part, flashrom on the last of these.
#[test]
fn last_of_eight() {
    use Part::{M25p10a, M25p128, M25p32, M25p40, M25pe40};
    let parts = [M25p40, M25p10a, M25pe40, M25p32, M25p10a, M25p128, M25p40, M25p10a];
    life(&Row::new("last_of_eight", &parts), 7);
}

/// One server after another on the same two files: what flashrom wrote to the one chip is there when it has written to
/// the other.
#[test]
fn one_after_the_other() {
    let row = Row::new("one_after_the_other", &TWO);
    let written = TWO.map(|part| Rng::new(7).bytes(part.bytes()));
    for select in [1, 0] {
        let Some((server, flashrom)) = row.serve(select) else { return };
        let (fine, said) = flashrom.write(TWO[select].name(), &written[select]);
        assert!(fine && said.contains("VERIFIED."), "{said}");
        end(server);
    }
    assert!((0..2).all(|chip| row.image(chip) == written[chip]));
}
