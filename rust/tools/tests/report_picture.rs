//! The picture of the command `report`: SVG that is whole, with a bar for each sector that is as high as it should be.

#[path = "support/report.rs"]
#[allow(dead_code)]
mod report;

use std::fs::{self, Permissions};
use std::os::unix::fs::{symlink, PermissionsExt};

use m25p::{Chip, Durations, Part};
use report::{desk_of, lines, outside, program, told};
use tools::report::{Picture, Week};

/// A week with these page programs.
fn week(part: Part, programs: &[u64]) -> Week {
    let mut week = Week::new(Chip::deliver(part, Durations::default()).unwrap());
    week.totals.programs[..programs.len()].copy_from_slice(programs);
    week
}

/// An element: its name, its attributes as they stand, and the text behind it.
type Element<'a> = (&'a str, &'a str, &'a str);

/// The elements of a picture in order, each of which must be closed, in its turn.
fn elements(picture: &str) -> Vec<Element<'_>> {
    let body = picture.strip_prefix("<?xml version=\"1.0\" encoding=\"UTF-8\"?>\n<").unwrap();
    let (mut elements, mut open) = (Vec::new(), Vec::new());
    for tag in body.split('<') {
        let (inside, text) = tag.split_once('>').expect("an end of each tag");
        assert!(!text.contains(['>', '&']) && !inside.contains('&'), "{tag}");
        let (name, attributes) = inside.split_once(' ').unwrap_or((inside, ""));
        match name.strip_prefix('/') {
            Some(name) => assert_eq!(open.pop(), Some(name)),
            None => {
                elements.push((name, attributes, text));
                if !attributes.ends_with('/') {
                    open.push(name);
                }
            }
        }
    }
    assert!(open.is_empty(), "{open:?}");
    elements
}

/// The value of an attribute, which is a number.
fn number(attributes: &str, name: &str) -> usize {
    let (_, behind) = attributes.split_once(&format!("{name}=\"")).expect(name);
    behind.split_once('"').unwrap().0.parse().unwrap()
}

/// The bars, each with its title.
fn bars<'a>(elements: &[Element<'a>]) -> Vec<(&'a str, &'a str)> {
    let bars = elements.windows(2).filter(|pair| pair[0].0 == "rect" && pair[1].0 == "title");
    bars.map(|pair| (pair[0].1, pair[1].2)).collect()
}

/// Whole, by the reader here and by those of others, where there are any.
fn whole(picture: &str) -> Vec<Element<'_>> {
    assert_ne!(outside::takes("xmllint", &["--noout", "-"], picture.as_bytes()), Some(false));
    let words = ["-c", "import sys, xml.dom.minidom as dom; dom.parse(sys.stdin.buffer)"];
    assert_ne!(outside::takes("python3", &words, picture.as_bytes()), Some(false));
    let elements = elements(picture);
    let (name, attributes, _) = elements[0];
    assert_eq!(name, "svg");
    assert!(attributes.contains("xmlns=\"http://www.w3.org/2000/svg\""));
    elements
}

/// Of every part: a title, what the axes are, and a bar for each sector.
#[test]
fn every_part() {
    for part in Part::ALL {
        let programs: Vec<u64> =
            (0..part.sectors() as u64).map(|sector| sector * 37 % 500).collect();
        let picture = Picture(&week(part, &programs)).to_string();
        let elements = whole(&picture);
        assert_eq!(elements[1], ("title", "", &format!("{part}: page programs by sector")[..]));
        let texts = elements.iter().filter(|element| element.0 == "text");
        let texts: Vec<&str> = texts.map(|element| element.2).collect();
        let bytes = format!("sector, of {} bytes each", part.sector_bytes());
        assert_eq!((texts[0], *texts.last().unwrap()), (elements[1].2, &bytes[..]));
        assert!(texts.contains(&"page programs"));
        assert!(programs.iter().all(|programs| texts.contains(&&programs.to_string()[..])));
        let right = in_order(part, &programs, &bars(&elements));
        assert!(right < number(elements[0].1, " width"), "{part}");
    }
}

/// The bars from left to right, none over another, each with its title; where the last one ends.
fn in_order(part: Part, programs: &[u64], bars: &[(&str, &str)]) -> usize {
    assert_eq!(bars.len(), part.sectors());
    let mut end = 0;
    for (sector, ((bar, title), programs)) in bars.iter().zip(programs).enumerate() {
        let first = sector * part.sector_bytes();
        let place = format!("sector {sector}, {first:06X}-{:06X}", first + part.sector_bytes() - 1);
        assert_eq!(*title, format!("{place}: page programs {programs}"));
        assert!(number(bar, "x") > end, "{part} {sector}");
        end = number(bar, "x") + number(bar, " width");
    }
    end
}

/// The heights: from the axis on, by the scale, whose last line is at the most or somewhat above it; only the most have
/// their own colour.
#[test]
fn heights() {
    for (programs, scale, heights) in [
        ([0, 0, 0, 0], "0 1", [0, 0, 0, 0]),
        ([1, 0, 0, 0], "0 1", [240, 0, 0, 0]),
        ([5, 4, 1, 5], "0 1 2 3 4 5", [240, 192, 48, 240]),
        ([6, 3, 0, 1], "0 2 4 6", [240, 120, 0, 40]),
        ([11, 5, 1, 0], "0 5 10 15", [176, 80, 16, 0]),
        ([100, 99, 1, 50], "0 20 40 60 80 100", [240, 237, 2, 120]),
        ([1_000_000, 1, 0, 0], "0 200000 400000 600000 800000 1000000", [240, 1, 0, 0]),
        (
            [u64::MAX, u64::MAX - 1, 1, 0],
            "0 5000000000000000000 10000000000000000000 15000000000000000000 20000000000000000000",
            [221, 221, 1, 0],
        ),
    ] {
        let picture = Picture(&week(Part::Bench, &programs)).to_string();
        let elements = whole(&picture);
        let lines = elements.iter().filter(|element| element.1.contains("\"end\""));
        assert_eq!(lines.map(|element| element.2).collect::<Vec<&str>>().join(" "), scale);
        let most = programs.iter().max().unwrap();
        let bars = bars(&elements);
        let axis = number(bars[0].0, "y") + number(bars[0].0, "height");
        for ((bar, _), (programs, height)) in bars.into_iter().zip(programs.iter().zip(heights)) {
            assert_eq!(number(bar, "height"), height, "{scale}");
            assert_eq!(number(bar, "y") + height, axis);
            assert_eq!(bar.contains("firebrick"), programs == most, "{bar}");
        }
    }
}

/// The command writes the picture of what it prints, refused files too, also over a file that is there; that one keeps
/// its bits, and a link stays one.
#[test]
fn written_as_a_whole() {
    let desk = desk_of("picture");
    desk.put("mon", lines(&(program(0x400) + &program(0x400) + &program(0))));
    desk.put("cut", [1]);
    let words = ["--part", "0", "mon", "cut", "--svg"];
    let write = |svg: &str| desk.makes(svg, || told(desk.run(&[&words[..], &[svg]].concat())));
    let (printed, _, status) = write("week.svg");
    assert_eq!(status, Some(2));
    assert!(printed.starts_with("bench, files 2: taken 1, refused 1\n"));
    let picture = String::from_utf8(desk.get("week.svg")).unwrap();
    assert!(whole(&picture)
        .iter()
        .any(|element| element.2 == "files taken 1, refused 1; page programs 3"));
    let heights: Vec<usize> =
        bars(&elements(&picture)).iter().map(|(bar, _)| number(bar, "height")).collect();
    assert_eq!(heights, [120, 240, 0, 0]);
    desk.put("old.svg", "what was there");
    let old = desk.path("old.svg");
    fs::set_permissions(&old, Permissions::from_mode(0o640)).unwrap();
    symlink("old.svg", desk.path("link.svg")).unwrap();
    told(desk.run(&[&words[..], &["link.svg"]].concat()));
    assert!(fs::symlink_metadata(desk.path("link.svg")).unwrap().is_symlink());
    assert_eq!(fs::metadata(&old).unwrap().permissions().mode() & 0o777, 0o640);
    assert_eq!(desk.get("old.svg"), picture.as_bytes());
}
