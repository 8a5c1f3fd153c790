//! The page programs of each sector as a picture: SVG that stands alone.

use std::fmt::{self, Display, Formatter};

use super::rows::{most, share, Sector};
use super::Week;

/// How high the bars can be.
const HEIGHT: usize = 240;

/// How wide a digit is at the most.
const DIGIT: usize = 8;

/// The room for the title and the line below it.
const HEAD: usize = 60;

/// The room below the axis: for the numbers of the sectors, and what they are.
const FOOT: usize = 56;

/// The picture of the sectors.
pub struct Picture<'a>(pub &'a Week);

impl Display for Picture<'_> {
    fn fmt(&self, f: &mut Formatter) -> fmt::Result {
        let sectors = self.0.sectors();
        let plan = Plan::of(&sectors);
        plan.begin(f)?;
        head(f, self.0, &sectors)?;
        plan.scale(f)?;
        sectors.iter().try_for_each(|sector| plan.sector(f, sector))?;
        plan.axes(f, self.0.chip.part().sector_bytes())?;
        writeln!(f, "</svg>")
    }
}

/// The title, and the line below it.
fn head(f: &mut Formatter, week: &Week, sectors: &[Sector]) -> fmt::Result {
    let title = format!("{}: page programs by sector", week.chip.part());
    writeln!(f, "<title>{title}</title>")?;
    writeln!(f, r#"<rect width="100%" height="100%" fill="white"/>"#)?;
    text(f, (16, 26), r#"font-size="16" font-weight="bold""#, &title)?;
    let programs: u128 = sectors.iter().map(|sector| u128::from(sector.programs)).sum();
    let (taken, refused) = (week.taken, week.refused.len());
    let files = format!("files taken {taken}, refused {refused}; page programs {programs}");
    text(f, (16, 46), r#"fill="dimgray""#, &files)
}

/// A text that begins at this place, or is about it; `more` says how.
fn text(f: &mut Formatter, (x, y): (usize, usize), more: &str, text: &str) -> fmt::Result {
    writeln!(f, r#"<text x="{x}" y="{y}" {more}>{text}</text>"#)
}

/// The same of a text that runs from the bottom up.
fn upright(f: &mut Formatter, (x, y): (usize, usize), more: &str, text: &str) -> fmt::Result {
    writeln!(f, r#"<text transform="translate({x} {y}) rotate(-90)" {more}>{text}</text>"#)
}

const CENTRED: &str = r#"text-anchor="middle""#;

/// Where everything is.
struct Plan {
    sectors: usize,
    /// The room of a sector.
    slot: usize,
    /// The most programs of a sector.
    most: u64,
    /// From one line of the scale to the next, and how many such steps there are.
    step: u128,
    steps: u128,
    /// Where the bars begin.
    left: usize,
    top: usize,
    /// Whether the numbers of programs have no room beside each other, and run from the bottom up.
    upright: bool,
}

impl Plan {
    fn of(sectors: &[Sector]) -> Plan {
        // Few sectors have wide bars, and 64 still have room for their numbers.
        let slot = 448 / sectors.len() + 7;
        let most = most(sectors);
        let step = step(most.into());
        let steps = u128::from(most).div_ceil(step).max(1);
        let width = DIGIT * most.to_string().len();
        let upright = width > slot;
        let top = HEAD + if upright { width + 8 } else { 20 };
        let left = 44 + DIGIT * (step * steps).to_string().len();
        Plan { sectors: sectors.len(), slot, most, step, steps, left, top, upright }
    }

    fn bottom(&self) -> usize {
        self.top + HEIGHT
    }

    fn right(&self) -> usize {
        self.left + self.slot * self.sectors
    }

    fn begin(&self, f: &mut Formatter) -> fmt::Result {
        let (width, height) = (self.right() + 16, self.bottom() + FOOT);
        writeln!(f, r#"<?xml version="1.0" encoding="UTF-8"?>"#)?;
        write!(f, r#"<svg xmlns="http://www.w3.org/2000/svg" viewBox="0 0 {width} {height}" "#)?;
        write!(f, r#"width="{width}" height="{height}" "#)?;
        writeln!(f, r#"font-family="Helvetica, Arial, sans-serif" font-size="12">"#)
    }

    /// The lines of the scale with their numbers, and what these count.
    fn scale(&self, f: &mut Formatter) -> fmt::Result {
        let (left, right) = (self.left, self.right());
        for place in 0..=self.steps {
            let y = self.bottom() - (place * HEIGHT as u128 / self.steps) as usize;
            writeln!(f, r#"<path d="M{left} {y}H{right}" stroke="gainsboro"/>"#)?;
            let number = (place * self.step).to_string();
            text(f, (left - 8, y + 4), r#"text-anchor="end""#, &number)?;
        }
        upright(f, (20, self.bottom() - HEIGHT / 2), CENTRED, "page programs")
    }

    /// A sector: its bar, its programs above it, and its number below it. Those with the most have another colour.
    fn sector(&self, f: &mut Formatter, sector: &Sector) -> fmt::Result {
        let Sector { number, first, last, programs } = *sector;
        let height = share(programs, self.step * self.steps, HEIGHT);
        let (width, middle) = (self.slot * 3 / 4, self.left + self.slot * number + self.slot / 2);
        let (x, y) = (middle - width / 2, self.bottom() - height);
        let fill = if programs == self.most { "firebrick" } else { "steelblue" };
        write!(f, r#"<rect x="{x}" y="{y}" width="{width}" height="{height}" fill="{fill}">"#)?;
        let place = format!("sector {number}, {first:06X}-{last:06X}");
        writeln!(f, "<title>{place}: page programs {programs}</title></rect>")?;
        // A white edge, so that the lines of the scale do not cross the digits.
        let edge = r#"font-size="11" stroke="white" stroke-width="3" paint-order="stroke""#;
        match self.upright {
            true => upright(f, (middle + 4, y - 4), edge, &programs.to_string())?,
            false => text(f, (middle, y - 6), &format!("{CENTRED} {edge}"), &programs.to_string())?,
        }
        let size = if self.slot < 20 { 9 } else { 12 };
        let size = format!(r#"{CENTRED} font-size="{size}""#);
        text(f, (middle, self.bottom() + 16), &size, &number.to_string())
    }

    /// The axes, over the feet of the bars, and what the sectors are.
    fn axes(&self, f: &mut Formatter, sector_bytes: usize) -> fmt::Result {
        let (left, right, top, bottom) = (self.left, self.right(), self.top, self.bottom());
        writeln!(f, r#"<path d="M{left} {top}V{bottom}H{right}" fill="none" stroke="black"/>"#)?;
        let sectors = format!("sector, of {sector_bytes} bytes each");
        text(f, ((left + right) / 2, bottom + 40), CENTRED, &sectors)
    }
}

/// From one line of the scale to the next: 1, 2 or 5 with zeros, so that at most five steps reach the most.
fn step(most: u128) -> u128 {
    let powers = std::iter::successors(Some(1), |power| Some(power * 10));
    let mut steps = powers.flat_map(|power| [power, 2 * power, 5 * power]);
    steps.find(|step| most.div_ceil(*step) <= 5).expect("some power of ten is enough")
}
