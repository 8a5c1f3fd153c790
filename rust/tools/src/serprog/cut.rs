//! Power that is lost in a cycle: in which one, what is left of it by the seed, and the line that tells of it.

use std::io::Write;

use m25p::{Cycle, MASK_BYTES};

use crate::rng::Rng;

pub struct Cut {
    after: u32,
    seed: u32,
    into: Box<dyn Write + Send>,
    /// How many cycles have started.
    started: u32,
}

/// What a power loss is given.
pub struct Loss {
    pub mask: [u8; MASK_BYTES],
    pub yes: bool,
}

impl Cut {
    /// Power is to be lost in the cycle of this number, counted from 1, which is told then.
    pub fn new(after: u32, seed: u32, into: Box<dyn Write + Send>) -> Cut {
        Cut { after, seed, into, started: 0 }
    }

    /// A cycle has started: the loss, if it is this one that power is lost in.
    pub fn started(&mut self, cycle: Cycle) -> Option<Loss> {
        self.started = self.started.saturating_add(1);
        if self.started != self.after {
            return None;
        }
        let mut rng = Rng::new(u64::from(self.seed));
        let mut mask = [0; MASK_BYTES];
        rng.fill(&mut mask);
        let loss = Loss { mask, yes: rng.one_in(2) };
        let (after, seed, what) = (self.after, self.seed, described(cycle, loss.yes));
        let again = format!("--cut-after {after} --seed {seed} repeats it");
        let _ =
            writeln!(self.into, "Power was lost in cycle {after}, {what}, and is back; {again}.");
        Some(loss)
    }
}

/// A cycle in words, with the code of its instruction.
fn described(cycle: Cycle, yes: bool) -> String {
    match cycle {
        Cycle::Program { address } => format!("a page program (02) at {address:06X}"),
        Cycle::SectorErase { address } => format!("a sector erase (D8) at {address:06X}"),
        Cycle::BulkErase => "a bulk erase (C7)".to_string(),
        Cycle::PageWrite { address, named } => {
            let bytes = if named == 1 { "byte" } else { "bytes" };
            format!("a page write (0A) of {named} {bytes} at {address:06X}")
        }
        Cycle::PageErase { address } => format!("a page erase (DB) at {address:06X}"),
        Cycle::SubsectorErase { address } => format!("a subsector erase (20) at {address:06X}"),
        Cycle::StatusWrite { bp, srwd } => {
            let (status, end) =
                (u8::from(srwd) << 7 | bp << 2, if yes { "complete" } else { "absent" });
            format!("a status write (01) of {status:02X} that is {end}")
        }
    }
}
