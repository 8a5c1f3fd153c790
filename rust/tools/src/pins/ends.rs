//! How the transactions of a run end, from the pins alone.

use m25p::pins::{CLOCK, HOLD, REST, SELECT};

/// How many transactions ended in each way.
#[derive(Clone, Copy, Debug, Default, PartialEq, Eq)]
pub struct Ends {
    /// Select rose outside a hold.
    pub ended: usize,
    /// Select rose in a hold.
    pub thrown_away: usize,
    /// The samples ended first.
    pub unfinished: usize,
}

impl Ends {
    pub fn of(samples: &[u8]) -> Ends {
        let mut ends = Ends::default();
        let mut before = REST;
        let mut held = false;
        for now in samples {
            match (before & SELECT == 0, now & SELECT == 0) {
                (false, true) => held = before & (HOLD | CLOCK) == 0,
                (true, false) if held => ends.thrown_away += 1,
                (true, false) => ends.ended += 1,
                _ => {}
            }
            // A hold starts and ends with the clock low; a change of Hold with the clock high waits for that.
            if now & CLOCK == 0 {
                held = now & HOLD == 0;
            }
            before = *now;
        }
        ends.unfinished = usize::from(before & SELECT == 0);
        ends
    }
}
