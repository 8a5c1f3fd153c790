//! A value change dump of a run: the five pins and the output, for GTKWave and PulseView.

use std::fmt::Write;

/// The names in the dump, in the order of the sample's bits, and the output last.
const NAMES: [&str; 6] = ["select", "clock", "data", "w", "hold", "output"];

/// One letter for each name.
const LETTERS: [char; 6] = ['!', '"', '#', '$', '%', '&'];

/// How an output that is not driven is written.
#[derive(Clone, Copy, Debug, PartialEq, Eq)]
pub enum Undriven {
    /// As z. PulseView and sigrok take that for 0.
    Floating,
    /// As 1, the level that a pull-up resistor gives it.
    PulledUp,
}

/// The six values after a sample.
fn values(sample: u8, output: u8, undriven: Undriven) -> [char; 6] {
    let mut values = [0, 1, 2, 3, 4, 5].map(|bit| if sample >> bit & 1 == 1 { '1' } else { '0' });
    values[5] = match output {
        0 => '0',
        1 => '1',
        _ if undriven == Undriven::PulledUp => '1',
        _ => 'z',
    };
    values
}

/// The whole text; sample i stands at i microseconds.
pub fn text(samples: &[u8], output: &[u8], undriven: Undriven) -> String {
    let mut text = String::from("$timescale 1 us $end\n$scope module m25p $end\n");
    for (name, letter) in NAMES.iter().zip(LETTERS) {
        writeln!(text, "$var wire 1 {letter} {name} $end").unwrap();
    }
    text += "$upscope $end\n$enddefinitions $end\n";
    let mut before = [' '; 6];
    for (i, (sample, shown)) in samples.iter().zip(output).enumerate() {
        let now = values(*sample, *shown, undriven);
        if now != before {
            writeln!(text, "#{i}").unwrap();
        }
        for k in 0..6 {
            if now[k] != before[k] {
                writeln!(text, "{}{}", now[k], LETTERS[k]).unwrap();
            }
        }
        before = now;
    }
    writeln!(text, "#{}", samples.len()).unwrap();
    text
}
