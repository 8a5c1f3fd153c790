//! The pins model, with m25p_pins beside it, on hand-written samples: a test for each point of the wish.
//!
//! A word is a sample and its letters are the pins that change in it: s, c, d, w and h for Select,
//! clock, data, W and Hold going low, capitals for going high, a dot for none. Expected output: one
//! letter for each sample, 0, 1, or z for not driven.

use m25p::calls;
use rig::model::{Cycle, Mode, Model, Packed, Paper, Record, Transaction, CODES, RECORD_BYTES};
use rig::pins_model::{drives_last, Outcome, PinsModel, CLOCK, DATA, HOLD, REST, SELECT, W};
use rig::rng::Rng;

/// A bench part in standby, with A5 3C at address 0.
struct Case {
    record: Packed,
    array: Vec<u8>,
}

fn worked() -> Record {
    Record { bp: 1, srwd: true, ..Record::standby(0) }
}

fn case(record: Record) -> Case {
    let mut array = vec![0xFF; record.figures().bytes];
    array[..2].copy_from_slice(&[0xA5, 0x3C]);
    Case { record: record.pack(), array }
}

fn samples(words: &str) -> Vec<u8> {
    let mut levels = REST;
    let mut samples = Vec::new();
    for word in words.split_whitespace() {
        for letter in word.chars().filter(|letter| *letter != '.') {
            let pin = match letter.to_ascii_lowercase() {
                's' => SELECT,
                'c' => CLOCK,
                'd' => DATA,
                'w' => W,
                'h' => HOLD,
                other => panic!("{other} is no pin"),
            };
            levels = if letter.is_ascii_uppercase() { levels | pin } else { levels & !pin };
        }
        samples.push(levels);
    }
    samples
}

/// The words that clock the bytes in: two samples for each bit, the last with the clock low.
fn clocked(bytes: &[u8]) -> String {
    let bits = bytes.iter().flat_map(|byte| (0..8).rev().map(move |bit| byte >> bit & 1));
    bits.map(|bit| if bit == 1 { "DC c " } else { "dC c " }).collect()
}

/// A READ at address 0 whose last fall, the last sample, shows bit 7 of A5.
fn read() -> String {
    format!("s {}", clocked(&[0x03, 0, 0, 0]))
}

/// Words that take k more bits, each of two samples.
fn more(k: usize) -> String {
    "C c ".repeat(k)
}

impl Case {
    /// The outcome, and the output of the last samples, as many as are given.
    fn run(&mut self, words: &str, last: usize) -> (Outcome, String) {
        let samples = samples(words);
        let mut output = vec![9; samples.len()];
        let (mut record, mut array, mut real) = (self.record, self.array.clone(), output.clone());
        let reply = calls::pins(&mut record, &mut array, &samples, &mut real);
        let outcome = Paper.run(&mut self.record, &mut self.array, &samples, &mut output);
        assert_eq!(reply.bits(), outcome.word(), "{words}");
        assert_eq!((record, &array, &real), (self.record, &self.array, &output), "{words}");
        let shown = output[output.len() - last..].iter();
        (outcome, shown.map(|byte| ['0', '1', 'z'][*byte as usize]).collect())
    }

    fn latch(&self) -> bool {
        Record::unpack(&self.record).unwrap().latch
    }
}

/// The output of these words after a READ has begun to show A5, with the sample before them.
fn after_read(words: &str) -> String {
    let last = words.split_whitespace().count() + 1;
    case(worked()).run(&(read() + words), last).1
}

/// Whether WREN, followed by these words, sets the latch.
fn enables(words: &str) -> bool {
    let mut case = case(worked());
    case.run(&format!("s {}{words}", clocked(&[0x06])), 0);
    case.latch()
}

/// The bits that the first transaction takes.
fn taken(words: &str) -> Vec<bool> {
    case(worked()).run(words, 0).0.found[0].bits.clone()
}

#[test]
fn rest_before_first_sample() {
    assert_eq!(taken("sC"), [false], "the first sample is a falling Select, then a rising clock");
    assert_eq!(taken("sDC"), [true]);
    assert!(case(worked()).run("S", 0).0.found.is_empty(), "Select was high");
    assert_eq!(taken("sh C c H C c"), [false], "Hold was high, so it falls in the first sample");
}

#[test]
fn each_run_starts_from_rest() {
    let mut case = case(worked());
    case.run(&format!("s {} h", clocked(&[0x06])), 0);
    let (outcome, _) = case.run("S", 0);
    assert!(outcome.found.is_empty() && !case.latch());
}

#[test]
fn select_then_clock_then_hold() {
    assert!(enables("SC"), "Select rises first: no ninth bit");
    assert!(enables("Sh"), "Select rises first: no hold");
    assert!(!enables("h SH"), "Select rises first: still in the hold");
    assert_eq!(after_read("C ch"), "11z", "the clock falls first, so the hold starts at once");
    assert_eq!(after_read("C ch H"), "11z0", "and the output has moved on");
    assert_eq!(taken("s Ch c H C c"), [false, false], "the clock rises first: the bit is taken");
    assert_eq!(
        taken("s h CH c C c"),
        [false],
        "the clock rises first: in the hold no bit is taken"
    );
}

#[test]
fn data_and_w_of_that_very_sample() {
    assert_eq!(taken("s DC c dC c"), [true, false]);
    let frozen = |words: &str| {
        let mut case = case(Record { latch: true, ..worked() });
        let (outcome, _) = case.run(&format!("s {}{words}", clocked(&[0x01, 0x00])), 0);
        outcome.numbers() == [18]
    };
    assert!(frozen("Sw") && frozen("w S"), "W low as Select rises");
    assert!(!frozen("w SW") && !frozen("w W S") && !frozen("S w"), "W high as Select rises");
}

#[test]
fn output_moves_on_as_the_clock_falls() {
    let expected = "1 10 01 10 00 01 10 01 10";
    assert_eq!(after_read(&more(8)), expected.replace(' ', ""), "A5, then bit 7 of 3C");
}

#[test]
fn next_fall_after_the_eighth_rise_shows_bit_seven() {
    let mut case = case(worked());
    let (_, shown) = case.run(&read(), 3);
    assert_eq!(shown, "zz1");
}

#[test]
fn bits_of_an_unfinished_last_byte_show() {
    assert_eq!(after_read(&(more(3) + "S")), "1100110z");
}

#[test]
fn output_is_not_driven_with_select_high() {
    assert_eq!(after_read("S . C c s"), "1zzzzz");
}

#[test]
fn output_is_silent_as_select_falls() {
    assert_eq!(after_read("S s . C c"), "1zzzzz");
    assert_eq!(after_read("S C s . c"), "1zzzzz");
}

#[test]
fn hold_starts_at_once_with_the_clock_low() {
    assert_eq!(after_read("h . H C c"), "1zz110");
}

#[test]
fn hold_starts_as_the_clock_next_goes_low() {
    assert_eq!(after_read("C h . c . H"), "1111zz0");
}

#[test]
fn hold_ends_at_once_with_the_clock_low() {
    assert_eq!(after_read("h C c H"), "1zzz1");
}

#[test]
fn hold_ends_as_the_clock_next_goes_low() {
    assert_eq!(after_read("h C H . c C c"), "1zzzz110");
}

#[test]
fn no_bit_is_taken_in_a_hold() {
    assert_eq!(taken("s DC c h dC c C c H DC c"), [true, true]);
    assert_eq!(taken("s h DC H c dC c"), [false], "nor while its end waits");
}

#[test]
fn waiting_hold_moves_the_output_on_first() {
    assert_eq!(after_read("C h c C c H"), "111zzz0");
}

#[test]
fn fall_that_ends_a_hold_shows_the_same_bit() {
    assert_eq!(after_read("C c h C H c"), "110zzz0");
}

#[test]
fn undone_fall_counts_for_nothing() {
    assert_eq!(after_read("C h H c"), "11110");
    assert_eq!(taken("s DC h H c DC c"), [true, true]);
}

#[test]
fn undone_rise_counts_for_nothing() {
    assert_eq!(after_read("h C H h c C c H"), "1zzzzzzz1");
}

#[test]
fn hold_low_as_select_falls_is_a_fall_then() {
    assert_eq!(taken("h s C c C c H DC c"), [true], "at once with the clock low");
    assert_eq!(taken("h C s c C c H DC c"), [true], "waiting with the clock high");
    assert_eq!(taken("h C s H c DC c"), [true], "undone while it waits");
    assert_eq!(taken("h H s DC c"), [true]);
}

#[test]
fn hold_and_clock_levels_as_select_falls_are_those_before_the_sample() {
    assert_eq!(
        taken("h sDC c H dC c"),
        [false],
        "clock low before: the hold starts before the rise"
    );
    assert_eq!(taken("h C sc DC c H dC c"), [false], "clock high before: starts with this fall");
    assert_eq!(taken("h sH DC c"), [true], "starts, and ends at once");
    assert_eq!(taken("h sHC c DC c"), [true], "starts, and its end waits for the fall");
    assert_eq!(taken("h C sH c DC c"), [true], "waits, and is undone");
    assert_eq!(taken("sDCh c dC c H C c"), [true, false], "Hold was high: the bit is taken");
}

#[test]
fn select_rising_with_only_a_waiting_start_is_a_normal_end() {
    assert!(enables("S"));
    let mut case = case(worked());
    let waiting = clocked(&[0x06]);
    case.run(&format!("s {} h S", waiting.trim_end().trim_end_matches('c')), 0);
    assert!(case.latch());
}

#[test]
fn select_rising_in_a_hold_throws_the_transaction_away() {
    assert!(!enables("h S"));
    assert!(enables("h H S"));
}

#[test]
fn select_rising_with_only_a_waiting_end_throws_the_transaction_away() {
    assert!(!enables("h C H S"));
    assert!(enables("h C H c S"));
}

#[test]
fn unfinished_transaction_has_no_effect() {
    assert!(!enables(". ."));
}

#[test]
fn further_pulses_are_handed_over() {
    assert!(!enables("C c S"));
    let mut case = case(worked());
    let (outcome, _) = case.run(&format!("s {}{}S", clocked(&[0x05]), more(3)), 0);
    assert_eq!((outcome.found[0].sent(), outcome.found[0].pulses()), (vec![0x05], 3));
}

#[test]
fn ignored_transactions_do_not_refuse_the_run() {
    let mut case = case(worked());
    let words = format!("s S s {}S s {}S", clocked(&[0xFF]), clocked(&[0x06]));
    let (outcome, _) = case.run(&words, 0);
    assert_eq!((outcome.answer, outcome.numbers()), (0, vec![11, 14, 0]));
    assert!(case.latch());
}

#[test]
fn no_ticks_pass_within_a_run() {
    for left in [2, 1] {
        let busy = worked().busy(left, Cycle::SectorErase { address: 7 });
        let mut case = case(busy);
        let words = format!("s {}S ", clocked(&[0x05, 0x00])).repeat(3);
        let (outcome, _) = case.run(&words, 0);
        assert_eq!(outcome.numbers(), [0, 0, 0]);
        assert_eq!(Record::unpack(&case.record), Some(busy));
    }
}

/// The bits missing are those of the one program that is executed, whatever comes behind it.
#[test]
fn bits_missing_are_handed_up() {
    let program = |data: &[u8]| format!("s {}S ", clocked(&[&[0x02, 0, 0, 0], data].concat()));
    let enable = format!("s {}S ", clocked(&[0x06]));
    let words = enable.clone() + &program(&[0xFF, 0xFC, 0xFF]) + &program(&[0xFF]) + &enable;
    let mut chip = case(worked());
    let (outcome, _) = chip.run(&words, 0);
    assert_eq!((outcome.numbers(), outcome.missing), (vec![0, 0, 12, 12], 4 + 2));
    assert_eq!(chip.array[..3], [0xA5, 0x3C, 0xFF]);
    assert!(Record::unpack(&chip.record).unwrap().cycle().is_some(), "the program is pending");
    let thrown_away = format!("s {}h S", clocked(&[0x02, 0, 0, 0, 0xFF]));
    let unfinished = format!("s {}", clocked(&[0x02, 0, 0, 0, 0xFF]));
    for end in [&thrown_away, &unfinished] {
        assert_eq!(case(worked()).run(&(enable.clone() + end), 0).0.missing, 0);
    }
}

#[test]
fn transactions_show_what_those_before_did() {
    let mut case = case(worked());
    let words = format!("s {}S s {}", clocked(&[0x06]), clocked(&[0x05, 0x00]));
    let expected = "1 10 00 00 00 01 11 10 01";
    assert_eq!(case.run(&words, 17).1, expected.replace(' ', ""), "status 86, with the latch set");
}

#[test]
fn refusals_in_order() {
    let sound = worked().pack();
    let answer = |record: &[u8], array: usize, samples: &[u8], output: usize| {
        let (mut record, mut array) = (record.to_vec(), vec![0x77; array]);
        let mut output = vec![9; output];
        let before = (record.clone(), array.clone(), output.clone());
        let outcome = Paper.run(&mut record, &mut array, samples, &mut output);
        let unchanged = before == (record, array, output);
        assert!(outcome.answer == 0 || unchanged && outcome.found.is_empty());
        assert_eq!(outcome.missing, 0);
        outcome.answer
    };
    assert_eq!(answer(&[0; RECORD_BYTES - 1], 0, &[0xFF], 0), 8);
    assert_eq!(answer(&[9; RECORD_BYTES], 0, &[0xFF], 0), 6);
    assert_eq!(answer(&sound, 4_095, &[0xFF], 0), 2);
    for sample in [0x20, 0x40, 0x80] {
        assert_eq!(answer(&sound, 4_096, &[REST, REST, sample], 0), 21);
    }
    assert_eq!(answer(&sound, 4_096, &[0x1F], 0), 23);
    assert_eq!(answer(&sound, 4_096, &[0x1F], 1), 0);
    assert_eq!(answer(&sound, 4_096, &[], 0), 0);
}

#[test]
fn more_than_65536_bytes_are_refused() {
    let bits = |count: usize| {
        let pairs = std::iter::repeat_n([HOLD, HOLD | CLOCK], count);
        pairs.flatten().collect::<Vec<u8>>()
    };
    let answer = |samples: Vec<u8>| {
        let mut case = case(worked());
        let mut output = vec![0; samples.len()];
        Paper.run(&mut case.record, &mut case.array, &samples, &mut output).answer
    };
    let most = 8 * 65_536;
    assert_eq!(answer(bits(most + 7)), 0);
    assert_eq!(answer(bits(most + 8)), 22, "an unfinished one counts");
    let thrown_away = [HOLD, 0, SELECT].to_vec();
    assert_eq!(answer([bits(most + 8), thrown_away].concat()), 22, "so does one thrown away");
    let parted = [bits(most), vec![REST], bits(most), vec![REST]].concat();
    assert_eq!(answer(parted), 0, "each counts alone");
}

#[test]
fn output_bytes_beyond_the_samples_are_untouched() {
    let mut case = case(worked());
    let mut output = [9; 4];
    Paper.run(&mut case.record, &mut case.array, &[REST, HOLD], &mut output);
    assert_eq!(output, [2, 2, 9, 9]);
}

/// Byte i of a response is what is driven after the first i bytes, and nothing is driven elsewhere.
#[test]
fn driven_after_the_bytes_before() {
    let mut rng = Rng::new(1);
    let locked = Record { latch: true, locks: [1, 2, 3, 0, 1, 2, 3, 0], ..Record::standby(6) };
    let starts = [Record { latch: true, bp: 0, ..worked() }, locked].map(|standby| {
        let busy = [2, 1].map(|left| standby.busy(left, Cycle::BulkErase));
        [standby, Record { mode: Mode::Deep, ..standby }, busy[0], busy[1]]
    });
    for start in starts.concat() {
        for code in CODES.into_iter().chain([0x00, 0x9E]) {
            for n in 1..9 {
                let (mut chip, array) = (case(start), case(start).array);
                let mut sent = rng.bytes(n);
                sent[0] = code;
                let (mut response, t) = (vec![0; n], Transaction { sent: &sent, pulses: 0, w: 1 });
                let outcome = Paper.transact(&mut chip.record, &mut chip.array, t, &mut response);
                for i in 0..n {
                    let mut line = sent[..i].to_vec();
                    line.push(rng.byte());
                    let driven = drives_last(&start, &array, &line);
                    let counted = (outcome.first..outcome.first + outcome.count).contains(&i);
                    assert_eq!(driven, counted.then_some(response[i]), "{sent:02X?} byte {i}");
                }
            }
        }
    }
}
