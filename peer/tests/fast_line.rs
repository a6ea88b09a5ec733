//! The stored trace of a line that comes up to 1,400 rpm, against lengths
//! worked out by hand from document 02.

use std::fs;

use peer::camrun::run;

/// A file of the stored trace.
fn stored(ending: &str) -> Vec<u8> {
    let folder = concat!(env!("CARGO_MANIFEST_DIR"), "/../tests/traces");
    fs::read(format!("{folder}/fast_line.{ending}")).expect("stored")
}

/// A line of the report.
struct Sample {
    number: usize,
    position: u16,
    tach: u16,
    outputs: u16,
}

impl Sample {
    fn is_lit(&self, output: usize) -> bool {
        self.outputs >> (output - 1) & 1 != 0
    }

    /// Within so many counts from a position on.
    fn is_within(&self, (start, length): (u16, u16)) -> bool {
        (self.position + 1024 - start) % 1024 < length
    }
}

fn samples() -> Vec<Sample> {
    let mut report = Vec::new();
    run(&stored("trace")[..], &mut report).expect("writing to memory");
    assert!(report == stored("report"), "another report is stored");
    let text = String::from_utf8(report).expect("text");
    let sample = |line: &str| {
        let fields: Vec<&str> = line.split(' ').collect();
        assert_eq!(fields[4], "0000");
        Sample {
            number: fields[0].parse().expect("number"),
            position: fields[1].parse().expect("position"),
            tach: fields[2].parse().expect("tach"),
            outputs: u16::from_str_radix(fields[3], 16).expect("outputs"),
        }
    };
    text.lines().map(sample).collect()
}

/// From a sample on, the moved ON setpoint and the counts of outputs 1 to 4.
type Windows = (usize, [(u16, u16); 4]);

/// Outputs 1 to 3 have the pair 300/320 with ON and OFF advance 20/25, 20/40
/// and 60/40, output 4 the pair 0/900 with 60/0. An advance a shifts by
/// a × c / 240.
const WINDOWS: [Windows; 5] = [
    // c 0.
    (1, [(300, 20), (300, 20), (300, 20), (0, 900)]),
    // c 119: 9, 12, 19 and 29 for 20, 25, 40 and 60.
    (120, [(291, 17), (291, 10), (271, 30), (995, 929)]),
    // c 120: 10, 12, 20 and 30.
    (240, [(290, 18), (290, 10), (270, 30), (994, 930)]),
    // c 360: 30, 37, 60 and 90; output 2 has 20 + 30 − 60 = −10 counts.
    (480, [(270, 13), (270, 0), (210, 50), (934, 990)]),
    // c 573 and 574: 47, 59, 95 and 143; output 2 has 20 + 47 − 95 = −28
    // counts, output 4 has 900 + 143 = 1043.
    (600, [(253, 8), (253, 0), (157, 68), (881, 1024)]),
];

fn windows(number: usize) -> [(u16, u16); 4] {
    let begun = WINDOWS.iter().rev().find(|(first, _)| *first <= number);
    begun.expect("from sample 1 on").1
}

#[test]
fn normal_outputs_hold_for_their_lengths() {
    for sample in samples() {
        for (output, window) in (1..).zip(windows(sample.number)) {
            let expected = sample.is_within(window);
            let at = sample.number;
            assert_eq!(sample.is_lit(output), expected, "output {output} at {at}");
        }
    }
}

/// The pair of output 5 is that of output 4. It holds in the first sample, is
/// dark at 900 to 933 while c is 360, begins again at 934 in sample 525, and
/// has always held since.
#[test]
fn the_timed_output_begins_twice() {
    let lit: Vec<usize> = samples()
        .iter()
        .filter(|sample| sample.is_lit(5))
        .map(|sample| sample.number)
        .collect();
    let expected: Vec<usize> = (1..=50).chain(525..=574).collect();
    assert_eq!(lit, expected);
}

/// Three pulses of 4 counts over 20, moved as output 1's ON setpoint is.
#[test]
fn the_pulse_train_keeps_its_length() {
    for sample in samples() {
        let (start, _) = windows(sample.number)[0];
        let lit = [0, 8, 16]
            .iter()
            .any(|pulse| sample.is_within((start + pulse, 4)));
        assert_eq!(sample.is_lit(6), lit, "{}", sample.number);
    }
}

/// At 4.78 counts a step a turn takes 214 or 215 steps, 8 counts 1 or 2, 68
/// counts 14 or 15.
#[test]
fn steps_in_a_turn_at_1400_rpm() {
    let samples: Vec<Sample> = samples()
        .into_iter()
        .filter(|sample| sample.number >= 600)
        .collect();
    let begins: Vec<usize> = (1..samples.len())
        .filter(|&index| samples[index].position < samples[index - 1].position)
        .collect();
    assert_eq!(begins.len(), 4);
    for turn in begins.windows(2).map(|ends| &samples[ends[0]..ends[1]]) {
        let lit = |output| turn.iter().filter(|sample| sample.is_lit(output)).count();
        assert!([214, 215].contains(&turn.len()));
        assert!([1, 2].contains(&lit(1)));
        assert_eq!(lit(2), 0);
        assert!([14, 15].contains(&lit(3)));
        assert_eq!(lit(4), turn.len());
        assert_eq!(lit(5), 0);
    }
    assert_eq!(samples.last().map(|sample| sample.tach), Some(1400));
}
