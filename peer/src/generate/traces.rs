//! Traces for the trace program, whole and damaged.

use crate::cycles::{CLEAR_ERRORS, TRANSMIT};
use crate::generate::call_list::little_endian;
use crate::generate::file_kind::{FileKind, FILE_KINDS};
use crate::generate::numbers::Numbers;
use crate::generate::program::Program;
use crate::generate::samples::Samples;

/// Samples of a trace where no number is given: a long window of the speed
/// and some more.
pub const USUAL_SAMPLES: u16 = 2600;

/// The words of a trace, and which of them are counts.
struct Trace {
    words: Vec<u16>,
    counts: Vec<usize>,
}

impl Trace {
    fn draw(numbers: &mut Numbers, samples: u16) -> Trace {
        let mut program = Program::fresh(numbers.pick(&[0, 8, 16, 16]));
        let mut trace = Trace {
            words: vec![],
            counts: vec![],
        };
        trace.count(1);
        trace.words.push(match numbers.below(30) {
            0 => numbers.pick(&[0, 8510, 8514, 0xffff]),
            _ => program.module_number(),
        });
        for kind in FILE_KINDS {
            trace.section(numbers, &mut program, kind);
        }
        trace.samples(numbers, &program, samples);
        trace
    }

    fn count(&mut self, count: u16) {
        self.counts.push(self.words.len());
        self.words.push(count);
    }

    /// Mostly a sound section with ClrErr; also none, a bad one, or one
    /// without the transmit bit.
    fn section(&mut self, numbers: &mut Numbers, program: &mut Program, kind: FileKind) {
        // In Independent Mode a group section is refused.
        let barred = kind == FileKind::Group && program.is_independent();
        if numbers.one_in(8) || (barred && !numbers.one_in(4)) {
            return self.count(0);
        }
        program.draw(numbers, kind);
        let mut sent = program.clone();
        match numbers.below(16) {
            0 => sent.spoil(numbers, kind),
            1 => sent.change_one_word(numbers, kind),
            _ => {}
        }
        let transmit = if numbers.one_in(16) { 0 } else { TRANSMIT };
        let clear = if numbers.one_in(6) { 0 } else { CLEAR_ERRORS };
        let data = &kind.file(&sent)[kind.data()];
        self.count(data.len() as u16);
        self.words.push(data[0] | transmit | clear);
        self.words.extend(&data[1..]);
    }

    fn samples(&mut self, numbers: &mut Numbers, program: &Program, count: u16) {
        self.count(count);
        let mut samples = Samples::new();
        let mut segment = 0;
        // A fault stays to the end of the trace, so it comes late.
        let fault = numbers.between(count - count / 4, count);
        let fault = numbers.one_in(8).then_some(fault);
        for number in 1..=count {
            if segment == 0 {
                segment = samples.draw_segment(numbers);
            }
            segment -= 1;
            let mut sample = samples.next(numbers, program);
            if fault == Some(number) {
                sample[0] |= 1 << numbers.between(10, 15);
            }
            self.words.extend(sample);
        }
    }
}

/// The whole trace of a seed.
pub fn whole_trace(seed: u64, samples: u16) -> Vec<u8> {
    little_endian(&Trace::draw(&mut Numbers::new(seed), samples).words)
}

/// The damaged trace of a seed: cut short, with bytes too many, or with a
/// wrong count.
pub fn damaged_trace(seed: u64) -> Vec<u8> {
    let numbers = &mut Numbers::new(!seed);
    let samples = numbers.between(0, 40);
    let mut trace = Trace::draw(numbers, samples);
    match numbers.below(8) {
        0 => flip_count(numbers, &mut trace),
        1 => change_count(numbers, &mut trace),
        _ => return damage_bytes(numbers, &trace),
    }
    little_endian(&trace.words)
}

fn flip_count(numbers: &mut Numbers, trace: &mut Trace) {
    let at = numbers.pick(&trace.counts);
    trace.words[at] ^= 1 << numbers.between(0, 15);
}

/// Another section's count, one too many or too few, or the most.
fn change_count(numbers: &mut Numbers, trace: &mut Trace) {
    let at = numbers.pick(&trace.counts);
    let count = trace.words[at];
    let others = [0, 1, 2, 19, 20, 21, 79, 80, 81, 629, 630, 631, 0xffff];
    let mut wrong = numbers.pick(&others);
    if wrong == count || numbers.one_in(3) {
        wrong = count.wrapping_add(numbers.pick(&[1, 0xffff]));
    }
    trace.words[at] = wrong;
}

fn damage_bytes(numbers: &mut Numbers, trace: &Trace) -> Vec<u8> {
    let mut bytes = little_endian(&trace.words);
    let any = |numbers: &mut Numbers, count: u32| -> Vec<u8> {
        (0..count).map(|_| numbers.word() as u8).collect()
    };
    match numbers.below(6) {
        0 | 1 => bytes.truncate(numbers.below(bytes.len() as u32) as usize),
        2 => {
            let count = numbers.pick(&trace.counts);
            bytes.truncate(2 * count + numbers.below(3) as usize);
        }
        3 => bytes.truncate(bytes.len() - 1),
        4 => {
            let count = numbers.pick(&[1, 1, 2, 3, 17, 18]);
            bytes.extend(any(numbers, count));
        }
        _ => {
            let length = numbers.below(60);
            bytes = any(numbers, length);
        }
    }
    bytes
}

#[cfg(test)]
mod tests {
    use super::*;
    use crate::camrun;

    fn report(trace: &[u8]) -> String {
        let mut output = Vec::new();
        camrun::run(trace, &mut output).expect("writing to memory");
        String::from_utf8(output).expect("text")
    }

    /// Lines of a report that are no samples.
    fn notes(report: &str) -> Vec<&str> {
        let is_note = |line: &&str| line.starts_with(|first: char| !first.is_ascii_digit());
        report.lines().filter(is_note).collect()
    }

    #[test]
    fn whole_traces_run_to_their_end() {
        let (mut lit, mut clean) = (0, 0);
        for seed in 0..200 {
            let report = report(&whole_trace(seed, 700));
            let notes = notes(&report);
            assert!(!notes.contains(&"bad"), "seed {seed}");
            if notes != ["refused 3"] {
                assert_eq!(report.lines().count(), 700 + notes.len());
            }
            clean += usize::from(notes.is_empty());
            lit += usize::from(report.lines().any(|line| !line.ends_with(" 0000 0000")));
        }
        assert!(clean > 100 && lit > 150, "{clean} clean, {lit} lit");
    }

    #[test]
    fn whole_traces_meet_each_refusal() {
        let reports: Vec<String> = (0..300).map(|seed| report(&whole_trace(seed, 1))).collect();
        for refusal in [
            "refused 3",
            "refused 5",
            "refused 6",
            "refused 7",
            "refused 8",
        ] {
            assert!(reports
                .iter()
                .any(|report| notes(report).contains(&refusal)));
        }
    }

    #[test]
    fn damaged_traces_are_bad_early_and_late() {
        let (mut at_once, mut after_samples, mut odd) = (0, 0, 0);
        for seed in 0..300 {
            let trace = damaged_trace(seed);
            odd += usize::from(trace.len() % 2 == 1);
            let report = report(&trace);
            let last = report.lines().last();
            assert!(matches!(last, Some("bad" | "refused 3")), "seed {seed}");
            at_once += usize::from(report == "bad\n");
            after_samples += usize::from(report.lines().count() > notes(&report).len());
        }
        assert!(
            at_once > 50 && after_samples > 50 && odd > 50,
            "{at_once} {after_samples} {odd}"
        );
    }

    #[test]
    fn a_seed_gives_one_trace() {
        assert_eq!(whole_trace(3, 9), whole_trace(3, 9));
        assert_ne!(whole_trace(3, 9), whole_trace(4, 9));
        assert_eq!(damaged_trace(3), damaged_trace(3));
    }
}
