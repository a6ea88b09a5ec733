//! Traces stored by column: request 7 of document 02 and its open points by
//! letter.

mod common;

use common::Numbers;
use peer::columns::{to_columns, to_rows};
use peer::generate::{whole_trace, USUAL_SAMPLES};
use peer::{camrun, Refusal};

/// What a word of an output is before a call.
const BEFORE: u16 = 0xeeee;

type Turn = fn(&[u16], &mut [u16]) -> Result<(), Refusal>;

const TURNS: [Turn; 2] = [to_columns, to_rows];

fn turned(turn: Turn, words: &[u16]) -> Vec<u16> {
    let mut out = vec![BEFORE; words.len()];
    assert_eq!(turn(words, &mut out), Ok(()));
    out
}

/// The columns, whose rows are the section again.
fn columns(section: &[u16]) -> Vec<u16> {
    let columns = turned(to_columns, section);
    assert_eq!(turned(to_rows, &columns), section);
    columns
}

/// The rows, whose columns are the words again.
fn rows(words: &[u16]) -> Vec<u16> {
    let rows = turned(to_rows, words);
    assert_eq!(turned(to_columns, &rows), words);
    rows
}

/// A section of these raw positions, whose other words are 0.
fn section_of(raws: &[u16]) -> Vec<u16> {
    raws.iter()
        .flat_map(|&raw| [raw, 0, 0, 0, 0, 0, 0, 0, 0])
        .collect()
}

/// The raw column of a section of these raw positions.
fn raw_column(raws: &[u16]) -> Vec<u16> {
    let columns = columns(&section_of(raws));
    assert!(columns[raws.len()..].iter().all(|&word| word == 0));
    columns[..raws.len()].to_vec()
}

/// The columns by the words of the request: like words together, and then the
/// differences.
fn expected_columns(section: &[u16]) -> Vec<u16> {
    let mut columns: Vec<Vec<u16>> = (0..9)
        .map(|word| section.iter().skip(word).step_by(9).copied().collect())
        .collect();
    let raws = columns[0].clone();
    for (before, raw) in raws.iter().zip(&mut columns[0][1..]) {
        *raw = raw.wrapping_sub(*before);
    }
    columns.concat()
}

/// Words of a length: all alike, counting on and back, the ends of a word in
/// turn, and drawn.
fn samples(length: usize, seed: u64) -> [Vec<u16>; 7] {
    let counting = |step: usize| (0..length).map(|place| (place * step) as u16).collect();
    [
        vec![0; length],
        vec![0xffff; length],
        counting(1),
        counting(0xffff),
        counting(0x1234),
        (0..length)
            .map(|place| [0, 0xffff, 0x8000][place % 3])
            .collect(),
        Numbers(seed).words(length),
    ]
}

#[test]
fn the_refusal_has_its_number() {
    assert_eq!(Refusal::SectionLength.number(), 18);
}

#[test]
fn two_samples_by_hand() {
    let section = [
        1, 2, 3, 4, 5, 6, 7, 8, 9, //
        101, 102, 103, 104, 105, 106, 107, 108, 109,
    ];
    let by_column = [
        1, 100, 2, 102, 3, 103, 4, 104, 5, 105, 6, 106, 7, 107, 8, 108, 9, 109,
    ];
    assert_eq!(columns(&section), by_column);
    assert_eq!(rows(&by_column), section);
    // The same words taken for columns: the second raw position is 1 + 2.
    let other = [
        1, 3, 5, 7, 9, 102, 104, 106, 108, //
        3, 4, 6, 8, 101, 103, 105, 107, 109,
    ];
    assert_eq!(rows(&section), other);
}

#[test]
fn one_sample_stays_as_it_is() {
    for words in samples(9, 1) {
        assert_eq!(columns(&words), words);
        assert_eq!(rows(&words), words);
    }
}

#[test]
fn r7a_differences_are_of_the_original_raw_positions() {
    assert_eq!(raw_column(&[10, 12, 15]), [10, 2, 3]);
    assert_eq!(raw_column(&[10, 10, 10, 11]), [10, 0, 0, 1]);
    assert_eq!(raw_column(&[0, 1023, 0]), [0, 1023, 64_513]);
}

#[test]
fn r7a_differences_wrap() {
    assert_eq!(raw_column(&[5, 4, 3]), [5, 0xffff, 0xffff]);
    assert_eq!(raw_column(&[0xffff, 0, 0xffff]), [0xffff, 1, 0xffff]);
    assert_eq!(raw_column(&[0, 0x8000, 0]), [0, 0x8000, 0x8000]);
    // The sums too: three times 40,000 is 120,000, and 54,464 beyond 65,536.
    let mut words = [0; 27];
    words[..3].fill(40_000);
    let restored: Vec<u16> = rows(&words).into_iter().step_by(9).collect();
    assert_eq!(restored, [40_000, 14_464, 54_464]);
}

#[test]
fn r7a_no_word_is_judged() {
    for raw in [1024, 0x7fff, 0x8000, 0xffff] {
        assert_eq!(raw_column(&[raw, raw]), [raw, 0]);
        let words = vec![raw; 9 * 20];
        assert_eq!(columns(&words)[20..], words[20..]);
        assert_eq!(rows(&words)[1..9], words[1..9]);
    }
}

/// The output is then left.
fn assert_refused(length: usize, out_words: usize) {
    for turn in TURNS {
        let mut out: Vec<u16> = (0..out_words).map(|place| place as u16).collect();
        let before = out.clone();
        let answer = turn(&vec![7; length], &mut out);
        assert_eq!(
            answer,
            Err(Refusal::SectionLength),
            "{length} words into {out_words}"
        );
        assert!(out == before, "touched");
    }
}

#[test]
fn r7b_the_output_is_as_long_as_the_input() {
    for samples in (1..=20).chain([2999, 3000]) {
        let length = 9 * samples;
        for out_words in [0, 1, length - 9, length - 1, length + 1, length + 9, 65535] {
            assert_refused(length, out_words);
        }
        for turn in TURNS {
            assert_eq!(turn(&vec![7; length], &mut vec![0; length]), Ok(()));
        }
    }
}

#[test]
fn inputs_that_are_no_section_are_refused() {
    let not_whole = (0..200).chain(26_900..27_200);
    let lengths = not_whole.filter(|length| length % 9 != 0 || *length == 0);
    for length in lengths.chain([27_009, 27_018, 36_000, 65_529, 65_535, 65_536, 90_000]) {
        assert_refused(length, length);
        assert_refused(length, length / 9 * 9);
        assert_refused(length, 27_000);
        assert_refused(length, 0);
    }
}

/// Where the input is a part of the same memory, it is left as well.
#[test]
fn r7d_two_slices() {
    for turn in TURNS {
        let mut memory = [Numbers(3).words(90), vec![BEFORE; 90]].concat();
        let (section, out) = memory.split_at_mut(90);
        assert_eq!(turn(section, out), Ok(()));
        assert_eq!(section, Numbers(3).words(90));
        assert_eq!(out, turned(turn, section));
    }
}

#[test]
fn every_number_of_samples_goes_both_ways() {
    for count in (1..=20).chain([100, 2999, 3000]) {
        for seed in 0..20 {
            for words in samples(9 * count, seed) {
                assert_eq!(columns(&words), expected_columns(&words));
                let rows = rows(&words);
                assert_eq!(expected_columns(&rows), words);
            }
        }
    }
}

/// Each word alone: word k of sample r is at place 9 × r + k as a row's and
/// at k × 3,000 + r as a column's.
#[test]
fn every_place_of_the_longest_section() {
    for place in (0..27_000).step_by(7) {
        let (sample, word) = (place / 9, place % 9);
        let mut section = vec![0; 27_000];
        section[place] = 1;
        let mut by_column = vec![0; 27_000];
        by_column[word * 3000 + sample] = 1;
        if word == 0 && sample < 2999 {
            by_column[sample + 1] = 0xffff;
        }
        assert!(turned(to_columns, &section) == by_column, "place {place}");
        assert!(turned(to_rows, &by_column) == section, "place {place}");
    }
}

fn report(trace: &[u16]) -> String {
    let bytes: Vec<u8> = trace.iter().flat_map(|word| word.to_le_bytes()).collect();
    let mut output = Vec::new();
    camrun::run(&bytes[..], &mut output).expect("writing to memory");
    String::from_utf8(output).expect("text")
}

/// The words of a whole trace, and where its sample section begins behind
/// its count.
fn trace(seed: u64, samples: u16) -> (Vec<u16>, usize) {
    let bytes = whole_trace(seed, samples);
    let (words, _) = bytes.as_chunks();
    let words: Vec<u16> = words.iter().copied().map(u16::from_le_bytes).collect();
    // The module's count, then the counts of three sections and the samples'.
    let start = (0..5).fold(0, |at, section| match section {
        4 => at + 1,
        _ => at + 1 + usize::from(words[at]),
    });
    assert_eq!(words.len(), start + 9 * usize::from(samples));
    (words, start)
}

#[test]
fn r7c_the_report_of_a_restored_section_is_the_traces() {
    let mut told_apart = 0;
    for seed in 0..60 {
        let samples = [1, 2, 40, 300, USUAL_SAMPLES][seed as usize % 5];
        let (words, start) = trace(seed, samples);
        let of_trace = report(&words);
        let by_column = columns(&words[start..]);
        let mut restored = words.clone();
        restored[start..].copy_from_slice(&by_column);
        told_apart += u32::from(report(&restored) != of_trace);
        restored[start..].copy_from_slice(&turned(to_rows, &by_column));
        assert_eq!(report(&restored), of_trace, "seed {seed}");
    }
    // Columns that are not restored give another report, but for one sample.
    assert!(told_apart > 40);
}
