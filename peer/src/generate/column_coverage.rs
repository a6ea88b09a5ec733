//! What the lists of columns reach, seen call by call. A call is of a class by
//! its words and its output alone, whatever it is answered.

use crate::generate::classes::Classes;
use crate::generate::{column_list, CallList, Conversions};
use crate::replay::{read_call, Call, SectionCall};
use crate::words::Words;

/// Words of a sample.
const WORDS: usize = 9;
const NAMES: [&str; 2] = ["columns", "rows"];

/// How many calls or lists of each class were seen.
#[derive(Default)]
struct Seen {
    classes: Classes,
}

/// The number of samples of a section that is turned.
fn samples_of(words: &[u16]) -> Option<usize> {
    let samples = words.len() / WORDS;
    (words.len().is_multiple_of(WORDS) && (1..=3000).contains(&samples)).then_some(samples)
}

/// What an output is to an input's length.
fn output_of(out_words: u16, length: usize) -> &'static str {
    let out_words = usize::from(out_words);
    if out_words == length {
        "as long"
    } else if out_words == 0 {
        "none"
    } else if out_words == 65535 {
        "the longest"
    } else if out_words + 1 == length {
        "one short"
    } else if out_words == length + 1 {
        "one long"
    } else if out_words + 9 == length {
        "nine short"
    } else if out_words == length + 9 {
        "nine long"
    } else if out_words == length / WORDS * WORDS {
        "whole samples"
    } else {
        "another"
    }
}

/// The raw positions that a section has as samples.
fn raws_of(name: &str, words: &[u16], samples: usize) -> Vec<u16> {
    if name == "columns" {
        return words.iter().step_by(WORDS).copied().collect();
    }
    let mut raw = 0u16;
    let sums = words[..samples].iter().map(|difference| {
        raw = raw.wrapping_add(*difference);
        raw
    });
    sums.collect()
}

/// What a section is turned to: word k of sample r is at place 9 × r + k as a
/// sample's and at k × samples + r as a column's.
fn turned(name: &str, words: &[u16], samples: usize) -> Vec<u16> {
    let raws = raws_of(name, words, samples);
    (0..words.len())
        .map(|place| {
            if name == "columns" {
                let (word, sample) = (place / samples, place % samples);
                match (word, sample) {
                    (0, 1..) => raws[sample].wrapping_sub(raws[sample - 1]),
                    _ => words[WORDS * sample + word],
                }
            } else {
                let (sample, word) = (place / WORDS, place % WORDS);
                match word {
                    0 => raws[sample],
                    _ => words[word * samples + sample],
                }
            }
        })
        .collect()
}

impl Seen {
    fn of(seeds: impl IntoIterator<Item = u64>) -> Seen {
        let mut seen = Seen::default();
        for seed in seeds {
            seen.list(&column_list(seed));
        }
        seen
    }

    fn list(&mut self, list: &CallList) {
        let bytes = list.bytes();
        let mut words = Words::new(&bytes[..]);
        let mut powered = false;
        // What the call before gives.
        let mut came_out = None;
        while let Some(call) = read_call(&mut words) {
            self.classes.see("call");
            match call {
                Call::Section(call) => {
                    self.classes.see("section call");
                    self.classes
                        .see_if(powered, "section call after a power-up");
                    self.classes
                        .see_if(!powered, "section call before any power-up");
                    if came_out == Some((call.name, call.words.clone())) {
                        self.classes.see(format!("{}, what came out", call.name));
                    }
                    came_out = self.section_call(&call);
                }
                Call::PowerUp(_) => {
                    powered = true;
                    self.classes.see("power-up");
                }
                Call::Nudge(_) => self.classes.see("nudge"),
                _ => self.classes.see("another call"),
            }
        }
        self.tail(list.tail());
    }

    /// Gives the other call's name and its words, where they come out of this
    /// one.
    fn section_call(&mut self, call: &SectionCall) -> Option<(&'static str, Vec<u16>)> {
        let SectionCall { name, words, .. } = call;
        let length = words.len();
        let output = output_of(call.out_words, length);
        self.classes
            .see(format!("{name}, {length} words, {output}"));
        let Some(samples) = samples_of(words) else {
            self.classes.see(format!("{name}, no section, {output}"));
            self.classes
                .see(format!("{name}, {} words over, {output}", length % WORDS));
            return None;
        };
        self.classes.see(format!("{name}, section, {output}"));
        if output != "as long" {
            return None;
        }
        self.raws(name, &raws_of(name, words, samples));
        let back = if *name == "columns" {
            "rows"
        } else {
            "columns"
        };
        let out = turned(name, words, samples);
        let rows = if *name == "columns" { words } else { &out };
        self.rows(name, rows);
        Some((back, out))
    }

    fn raws(&mut self, name: &str, raws: &[u16]) {
        let (first, last) = (raws[0], raws[raws.len() - 1]);
        for end in [0, 0xffff] {
            self.classes
                .see_if(first == end, format!("{name}, first raw {end}"));
            self.classes
                .see_if(last == end, format!("{name}, last raw {end}"));
        }
        let over = raws.iter().any(|&raw| raw > 1023);
        self.classes.see_if(over, format!("{name}, raws over 1023"));
        self.classes
            .see_if(!over, format!("{name}, raws up to 1023"));
        let down = raws.windows(2).filter(|pair| pair[1] < pair[0]).count();
        self.classes
            .see_if(down > 0, format!("{name}, a raw below the one before"));
        let all_down = raws.len() > 2 && down == raws.len() - 1;
        self.classes
            .see_if(all_down, format!("{name}, raws that go down"));
        let ends = raws.windows(2).any(|pair| pair == [0, 0xffff]);
        self.classes.see_if(ends, format!("{name}, 65535 after 0"));
        let ends = raws.windows(2).any(|pair| pair == [0xffff, 0]);
        self.classes.see_if(ends, format!("{name}, 0 after 65535"));
    }

    /// Samples of at least three, so that constant and counting words tell.
    fn rows(&mut self, name: &str, rows: &[u16]) {
        if rows.len() < 3 * WORDS {
            return;
        }
        let constant = rows[WORDS..].iter().zip(rows).all(|(word, up)| word == up);
        self.classes
            .see_if(constant, format!("{name}, constant columns"));
        let pairs = || rows[1..].iter().zip(rows);
        let counting = pairs().all(|(word, before)| *word == before.wrapping_add(1));
        self.classes
            .see_if(counting, format!("{name}, counting words"));
        let alike = pairs().all(|(word, before)| word == before);
        self.classes
            .see_if(alike, format!("{name}, all words alike"));
    }

    fn tail(&mut self, tail: &[u8]) {
        match tail {
            [] => self.classes.see("whole list"),
            [_] => self.classes.see("broken off in an opcode"),
            [11, 0, ..] => self.classes.see("broken off in a columns call"),
            [12, 0, ..] => self.classes.see("broken off in a rows call"),
            _ => self.classes.see("broken off in another call"),
        }
        self.classes
            .see_if(tail.len() % 2 == 1, "broken off in a word");
        self.classes
            .see_if(tail.len() > 6, "broken off among the words");
    }
}

/// Every class with the least number of times that it must be seen.
fn required() -> Vec<(String, usize)> {
    let mut classes: Vec<(String, usize)> = SINGLE
        .iter()
        .map(|&(class, least)| (class.to_string(), least))
        .collect();
    let mut add = |class: String, least| classes.push((class, least));
    for name in NAMES {
        for length in (0..=189).chain(26_999..=27_009) {
            add(format!("{name}, {length} words, as long"), 1);
        }
        for length in [26_990, 26_991, 26_992, 27_018, 65_529, 65_535] {
            add(format!("{name}, {length} words, as long"), 1);
        }
        for samples in (2..=20).chain([2999, 3000]) {
            for output in OUTPUTS {
                add(format!("{name}, {} words, {output}", WORDS * samples), 1);
            }
        }
        for over in 1..=8 {
            for output in OUTPUTS.iter().chain(&["as long"]) {
                add(format!("{name}, {over} words over, {output}"), 5);
            }
        }
        add(format!("{name}, no section, whole samples"), 50);
        for output in OUTPUTS.iter().chain(&["the longest", "another"]) {
            add(format!("{name}, section, {output}"), 5);
        }
        for output in ["as long", "one long", "nine long", "the longest"] {
            add(format!("{name}, 0 words, {output}"), 2);
        }
        for class in OF_SECTIONS {
            add(format!("{name}, {class}"), 10);
        }
        add(format!("{name}, section, as long"), 300);
        add(format!("{name}, no section, as long"), 100);
        add(format!("{name}, what came out"), 200);
    }
    classes
}

/// Outputs of another length that every section meets.
const OUTPUTS: [&str; 5] = ["none", "one short", "one long", "nine short", "nine long"];

const OF_SECTIONS: [&str; 13] = [
    "first raw 0",
    "first raw 65535",
    "last raw 0",
    "last raw 65535",
    "raws over 1023",
    "raws up to 1023",
    "a raw below the one before",
    "raws that go down",
    "65535 after 0",
    "0 after 65535",
    "constant columns",
    "counting words",
    "all words alike",
];

const SINGLE: [(&str, usize); 9] = [
    ("section call", 5000),
    ("section call before any power-up", 500),
    ("section call after a power-up", 500),
    ("power-up", 50),
    ("nudge", 50),
    ("broken off in a columns call", 4),
    ("broken off in a rows call", 4),
    ("broken off in a word", 2),
    ("broken off among the words", 5),
];

#[test]
fn lists_of_columns_reach_every_class() {
    let seen = Seen::of(1..=100);
    seen.classes.print();
    assert_eq!(seen.classes.missing(required()), Vec::<String>::new());
    assert_eq!(seen.classes.count("another call"), 0);
    let (calls, section_calls) = (
        seen.classes.count("call"),
        seen.classes.count("section call"),
    );
    assert!(section_calls < calls && 100 * section_calls > 90 * calls);
    assert_eq!(seen.classes.count("whole list"), 90);
}

/// Other hundreds have the lengths too: they go round with the seed.
#[test]
fn any_hundred_lists_have_every_length() {
    for first in [0, 57, u64::MAX - 99] {
        let seen = Seen::of(first..=first + 99);
        for name in NAMES {
            for length in (0..=189).chain([26_991]).chain(26_999..=27_009) {
                let class = format!("{name}, {length} words, as long");
                assert!(seen.classes.count(&class) > 0, "{class}");
            }
        }
    }
}

/// Nothing is seen by itself: without lists every class is missing, and a few
/// lists do not have them all.
#[test]
fn classes_can_be_missing() {
    assert_eq!(
        Seen::of([]).classes.missing(required()).len(),
        required().len()
    );
    let missing = Seen::of(1..=4).classes.missing(required());
    assert!(missing.len() > 100 && missing.len() < required().len());
}

/// The comparison's numbers are those of the classes.
#[test]
fn conversions_are_the_sections_with_an_output_as_long() {
    let mut conversions = Conversions::default();
    for seed in 1..=10 {
        conversions.add(&Conversions::of_list(&column_list(seed)));
    }
    let seen = Seen::of(1..=10);
    let of_both = |class: &str| -> usize {
        let counts = NAMES.map(|name| seen.classes.count(&format!("{name}, {class}")));
        counts.iter().sum()
    };
    let accepted = of_both("section, as long");
    assert_eq!(conversions.accepted, accepted as u64);
    let refused = seen.classes.count("section call") - accepted;
    assert_eq!(conversions.refused, refused as u64);
    let longest = of_both("27000 words, as long");
    assert_eq!(conversions.longest, longest as u64);
    assert!(longest > 0);
}

/// A class that its call is no longer in is missed.
#[test]
fn classes_follow_from_the_words() {
    let class_of = |out_words: u16, words: &[u16]| {
        let mut list = CallList::default();
        list.rows(out_words, words);
        let mut seen = Seen::default();
        seen.list(&list);
        seen.classes
    };
    let mut words = vec![7; 27];
    let of_section = class_of(27, &words);
    assert!(of_section.has("rows, section, as long"));
    // 7, 14 and 21 are the raw positions.
    assert!(!of_section.has("rows, constant columns"));
    words[1..3].fill(0);
    assert!(class_of(27, &words).has("rows, constant columns"));
    assert!(class_of(26, &words).has("rows, section, one short"));
    assert!(class_of(27, &words[1..]).has("rows, no section, one long"));
    words[2] = 0xffff;
    assert!(class_of(27, &words).has("rows, a raw below the one before"));
    assert!(!class_of(36, &words).has("rows, a raw below the one before"));
}
