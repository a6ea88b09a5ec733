//! Lists of sections turned to columns and to rows: every number of samples
//! about both ends, lengths that no section has, outputs of every length, and
//! words of every kind. Lengths go round with the seed.

use std::collections::BTreeSet;
use std::fmt;

use crate::columns::{to_columns, to_rows, MOST_SAMPLES};
use crate::generate::call_list::CallList;
use crate::generate::numbers::Numbers;
use crate::replay::{read_call, Call};
use crate::step::SAMPLE_WORDS;
use crate::words::Words;

/// Lengths of up to 20 samples and some words of one more.
const SHORT_LENGTHS: u64 = 21 * SAMPLE_WORDS as u64 + 1;
/// Words of the longest section.
const MOST_WORDS: usize = MOST_SAMPLES * SAMPLE_WORDS;
/// Lengths about the longest section's, the most that a call can have of
/// whole samples, and the most.
const LONG_LENGTHS: [usize; 20] = [
    27000, 26990, 26991, 26992, 26999, 27000, 27001, 27002, 27003, 27004, 27000, 27005, 27006,
    27007, 27008, 27000, 27009, 27018, 65529, 65535,
];
/// One list in so many has a long length.
const LONG_EVERY: u64 = 5;
/// One list in so many ends inside a call.
const BROKEN_EVERY: u64 = 10;

/// The list of a seed.
pub fn column_list(seed: u64) -> CallList {
    let mut store = Store {
        // Other numbers than the other lists have for the seed.
        numbers: Numbers::new(!seed.rotate_left(48)),
        list: CallList::default(),
    };
    if store.numbers.one_in(2) {
        store.list.power_up(8513);
    }
    for part in [0, 1] {
        let length = (seed % SHORT_LENGTHS * 2 + part) % SHORT_LENGTHS;
        store.every_output(length as usize);
    }
    for _ in 0..store.numbers.between(10, 20) {
        store.other_call();
        store.episode();
    }
    if seed % LONG_EVERY == 1 {
        let turn = seed / LONG_EVERY % LONG_LENGTHS.len() as u64;
        store.long(LONG_LENGTHS[turn as usize]);
        store.section_of(MOST_WORDS);
        store.longest_output();
    }
    if seed % BROKEN_EVERY == 4 {
        store.break_off(WAYS[(seed / BROKEN_EVERY % 2) as usize]);
    }
    store.list
}

/// A way in which a section is turned.
#[derive(Clone, Copy)]
enum Way {
    ToColumns,
    ToRows,
}

const WAYS: [Way; 2] = [Way::ToColumns, Way::ToRows];

impl Way {
    fn back(self) -> Way {
        match self {
            Way::ToColumns => Way::ToRows,
            Way::ToRows => Way::ToColumns,
        }
    }

    fn call(self, list: &mut CallList, out_words: usize, words: &[u16]) {
        match self {
            Way::ToColumns => list.columns(out_words as u16, words),
            Way::ToRows => list.rows(out_words as u16, words),
        }
    }

    /// What comes out of a section; None where the words are none.
    fn turned(self, words: &[u16]) -> Option<Vec<u16>> {
        let mut out = vec![0; words.len()];
        let answer = match self {
            Way::ToColumns => to_columns(words, &mut out),
            Way::ToRows => to_rows(words, &mut out),
        };
        answer.is_ok().then_some(out)
    }
}

/// Words of a length, of a kind that is drawn: as samples, or as the columns
/// of such.
fn draw_words(numbers: &mut Numbers, length: usize) -> Vec<u16> {
    let mut words = draw_samples(numbers, length);
    if numbers.one_in(4) {
        if let Some(first) = words.first_mut() {
            *first = numbers.pick(&[0, 0xffff]);
        }
    }
    if numbers.one_in(3) {
        Way::ToColumns.turned(&words).unwrap_or(words)
    } else {
        words
    }
}

/// Words in the order of samples, the last of which may be cut.
fn draw_samples(numbers: &mut Numbers, length: usize) -> Vec<u16> {
    let kind = numbers.below(8);
    let any = numbers.word();
    let first = numbers.pick(&[0, 1, 1023, 0xffff, any]);
    let pace = numbers.between(1, 512);
    let constant = [0; SAMPLE_WORDS].map(|_: u16| numbers.word());
    (0..length)
        .map(|place| {
            let (sample, word) = ((place / SAMPLE_WORDS) as u16, place % SAMPLE_WORDS);
            let moved = sample.wrapping_mul(pace);
            match (kind, word) {
                (0, _) => first.wrapping_add(place as u16),
                (1, _) => constant[word],
                (2, 0) => first.wrapping_sub(moved),
                // A machine that turns, as in a trace.
                (3, 0) => first.wrapping_add(moved) % 1024,
                (2 | 3, _) => numbers.sparse_word(3),
                (4, _) => numbers.pick(&[0, 1, 1023, 1024, 0x7fff, 0x8000, 0xffff]),
                (5, _) => first,
                _ => numbers.word(),
            }
        })
        .collect()
}

/// Lengths of an output about the input's: exact, one word and a sample's
/// words shorter and longer, whole samples, and none.
fn outputs(length: usize) -> BTreeSet<usize> {
    let whole = length / SAMPLE_WORDS * SAMPLE_WORDS;
    let shorter = [1, SAMPLE_WORDS].map(|less| length.saturating_sub(less));
    let longer = [1, SAMPLE_WORDS].map(|more| (length + more).min(usize::from(u16::MAX)));
    [[length, whole, 0].as_slice(), &shorter, &longer]
        .concat()
        .into_iter()
        .collect()
}

struct Store {
    numbers: Numbers,
    list: CallList,
}

impl Store {
    /// Turns words one way; what comes out is often turned back.
    fn turn(&mut self, way: Way, out_words: usize, words: &[u16]) {
        way.call(&mut self.list, out_words, words);
        if out_words != words.len() || self.numbers.one_in(4) {
            return;
        }
        if let Some(turned) = way.turned(words) {
            way.back().call(&mut self.list, out_words, &turned);
        }
    }

    /// Words of a length, both ways, into outputs of every kind.
    fn every_output(&mut self, length: usize) {
        for way in WAYS {
            let words = draw_words(&mut self.numbers, length);
            for out_words in outputs(length) {
                self.turn(way, out_words, &words);
            }
        }
    }

    /// An output of another length than the input's.
    fn draw_other_output(&mut self, length: usize) -> usize {
        let others: Vec<usize> = outputs(length)
            .into_iter()
            .filter(|&other| other != length)
            .collect();
        let any = usize::from(self.numbers.between(0, 400));
        match self.numbers.below(24) {
            0 => 65535,
            1 if any != length => any,
            _ => self.numbers.pick(&others),
        }
    }

    /// A number of words that is nine for each of some samples; mostly few.
    fn draw_length(&mut self, least: u16) -> usize {
        let most = self.numbers.pick(&[4, 4, 20, 20, 60]);
        SAMPLE_WORDS * usize::from(self.numbers.between(least, most))
    }

    fn draw_way(&mut self) -> Way {
        self.numbers.pick(&WAYS)
    }

    /// A power-up or a nudge, or nothing.
    fn other_call(&mut self) {
        let word = self.numbers.word();
        match self.numbers.below(16) {
            0 => self.list.power_up(8511 + word % 3),
            1 => self.list.power_up(word),
            2 | 3 => self.list.nudge(word),
            _ => {}
        }
    }

    fn episode(&mut self) {
        match self.numbers.below(8) {
            0 => self.no_section(),
            1 => self.no_words(),
            2 => self.other_output(),
            _ => {
                let length = self.draw_length(1);
                self.section_of(length);
            }
        }
    }

    fn section_of(&mut self, length: usize) {
        let words = draw_words(&mut self.numbers, length);
        let way = self.draw_way();
        self.turn(way, length, &words);
    }

    /// Some words more or less than a section has.
    fn no_section(&mut self) {
        let whole = self.draw_length(1);
        let off = usize::from(self.numbers.between(1, 8));
        for length in [whole - off, whole + off] {
            let words = draw_words(&mut self.numbers, length);
            let way = self.draw_way();
            let out_words = self.numbers.pick(&[length, length, whole]);
            self.turn(way, out_words, &words);
        }
    }

    fn no_words(&mut self) {
        let way = self.draw_way();
        let out_words = self.numbers.pick(&[0, 0, 1, SAMPLE_WORDS]);
        self.turn(way, out_words, &[]);
    }

    fn other_output(&mut self) {
        let length = self.draw_length(1);
        let words = draw_words(&mut self.numbers, length);
        for way in WAYS {
            let out_words = self.draw_other_output(length);
            self.turn(way, out_words, &words);
        }
    }

    /// Outputs of every kind for a section; for what is none, one as long and
    /// another.
    fn long(&mut self, length: usize) {
        if length <= MOST_WORDS && length.is_multiple_of(SAMPLE_WORDS) {
            self.every_output(length);
        } else {
            for way in WAYS {
                let words = draw_words(&mut self.numbers, length);
                let other = self.draw_other_output(length);
                self.turn(way, length, &words);
                self.turn(way, other, &words);
            }
        }
    }

    fn longest_output(&mut self) {
        let length = self.draw_length(0);
        let words = draw_words(&mut self.numbers, length);
        for way in WAYS {
            self.turn(way, usize::from(u16::MAX), &words);
        }
    }

    /// A call cut anywhere.
    fn break_off(&mut self, way: Way) {
        let length = SAMPLE_WORDS * usize::from(self.numbers.between(0, 3));
        let words = draw_words(&mut self.numbers, length);
        let mut call = CallList::default();
        way.call(&mut call, length, &words);
        let mut bytes = call.bytes();
        bytes.truncate(1 + self.numbers.below(bytes.len() as u32 - 1) as usize);
        self.list.break_off(bytes);
    }
}

/// Sections turned, either way, and calls turned away.
#[derive(Clone, Copy, Debug, Default, PartialEq, Eq)]
pub struct Conversions {
    pub accepted: u64,
    /// Refused 18.
    pub refused: u64,
    /// Those accepted that have the most samples.
    pub longest: u64,
}

impl Conversions {
    /// Those in a list.
    pub fn of_list(list: &CallList) -> Conversions {
        let mut conversions = Conversions::default();
        let bytes = list.bytes();
        let mut words = Words::new(&bytes[..]);
        while let Some(call) = read_call(&mut words) {
            if let Call::Section(call) = call {
                let accepted = call.answer().0.is_ok();
                conversions.accepted += u64::from(accepted);
                conversions.refused += u64::from(!accepted);
                conversions.longest += u64::from(accepted && call.words.len() == MOST_WORDS);
            }
        }
        conversions
    }

    pub fn add(&mut self, other: &Conversions) {
        self.accepted += other.accepted;
        self.refused += other.refused;
        self.longest += other.longest;
    }
}

impl fmt::Display for Conversions {
    fn fmt(&self, formatter: &mut fmt::Formatter) -> fmt::Result {
        let Conversions {
            accepted,
            refused,
            longest,
        } = self;
        write!(
            formatter,
            "{accepted} accepted, {refused} refused, {longest} of 3000 samples"
        )
    }
}
