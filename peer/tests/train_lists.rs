//! Lists with pulse trains, judged by the words of 01 and of request 13 from the
//! calls: word 630, nudges, and each pulse of a train. No list of any kind has a
//! word 630 with one of bits 5 to 13.

mod common;

use common::{calls, printed, NUDGE_CLEAR, NUDGE_DOWN, NUDGE_OFF, NUDGE_ON, PULSE};
use peer::generate::{
    byte_list, cycle_list, length_list, pair_test_list, press_list, slow_list, step_list,
    train_list, CallList, Trains,
};

const LISTS: u64 = 40;

type Block = [u16; 19];

/// A block's word, as a number that no sum passes.
fn number(word: u16) -> i64 {
    word.into()
}

/// R of a sound pair.
fn length(block: &Block, scale: i64) -> i64 {
    (number(block[4]) - number(block[3])).rem_euclid(scale)
}

/// R − (Q × K + Q − 1).
fn spare(block: &Block, scale: i64) -> i64 {
    let [quantity, on_count] = [number(block[5]), number(block[6])];
    length(block, scale) - (quantity * on_count + quantity - 1)
}

fn is_train(block: &Block) -> bool {
    block[0] & 3 == PULSE
}

fn is_unused(block: &Block) -> bool {
    block[3..5] == [0, 0]
}

fn has_pulses(block: &Block) -> bool {
    block[5] > 0 && block[6] > 0
}

/// Both setpoints in range, not equal unless 0/0.
fn is_sound(block: &Block, scale: i64) -> bool {
    let [on, off] = [number(block[3]), number(block[4])];
    on < scale && off < scale && (on != off || on == 0)
}

/// Bits 1 to 4 of a train.
fn errors(block: &Block, scale: i64) -> u16 {
    let control = block[0] & 0x1ffc != 0 || block[0] & 0x6000 == 0x6000;
    let is_beyond = |word: &u16| !(-999..=999).contains(&(*word as i16));
    let advance = block[1..3].iter().any(is_beyond);
    let (setpoint, pulses) = match is_unused(block) {
        true => (false, false),
        false => (
            !is_sound(block, scale),
            !has_pulses(block) || (is_sound(block, scale) && spare(block, scale) < 0),
        ),
    };
    [control, advance, setpoint, pulses]
        .iter()
        .zip(1..)
        .fold(0, |errors, (&fails, bit)| errors | u16::from(fails) << bit)
}

/// On at so many counts from the ON setpoint: pulse j starts at floor(j × (R − K)
/// / (Q − 1)), or 0 if Q = 1. Gives the pulse.
fn pulse_at(block: &Block, from_on: i64, scale: i64) -> Option<usize> {
    let [quantity, on_count] = [number(block[5]), number(block[6])];
    let start = |j: i64| match quantity {
        1 => 0,
        _ => j * (length(block, scale) - on_count) / (quantity - 1),
    };
    let holds = |&j: &i64| (start(j)..start(j) + on_count).contains(&from_on);
    (0..quantity).find(holds).map(|j| j as usize)
}

/// A train in force, in Independent Mode: the pulses that have come on, and those
/// that have gone off, since it was programmed.
#[derive(Clone, Default)]
struct Watched {
    last: Option<usize>,
    on: Vec<usize>,
    off: Vec<usize>,
}

struct Judge {
    /// Those that the model has, as bits.
    present: u32,
    scale: i64,
    independent: bool,
    blocks: [Block; 32],
    watched: Vec<Watched>,
    /// Trains each of whose pulses was seen on and off again.
    whole: usize,
    pulses: usize,
    seen: Trains,
}

impl Judge {
    fn new() -> Judge {
        Judge {
            present: 0,
            scale: 1024,
            independent: false,
            blocks: [[0; 19]; 32],
            watched: vec![Watched::default(); 32],
            whole: 0,
            pulses: 0,
            seen: Trains::default(),
        }
    }

    fn program(&mut self, blocks: [Block; 32]) {
        self.blocks = blocks;
        self.watched = vec![Watched::default(); 32];
    }

    fn call(&mut self, call: &[u16], line: &str) {
        let fields: Vec<&str> = line.split(' ').collect();
        match (call[0], fields[1]) {
            (0, "0") => {
                let real = 8 * (call[1] - 8511);
                self.present = 0xffff_0000 | ((1 << real) - 1);
                self.scale = 1024;
                self.independent = false;
                self.program([[0; 19]; 32]);
            }
            (1, "0") => {
                let (scale, independent) = (number(call[3]), call[2] & 0x0200 != 0);
                if (scale, independent) != (self.scale, self.independent) {
                    self.program([[0; 19]; 32]);
                }
                self.scale = scale;
                self.independent = independent;
            }
            (2, "0") => self.program([[0; 19]; 32]),
            (3, "0" | "8") => self.limit_cycle(&call[2..], [fields[6], fields[7]]),
            (4, "0" | "10") => self.nudge(call[1], fields[1] == "0"),
            (5, "0") => self.step(call, &fields),
            _ => {}
        }
    }

    fn limit_cycle(&mut self, file: &[u16], status: [&str; 2]) {
        let [word, lowest] = status.map(|field| u16::from_str_radix(field, 16).expect("a word"));
        assert_eq!(word & 0x3fe0, 0);
        if word == 0x8000 {
            return;
        }
        let blocks: [Block; 32] =
            std::array::from_fn(|output| file[2 + 19 * output..][..19].try_into().expect("words"));
        for (output, block) in (1..).zip(&blocks) {
            // Bit 0 is of an output without a group.
            let judged = lowest == 0 || output < lowest || (output == lowest && word != 1);
            if self.present >> (output - 1) & 1 == 1 && judged && is_train(block) {
                let expected = if output == lowest { word } else { 0 };
                assert_eq!(errors(block, self.scale), expected, "{block:?}");
                self.see_judged(block, expected);
            }
        }
        if lowest == 0 {
            self.program(blocks);
        }
    }

    fn see_judged(&mut self, block: &Block, word: u16) {
        let spare = spare(block, self.scale);
        let is_read = !is_unused(block) && has_pulses(block) && is_sound(block, self.scale);
        let read = |is_so: bool| u64::from(is_read && is_so);
        let product = number(block[5]) * number(block[6]);
        self.seen.add(&Trains {
            one_short: read(spare == -1),
            exact: read(spare == 0),
            one_more: read(spare == 1),
            large: read(product > 65535),
            bit_4: u64::from(word & 0x10 != 0),
            ..Trains::default()
        });
    }

    fn nudge(&mut self, word: u16, is_taken: bool) {
        if word & NUDGE_CLEAR != 0 {
            return;
        }
        let (output, pair) = (usize::from(word & 31), usize::from(word >> 5 & 7));
        let mut block = self.blocks[output];
        let (before, was_unused) = (spare(&block, self.scale), is_unused(&block));
        let count = if word & NUDGE_DOWN == 0 { 1 } else { -1 };
        let mut is_in_range = true;
        for (chosen, at) in [(NUDGE_ON, 3), (NUDGE_OFF, 4)] {
            if word & chosen != 0 {
                let moved = number(block[at + 2 * pair]) + count;
                is_in_range &= (0..self.scale).contains(&moved);
                block[at + 2 * pair] = moved as u16;
            }
        }
        if is_train(&block) {
            let fits = is_in_range && !is_unused(&block) && errors(&block, self.scale) == 0;
            assert_eq!(is_taken, fits && !was_unused, "{block:?} {}", self.scale);
            if !was_unused && is_in_range {
                self.see_nudge(&block, before);
            }
        }
        if is_taken {
            self.blocks[output] = block;
            self.watched[output] = Watched::default();
        }
    }

    fn see_nudge(&mut self, block: &Block, before: i64) {
        let after = spare(block, self.scale);
        let is_read = is_sound(block, self.scale) && !is_unused(block);
        let leaves = |spare| u64::from(is_read && after < before && after == spare);
        self.seen.add(&Trains {
            nudged_short: leaves(-1),
            nudged_exact: leaves(0),
            nudged_to_zero: u64::from(is_unused(block)),
            ..Trains::default()
        });
    }

    /// Virtual outputs with trains that nothing moves, blocks or forces.
    fn step(&mut self, call: &[u16], fields: &[&str]) {
        if !self.independent {
            return;
        }
        let position: i64 = fields[2].parse().expect("a count");
        let outputs = u16::from_str_radix(fields[9], 16).expect("outputs");
        for output in 16..32 {
            let block = &self.blocks[output];
            let bit = 1 << (output - 16);
            let is_free = (call[8] | call[9]) & bit == 0;
            if block[..2] == [PULSE, 0] && !is_unused(block) && is_free {
                let from_on = (position - number(block[3])).rem_euclid(self.scale);
                let pulse = pulse_at(block, from_on, self.scale);
                assert_eq!(
                    outputs & bit != 0,
                    pulse.is_some(),
                    "{block:?} at {position}"
                );
                let quantity = usize::from(block[5]);
                self.watch(output, pulse, quantity);
            }
        }
    }

    fn watch(&mut self, output: usize, pulse: Option<usize>, quantity: usize) {
        let watched = &mut self.watched[output];
        let is_whole =
            |watched: &Watched| [&watched.on, &watched.off].map(Vec::len) == [quantity; 2];
        let was_whole = is_whole(watched);
        if let (None, Some(pulse)) = (watched.last, pulse) {
            self.pulses += 1;
            if !watched.on.contains(&pulse) {
                watched.on.push(pulse);
            }
        }
        if let (Some(last), None) = (watched.last, pulse) {
            if watched.on.contains(&last) && !watched.off.contains(&last) {
                watched.off.push(last);
            }
        }
        watched.last = pulse;
        self.whole += usize::from(is_whole(watched) && !was_whole);
    }
}

#[test]
fn every_line_is_by_the_words_of_the_request() {
    let (mut judge, mut counted) = (Judge::new(), Trains::default());
    for seed in 1..=LISTS {
        let list = train_list(seed);
        for (call, line) in calls(&list).iter().zip(printed(&list.bytes()).lines()) {
            judge.call(call, line);
        }
        counted.add(&Trains::of_list(&list));
    }
    println!("{} pulses, {} whole trains", judge.pulses, judge.whole);
    println!("{counted}");
    assert!(judge.pulses > 30_000 && judge.whole > 300);
    let judged = Trains {
        one_short: counted.one_short,
        exact: counted.exact,
        one_more: counted.one_more,
        large: counted.large,
        bit_4: counted.bit_4,
        nudged_short: counted.nudged_short,
        nudged_exact: counted.nudged_exact,
        nudged_to_zero: counted.nudged_to_zero,
        ..Trains::default()
    };
    assert_eq!(judge.seen, judged);
}

/// Words 630 of limit cycles that are answered, not idle.
fn words_630(list: &CallList) -> Vec<u16> {
    printed(&list.bytes())
        .lines()
        .filter_map(|line| match line.split(' ').collect::<Vec<&str>>()[..] {
            ["limit", "0" | "5" | "8", _, _, _, _, word, ..] => Some(word.to_string()),
            _ => None,
        })
        .map(|word| u16::from_str_radix(&word, 16).expect("a word"))
        .collect()
}

#[test]
fn no_word_630_has_bits_5_to_13() {
    let mut words = 0;
    for seed in 1..=300 {
        let mut lists = vec![cycle_list(seed), byte_list(seed)];
        if seed <= 60 {
            lists.push(train_list(seed));
        }
        if seed <= 8 {
            lists.extend([
                step_list(seed, 5200),
                press_list(seed),
                slow_list(seed),
                length_list(seed),
                pair_test_list(seed),
            ]);
        }
        for word in lists.iter().flat_map(words_630) {
            assert_eq!(word & 0x3fe0, 0, "seed {seed}");
            words += 1;
        }
    }
    println!("{words} words");
    assert!(words > 2000);
}
