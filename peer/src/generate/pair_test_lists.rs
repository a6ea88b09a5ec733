//! Lists for the count of pair tests: normal outputs with any number of used
//! pairs in any places, timed and pulse outputs with and without a pair, closed
//! groups, forced and blocked outputs, pairs that never or always hold at
//! speed, and full cards that come to 256.

use std::fmt;

use crate::blocks::LIMIT_BLOCK_WORDS;
use crate::generate::call_list::CallList;
use crate::generate::file_kind::FileKind;
use crate::generate::ladder::Ladder;
use crate::generate::length_lists::{draw_limits_for, open_outputs, Speed};
use crate::generate::numbers::Numbers;
use crate::generate::paced_list::{paced_list, Drawing};
use crate::generate::program::{draw_anding, Program, NORMAL};
use crate::generate::samples::Samples;
use crate::generate::stops::{each_step, SeenStep};
use crate::limit_block::{block_pair, PAIRS};
use crate::switch::{bits_of, Action, OUTPUTS};

/// Limit programs in a list, each drawn for the speed that follows.
const RUNS: u32 = 3;
/// Byte accesses follow one call in so many.
const ACCESSES_EVERY: u32 = 200;
/// One list in so many is of a full card.
const FULL_CARD_EVERY: u32 = 4;

const DRAWING: Drawing = Drawing {
    groups: |numbers, program| program.draw(numbers, FileKind::Group),
    limits: |numbers, program, paces| draw_limits_for(numbers, program, paces, draw_block),
    samples: Samples::draw_restless,
};

/// All outputs are normal ones with eight used pairs.
const FULL_CARD: Drawing = Drawing {
    groups: |numbers, program| {
        program.draw(numbers, FileKind::Group);
        program.deal_rest();
    },
    limits: draw_full_limits,
    samples: Samples::draw_restless,
};

/// The list of a seed.
pub fn pair_test_list(seed: u64) -> CallList {
    // Other numbers than the other lists have for the seed.
    let mut ladder = Ladder::new(!seed.rotate_left(16), ACCESSES_EVERY);
    if ladder.numbers.one_in(FULL_CARD_EVERY) {
        ladder.power_up_with(16);
        paced_list(ladder, RUNS, &FULL_CARD)
    } else {
        ladder.power_up();
        paced_list(ladder, RUNS, &DRAWING)
    }
}

/// A block of a type. Of a normal one's pairs some are short and some near 0 or
/// SF at the speed; a quarter of the others are at 0/0.
fn draw_block(speed: &Speed, numbers: &mut Numbers, kind: u16) -> [u16; LIMIT_BLOCK_WORDS] {
    let mut block = speed.draw_block(numbers, kind);
    block[0] = kind | draw_anding(numbers);
    if kind == NORMAL {
        let used = draw_places(numbers);
        draw_short_pairs(numbers, &mut block, used, speed.scale / 8, speed.scale);
    } else if numbers.one_in(4) {
        block[3..5].fill(0);
    }
    block
}

/// Any number of the eight places of pairs, as bits.
fn draw_places(numbers: &mut Numbers) -> u16 {
    let count = numbers.below(PAIRS as u32 + 1);
    let mut places: u16 = 0;
    while places.count_ones() < count {
        places |= 1 << numbers.below(PAIRS as u32);
    }
    places
}

/// Draws pairs of 1 to `longest` counts where none is used yet, and drops those
/// in places that are not to be used.
fn draw_short_pairs(
    numbers: &mut Numbers,
    block: &mut [u16; LIMIT_BLOCK_WORDS],
    used: u16,
    longest: u16,
    scale: u16,
) {
    for place in 0..PAIRS {
        let pair = match used >> place & 1 {
            0 => [0, 0],
            _ if block_pair(block, place).is_unused() => {
                let on = numbers.between(0, scale - 1);
                [on, (on + numbers.between(1, longest)) % scale]
            }
            _ => continue,
        };
        block[3 + 2 * place..5 + 2 * place].copy_from_slice(&pair);
    }
}

/// Draws eight pairs of a few counts for each output, which at the speed get
/// shorter or never hold.
fn draw_full_limits(numbers: &mut Numbers, program: &mut Program, paces: [i32; 2]) {
    program.m1.fill(0);
    for output in bits_of(program.assigned()) {
        let speed = Speed::draw(numbers, program, paces);
        let mut advances = speed.draw_advances(numbers);
        if speed.difference(advances) > 0 {
            advances.reverse();
        }
        let mut block = [0; LIMIT_BLOCK_WORDS];
        block[0] = draw_anding(numbers);
        block[1..3].copy_from_slice(&advances.map(|advance| advance as u16));
        let longest = 1 + speed.scale / 256;
        draw_short_pairs(numbers, &mut block, 0xff, longest, speed.scale);
        program.set_limit_block(output, &block);
    }
}

/// The tests of a full card none of whose pairs holds.
const MOST_TESTS: u16 = (OUTPUTS * PAIRS) as u16;

/// What steps not answered 11 have of the tests that are easily left out or
/// made too often.
#[derive(Clone, Copy, Debug, Default, PartialEq, Eq)]
pub struct PairTests {
    /// Steps with 256 tests.
    pub at_most: u64,
    /// Tests of outputs in closed groups.
    pub closed: u64,
    /// Tests of outputs forced on or off.
    pub forced: u64,
    /// Tests of outputs that an input or a motion detector blocks.
    pub blocked: u64,
    /// Tests of pairs that hold at no position.
    pub never: u64,
    /// Tests of pairs that hold at every position.
    pub always: u64,
}

impl PairTests {
    /// Those in a list.
    pub fn of_list(list: &CallList) -> PairTests {
        let mut tests = PairTests::default();
        each_step(list, |step| {
            if step.answer.refusal.is_none() {
                tests.see(&step);
            }
        });
        tests
    }

    pub fn add(&mut self, other: &PairTests) {
        self.at_most += other.at_most;
        self.closed += other.closed;
        self.forced += other.forced;
        self.blocked += other.blocked;
        self.never += other.never;
        self.always += other.always;
    }

    fn see(&mut self, step: &SeenStep) {
        self.at_most += u64::from(step.answer.tests == MOST_TESTS);
        let module = step.module;
        let closed = !open_outputs(module);
        let [.., real_on, real_off, virtual_on, virtual_off] = *step.sample;
        let forced = u32::from(real_on | real_off) | u32::from(virtual_on | virtual_off) << 16;
        let blocked = module.blocked(module.active_inputs(step.sample));
        each_output(step, |output, position| {
            let tests = self.see_output(step, output, position);
            let of = |outputs: u32| u64::from(outputs >> output & 1) * tests;
            self.closed += of(closed);
            self.forced += of(forced);
            self.blocked += of(blocked);
        });
    }

    /// Sees an output at its position and gives its tests.
    fn see_output(&mut self, step: &SeenStep, output: usize, position: u16) -> u64 {
        let (c, scale) = (step.module.motion.c, step.module.setup.scale);
        let switch = &step.module.switches.programs[output];
        let tests = switch.tests(position);
        if !matches!(switch.action, Action::Pulse { .. }) {
            for length in switch.lengths(c, scale).take(usize::from(tests)) {
                self.never += u64::from(length <= 0);
                self.always += u64::from(length >= i64::from(scale));
            }
        }
        u64::from(tests)
    }
}

impl fmt::Display for PairTests {
    fn fmt(&self, formatter: &mut fmt::Formatter) -> fmt::Result {
        let PairTests {
            at_most,
            closed,
            forced,
            blocked,
            never,
            always,
        } = self;
        write!(
            formatter,
            "{at_most} steps at 256, {closed} tests of closed outputs, {forced} of forced, \
             {blocked} of blocked, {never} of pairs that never hold, {always} that always hold"
        )
    }
}

/// The programmed outputs, each with the position that its switch reads.
fn each_output(step: &SeenStep, mut see: impl FnMut(usize, u16)) {
    let module = step.module;
    let programmed = module.switches.programmed;
    if module.setup.independent {
        let position = step.answer.machine_position.0;
        return bits_of(programmed).for_each(|output| see(output, position));
    }
    for (group, position) in module.groups.iter().zip(module.group_positions) {
        let outputs = group.as_ref().map_or(0, |group| group.outputs);
        bits_of(programmed & outputs).for_each(|output| see(output, position));
    }
}

#[cfg(test)]
mod tests {
    use std::collections::BTreeMap;

    use super::*;
    use crate::module::Module;
    use crate::motion::{advance_shift, moved_length};

    const LISTS: u64 = 40;

    /// The places, from 1, of an output's used pairs in block order, each with
    /// whether it holds, by the words of the request.
    fn used_pairs(module: &Module, output: usize, position: u16) -> Vec<(usize, bool)> {
        let switch = &module.switches.programs[output];
        let turn = i64::from(module.setup.scale);
        let [on_shift, off_shift] = switch
            .advances
            .map(|advance| advance_shift(advance, module.motion.c, module.setup.scale));
        let used = (1..)
            .zip(switch.pairs)
            .filter(|(_, pair)| pair.on != 0 || pair.off != 0);
        used.map(|(place, pair)| {
            let length = moved_length(pair.length(module.setup.scale), on_shift, off_shift);
            let from_on = i64::from(position) - i64::from(pair.on) + on_shift;
            (place, from_on.rem_euclid(turn) < length)
        })
        .collect()
    }

    /// How many of them are tested, and the place at which one ends that.
    fn tested(switch: &Action, pairs: &[(usize, bool)]) -> (usize, Option<usize>) {
        let first = pairs.iter().position(|&(_, holds)| holds);
        match (switch, first) {
            (Action::Normal, Some(first)) => (first + 1, Some(pairs[first].0)),
            _ => (pairs.len(), None),
        }
    }

    #[test]
    fn the_count_is_that_of_the_request() {
        for seed in 0..LISTS {
            each_step(&pair_test_list(seed), |step| {
                let mut expected = 0;
                if step.answer.refusal.is_none() {
                    each_output(&step, |output, position| {
                        let pairs = used_pairs(step.module, output, position);
                        let action = step.module.switches.programs[output].action;
                        expected += tested(&action, &pairs).0;
                    });
                }
                assert_eq!(usize::from(step.answer.tests), expected, "seed {seed}");
            });
        }
    }

    #[derive(Default)]
    struct Seen(BTreeMap<String, u64>);

    impl Seen {
        fn see(&mut self, event: impl Into<String>) {
            *self.0.entry(event.into()).or_default() += 1;
        }

        /// The event is told only where it happened: most do not.
        fn see_if(&mut self, happened: bool, event: impl FnOnce() -> String) {
            if happened {
                self.see(event());
            }
        }

        /// An output that has tests.
        fn tested_output(&mut self, step: &SeenStep, output: usize, kind: &str) {
            let is_in = |outputs: u32| outputs >> output & 1 != 0;
            for (at, force) in [(5, "on"), (6, "off")] {
                let [real, virt] = [step.sample[at], step.sample[at + 2]].map(u32::from);
                self.see_if(is_in(real), || format!("{kind} forced {force}, real"));
                self.see_if(is_in(virt << 16), || {
                    format!("{kind} forced {force}, virtual")
                });
            }
            let module = step.module;
            let anded = module.switches.detector_anded;
            for (number, (anded, on)) in (1..).zip(anded.into_iter().zip(step.answer.detectors)) {
                self.see_if(is_in(anded) && !on, || {
                    format!("{kind} blocked by MD{number}")
                });
            }
            let by_input = module.blocked(module.active_inputs(step.sample));
            let by_input = is_in(by_input & !(anded[0] | anded[1]));
            if module.setup.independent {
                return self.see_if(by_input, || format!("{kind} blocked by its own input"));
            }
            self.see_if(by_input, || format!("{kind} blocked by LS Enable"));
            let mut groups = module.groups.iter().flatten();
            let group = groups.find(|group| is_in(group.outputs));
            let group = group.expect("a programmed output has a group");
            let mode = group.program.mode;
            self.see_if(!group.state.open, || format!("{kind} closed, {mode:?}"));
        }

        fn output(&mut self, step: &SeenStep, output: usize, position: u16) {
            let action = step.module.switches.programs[output].action;
            let kind = match action {
                Action::Normal => "normal",
                Action::Pulse { .. } => "pulse",
                Action::Timed { .. } => "timed",
            };
            let pairs = used_pairs(step.module, output, position);
            let (tests, ended_at) = tested(&action, &pairs);
            let used = pairs.len();
            match ended_at {
                Some(place) => {
                    self.see(format!("{tests} of {used} pairs"));
                    self.see(format!("place {place} in test {tests}"));
                }
                None => self.see(format!("{kind}, all {used} pairs")),
            }
            if used > 0 {
                self.tested_output(step, output, kind);
            }
        }

        fn step(&mut self, step: &SeenStep) {
            let real = step.module.real_count();
            if step.answer.refusal.is_some() {
                return self.see("11");
            }
            let unprogrammed = step.module.assigned() & !step.module.switches.programmed;
            if unprogrammed != 0 {
                self.see("unprogrammed outputs");
            }
            self.see(format!("{real} real outputs"));
            each_output(step, |output, position| self.output(step, output, position));
        }

        fn assert_often(&self, event: &str) {
            let count = self.0.get(event).copied().unwrap_or(0);
            println!("{count:8} {event}");
            assert!(count >= 20, "seldom seen: {event}");
        }
    }

    fn seen_in_lists() -> Seen {
        let mut seen = Seen::default();
        for seed in 0..LISTS {
            each_step(&pair_test_list(seed), |step| seen.step(&step));
        }
        seen
    }

    #[test]
    fn lists_of_tests_reach_every_count_of_every_output() {
        let seen = seen_in_lists();
        for used in 1..=PAIRS {
            for tests in 1..=used {
                seen.assert_often(&format!("{tests} of {used} pairs"));
                seen.assert_often(&format!("place {used} in test {tests}"));
            }
        }
        for used in 0..=PAIRS {
            seen.assert_often(&format!("normal, all {used} pairs"));
        }
        for kind in ["timed", "pulse"] {
            seen.assert_often(&format!("{kind}, all 0 pairs"));
            seen.assert_often(&format!("{kind}, all 1 pairs"));
        }
        for kind in ["normal", "timed", "pulse"] {
            for force in ["on, real", "off, real", "on, virtual", "off, virtual"] {
                seen.assert_often(&format!("{kind} forced {force}"));
            }
            for by in ["MD1", "MD2", "LS Enable", "its own input"] {
                seen.assert_often(&format!("{kind} blocked by {by}"));
            }
            for mode in 2..=5 {
                seen.assert_often(&format!("{kind} closed, Mode{mode}"));
            }
        }
        for real in [0, 8, 16] {
            seen.assert_often(&format!("{real} real outputs"));
        }
        seen.assert_often("unprogrammed outputs");
        seen.assert_often("11");
    }
}
