//! Lists with unequal advances on a fast line: pairs whose lengths, moved by
//! the advances, come to 0, 1, SF − 1 and SF, and pass either end, at the c at
//! which the machine then runs.

use std::fmt;

use crate::blocks::LIMIT_BLOCK_WORDS;
use crate::generate::call_list::CallList;
use crate::generate::ladder::Ladder;
use crate::generate::numbers::Numbers;
use crate::generate::paced_list::{paced_list, Drawing};
use crate::generate::program::{
    draw_anding, draw_any_advance, draw_limit_block, draw_pair, Program, NORMAL, PULSE, TIMED,
};
use crate::generate::samples::Samples;
use crate::generate::stops::each_step;
use crate::limit_block::{HIGHEST_ADVANCE, MOST_TIMED, PAIRS};
use crate::module::Module;
use crate::motion::advance_shift;
use crate::pair::Pair;
use crate::switch::{bits_of, Action};

/// Limit programs in a list, each drawn for the speed that follows.
const RUNS: u32 = 4;
/// Byte accesses follow one call in so many.
const ACCESSES_EVERY: u32 = 200;

/// Groups that are mostly open.
const DRAWING: Drawing = Drawing {
    groups: |numbers, program| {
        let mode = numbers.pick(&[0, 0, 1]);
        program.draw_groups_in(numbers, mode);
    },
    limits: |numbers, program, paces| {
        draw_limits_for(numbers, program, paces, Speed::draw_block);
    },
    samples: Samples::draw_paced,
};

/// The list of a seed.
pub fn length_list(seed: u64) -> CallList {
    // Other numbers than the other lists have for the seed.
    let mut ladder = Ladder::new(seed.rotate_left(48), ACCESSES_EVERY);
    ladder.power_up();
    paced_list(ladder, RUNS, &DRAWING)
}

/// Draws a block of a type for a speed.
pub(crate) type DrawBlock = fn(&Speed, &mut Numbers, u16) -> [u16; LIMIT_BLOCK_WORDS];

/// Draws limit blocks for most outputs, each for one of two c.
pub(crate) fn draw_limits_for(
    numbers: &mut Numbers,
    program: &mut Program,
    paces: [i32; 2],
    draw_block: DrawBlock,
) {
    program.m1.fill(0);
    let mut timed = [0; 2];
    for output in bits_of(program.assigned()) {
        let timed_of_kind = &mut timed[output / 16];
        let kind = match numbers.below(8) {
            0 => continue,
            1 => PULSE,
            2 | 3 if *timed_of_kind < MOST_TIMED => TIMED,
            _ => NORMAL,
        };
        *timed_of_kind += usize::from(kind == TIMED);
        let speed = Speed::draw(numbers, program, paces);
        program.set_limit_block(output, &draw_block(&speed, numbers, kind));
    }
}

/// The speed that a limit block is drawn for.
pub(crate) struct Speed {
    /// Not 0.
    c: i32,
    pub scale: u16,
}

impl Speed {
    /// One of two c.
    pub fn draw(numbers: &mut Numbers, program: &Program, paces: [i32; 2]) -> Speed {
        Speed {
            c: numbers.pick(&paces),
            scale: program.scale(),
        }
    }

    /// ON shift − OFF shift.
    pub fn difference(&self, advances: [i16; 2]) -> i64 {
        let [on_shift, off_shift] =
            advances.map(|advance| advance_shift(advance, self.c, self.scale));
        on_shift - off_shift
    }

    /// A sound block of a type; one in twelve has pairs that are drawn for no
    /// speed, or none.
    pub fn draw_block(&self, numbers: &mut Numbers, kind: u16) -> [u16; LIMIT_BLOCK_WORDS] {
        let mut block = draw_limit_block(numbers, kind, self.scale);
        block[0] = kind;
        if numbers.one_in(6) {
            block[0] |= draw_anding(numbers);
        }
        let advances = self.draw_advances(numbers);
        block[1..3].copy_from_slice(&advances.map(|advance| advance as u16));
        if kind != PULSE && !numbers.one_in(12) {
            self.draw_pairs(numbers, &mut block, self.difference(advances));
        }
        block
    }

    /// Equal ones, any, or such that the shifts are up to five quarters of a
    /// turn apart.
    pub fn draw_advances(&self, numbers: &mut Numbers) -> [i16; 2] {
        let on = draw_any_advance(numbers);
        let off = match numbers.below(8) {
            0 => on,
            1 => draw_any_advance(numbers),
            _ => {
                let most = self.scale + self.scale / 4;
                let apart = i64::from(numbers.between(0, 2 * most)) - i64::from(most);
                let tenths = apart * 245_760 / (i64::from(self.c) * i64::from(self.scale));
                let highest = i64::from(HIGHEST_ADVANCE);
                (i64::from(on) - tenths).clamp(-highest, highest) as i16
            }
        };
        [on, off]
    }

    /// The pair of a timed switch with its time; one pair of a normal one, or
    /// several.
    fn draw_pairs(&self, numbers: &mut Numbers, block: &mut [u16], difference: i64) {
        let used = if block[0] & 3 == TIMED {
            block[5] = numbers.pick(&[1, 2, 20, 250, 9999]);
            1
        } else {
            block[3..].fill(0);
            match numbers.below(4) {
                0 => numbers.between(1, 0xff),
                _ => 1 << numbers.below(PAIRS as u32),
            }
        };
        for index in (0..PAIRS).filter(|index| used >> index & 1 != 0) {
            let pair = self.draw_pair(numbers, difference);
            block[3 + 2 * index] = pair.on;
            block[4 + 2 * index] = pair.off;
        }
    }

    /// A pair whose length, changed by the difference of the shifts, is near
    /// 0 or SF, where some pair's is.
    fn draw_pair(&self, numbers: &mut Numbers, difference: i64) -> Pair {
        let turn = i64::from(self.scale);
        let far = 1 + i64::from(numbers.below(u32::from(self.scale)));
        let wanted = [
            -far,
            -1,
            0,
            0,
            1,
            1,
            2,
            turn - 1,
            turn - 1,
            turn,
            turn,
            turn + 1,
            turn + far,
        ];
        let fitting: Vec<u16> = wanted
            .iter()
            .map(|length| length - difference)
            .filter(|unmoved| (1..turn).contains(unmoved))
            .map(|unmoved| unmoved as u16)
            .collect();
        if fitting.is_empty() || numbers.one_in(4) {
            return draw_pair(numbers, self.scale);
        }
        let on = numbers.between(0, self.scale - 1);
        let off = (on + numbers.pick(&fitting)) % self.scale;
        Pair { on, off }
    }
}

/// How often a used pair of a normal or timed output in an open group, or in
/// Independent Mode, had such a length in a step not answered 11.
#[derive(Clone, Copy, Debug, Default, PartialEq, Eq)]
pub struct Lengths {
    pub below_zero: u64,
    pub zero: u64,
    pub one: u64,
    /// SF − 1, where that is not 1.
    pub all_but_one: u64,
    pub all: u64,
    pub over_all: u64,
}

impl Lengths {
    /// Those in a list.
    pub fn of_list(list: &CallList) -> Lengths {
        let mut lengths = Lengths::default();
        each_step(list, |step| {
            if !step.module.fault() {
                lengths.see(step.module);
            }
        });
        lengths
    }

    pub fn add(&mut self, other: &Lengths) {
        self.below_zero += other.below_zero;
        self.zero += other.zero;
        self.one += other.one;
        self.all_but_one += other.all_but_one;
        self.all += other.all;
        self.over_all += other.over_all;
    }

    fn see(&mut self, module: &Module) {
        let (c, scale) = (module.motion.c, module.setup.scale);
        for output in bits_of(module.switches.programmed & open_outputs(module)) {
            let switch = &module.switches.programs[output];
            if !matches!(switch.action, Action::Pulse { .. }) {
                switch
                    .lengths(c, scale)
                    .for_each(|length| self.see_length(length, scale));
            }
        }
    }

    fn see_length(&mut self, length: i64, scale: u16) {
        let turn = i64::from(scale);
        let count = match length {
            ..0 => &mut self.below_zero,
            0 => &mut self.zero,
            1 => &mut self.one,
            _ if length == turn - 1 => &mut self.all_but_one,
            _ if length == turn => &mut self.all,
            _ if length > turn => &mut self.over_all,
            _ => return,
        };
        *count += 1;
    }
}

impl fmt::Display for Lengths {
    fn fmt(&self, formatter: &mut fmt::Formatter) -> fmt::Result {
        let Lengths {
            below_zero,
            zero,
            one,
            all_but_one,
            all,
            over_all,
        } = self;
        write!(
            formatter,
            "{below_zero} lengths below 0, {zero} at 0, {one} at 1, \
             {all_but_one} at SF less 1, {all} at SF, {over_all} over SF"
        )
    }
}

/// The outputs of open groups; all in Independent Mode.
pub(crate) fn open_outputs(module: &Module) -> u32 {
    if module.setup.independent {
        return u32::MAX;
    }
    let open = module
        .groups
        .iter()
        .flatten()
        .filter(|group| group.state.open);
    open.fold(0, |outputs, group| outputs | group.outputs)
}

#[cfg(test)]
mod tests {
    use std::collections::BTreeMap;

    use super::*;
    use crate::generate::paced_list::{FASTEST, FASTEST_BACK};
    use crate::generate::{step_list, USUAL_STEPS};

    const LISTS: u64 = 40;

    /// Each count with its name.
    fn named(lengths: &Lengths) -> [(&'static str, u64); 6] {
        [
            ("below 0", lengths.below_zero),
            ("at 0", lengths.zero),
            ("at 1", lengths.one),
            ("at SF less 1", lengths.all_but_one),
            ("at SF", lengths.all),
            ("over SF", lengths.over_all),
        ]
    }

    #[test]
    fn a_length_is_counted_by_its_place() {
        let count = |length, scale| {
            let mut lengths = Lengths::default();
            lengths.see_length(length, scale);
            let counted = named(&lengths).into_iter().filter(|(_, count)| *count > 0);
            counted.map(|(name, _)| name).collect::<Vec<_>>()
        };
        for (length, name) in [
            (-511_468, "below 0"),
            (-1, "below 0"),
            (0, "at 0"),
            (1, "at 1"),
            (999, "at SF less 1"),
            (1000, "at SF"),
            (1001, "over SF"),
            (511_508, "over SF"),
        ] {
            assert_eq!(count(length, 1000), [name]);
        }
        assert_eq!(count(2, 1000), [""; 0]);
        assert_eq!(count(998, 1000), [""; 0]);
        assert_eq!(count(1, 2), ["at 1"]);
        assert_eq!(count(2, 2), ["at SF"]);
    }

    /// How often each length was seen of which switches: their type, their
    /// mode and the sign of c; and how often at which SF and at either end of
    /// c.
    fn seen_in_lists() -> BTreeMap<String, u64> {
        let mut seen = BTreeMap::new();
        for seed in 0..LISTS {
            each_step(&length_list(seed), |step| {
                let module = step.module;
                if module.fault() {
                    return;
                }
                for output in bits_of(module.switches.programmed & open_outputs(module)) {
                    for (place, count) in see_output(module, output) {
                        *seen.entry(place).or_default() += count;
                    }
                }
            });
        }
        seen
    }

    fn see_output(module: &Module, output: usize) -> Vec<(String, u64)> {
        let switch = &module.switches.programs[output];
        let kind = match switch.action {
            Action::Normal => "normal",
            Action::Timed { .. } => "timed",
            Action::Pulse { .. } => return vec![],
        };
        let mode = if module.setup.independent {
            "independent"
        } else {
            "group"
        };
        let (c, scale) = (module.motion.c, module.setup.scale);
        let way = if c < 0 { "back" } else { "on" };
        let mut lengths = Lengths::default();
        switch
            .lengths(c, scale)
            .for_each(|length| lengths.see_length(length, scale));
        let at_an_end = c == FASTEST || c == FASTEST_BACK;
        named(&lengths)
            .into_iter()
            .filter(|(_, count)| *count > 0)
            .flat_map(|(name, count)| {
                let mut places = vec![
                    (format!("{kind} {mode} {way} {name}"), count),
                    (format!("SF {scale} {name}"), count),
                ];
                if at_an_end {
                    places.push((format!("c {c} {name}"), count));
                }
                places
            })
            .collect()
    }

    #[test]
    fn lists_of_lengths_reach_every_length_of_every_switch() {
        let seen = seen_in_lists();
        let assert_often = |place: String| {
            let count = seen.get(&place).copied().unwrap_or(0);
            println!("{count:8} {place}");
            assert!(count >= 500, "seldom seen: {place}");
        };
        for (name, _) in named(&Lengths::default()) {
            for kind in ["normal", "timed"] {
                for mode in ["group", "independent"] {
                    for way in ["on", "back"] {
                        assert_often(format!("{kind} {mode} {way} {name}"));
                    }
                }
            }
            for scale in [3, 10, 1000, 1024] {
                assert_often(format!("SF {scale} {name}"));
            }
            for c in [FASTEST, FASTEST_BACK] {
                assert_often(format!("c {c} {name}"));
            }
        }
        for name in ["below 0", "at 0", "at 1", "at SF", "over SF"] {
            assert_often(format!("SF 2 {name}"));
        }
    }

    /// Lists of steps are drawn without looking at lengths; most of their
    /// advances are unequal.
    #[test]
    fn lists_of_steps_reach_every_length() {
        let mut lengths = Lengths::default();
        for seed in 0..LISTS {
            lengths.add(&Lengths::of_list(&step_list(seed, USUAL_STEPS)));
        }
        println!("{lengths}");
        for (name, count) in named(&lengths) {
            assert!(count > 1000, "seldom seen: {name}");
        }
    }
}
