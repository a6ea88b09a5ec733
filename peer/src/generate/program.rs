//! Sound programming, drawn so that later calls show what it does.

use crate::blocks::{group_block_at, limit_block_at, GROUP_BLOCK_WORDS, LIMIT_BLOCK_WORDS};
use crate::cycles::{GROUP_COMMAND, M0_WORDS, M1_WORDS};
use crate::generate::file_kind::FileKind;
use crate::generate::numbers::Numbers;
use crate::group::{
    Kind, FIRST_CYCLE_VIRTUAL, GROUPS, GROUP_USED, GROUP_VIRTUAL, MODE_BITS, MODE_SHIFT,
    QUANTITY_BITS,
};
use crate::limit_block::{
    block_pair, DETECTOR_SHIFT, ENABLE_BIT, HIGHEST_ADVANCE, MOST_TIMED, PAIRS,
};
use crate::motion::STEPS_PER_MS;
use crate::pair::Pair;
use crate::setup::{
    window_ms, COUNT_DIRECTION, HIGHEST_SCALE, LOWEST_SCALE, MODULE_TYPE, PRESET_BIT, SETUP_WORDS,
    SLC_INTERRUPT, TACH_RESPONSE,
};
use crate::switch::OUTPUTS;

/// Types of limit switch in the control word.
pub const NORMAL: u16 = 0;
pub const PULSE: u16 = 1;
pub const TIMED: u16 = 2;

/// What the calls made so far should have put in force. Command words stand
/// without the transmit bit and ClrErr.
#[derive(Clone, Debug)]
pub struct Program {
    /// Real inputs and outputs: 0, 8 or 16.
    pub real_count: u16,
    pub m0: [u16; M0_WORDS],
    pub m1: [u16; M1_WORDS],
}

impl Program {
    /// The programming of a fresh module.
    pub fn fresh(real_count: u16) -> Program {
        let mut m0 = [0; M0_WORDS];
        m0[1] = HIGHEST_SCALE;
        m0[8] = 1;
        m0[9] = 1;
        Program {
            real_count,
            m0,
            m1: [0; M1_WORDS],
        }
    }

    pub fn module_number(&self) -> u16 {
        8511 + self.real_count / 8
    }

    pub fn scale(&self) -> u16 {
        self.m0[1]
    }

    pub fn is_independent(&self) -> bool {
        self.m0[0] & MODULE_TYPE != 0
    }

    /// The position falls where the raw position rises.
    pub fn counts_down(&self) -> bool {
        self.m0[0] & COUNT_DIRECTION != 0
    }

    /// Steps from one update of the speed to the next.
    pub fn window_steps(&self) -> u32 {
        window_ms(self.m0[0] & TACH_RESPONSE != 0) * STEPS_PER_MS
    }

    /// Counts a step at which the tachometer is a third of a count below
    /// TachOv, if the scalars are made for that.
    pub fn edge_speed(&self) -> Option<u16> {
        let is_edge = |edge: &&Edge| self.m0[8..11] == edge.scalars();
        EDGES.iter().find(is_edge).map(|edge| edge.counts)
    }

    pub fn active_states(&self) -> u16 {
        self.m0[11]
    }

    /// Outputs that the module has: bits 0 to 15 real, 16 to 31 virtual.
    pub fn present(&self) -> u32 {
        0xffff_0000 | ((1 << self.real_count) - 1)
    }

    pub fn group_block(&self, group: usize) -> [u16; GROUP_BLOCK_WORDS] {
        let at = group_block_at(group);
        std::array::from_fn(|word| self.m0[at + word])
    }

    pub fn limit_block(&self, output: usize) -> [u16; LIMIT_BLOCK_WORDS] {
        let at = limit_block_at(output);
        std::array::from_fn(|word| self.m1[at + word])
    }

    /// Outputs dealt to groups before `group`, for each kind.
    pub fn dealt_before(&self, group: usize) -> [u16; 2] {
        (0..group).fold([0; 2], |mut dealt, group| {
            let control = self.group_block(group)[0];
            if control & GROUP_USED != 0 {
                dealt[usize::from(control & GROUP_VIRTUAL != 0)] += control & QUANTITY_BITS;
            }
            dealt
        })
    }

    /// Outputs that may be programmed.
    pub fn assigned(&self) -> u32 {
        if self.is_independent() {
            return self.present();
        }
        let [real, virt] = self.dealt_before(GROUPS);
        ((1 << real) - 1) | ((1 << virt) - 1) << 16
    }

    pub fn programmed(&self) -> u32 {
        outputs_where(|output| self.limit_block(output) != [0; LIMIT_BLOCK_WORDS])
    }

    /// Outputs with pulse trains that are not at 0/0.
    pub fn trains(&self) -> u32 {
        outputs_where(|output| {
            let block = self.limit_block(output);
            block[0] & 3 == PULSE && !block_pair(&block, 0).is_unused()
        })
    }

    /// Draws sound words of a kind.
    pub fn draw(&mut self, numbers: &mut Numbers, kind: FileKind) {
        match kind {
            FileKind::Setup => {
                let (scale, independent) = (draw_scale(numbers), numbers.one_in(4));
                self.draw_setup(numbers, scale, independent);
            }
            FileKind::Group => self.draw_groups(numbers),
            FileKind::Limit => self.draw_limits(numbers),
        }
    }

    /// Draws setup words with the SF and mode that are in force.
    pub fn draw_keeping_setup(&mut self, numbers: &mut Numbers) {
        self.draw_setup(numbers, self.scale(), self.is_independent());
    }

    /// Draws setup words with the SF that is in force and the other mode.
    pub fn draw_other_mode(&mut self, numbers: &mut Numbers) {
        self.draw_setup(numbers, self.scale(), !self.is_independent());
    }

    /// Draws setup words for the quick updates of the speed, in Group Mode.
    pub fn draw_quick_setup(&mut self, numbers: &mut Numbers) {
        let scale = draw_scale(numbers);
        self.draw_setup(numbers, scale, false);
        self.m0[0] |= TACH_RESPONSE;
    }

    /// Draws setup words for the slow updates of the speed.
    pub fn draw_slow_setup(&mut self, numbers: &mut Numbers) {
        self.draw(numbers, FileKind::Setup);
        self.m0[0] &= !TACH_RESPONSE;
    }

    /// Draws group blocks, most of them in one mode.
    pub fn draw_groups_in(&mut self, numbers: &mut Numbers, mode: u16) {
        self.draw_groups(numbers);
        for group in 0..GROUPS {
            let control = &mut self.m0[group_block_at(group)];
            if *control & GROUP_USED != 0 && !numbers.one_in(8) {
                *control = *control & !MODE_BITS | mode << MODE_SHIFT;
                if self.real_count == 0 {
                    *control |= FIRST_CYCLE_VIRTUAL;
                }
            }
        }
    }

    /// Deals the outputs that are left to the last group of their kind.
    pub fn deal_rest(&mut self) {
        let dealt = self.dealt_before(GROUPS);
        for (kind, present) in [(0, self.real_count), (GROUP_VIRTUAL, 16)] {
            let is_of_kind = |group: &usize| {
                self.group_block(*group)[0] & (GROUP_USED | GROUP_VIRTUAL) == GROUP_USED | kind
            };
            if let Some(last) = (0..GROUPS).rev().find(is_of_kind) {
                self.m0[group_block_at(last)] += present - dealt[usize::from(kind != 0)];
            }
        }
    }

    /// Draws limit blocks, with a switch that holds nearly everywhere for the
    /// first output of each group.
    pub fn draw_showing_limits(&mut self, numbers: &mut Numbers) {
        self.draw_limits(numbers);
        for group in 0..GROUPS {
            let control = self.group_block(group)[0];
            let kind = usize::from(control & GROUP_VIRTUAL != 0);
            if control & GROUP_USED != 0 {
                let first = usize::from(self.dealt_before(group)[kind]) + 16 * kind;
                let off = draw_count(numbers, self.scale());
                let on = (off + 1) % self.scale();
                let mut block = [0; LIMIT_BLOCK_WORDS];
                block[3..5].copy_from_slice(&[on, off]);
                self.set_limit_block(first, &block);
            }
        }
    }

    /// Draws setup words with an SF and a mode: others than are in force drop
    /// groups and limits.
    pub fn draw_setup(&mut self, numbers: &mut Numbers, scale: u16, independent: bool) {
        if scale != self.scale() || independent != self.is_independent() {
            self.m0[GROUP_COMMAND..].fill(0);
            self.m1.fill(0);
        }
        let mode = if independent { MODULE_TYPE } else { 0 };
        let command = numbers.word() & (COUNT_DIRECTION | SLC_INTERRUPT) | mode;
        let preset = if numbers.one_in(3) { PRESET_BIT } else { 0 };
        let response = if numbers.one_in(4) { 0 } else { TACH_RESPONSE };
        let [low1, high1] = draw_detector(numbers);
        let [low2, high2] = draw_detector(numbers);
        let [multiplier, divisor, code] = draw_scalars(numbers);
        self.m0[..SETUP_WORDS].fill(0);
        self.m0[..12].copy_from_slice(&[
            command | preset | response,
            scale,
            draw_count(numbers, scale),
            draw_count(numbers, scale),
            low1,
            high1,
            low2,
            high2,
            multiplier,
            divisor,
            code,
            draw_states(numbers),
        ]);
    }

    /// Draws group blocks; this drops the limit programs.
    fn draw_groups(&mut self, numbers: &mut Numbers) {
        self.m1.fill(0);
        self.m0[GROUP_COMMAND..].fill(0);
        let mut left = [self.real_count, 16];
        for group in 0..GROUPS {
            let block = self.draw_group(numbers, &mut left);
            let at = group_block_at(group);
            self.m0[at..at + GROUP_BLOCK_WORDS].copy_from_slice(&block);
        }
    }

    fn draw_group(&self, numbers: &mut Numbers, left: &mut [u16; 2]) -> [u16; GROUP_BLOCK_WORDS] {
        let kind = match (left[0], left[1]) {
            (0, 0) => return draw_unused_group(numbers),
            (0, _) => Kind::Virtual,
            (_, 0) => Kind::Real,
            _ => numbers.pick(&[Kind::Real, Kind::Virtual]),
        };
        if numbers.one_in(6) {
            return draw_unused_group(numbers);
        }
        let left = &mut left[kind as usize];
        let quantity = match numbers.below(8) {
            0 => *left,
            1 => 1,
            _ => numbers.between(1, (*left).min(6)),
        };
        *left -= quantity;
        let mode = numbers.pick(&[0, 1, 1, 2, 2, 3, 4, 4, 5, 5, 5]);
        let mut control = GROUP_USED | mode << MODE_SHIFT | quantity;
        if kind == Kind::Virtual {
            control |= GROUP_VIRTUAL;
        }
        // An 8511 has no real First Cycle Input.
        if numbers.one_in(2) || (self.real_count == 0 && mode == 5) {
            control |= FIRST_CYCLE_VIRTUAL;
        }
        let scale = self.scale();
        let channel = draw_channel(numbers, scale);
        let offset = draw_group_offset(numbers, channel, scale);
        [control, channel.on, channel.off, offset]
    }

    /// Draws limit blocks for most of the outputs that may have one.
    fn draw_limits(&mut self, numbers: &mut Numbers) {
        self.m1.fill(0);
        let assigned = self.assigned();
        let mut timed = [0; 2];
        for output in 0..OUTPUTS {
            if assigned >> output & 1 == 0 || numbers.one_in(6) {
                continue;
            }
            let timed_of_kind = &mut timed[output / 16];
            let kind = match numbers.below(7) {
                0 | 1 => PULSE,
                2 | 3 if *timed_of_kind < MOST_TIMED => TIMED,
                _ => NORMAL,
            };
            *timed_of_kind += usize::from(kind == TIMED);
            self.set_limit_block(output, &draw_limit_block(numbers, kind, self.scale()));
        }
    }

    pub fn set_limit_block(&mut self, output: usize, block: &[u16; LIMIT_BLOCK_WORDS]) {
        let at = limit_block_at(output);
        self.m1[at..at + LIMIT_BLOCK_WORDS].copy_from_slice(block);
    }
}

/// The outputs for which the answer is yes, as a set.
fn outputs_where(answer: impl Fn(usize) -> bool) -> u32 {
    (0..OUTPUTS)
        .filter(|&output| answer(output))
        .fold(0, |set, output| set | 1 << output)
}

fn draw_scale(numbers: &mut Numbers) -> u16 {
    match numbers.below(3) {
        0 => numbers.between(LOWEST_SCALE, HIGHEST_SCALE),
        _ => numbers.pick(&[2, 3, 5, 100, 360, 360, 1000, 1000, 1024]),
    }
}

/// A count from 0 to SF − 1, often at an end.
fn draw_count(numbers: &mut Numbers, scale: u16) -> u16 {
    match numbers.below(8) {
        0 => 0,
        1 => 1,
        2 => scale - 1,
        3 => scale / 2,
        _ => numbers.between(0, scale - 1),
    }
}

/// A pair that is neither 0/0 nor equal: short, long or over zero.
pub fn draw_pair(numbers: &mut Numbers, scale: u16) -> Pair {
    let on = draw_count(numbers, scale);
    let length = match numbers.below(6) {
        0 => 1,
        1 => scale - 1,
        2 | 3 => numbers.between(1, scale / 8),
        _ => numbers.between(1, scale - 1),
    };
    let off = (on + length) % scale;
    Pair { on, off }
}

fn draw_detector(numbers: &mut Numbers) -> [u16; 2] {
    const SPEEDS: [u16; 11] = [0, 1, 2, 50, 200, 300, 1000, 3000, 10000, 32766, 32767];
    let [low, high] = [0; 2].map(|_: u16| numbers.pick(&SPEEDS));
    match numbers.below(5) {
        0 => [0, 0],
        // Equal setpoints are an error.
        _ if low == high => [low, low ^ 1],
        _ => [low, high],
    }
}

/// Scalars with which the tachometer reads 32767 at so many counts a step, from
/// a quotient above that.
#[derive(Clone, Copy)]
struct Edge {
    counts: u16,
    multiplier: u16,
    divisor: u16,
}

impl Edge {
    const fn of(counts: u16, multiplier: u16, divisor: u16) -> Edge {
        Edge {
            counts,
            multiplier,
            divisor,
        }
    }

    /// With decimal code 0.
    fn scalars(&self) -> [u16; 3] {
        [self.multiplier, self.divisor, 0]
    }
}

/// One count a step is 2929.69 tenths, so 2930; times 671, by 60, that is
/// 32767.17.
const EDGES: [Edge; 4] = [
    Edge::of(1, 671, 6),
    Edge::of(6, 727, 39),
    Edge::of(7, 719, 45),
    Edge::of(8, 713, 51),
];

/// Tachometer multiplier, divisor and decimal code.
fn draw_scalars(numbers: &mut Numbers) -> [u16; 3] {
    if numbers.one_in(8) {
        return numbers.pick(&EDGES).scalars();
    }
    [
        numbers.pick(&[0, 1, 1, 2, 3, 10, 100, 1000, 1099, 1100]),
        numbers.pick(&[1, 1, 1, 2, 3, 7, 10, 62, 63]),
        numbers.pick(&[0, 0, 1, 2, 3]),
    ]
}

fn draw_states(numbers: &mut Numbers) -> u16 {
    let any = numbers.word();
    numbers.pick(&[0, 0, 0xffff, any])
}

/// Its other bits and words are ignored.
fn draw_unused_group(numbers: &mut Numbers) -> [u16; GROUP_BLOCK_WORDS] {
    if numbers.one_in(2) {
        return [0; GROUP_BLOCK_WORDS];
    }
    let mut block = [0; GROUP_BLOCK_WORDS].map(|_: u16| numbers.word());
    block[0] &= !GROUP_USED;
    block
}

fn draw_channel(numbers: &mut Numbers, scale: u16) -> Pair {
    if numbers.one_in(10) {
        return Pair::default();
    }
    if numbers.one_in(2) {
        return draw_pair(numbers, scale);
    }
    // A dwell of up to half a turn.
    let on = numbers.between(0, scale - 1);
    let length = numbers.between(1, scale / 2);
    let off = (on + length) % scale;
    Pair { on, off }
}

/// Often within the dwell, or at one of its ends.
fn draw_group_offset(numbers: &mut Numbers, channel: Pair, scale: u16) -> u16 {
    match numbers.below(6) {
        0 => channel.on,
        1 => channel.off,
        2 => (channel.off + scale - 1) % scale,
        3 => (channel.on + scale - 1) % scale,
        _ => draw_count(numbers, scale),
    }
}

/// A sound block of a type.
pub fn draw_limit_block(numbers: &mut Numbers, kind: u16, scale: u16) -> [u16; LIMIT_BLOCK_WORDS] {
    let mut block = [0; LIMIT_BLOCK_WORDS];
    // Words not used may be anything.
    if kind != NORMAL && numbers.one_in(3) {
        block = block.map(|_: u16| numbers.word());
    }
    block[0] = kind | draw_anding(numbers);
    block[1] = draw_advance(numbers);
    block[2] = draw_advance(numbers);
    if kind == NORMAL {
        draw_normal_pairs(numbers, &mut block, scale);
        return block;
    }
    let pair = if numbers.one_in(12) {
        Pair::default()
    } else {
        draw_pair(numbers, scale)
    };
    block[3] = pair.on;
    block[4] = pair.off;
    if pair.is_unused() {
        return block;
    }
    if kind == TIMED {
        block[5] = numbers.pick(&[1, 1, 2, 3, 5, 20, 60, 250, 9998, 9999]);
    } else {
        [block[5], block[6]] = draw_pulses(numbers, pair.length(scale));
    }
    block
}

pub fn draw_anding(numbers: &mut Numbers) -> u16 {
    let enable = if numbers.one_in(6) { ENABLE_BIT } else { 0 };
    let detector = numbers.pick(&[0, 0, 0, 0, 1, 2]);
    enable | detector << DETECTOR_SHIFT
}

fn draw_advance(numbers: &mut Numbers) -> u16 {
    let any = draw_any_advance(numbers);
    numbers.pick(&[0, 0, 0, 1, -1, 20, -20, 999, -999, any]) as u16
}

/// From −999 to 999.
pub fn draw_any_advance(numbers: &mut Numbers) -> i16 {
    numbers.between(0, 2 * HIGHEST_ADVANCE as u16) as i16 - HIGHEST_ADVANCE
}

/// One to eight used pairs among the eight; now and then none at all.
fn draw_normal_pairs(numbers: &mut Numbers, block: &mut [u16; LIMIT_BLOCK_WORDS], scale: u16) {
    let used = match numbers.below(8) {
        0 => 0xff,
        1 | 2 => numbers.between(1, 0xff),
        3 if numbers.one_in(4) => 0,
        _ => 1 << numbers.pick(&[0, 0, 0, 1, 2, 7]),
    };
    for index in (0..PAIRS).filter(|index| used >> index & 1 != 0) {
        let pair = draw_pair(numbers, scale);
        block[3 + 2 * index] = pair.on;
        block[4 + 2 * index] = pair.off;
    }
}

/// Q and K that fit into a length, often with nothing to spare.
fn draw_pulses(numbers: &mut Numbers, length: u16) -> [u16; 2] {
    let most = length.div_ceil(2);
    let quantity = match numbers.below(5) {
        0 => 1,
        1 => most,
        2 | 3 => numbers.between(1, most.min(6)),
        _ => numbers.between(1, most),
    };
    let widest = (length + 1) / quantity - 1;
    let on_count = match numbers.below(3) {
        0 => widest,
        1 => 1,
        _ => numbers.between(1, widest),
    };
    [quantity, on_count]
}

#[cfg(test)]
mod tests {
    use super::*;

    /// 600 counts in 120 ms are 2929.6875 tenths.
    #[test]
    fn edges_read_32767_without_overflow() {
        for (edge, tenths) in EDGES.iter().zip([2930, 17578, 20508, 23438]) {
            let exact = 29_296_875 * u64::from(edge.counts);
            assert_eq!(tenths, (exact + 5000) / 10_000);
            let product = tenths * u64::from(edge.multiplier);
            let divisor = 10 * u64::from(edge.divisor);
            assert!(32767 * divisor < product && 2 * product < 65535 * divisor);
        }
    }
}
