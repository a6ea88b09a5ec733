//! Programming that fails: sound words changed so that chosen bits of a
//! status word are set, or one word put at an edge of its range.

use crate::blocks::{
    group_block_at, limit_block_at, GROUP_BLOCKS_AT, GROUP_BLOCK_WORDS, LIMIT_BLOCKS_AT,
    LIMIT_BLOCK_WORDS,
};
use crate::cycles::{GROUP_COMMAND, LIMIT_STATUS, SETUP_STATUS};
use crate::generate::file_kind::FileKind;
use crate::generate::numbers::Numbers;
use crate::generate::program::{draw_limit_block, Program, NORMAL, PULSE, TIMED};
use crate::group::{self, FIRST_CYCLE_VIRTUAL, GROUPS, GROUP_USED, GROUP_VIRTUAL, QUANTITY_BITS};
use crate::limit_block::{
    ADVANCE_ERROR, CONTROL_ERROR, DURATION_ERROR, MOST_TIMED, PAIRS, SETPOINT_ERROR,
};
use crate::setup::{self, HIGHEST_SCALE, SETUP_WORDS};
use crate::switch::OUTPUTS;

const SETUP_ERRORS: [u16; 7] = [
    setup::SCALE_ERROR,
    setup::PRESET_ERROR,
    setup::OFFSET_ERROR,
    setup::DETECTOR_1_ERROR,
    setup::DETECTOR_2_ERROR,
    setup::TACH_ERROR,
    setup::RESERVED_ERROR,
];
const GROUP_ERRORS: [u16; 3] = [
    group::OFFSET_ERROR,
    group::PROGRAM_ERROR,
    group::CHANNEL_ERROR,
];
const LIMIT_ERRORS: [u16; 4] = [CONTROL_ERROR, ADVANCE_ERROR, SETPOINT_ERROR, DURATION_ERROR];

/// A count that is not below `limit`.
fn draw_beyond(numbers: &mut Numbers, limit: u16) -> u16 {
    numbers.pick(&[limit, limit, limit + 1, 9999, 10000, 32767, 32768, 65535])
}

/// A number at the edge of some range.
fn draw_edge(numbers: &mut Numbers, scale: u16) -> u16 {
    numbers.pick(&[
        0,
        1,
        2,
        3,
        scale - 1,
        scale,
        scale + 1,
        63,
        64,
        999,
        1000,
        1023,
        1024,
        1025,
        1100,
        1101,
        9999,
        10000,
        32767,
        32768,
        64536,
        64537,
        65535,
    ])
}

pub fn draw_nonzero(numbers: &mut Numbers) -> u16 {
    let any = numbers.between(1, 65535);
    numbers.pick(&[1, 0x8000, 0xffff, any])
}

/// One or two of the errors, seldom three.
fn draw_errors(numbers: &mut Numbers, errors: &[u16]) -> u16 {
    let count = numbers.pick(&[1, 1, 2, 2, 2, 3]);
    (0..count).fold(0, |drawn, _| drawn | numbers.pick(errors))
}

/// Makes a pair unsound: a setpoint out of range, or both equal.
pub fn spoil_pair(numbers: &mut Numbers, pair: &mut [u16], scale: u16) {
    let beyond = draw_beyond(numbers, scale);
    match numbers.below(4) {
        0 => pair[0] = beyond,
        1 => pair[1] = beyond,
        2 => pair.fill(beyond),
        _ => pair.fill(numbers.between(1, scale - 1)),
    }
}

fn spoil_detector(numbers: &mut Numbers, setpoints: &mut [u16]) {
    let beyond = numbers.pick(&[32768, 32769, 65535]);
    match numbers.below(4) {
        0 => setpoints[0] = beyond,
        1 => setpoints[1] = beyond,
        2 => setpoints.fill(beyond),
        _ => setpoints.fill(numbers.pick(&[1, 2, 1000, 32767])),
    }
}

/// A reserved bit of a command word, or a reserved word.
fn spoil_reserved(
    numbers: &mut Numbers,
    file: &mut [u16],
    command: usize,
    bits: &[u16],
    words: &[usize],
) {
    if numbers.one_in(2) {
        file[command] |= 1 << numbers.pick(bits);
    } else {
        file[numbers.pick(words)] = draw_nonzero(numbers);
    }
}

impl Program {
    /// Makes the data of a kind fail, mostly with one or two error bits.
    pub fn spoil(&mut self, numbers: &mut Numbers, kind: FileKind) {
        match kind {
            FileKind::Setup => {
                let errors = draw_errors(numbers, &SETUP_ERRORS);
                self.spoil_setup(numbers, errors);
            }
            FileKind::Group if numbers.one_in(6) => self.spoil_group_reserved(numbers),
            FileKind::Group => self.spoil_some_group(numbers),
            FileKind::Limit => match numbers.below(8) {
                0 => self.spoil_limit_reserved(numbers),
                1 => self.spoil_unassigned(numbers),
                2 => self.spoil_timed_count(numbers),
                _ => self.spoil_some_limit(numbers),
            },
        }
    }

    fn spoil_setup(&mut self, numbers: &mut Numbers, errors: u16) {
        let words = &mut self.m0[..SETUP_WORDS];
        let mut limit = words[1];
        if errors & setup::SCALE_ERROR != 0 {
            words[1] = numbers.pick(&[0, 1, 1025, 2048, 32767, 32768, 65535]);
            limit = HIGHEST_SCALE;
        }
        if errors & setup::PRESET_ERROR != 0 {
            words[2] = draw_beyond(numbers, limit);
        }
        if errors & setup::OFFSET_ERROR != 0 {
            words[3] = draw_beyond(numbers, limit);
        }
        if errors & setup::DETECTOR_1_ERROR != 0 {
            spoil_detector(numbers, &mut words[4..6]);
        }
        if errors & setup::DETECTOR_2_ERROR != 0 {
            spoil_detector(numbers, &mut words[6..8]);
        }
        if errors & setup::TACH_ERROR != 0 {
            let (word, value) = numbers.pick(&[
                (8, 1101),
                (8, 65535),
                (9, 0),
                (9, 64),
                (9, 65535),
                (10, 4),
                (10, 65535),
            ]);
            words[word] = value;
        }
        if errors & setup::RESERVED_ERROR != 0 {
            let bits = [2, 3, 6, 7, 10, 11, 12, 13, 14];
            spoil_reserved(numbers, words, 0, &bits, &[12, 13, 15, 18, 19]);
        }
    }

    fn spoil_group_reserved(&mut self, numbers: &mut Numbers) {
        let words = [21, 46, 47, 80, 99];
        let bits: [u16; 14] = std::array::from_fn(|bit| bit as u16 + 1);
        spoil_reserved(numbers, &mut self.m0, GROUP_COMMAND, &bits, &words);
    }

    /// Spoils a used group, and now and then another one above it.
    fn spoil_some_group(&mut self, numbers: &mut Numbers) {
        let group = self.draw_used_group(numbers);
        let errors = draw_errors(numbers, &GROUP_ERRORS);
        self.spoil_group(numbers, group, errors);
        if numbers.one_in(3) {
            let other = self.draw_used_group(numbers);
            if other > group {
                self.spoil_group(numbers, other, group::OFFSET_ERROR);
            }
        }
    }

    /// A used group; where none is used, some group is made so.
    fn draw_used_group(&mut self, numbers: &mut Numbers) -> usize {
        let used: Vec<usize> = (0..GROUPS)
            .filter(|&group| self.group_block(group)[0] & GROUP_USED != 0)
            .collect();
        if !used.is_empty() {
            return numbers.pick(&used);
        }
        let group = numbers.below(GROUPS as u32) as usize;
        let at = group_block_at(group);
        let control = GROUP_USED | GROUP_VIRTUAL | FIRST_CYCLE_VIRTUAL | 1;
        self.m0[at..at + GROUP_BLOCK_WORDS].copy_from_slice(&[control, 0, 0, 0]);
        group
    }

    fn spoil_group(&mut self, numbers: &mut Numbers, group: usize, errors: u16) {
        let scale = self.scale();
        let dealt = self.dealt_before(group);
        let real_count = self.real_count;
        let at = group_block_at(group);
        let block = &mut self.m0[at..at + GROUP_BLOCK_WORDS];
        if errors & group::PROGRAM_ERROR != 0 {
            spoil_group_control(numbers, &mut block[0], dealt, real_count);
        }
        if errors & group::CHANNEL_ERROR != 0 {
            spoil_pair(numbers, &mut block[1..3], scale);
        }
        if errors & group::OFFSET_ERROR != 0 {
            block[3] = draw_beyond(numbers, scale);
        }
    }

    fn spoil_limit_reserved(&mut self, numbers: &mut Numbers) {
        let words = [1, 610, 611, 628, 629];
        let bits: [u16; 14] = std::array::from_fn(|bit| bit as u16 + 1);
        spoil_reserved(numbers, &mut self.m1, 0, &bits, &words);
    }

    /// Some word of an unassigned output's block.
    fn spoil_unassigned(&mut self, numbers: &mut Numbers) {
        let unassigned = self.present() & !self.assigned();
        match self.draw_output(numbers, unassigned) {
            Some(output) => {
                let word = numbers.below(LIMIT_BLOCK_WORDS as u32) as usize;
                self.m1[limit_block_at(output) + word] = draw_nonzero(numbers);
            }
            None => self.spoil_some_limit(numbers),
        }
    }

    /// Five timed outputs of a kind, or as many as there may be.
    fn spoil_timed_count(&mut self, numbers: &mut Numbers) {
        let of_kind = numbers.pick(&[0x0000_ffff, 0xffff_0000]) & self.assigned();
        let mut outputs = self.outputs_of(of_kind);
        while outputs.len() > MOST_TIMED + 1 {
            outputs.remove(numbers.below(outputs.len() as u32) as usize);
        }
        for output in outputs {
            let block = draw_limit_block(numbers, TIMED, self.scale());
            self.set_limit_block(output, &block);
        }
    }

    /// Spoils an assigned output, and now and then another one.
    fn spoil_some_limit(&mut self, numbers: &mut Numbers) {
        for _ in 0..numbers.pick(&[1, 1, 2]) {
            match self.draw_output(numbers, self.assigned()) {
                Some(output) => {
                    let errors = draw_errors(numbers, &LIMIT_ERRORS);
                    let block = self.bad_limit_block(numbers, errors);
                    self.set_limit_block(output, &block);
                }
                None => self.spoil_unassigned_or_reserved(numbers),
            }
        }
    }

    fn spoil_unassigned_or_reserved(&mut self, numbers: &mut Numbers) {
        if self.present() & !self.assigned() == 0 {
            self.spoil_limit_reserved(numbers);
        } else {
            self.spoil_unassigned(numbers);
        }
    }

    fn bad_limit_block(&self, numbers: &mut Numbers, errors: u16) -> [u16; LIMIT_BLOCK_WORDS] {
        let scale = self.scale();
        let kind = if errors & DURATION_ERROR != 0 {
            numbers.pick(&[PULSE, TIMED])
        } else {
            numbers.pick(&[NORMAL, PULSE, TIMED])
        };
        let mut block = draw_limit_block(numbers, kind, scale);
        if block[3] == 0 && block[4] == 0 {
            // Further words of a pulse or timed pair at 0/0 are unread.
            block[4] = 1;
            [block[5], block[6]] = [1, 1];
        }
        if errors & SETPOINT_ERROR != 0 {
            let pair = match kind {
                NORMAL => numbers.below(PAIRS as u32) as usize,
                _ => 0,
            };
            spoil_pair(numbers, &mut block[3 + 2 * pair..5 + 2 * pair], scale);
        }
        if errors & DURATION_ERROR != 0 {
            spoil_duration(numbers, &mut block, errors);
        }
        if errors & ADVANCE_ERROR != 0 {
            let word = numbers.pick(&[1, 2]);
            block[word] = numbers.pick(&[1000, -1000, 1001, i16::MAX, i16::MIN]) as u16;
        }
        if errors & CONTROL_ERROR != 0 {
            block[0] |= match numbers.below(3) {
                // With type 3 setpoints and durations are not tested.
                0 if errors & (SETPOINT_ERROR | DURATION_ERROR) == 0 => 3,
                1 => 0x6000,
                _ => 1 << numbers.between(2, 12),
            };
        }
        block
    }

    fn outputs_of(&self, set: u32) -> Vec<usize> {
        (0..OUTPUTS)
            .filter(|&output| set >> output & 1 != 0)
            .collect()
    }

    /// One output of a set, if there is one.
    pub fn draw_output(&self, numbers: &mut Numbers, set: u32) -> Option<usize> {
        let outputs = self.outputs_of(set);
        (!outputs.is_empty()).then(|| numbers.pick(&outputs))
    }

    /// Puts one word of the kind at an edge, or flips one of its bits.
    pub fn change_one_word(&mut self, numbers: &mut Numbers, kind: FileKind) {
        let word = self.draw_word_of(numbers, kind);
        let scale = self.scale();
        let file = match kind {
            FileKind::Setup | FileKind::Group => &mut self.m0[..],
            FileKind::Limit => &mut self.m1[..],
        };
        if numbers.one_in(4) {
            file[word] ^= 1 << numbers.between(0, 14);
        } else {
            file[word] = draw_edge(numbers, scale);
        }
    }

    /// A word that the kind's cycle reads, mostly one that is in use.
    fn draw_word_of(&mut self, numbers: &mut Numbers, kind: FileKind) -> usize {
        let anywhere = numbers.one_in(8);
        let below = |numbers: &mut Numbers, start: usize, end: usize| {
            start + numbers.below((end - start) as u32) as usize
        };
        match kind {
            FileKind::Setup => below(numbers, 1, SETUP_WORDS),
            FileKind::Group if anywhere => below(numbers, GROUP_BLOCKS_AT, SETUP_STATUS),
            FileKind::Group => {
                let group = self.draw_used_group(numbers);
                group_block_at(group) + below(numbers, 0, GROUP_BLOCK_WORDS)
            }
            FileKind::Limit => match self.draw_output(numbers, self.programmed()) {
                Some(output) if !anywhere => limit_block_at(output) + below(numbers, 0, 7),
                _ => below(numbers, LIMIT_BLOCKS_AT, LIMIT_STATUS),
            },
        }
    }
}

/// Gives a group's control word a GPgErr.
fn spoil_group_control(numbers: &mut Numbers, control: &mut u16, dealt: [u16; 2], real_count: u16) {
    let is_virtual = *control & GROUP_VIRTUAL != 0;
    let left = if is_virtual {
        16u16.saturating_sub(dealt[1])
    } else {
        real_count.saturating_sub(dealt[0])
    };
    let quantity = |control: u16, quantity: u16| control & !QUANTITY_BITS | quantity;
    match numbers.below(6) {
        0 => *control |= 1 << numbers.pick(&[5, 6, 7, 11, 12]),
        1 => *control |= 0x0600,
        2 => *control = quantity(*control, 0),
        3 => *control = quantity(*control, numbers.pick(&[17, 18, 24, 31])),
        // Mode 5 with a First Cycle Input that an 8511 does not have.
        4 if real_count == 0 => *control = *control & 0xd8ff | 0x0500,
        _ => *control = quantity(*control, left + 1),
    }
}

/// Gives a pulse or timed block bit 4. With bit 3 set, R is not tested.
fn spoil_duration(numbers: &mut Numbers, block: &mut [u16; LIMIT_BLOCK_WORDS], errors: u16) {
    if block[0] & 3 == TIMED {
        block[5] = numbers.pick(&[0, 10000, 10001, 32768, 65535]);
        return;
    }
    let [quantity, on_count] = [block[5], block[6]];
    let zero = [[0, on_count], [quantity, 0]];
    let large = [
        [1024, on_count],
        [quantity, 1024],
        [quantity, 65535],
        // Q × K + Q is 65536.
        [2, 32767],
        [256, 255],
        [32768, 1],
    ];
    let pulses = if errors & SETPOINT_ERROR != 0 || numbers.one_in(3) {
        numbers.pick(&zero)
    } else {
        numbers.pick(&large)
    };
    block[5..7].copy_from_slice(&pulses);
}
