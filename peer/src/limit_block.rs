//! Limit switch programming blocks: their layout and their checks.

use crate::blocks::{BlockFault, LIMIT_BLOCK_WORDS};
use crate::pair::Pair;
use crate::pulse::pulses_fit;
use crate::switch::{Switches, OUTPUTS};

/// Pairs of a normal switch.
pub const PAIRS: usize = 8;

pub(crate) const ENABLE_BIT: u16 = 1 << 15;
pub(crate) const DETECTOR_SHIFT: u16 = 13;
const RESERVED_CONTROL_BITS: u16 = 0x1ffc;
pub(crate) const HIGHEST_ADVANCE: i16 = 999;
/// Timed switches of one kind.
pub const MOST_TIMED: usize = 4;

/// Bits of word 630.
pub const UNASSIGNED: u16 = 1 << 0;
pub const CONTROL_ERROR: u16 = 1 << 1;
pub const ADVANCE_ERROR: u16 = 1 << 2;
pub const SETPOINT_ERROR: u16 = 1 << 3;
pub const DURATION_ERROR: u16 = 1 << 4;

/// Type bits of the control word.
#[derive(Clone, Copy, Debug, PartialEq, Eq)]
pub(crate) enum SwitchType {
    Normal,
    Pulse,
    Timed,
    Bad,
}

pub(crate) fn switch_type(control: u16) -> SwitchType {
    match control & 3 {
        0 => SwitchType::Normal,
        1 => SwitchType::Pulse,
        2 => SwitchType::Timed,
        _ => SwitchType::Bad,
    }
}

/// A timed switch counts toward the four of its kind.
pub fn is_timed(block: &[u16; LIMIT_BLOCK_WORDS]) -> bool {
    switch_type(block[0]) == SwitchType::Timed
}

/// An all-zero block leaves its output unprogrammed.
pub fn is_all_zero(block: &[u16; LIMIT_BLOCK_WORDS]) -> bool {
    block.iter().all(|&word| word == 0)
}

/// Pair `index`, from 0 to 7.
pub(crate) fn block_pair(block: &[u16; LIMIT_BLOCK_WORDS], index: usize) -> Pair {
    Pair {
        on: block[3 + 2 * index],
        off: block[4 + 2 * index],
    }
}

/// ON and OFF advance in tenths of a ms.
pub(crate) fn advances(block: &[u16; LIMIT_BLOCK_WORDS]) -> [i16; 2] {
    [block[1] as i16, block[2] as i16]
}

/// The failing bits of word 630 for one output. `assigned` is true in
/// Independent Mode; `timed_before` counts the timed switches of the
/// output's kind in lower blocks.
fn limit_block_errors(
    block: &[u16; LIMIT_BLOCK_WORDS],
    scale: u16,
    assigned: bool,
    timed_before: usize,
) -> u16 {
    if is_all_zero(block) {
        return 0;
    }
    if !assigned {
        return UNASSIGNED;
    }
    let errors = control_errors(block[0]) | advance_errors(advances(block));
    let pair = block_pair(block, 0);
    match switch_type(block[0]) {
        SwitchType::Bad => errors,
        SwitchType::Normal => errors | normal_errors(block, scale),
        SwitchType::Pulse => errors | pulse_errors(pair, block[5], block[6], scale),
        SwitchType::Timed => errors | timed_errors(pair, block[5], scale, timed_before),
    }
}

/// The motion detector that the output is ANDed with, or 0 for none.
pub(crate) fn anded_detector(control: u16) -> u16 {
    (control >> DETECTOR_SHIFT) & 3
}

fn control_errors(control: u16) -> u16 {
    if control & RESERVED_CONTROL_BITS != 0
        || anded_detector(control) == 3
        || switch_type(control) == SwitchType::Bad
    {
        CONTROL_ERROR
    } else {
        0
    }
}

fn advance_errors(advances: [i16; 2]) -> u16 {
    let range = -HIGHEST_ADVANCE..=HIGHEST_ADVANCE;
    if advances.iter().all(|advance| range.contains(advance)) {
        0
    } else {
        ADVANCE_ERROR
    }
}

/// Bit 3 for one pair.
pub fn setpoint_errors(pair: Pair, scale: u16) -> u16 {
    if pair.is_sound(scale) {
        0
    } else {
        SETPOINT_ERROR
    }
}

fn normal_errors(block: &[u16; LIMIT_BLOCK_WORDS], scale: u16) -> u16 {
    (0..PAIRS).fold(0, |errors, index| {
        errors | setpoint_errors(block_pair(block, index), scale)
    })
}

fn timed_errors(pair: Pair, duration_ms: u16, scale: u16, timed_before: usize) -> u16 {
    let duration_read = !pair.is_unused();
    let duration_bad = duration_read && !(1..=9999).contains(&duration_ms);
    let mut errors = setpoint_errors(pair, scale);
    if duration_bad || timed_before >= MOST_TIMED {
        errors |= DURATION_ERROR;
    }
    errors
}

/// Bits 3 and 4 for a pulse train.
pub fn pulse_errors(pair: Pair, quantity: u16, on_count: u16, scale: u16) -> u16 {
    if pair.is_unused() {
        return 0;
    }
    let setpoints = setpoint_errors(pair, scale);
    // The length of an unsound pair is not judged.
    let fits = setpoints != 0 || pulses_fit(pair.length(scale), quantity, on_count);
    if quantity == 0 || on_count == 0 || !fits {
        return setpoints | DURATION_ERROR;
    }
    setpoints
}

/// Checks the blocks of the outputs in `present`; `assigned` are those that
/// may be programmed.
pub(crate) fn read_switches(
    blocks: &[[u16; LIMIT_BLOCK_WORDS]],
    scale: u16,
    present: u32,
    assigned: u32,
) -> Result<Switches, BlockFault> {
    let mut switches = Switches::NONE;
    let mut timed = [0; 2];
    for (output, block) in blocks.iter().enumerate().take(OUTPUTS) {
        let bit = 1 << output;
        if present & bit == 0 {
            continue;
        }
        let timed_of_kind = &mut timed[output / 16];
        let errors = limit_block_errors(block, scale, assigned & bit != 0, *timed_of_kind);
        if errors != 0 {
            return Err(BlockFault::of_block(output, errors));
        }
        if !is_all_zero(block) {
            *timed_of_kind += usize::from(is_timed(block));
            switches.program(output, block);
        }
    }
    Ok(switches)
}
