//! Output groups: their programming blocks, position, dwell and openness.

use std::ops::Range;

use crate::blocks::{BlockFault, GROUP_BLOCK_WORDS};
use crate::motion::MachinePosition;
use crate::pair::{distance, pair_holds, sum, Pair};

pub const GROUPS: usize = 6;
/// Bit of the First Cycle Input among a kind's inputs.
pub(crate) const FIRST_CYCLE: u16 = 7;

pub(crate) const QUANTITY_BITS: u16 = 0x001f;
pub(crate) const MODE_SHIFT: u16 = 8;
pub(crate) const MODE_BITS: u16 = 7 << MODE_SHIFT;
pub(crate) const FIRST_CYCLE_VIRTUAL: u16 = 1 << 13;
pub(crate) const GROUP_VIRTUAL: u16 = 1 << 14;
pub(crate) const GROUP_USED: u16 = 1 << 15;
/// Bits 5 to 7, 11 and 12 of the control word have no name.
const UNNAMED_BITS: u16 = 0x18e0;

/// Bits of word 110.
pub const OFFSET_ERROR: u16 = 1 << 0;
pub const PROGRAM_ERROR: u16 = 1 << 1;
pub const CHANNEL_ERROR: u16 = 1 << 2;

/// The position that the switches of a group read.
#[derive(Clone, Copy, Debug, Default, PartialEq, Eq)]
pub struct GroupPosition(pub u16);

/// Real inputs and outputs are numbered 1 to 16, virtual ones 17 to 32.
#[derive(Clone, Copy, Debug, PartialEq, Eq)]
pub enum Kind {
    Real,
    Virtual,
}

impl Kind {
    fn virtual_if(bit_set: bool) -> Kind {
        if bit_set {
            Kind::Virtual
        } else {
            Kind::Real
        }
    }

    /// Bit of the kind's first input or output among the 32.
    pub fn first_bit(self) -> u16 {
        match self {
            Kind::Real => 0,
            Kind::Virtual => 16,
        }
    }
}

/// Operating Mode.
#[derive(Clone, Copy, Debug, PartialEq, Eq)]
pub enum Mode {
    Mode0,
    Mode1,
    Mode2,
    Mode3,
    Mode4,
    Mode5,
}

impl Mode {
    pub fn of_number(number: u16) -> Option<Mode> {
        match number {
            0 => Some(Mode::Mode0),
            1 => Some(Mode::Mode1),
            2 => Some(Mode::Mode2),
            3 => Some(Mode::Mode3),
            4 => Some(Mode::Mode4),
            5 => Some(Mode::Mode5),
            _ => None,
        }
    }
}

fn mode_number(control: u16) -> u16 {
    (control & MODE_BITS) >> MODE_SHIFT
}

/// The programming of a used group.
#[derive(Clone, Copy, Debug, PartialEq, Eq)]
pub struct GroupProgram {
    pub kind: Kind,
    pub quantity: u16,
    pub mode: Mode,
    pub first_cycle_kind: Kind,
    pub channel: Pair,
    /// The preset in Modes 1 and 2, the offset in the others.
    pub offset: u16,
}

/// Whether the block programs a group at all; if not, its other bits and
/// words are ignored.
pub fn is_used(block: &[u16; GROUP_BLOCK_WORDS]) -> bool {
    block[0] & GROUP_USED != 0
}

/// The failing bits of word 110 for a used group's block. `left` are the
/// real and virtual outputs not yet dealt; `has_real_inputs` is false on an
/// 8511.
fn group_block_errors(
    block: &[u16; GROUP_BLOCK_WORDS],
    scale: u16,
    left: [u16; 2],
    has_real_inputs: bool,
) -> u16 {
    let [control, on, off, offset] = *block;
    let kind = Kind::virtual_if(control & GROUP_VIRTUAL != 0);
    let quantity = control & QUANTITY_BITS;
    let mode = Mode::of_number(mode_number(control));
    let first_cycle_missing =
        mode == Some(Mode::Mode5) && control & FIRST_CYCLE_VIRTUAL == 0 && !has_real_inputs;
    let mut errors = 0;
    if offset >= scale {
        errors |= OFFSET_ERROR;
    }
    if control & UNNAMED_BITS != 0
        || !(1..=16).contains(&quantity)
        || quantity > left[kind as usize]
        || mode.is_none()
        || first_cycle_missing
    {
        errors |= PROGRAM_ERROR;
    }
    if !(Pair { on, off }).is_sound(scale) {
        errors |= CHANNEL_ERROR;
    }
    errors
}

/// The program of a used block without errors.
pub fn decode_group(block: &[u16; GROUP_BLOCK_WORDS]) -> GroupProgram {
    let [control, on, off, offset] = *block;
    GroupProgram {
        kind: Kind::virtual_if(control & GROUP_VIRTUAL != 0),
        quantity: control & QUANTITY_BITS,
        mode: Mode::of_number(mode_number(control)).unwrap_or(Mode::Mode0),
        first_cycle_kind: Kind::virtual_if(control & FIRST_CYCLE_VIRTUAL != 0),
        channel: Pair { on, off },
        offset,
    }
}

/// What a step brings to a group.
#[derive(Clone, Copy, Debug, PartialEq, Eq)]
pub struct GroupSample {
    pub machine: MachinePosition,
    /// The Group Input and First Cycle Input are active.
    pub input: bool,
    pub first_cycle: bool,
    /// The tenths are not 0.
    pub turning: bool,
    /// The step is an update of 0 tenths.
    pub stop: bool,
}

/// What a group keeps from one step to the next, as far as its mode needs it.
#[derive(Clone, Debug, PartialEq, Eq)]
pub struct GroupState {
    /// Added to Machine Position in Modes 1 and 2.
    shift: u16,
    /// The next edge is taken.
    pub(crate) armed: bool,
    /// The dwell held at the end of the last step.
    pub(crate) in_dwell: bool,
    /// The inputs in the last step.
    pub(crate) input: bool,
    pub(crate) first_cycle: bool,
    /// A qualifying step came since the latest dwell began.
    pub(crate) qualified: bool,
    pub open: bool,
}

impl GroupState {
    /// The state at a group start. The first edge after it is taken.
    pub const START: GroupState = GroupState {
        shift: 0,
        armed: true,
        in_dwell: false,
        input: false,
        first_cycle: false,
        qualified: false,
        open: false,
    };

    /// One step; gives the Group Position that it leaves.
    #[inline]
    pub fn step(
        &mut self,
        program: &GroupProgram,
        sample: GroupSample,
        scale: u16,
    ) -> GroupPosition {
        match program.mode {
            Mode::Mode1 | Mode::Mode2 => self.step_with_preset(program, &sample, scale),
            _ => self.step_with_offset(program, &sample, scale),
        }
    }

    /// A step of Mode 1 or 2.
    #[inline]
    fn step_with_preset(
        &mut self,
        program: &GroupProgram,
        sample: &GroupSample,
        scale: u16,
    ) -> GroupPosition {
        let position = self.position(program, sample.machine, scale);
        let begins = self.dwell_begins(program, position, scale);
        let taken = self.takes_edge(begins, sample.input);
        self.open = program.mode == Mode::Mode1 || self.open;
        if taken {
            self.preset(program, sample.machine, scale)
        } else {
            position
        }
    }

    /// A step of another mode.
    #[inline]
    fn step_with_offset(
        &mut self,
        program: &GroupProgram,
        sample: &GroupSample,
        scale: u16,
    ) -> GroupPosition {
        let position = self.position(program, sample.machine, scale);
        match program.mode {
            Mode::Mode3 => self.open = sample.input,
            Mode::Mode4 => {
                let begins = self.dwell_begins(program, position, scale);
                let edge = self.has_edge(sample.input);
                self.open = (self.open && !begins) || (edge && self.in_dwell);
            }
            Mode::Mode5 => {
                let begins = self.dwell_begins(program, position, scale);
                self.step_mode_5(begins, sample);
            }
            _ => self.open = true,
        }
        position
    }

    /// Whether the Group Input became active.
    fn has_edge(&mut self, input: bool) -> bool {
        let before = std::mem::replace(&mut self.input, input);
        input && !before
    }

    /// Judges the dwell; tells whether it begins.
    #[inline]
    fn dwell_begins(
        &mut self,
        program: &GroupProgram,
        position: GroupPosition,
        scale: u16,
    ) -> bool {
        let holds = pair_holds(program.channel, position.0, scale);
        let held = std::mem::replace(&mut self.in_dwell, holds);
        holds && !held
    }

    pub(crate) fn position(
        &self,
        program: &GroupProgram,
        machine: MachinePosition,
        scale: u16,
    ) -> GroupPosition {
        let shift = match program.mode {
            Mode::Mode1 | Mode::Mode2 => self.shift,
            _ => program.offset,
        };
        GroupPosition(sum(machine.0, shift, scale))
    }

    /// A dwell's beginning closes and arms before the edge is looked at; a
    /// taken edge opens and disarms.
    fn takes_edge(&mut self, begins: bool, input: bool) -> bool {
        if begins {
            self.open = false;
            self.armed = true;
        }
        let taken = self.has_edge(input) && self.armed;
        if taken {
            self.open = true;
            self.armed = false;
        }
        taken
    }

    /// Sets the position to the preset and judges the dwell for the step's
    /// end.
    fn preset(
        &mut self,
        program: &GroupProgram,
        machine: MachinePosition,
        scale: u16,
    ) -> GroupPosition {
        self.shift = distance(machine.0, program.offset, scale);
        self.in_dwell = pair_holds(program.channel, program.offset, scale);
        GroupPosition(program.offset)
    }

    /// Beginning, qualifying step, stop, First Cycle edge, in this order.
    fn step_mode_5(&mut self, begins: bool, sample: &GroupSample) {
        if begins {
            self.open = false;
            self.qualified = false;
        }
        if self.in_dwell && sample.input && sample.turning {
            self.open = true;
            self.qualified = true;
        }
        if sample.stop {
            self.open = false;
        }
        let pressed_before = std::mem::replace(&mut self.first_cycle, sample.first_cycle);
        if sample.first_cycle && !pressed_before && self.qualified {
            self.open = true;
        }
    }
}

/// A used group: its programming, its outputs and what it keeps.
#[derive(Clone, Debug, PartialEq, Eq)]
pub struct Group {
    pub program: GroupProgram,
    /// Its outputs among the 32.
    pub outputs: u32,
    /// The same as a row, counted from 0.
    pub(crate) row: Range<usize>,
    /// From 0 to 5.
    pub(crate) number: usize,
    /// Its Group Input and First Cycle Input among the 32, one bit each.
    pub(crate) input: u32,
    pub(crate) first_cycle: u32,
    pub state: GroupState,
}

pub type Groups = [Option<Group>; GROUPS];

pub const NO_GROUPS: Groups = [const { None }; GROUPS];

/// Checks the six blocks and deals the outputs, each kind consecutively.
pub(crate) fn read_groups(
    blocks: &[[u16; GROUP_BLOCK_WORDS]],
    scale: u16,
    real_count: u16,
) -> Result<Groups, BlockFault> {
    let mut groups = NO_GROUPS;
    // The next output of each kind to be dealt, and the end of each kind.
    let mut next = [Kind::Real.first_bit(), Kind::Virtual.first_bit()];
    let end = [real_count, 32];
    for (index, (group, block)) in groups.iter_mut().zip(blocks).enumerate() {
        if !is_used(block) {
            continue;
        }
        let left = [end[0] - next[0], end[1] - next[1]];
        let errors = group_block_errors(block, scale, left, real_count > 0);
        if errors != 0 {
            return Err(BlockFault::of_block(index, errors));
        }
        let program = decode_group(block);
        let first = &mut next[program.kind as usize];
        let row = *first..*first + program.quantity;
        *group = Some(Group {
            outputs: ((1 << program.quantity) - 1) << row.start,
            row: usize::from(row.start)..usize::from(row.end),
            number: index,
            input: 1 << (program.kind.first_bit() + index as u16),
            first_cycle: 1 << (program.first_cycle_kind.first_bit() + FIRST_CYCLE),
            state: GroupState::START,
            program,
        });
        *first = row.end;
    }
    Ok(groups)
}
