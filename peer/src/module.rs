//! The module: its state, power-up and starts.

use crate::bus::Interrupt;
use crate::group::{GroupState, Groups, GROUPS, NO_GROUPS};
use crate::motion::Motion;
use crate::setup::{Detector, Scalars, Setup, HIGHEST_SCALE};
use crate::step::StepAnswer;
use crate::switch::Switches;

/// Why a call is turned away.
#[derive(Clone, Copy, Debug, PartialEq, Eq)]
pub enum Refusal {
    M0Length = 1,
    M1Length = 2,
    UnknownModule = 3,
    BlockNumber = 4,
    ErrorStands = 5,
    SetupData = 6,
    GroupData = 7,
    LimitData = 8,
    NudgeNumber = 9,
    NudgeSetpoint = 10,
    TransducerFault = 11,
    ByteOffset = 13,
    ByteReadOnly = 14,
    FrameData = 15,
    FrameBuffer = 16,
    FrameForm = 17,
    SectionLength = 18,
}

impl Refusal {
    pub fn number(self) -> u8 {
        self as u8
    }

    /// The error that the refusal sets, as a bit of `Module::errors`.
    pub(crate) fn error_bit(self) -> u8 {
        match self {
            Refusal::SetupData => SETUP_ERROR,
            Refusal::GroupData => 1 << 1,
            Refusal::LimitData => 1 << 2,
            Refusal::NudgeNumber => 1 << 3,
            Refusal::NudgeSetpoint => 1 << 4,
            _ => 0,
        }
    }
}

/// SUErr, which stands at power-up.
const SETUP_ERROR: u8 = 1 << 0;

/// One limit switch card.
#[derive(Clone, Debug, PartialEq, Eq)]
pub struct Module {
    /// Inputs and outputs that it has: bits 0 to 15 real, 16 to 31 virtual.
    pub(crate) present: u32,
    pub(crate) setup: Setup,
    pub(crate) groups: Groups,
    pub(crate) switches: Switches,
    pub(crate) motion: Motion,
    /// Bit 0 setup, 1 group, 2 limit, 3 nudge.
    pub(crate) acknowledges: u8,
    /// Bit 0 SUErr, 1 GPErr, 2 LSErr, 3 I/DNum, 4 I/DSet.
    pub(crate) errors: u8,
    pub(crate) fault: bool,
    pub(crate) message_ignored: bool,
    /// Words 112 to 117: positions that the last step left.
    pub(crate) group_positions: [u16; GROUPS],
    /// Raw position of the last step since power-up not answered 11; 0 if
    /// none.
    pub(crate) last_raw: u16,
    /// What the last step since power-up answered, 11 or not; all 0 before
    /// the first.
    pub(crate) last_answer: StepAnswer,
    /// Real inputs that were active in that step, forces applied.
    pub(crate) last_inputs: u16,
    pub(crate) interrupt: Interrupt,
}

impl Module {
    pub const DEFAULT_SETUP: Setup = Setup {
        scale: HIGHEST_SCALE,
        preset: 0,
        offset: 0,
        counter_clockwise: false,
        fast_response: false,
        interrupt: false,
        independent: false,
        detectors: [Detector { low: 0, high: 0 }; 2],
        scalars: Scalars {
            multiplier: 1,
            divisor: 1,
            code: 0,
        },
        active_states: 0,
    };

    /// A fresh module 8511, 8512 or 8513; refusal 3 for any other number.
    pub fn power_up(number: u16) -> Result<Module, Refusal> {
        let real_count = match number {
            8511 => 0,
            8512 => 8,
            8513 => 16,
            _ => return Err(Refusal::UnknownModule),
        };
        Ok(Module {
            present: 0xffff_0000 | ((1 << real_count) - 1),
            setup: Module::DEFAULT_SETUP,
            groups: NO_GROUPS,
            switches: Switches::NONE,
            motion: Motion::start(&Module::DEFAULT_SETUP),
            acknowledges: 0,
            errors: SETUP_ERROR,
            fault: false,
            message_ignored: false,
            group_positions: [0; GROUPS],
            last_raw: 0,
            last_answer: StepAnswer::default(),
            last_inputs: 0,
            interrupt: Interrupt::default(),
        })
    }

    /// Acknowledges: bit 0 setup, 1 group, 2 limit, 3 nudge.
    pub fn acknowledges(&self) -> u8 {
        self.acknowledges
    }

    /// Errors: bit 0 SUErr, 1 GPErr, 2 LSErr, 3 I/DNum, 4 I/DSet.
    pub fn errors(&self) -> u8 {
        self.errors
    }

    /// The transducer fault is latched.
    pub fn fault(&self) -> bool {
        self.fault
    }

    /// MsgIgn: the last acting cycle was refused 5.
    pub fn message_ignored(&self) -> bool {
        self.message_ignored
    }

    /// Real inputs and outputs: 0, 8 or 16.
    pub(crate) fn real_count(&self) -> u16 {
        (self.present & 0xffff).count_ones() as u16
    }

    /// Outputs that a limit program may use.
    pub(crate) fn assigned(&self) -> u32 {
        if self.setup.independent {
            return self.present;
        }
        self.groups
            .iter()
            .flatten()
            .fold(0, |outputs, group| outputs | group.outputs)
    }

    /// Power-up aside, an accepted setup cycle and a step answered 11.
    pub(crate) fn module_start(&mut self) {
        let c_before = self.motion.c;
        self.motion = Motion::start(&self.setup);
        if c_before != 0 {
            self.place_switches();
        }
        self.group_positions = [0; GROUPS];
        self.group_start();
    }

    /// A module start or an accepted group cycle.
    pub(crate) fn group_start(&mut self) {
        for group in self.groups.iter_mut().flatten() {
            group.state = GroupState::START;
        }
        self.switches.restart_timers();
    }

    /// Due when c or the limit programming changes.
    pub(crate) fn place_switches(&mut self) {
        self.switches.place(self.motion.c, self.setup.scale);
    }
}

#[cfg(test)]
mod tests {
    use super::*;
    use crate::cycles::Answer;

    fn accept(module: &mut Module, file: &mut [u16], cycle: fn(&mut Module, &mut [u16]) -> Answer) {
        assert_eq!(cycle(module, file), Answer::Accepted);
        file[0] = 0;
        cycle(module, file);
    }

    /// Windows follow c, the limit programming and the starts at once.
    #[test]
    fn switches_are_always_placed() {
        let mut module = Module::power_up(8513).expect("known module");
        let mut m0 = [0; 120];
        m0[..10].copy_from_slice(&[0x8201, 1000, 0, 0, 0, 0, 0, 0, 1, 1]);
        let mut m1 = [0; 650];
        m1[..7].copy_from_slice(&[0x8001, 0, 0, 500, 100, 10, 200]);
        let (setup, limits) = (m0, m1);
        accept(&mut module, &mut m0, Module::setup_cycle);
        for step in 0..3000u32 {
            match step {
                130 | 1330 => accept(&mut module, &mut limits.clone(), Module::limit_cycle),
                700 => accept(&mut module, &mut setup.clone(), Module::setup_cycle),
                _ => {}
            }
            if step % 7 == 0 {
                module.nudge_cycle(0xc000);
                module.nudge_cycle(0);
                module.nudge_cycle(0x8100);
                module.nudge_cycle(0);
            }
            let raw = if step == 1500 {
                2000
            } else {
                step * step / 300 % 1024
            };
            module.step(&[raw as u16, 0, 0, 0, 0, 0, 0, 0, 0]);
            let mut placed = module.clone();
            placed.place_switches();
            assert_eq!(placed, module, "step {step}");
        }
    }
}
