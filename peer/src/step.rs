//! One step of 200 µs: nine words in, outputs and readings out.

use crate::group::{Group, GroupSample, Kind, GROUPS};
use crate::module::{Module, Refusal};
use crate::motion::{direction_count, machine_position, MachinePosition, Reading, TURN};
use crate::switch::OUTPUTS;
use crate::windows::Tests;

/// Words of a sample.
pub const SAMPLE_WORDS: usize = 9;

/// Bit of the LS Enable Input among a kind's inputs.
const LS_ENABLE: u16 = 6;

const REAL: u32 = 0x0000_ffff;
const VIRTUAL: u32 = 0xffff_0000;

/// What a step answers.
#[derive(Clone, Copy, Debug, Default, PartialEq, Eq)]
pub struct StepAnswer {
    /// Refusal 11, or none.
    pub refusal: Option<Refusal>,
    pub machine_position: MachinePosition,
    /// The speed, in tenths of an rpm.
    pub tenths: u32,
    pub tach: u16,
    pub tach_overflow: bool,
    pub detectors: [bool; 2],
    pub real_outputs: u16,
    pub virtual_outputs: u16,
    /// Virtual outputs changed since the previous step; 0 without SLCINT.
    pub changed: u32,
    /// Pairs of setpoints tested, 0 to 256; 0 in a step answered 11.
    pub tests: u16,
}

/// Bits 0 to 15 real, 16 to 31 virtual.
fn join(real: u16, virt: u16) -> u32 {
    u32::from(real) | u32::from(virt) << 16
}

fn bit(set: u32, number: u16) -> bool {
    set >> number & 1 != 0
}

/// How many virtual outputs differ.
fn changed_count(old: u16, new: u16) -> u32 {
    (old ^ new).count_ones()
}

/// Outputs whose LS Enable Input is active.
fn enabled(inputs: u32) -> u32 {
    let of_kind = |kind: Kind, outputs: u32| {
        if bit(inputs, kind.first_bit() + LS_ENABLE) {
            outputs
        } else {
            0
        }
    };
    of_kind(Kind::Real, REAL) | of_kind(Kind::Virtual, VIRTUAL)
}

/// Off beats on.
fn forced(states: u32, on: u32, off: u32) -> u32 {
    (states | on) & !off
}

/// What all groups and switches see in one step.
#[derive(Clone, Copy)]
struct StepView {
    machine: MachinePosition,
    /// Active inputs, forces applied.
    inputs: u32,
    turning: bool,
    stop: bool,
}

impl StepView {
    fn for_group(&self, group: &Group) -> GroupSample {
        GroupSample {
            machine: self.machine,
            input: self.inputs & group.input != 0,
            first_cycle: self.inputs & group.first_cycle != 0,
            turning: self.turning,
            stop: self.stop,
        }
    }
}

impl Module {
    /// One step. The sample is raw position, real input currents, virtual
    /// inputs, then forces on and off of real inputs, real outputs and
    /// virtual outputs.
    pub fn step(&mut self, sample: &[u16; SAMPLE_WORDS]) -> StepAnswer {
        let inputs = self.active_inputs(sample);
        if sample[0] >= TURN || self.fault {
            self.fault_step(sample);
        } else {
            self.sound_step(sample, inputs, &mut Tests::default());
        }
        self.last_inputs = inputs as u16;
        self.interrupt.request |= self.last_answer.changed != 0;
        self.last_answer
    }

    // A call of its own, so that what is lent to the tests lies in memory.
    #[inline(never)]
    fn sound_step(&mut self, sample: &[u16; SAMPLE_WORDS], inputs: u32, tests: &mut Tests) {
        let raw = sample[0];
        self.last_raw = raw;
        let q = direction_count(raw, self.setup.counter_clockwise);
        let machine = machine_position(q, self.setup.scale, self.setup.offset);
        let updates = self.motion.step(q, &self.setup);
        if updates.c_changed {
            self.place_switches();
        }
        let view = StepView {
            machine,
            inputs,
            turning: self.motion.reading.tenths != 0,
            stop: updates.stop,
        };
        let lit = self.lit(&view, tests) & !self.blocked(inputs);
        self.answer(sample, machine, self.motion.reading, lit);
        self.last_answer.tests = tests.count as u16;
    }

    fn fault_step(&mut self, sample: &[u16; SAMPLE_WORDS]) {
        self.fault = true;
        self.module_start();
        let position = self.last_answer.machine_position;
        self.answer(sample, position, Reading::FAULT, 0);
        self.last_answer.refusal = Some(Refusal::TransducerFault);
    }

    /// A real input is active where its current equals its active state.
    pub(crate) fn active_inputs(&self, sample: &[u16; SAMPLE_WORDS]) -> u32 {
        let [_, currents, virtual_inputs, on, off, ..] = *sample;
        let real = join(!(currents ^ self.setup.active_states), virtual_inputs);
        forced(real, join(on, 0), join(off, 0)) & self.present
    }

    /// Outputs whose switch holds, in Group Mode those in an open group; the
    /// pairs tested are counted.
    fn lit(&mut self, view: &StepView, tests: &mut Tests) -> u32 {
        let scale = self.setup.scale;
        if self.setup.independent {
            let position = view.machine.0;
            return self.switches.holding(0..OUTPUTS, position, scale, tests);
        }
        let mut lit = 0;
        self.group_positions = [0; GROUPS];
        for group in &mut self.groups {
            let Some(group) = group else { continue };
            let sample = view.for_group(group);
            let reached = group.state.step(&group.program, sample, scale);
            self.group_positions[group.number] = reached.0;
            // Timed switches run on while their group is closed, and closed
            // outputs are tested too.
            let row = group.row.clone();
            let holding = self.switches.holding(row, reached.0, scale, tests);
            if group.state.open {
                lit |= holding;
            }
        }
        lit
    }

    /// Outputs that are dark for their own real input in Independent Mode, for
    /// LS Enable in Group Mode, or for a motion detector.
    pub(crate) fn blocked(&self, inputs: u32) -> u32 {
        let by_inputs = if self.setup.independent {
            REAL & !inputs
        } else if self.switches.enable_anded != 0 {
            self.switches.enable_anded & !enabled(inputs)
        } else {
            0
        };
        let anded = self.switches.detector_anded.iter();
        anded
            .zip(self.motion.reading.detectors)
            .filter(|(_, on)| !on)
            .fold(by_inputs, |blocked, (anded, _)| blocked | anded)
    }

    /// Applies the output forces and counts the changed virtual outputs. The
    /// answer is left in the module, without pair tests.
    fn answer(
        &mut self,
        sample: &[u16; SAMPLE_WORDS],
        machine_position: MachinePosition,
        reading: Reading,
        lit: u32,
    ) {
        let [.., real_on, real_off, virtual_on, virtual_off] = *sample;
        let on = join(real_on, virtual_on);
        let off = join(real_off, virtual_off);
        let outputs = forced(lit, on, off) & self.present;
        let virtual_outputs = (outputs >> 16) as u16;
        let changed = if self.setup.interrupt {
            changed_count(self.last_answer.virtual_outputs, virtual_outputs)
        } else {
            0
        };
        self.last_answer = StepAnswer {
            refusal: None,
            machine_position,
            tenths: reading.tenths,
            tach: reading.tach,
            tach_overflow: reading.tach_overflow,
            detectors: reading.detectors,
            real_outputs: outputs as u16,
            virtual_outputs,
            changed,
            tests: 0,
        };
    }
}

#[cfg(test)]
mod tests {
    use super::*;

    /// Active states 0 and no current make every present input active.
    #[test]
    fn missing_real_inputs_are_inactive_forced_or_not() {
        let inputs = |number, on| {
            let module = Module::power_up(number).expect("known module");
            module.active_inputs(&[0, 0, 0x1234, on, 0, 0, 0, 0, 0])
        };
        assert_eq!(inputs(8511, 0), 0x1234_0000);
        assert_eq!(inputs(8511, 0xffff), 0x1234_0000);
        assert_eq!(inputs(8512, 0xffff), 0x1234_00ff);
        assert_eq!(inputs(8513, 0), 0x1234_ffff);
    }
}
