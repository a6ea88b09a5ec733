//! Steps, told from outside the module: stops, and First Cycle presses in
//! their steps.

use std::io;

use crate::cycles::Answer;
use crate::generate::call_list::CallList;
use crate::group::{Group, Groups, Mode};
use crate::module::Module;
use crate::motion::STEPS_PER_MS;
use crate::replay::{make_call, read_call, Call};
use crate::step::{StepAnswer, SAMPLE_WORDS};
use crate::words::Words;

/// Counts the steps since the module start.
#[derive(Default)]
pub(crate) struct Clock {
    pub steps: u32,
}

impl Clock {
    /// A power-up that gives a module is a module start.
    pub fn power_up(&mut self, number: u16) {
        if Module::power_up(number).is_ok() {
            self.steps = 0;
        }
    }

    /// So is an accepted setup cycle.
    pub fn cycle(&mut self, name: &str, answer: Answer) {
        if name == "setup" && answer == Answer::Accepted {
            self.steps = 0;
        }
    }

    /// Whether the step that the module has made is an update of the speed. A
    /// step answered 11 is a module start.
    pub fn is_update(&mut self, module: &Module, answer: &StepAnswer) -> bool {
        self.steps += 1;
        if answer.refusal.is_some() {
            self.steps = 0;
        }
        self.steps > 0 && self.steps.is_multiple_of(window_steps(module))
    }
}

/// Steps from one update of the speed to the next.
fn window_steps(module: &Module) -> u32 {
    module.setup.window_ms() * STEPS_PER_MS
}

/// What is seen of a step.
pub(crate) struct SeenStep<'a> {
    pub before: &'a Groups,
    pub after: &'a Groups,
    pub sample: &'a [u16; SAMPLE_WORDS],
    pub answer: &'a StepAnswer,
    /// Steps since the module start, this one included; 0 where it is answered
    /// 11.
    pub steps: u32,
    /// It updates the speed.
    pub update: bool,
    /// The module after it.
    pub module: &'a Module,
}

impl<'a> SeenStep<'a> {
    /// An update of 0 tenths.
    pub fn is_stop(&self) -> bool {
        self.update && self.answer.tenths == 0
    }

    /// Steps from one update of the speed to the next.
    pub fn window(&self) -> u32 {
        window_steps(self.module)
    }

    /// The used groups, before and after.
    pub fn groups(&self) -> impl Iterator<Item = (&'a Group, &'a Group)> {
        self.before
            .iter()
            .flatten()
            .zip(self.after.iter().flatten())
    }
}

/// Makes the calls of a list; each step is seen.
pub(crate) fn each_step(list: &CallList, mut see: impl FnMut(SeenStep)) {
    let bytes = list.bytes();
    let mut words = Words::new(&bytes[..]);
    let (mut module, mut clock): (Option<Module>, _) = (None, Clock::default());
    while let Some(call) = read_call(&mut words) {
        match (call, &mut module) {
            (Call::Step(sample), Some(module)) => {
                let before = module.groups.clone();
                let answer = module.step(&sample);
                let update = clock.is_update(module, &answer);
                see(SeenStep {
                    before: &before,
                    after: &module.groups,
                    sample: &sample,
                    answer: &answer,
                    steps: clock.steps,
                    update,
                    module,
                });
            }
            (Call::File(cycle, mut file), Some(module)) => {
                let answer = (cycle.cycle)(module, &mut file);
                clock.cycle(cycle.name, answer);
            }
            (call, module) => {
                if let Call::PowerUp(number) = call {
                    clock.power_up(number);
                }
                make_call(call, module, &mut io::sink()).expect("nothing is written");
            }
        }
    }
}

/// A Mode 5 group has an edge of its First Cycle Input.
pub(crate) fn is_pressed(before: &Group, after: &Group) -> bool {
    let edge = after.state.first_cycle && !before.state.first_cycle;
    after.program.mode == Mode::Mode5 && edge
}

/// First Cycle presses in the steps of stops.
#[derive(Clone, Copy, Debug, Default, PartialEq, Eq)]
pub struct StopPresses {
    /// Steps with a stop in which a Mode 5 group has a First Cycle edge.
    pub steps: u64,
    /// Those of them in which the edge of such a group counts.
    pub counted: u64,
}

impl StopPresses {
    /// Those in a list.
    pub fn of_list(list: &CallList) -> StopPresses {
        let mut presses = StopPresses::default();
        each_step(list, |step| {
            let pressed = || {
                step.groups()
                    .filter(|(before, after)| step.is_stop() && is_pressed(before, after))
            };
            presses.steps += u64::from(pressed().next().is_some());
            presses.counted += u64::from(pressed().any(|(_, after)| after.state.qualified));
        });
        presses
    }
}
