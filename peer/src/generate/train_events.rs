//! What happens to pulse trains in the calls of a list.

use std::io;

use crate::blocks::{limit_block_at, LIMIT_BLOCK_WORDS};
use crate::cycles::{Answer, NudgeCycle, LIMIT_STATUS, NUDGE_CLEAR_ERRORS};
use crate::generate::call_list::CallList;
use crate::generate::program::PULSE;
use crate::generate::train_blocks::least_length;
use crate::limit_block::PAIRS;
use crate::module::{Module, Refusal};
use crate::pair::Pair;
use crate::replay::{make_call, read_call, Call};
use crate::step::SAMPLE_WORDS;
use crate::switch::{bits_of, Action, Switches, OUTPUTS};
use crate::words::Words;

/// A train's pair with its Q and K.
#[derive(Clone, Copy, Debug, PartialEq, Eq)]
pub(crate) struct Train {
    /// Out of range maybe.
    pub on: i32,
    pub off: i32,
    pub quantity: u16,
    pub on_count: u16,
}

impl Train {
    fn of_block(block: &[u16]) -> Train {
        Train {
            on: block[3].into(),
            off: block[4].into(),
            quantity: block[5],
            on_count: block[6],
        }
    }

    pub fn is_unused(self) -> bool {
        (self.on, self.off) == (0, 0)
    }

    pub fn is_in_range(self, scale: u16) -> bool {
        let range = 0..i32::from(scale);
        range.contains(&self.on) && range.contains(&self.off)
    }

    /// What bit 3 asks for.
    pub fn is_sound(self, scale: u16) -> bool {
        self.is_in_range(scale) && (self.on != self.off || self.is_unused())
    }

    pub fn has_pulses(self) -> bool {
        self.quantity > 0 && self.on_count > 0
    }

    pub fn is_over_zero(self) -> bool {
        self.off < self.on
    }

    pub fn length(self, scale: u16) -> i64 {
        i64::from(self.off - self.on).rem_euclid(scale.into())
    }

    pub fn product(self) -> u64 {
        u64::from(self.quantity) * u64::from(self.on_count)
    }

    /// Q × K + Q − 1; Q is not 0.
    pub fn least(self) -> i64 {
        least_length(self.quantity, self.on_count) as i64
    }

    /// The counts that are left beside these.
    pub fn spare(self, scale: u16) -> i64 {
        self.length(scale) - self.least()
    }

    /// It would fit if only 16 bits of them were held.
    pub fn fits_when_cut(self, scale: u16) -> bool {
        self.least() % 65536 <= self.length(scale)
    }
}

/// A train that a limit cycle has judged: its output is the one that fails, or
/// lies below that.
pub(crate) struct JudgedTrain<'a> {
    pub module: &'a Module,
    pub train: Train,
    /// Word 630 where it is the one that fails; else 0.
    pub errors: u16,
}

/// A train that an acting nudge would change.
pub(crate) struct NudgedTrain<'a> {
    pub module: &'a Module,
    pub word: u16,
    pub before: Train,
    pub after: Train,
    pub is_taken: bool,
}

impl NudgedTrain<'_> {
    /// From 0.
    pub fn output(&self) -> usize {
        usize::from(self.word) % OUTPUTS
    }
}

/// A step, with the outputs that have trains not at 0/0.
pub(crate) struct TrainStep<'a> {
    pub module: &'a Module,
    pub sample: &'a [u16; SAMPLE_WORDS],
    pub outputs_before: u32,
    pub trains: u32,
}

impl TrainStep<'_> {
    /// Trains that are on and were not, by no force.
    pub fn rises(&self) -> u32 {
        let forced = u32::from(self.sample[5]) | u32::from(self.sample[7]) << 16;
        outputs(self.module) & !self.outputs_before & !forced & self.trains
    }
}

/// What happens to trains in the calls of a list.
pub(crate) enum TrainEvent<'a> {
    /// A limit cycle is accepted.
    Programmed,
    Judged(JudgedTrain<'a>),
    Nudged(NudgedTrain<'a>),
    Step(TrainStep<'a>),
}

fn outputs(module: &Module) -> u32 {
    let answer = &module.last_answer;
    u32::from(answer.real_outputs) | u32::from(answer.virtual_outputs) << 16
}

fn trains_of(switches: &Switches) -> u32 {
    let is_train = |output: &usize| {
        let switch = &switches.programs[*output];
        matches!(switch.action, Action::Pulse { .. }) && !switch.pairs[0].is_unused()
    };
    bits_of(switches.programmed)
        .filter(is_train)
        .fold(0, |trains, output| trains | 1 << output)
}

/// Makes the calls of a list; what happens to trains is seen.
pub(crate) fn each_event(list: &CallList, mut see: impl FnMut(&TrainEvent)) {
    let bytes = list.bytes();
    let mut words = Words::new(&bytes[..]);
    let (mut module, mut trains): (Option<Module>, u32) = (None, 0);
    while let Some(call) = read_call(&mut words) {
        match (call, &mut module) {
            (Call::Step(sample), Some(module)) => {
                let outputs_before = outputs(module);
                module.step(&sample);
                see(&TrainEvent::Step(TrainStep {
                    module,
                    sample: &sample,
                    outputs_before,
                    trains,
                }));
                continue;
            }
            (Call::File(cycle, mut file), Some(module)) => {
                let answer = (cycle.cycle)(module, &mut file);
                if cycle.name == "limit" {
                    see_cycle(module, answer, &file, &mut see);
                }
            }
            (Call::Nudge(word), Some(module)) => see_nudge(module, word, &mut see),
            (call, module) => make_call(call, module, &mut io::sink()).expect("nothing is written"),
        }
        trains = module
            .as_ref()
            .map_or(0, |module| trains_of(&module.switches));
    }
}

fn see_cycle(module: &Module, answer: Answer, file: &[u16], see: &mut impl FnMut(&TrainEvent)) {
    let (errors, failing) = match answer {
        Answer::Accepted => (0, OUTPUTS),
        Answer::Refused(Refusal::LimitData) if file[LIMIT_STATUS + 1] > 0 => {
            (file[LIMIT_STATUS], usize::from(file[LIMIT_STATUS + 1]) - 1)
        }
        _ => return,
    };
    if answer == Answer::Accepted {
        see(&TrainEvent::Programmed);
    }
    for output in bits_of(module.assigned()).filter(|&output| output <= failing) {
        let at = limit_block_at(output);
        let block = &file[at..at + LIMIT_BLOCK_WORDS];
        if block[0] & 3 == PULSE {
            see(&TrainEvent::Judged(JudgedTrain {
                module,
                train: Train::of_block(block),
                errors: if output == failing { errors } else { 0 },
            }));
        }
    }
}

fn see_nudge(module: &mut Module, word: u16, see: &mut impl FnMut(&TrainEvent)) {
    let before = nudged_train(module, word);
    let answer = module.nudge_cycle(word);
    let is_taken = match answer {
        Answer::Accepted => true,
        Answer::Refused(Refusal::NudgeSetpoint) => false,
        _ => return,
    };
    let Some(before) = before else { return };
    let count = if word & NudgeCycle::DOWN == 0 { 1 } else { -1 };
    let moved = |setpoint: i32, chosen: u16| match word & chosen {
        0 => setpoint,
        _ => setpoint + count,
    };
    let after = Train {
        on: moved(before.on, NudgeCycle::ON),
        off: moved(before.off, NudgeCycle::OFF),
        ..before
    };
    see(&TrainEvent::Nudged(NudgedTrain {
        module,
        word,
        before,
        after,
        is_taken,
    }));
}

/// The train that a nudge word is for, if it is for one and not for errors alone.
fn nudged_train(module: &Module, word: u16) -> Option<Train> {
    let output = usize::from(word) % OUTPUTS;
    let switch = &module.switches.programs[output];
    let is_first = usize::from(word >> 5) % PAIRS == 0;
    let is_nudge = word & NUDGE_CLEAR_ERRORS == 0;
    match switch.action {
        Action::Pulse { quantity, on_count } if is_first && is_nudge => {
            let Pair { on, off } = switch.pairs[0];
            Some(Train {
                on: on.into(),
                off: off.into(),
                quantity,
                on_count,
            })
        }
        _ => None,
    }
}
