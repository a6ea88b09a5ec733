//! What the lists reach inside the module, seen call by call.

use std::collections::BTreeMap;
use std::io;

use crate::cycles::{Answer, NudgeCycle, NUDGE_CLEAR_ERRORS};
use crate::generate::stops::{is_pressed, Clock};
use crate::generate::{cycle_list, step_list, CallList, USUAL_STEPS};
use crate::group::{Group, Mode};
use crate::module::{Module, Refusal};
use crate::motion::MachinePosition;
use crate::pair::pair_holds;
use crate::replay::{make_call, read_call, Call};
use crate::step::{StepAnswer, SAMPLE_WORDS};
use crate::switch::Action;
use crate::words::Words;

/// How often each event was seen.
#[derive(Default)]
struct Seen {
    counts: BTreeMap<String, usize>,
    clock: Clock,
    /// The last step was a stop.
    stopped: bool,
}

fn kind_of(output: usize) -> &'static str {
    if output < 16 {
        "real"
    } else {
        "virtual"
    }
}

fn type_of(module: &Module, output: usize) -> &'static str {
    match module.switches.programs[output].action {
        _ if module.switches.programmed >> output & 1 == 0 => "unprogrammed",
        Action::Normal => "normal",
        Action::Pulse { .. } => "pulse",
        Action::Timed { .. } => "timed",
    }
}

impl Seen {
    fn see(&mut self, event: impl Into<String>) {
        *self.counts.entry(event.into()).or_default() += 1;
    }

    fn see_if(&mut self, happened: bool, event: &str) {
        if happened {
            self.see(event);
        }
    }

    fn run(&mut self, list: &CallList) {
        let bytes = list.bytes();
        let mut words = Words::new(&bytes[..]);
        let mut module = None;
        self.clock = Clock::default();
        while let Some(call) = read_call(&mut words) {
            match (call, &mut module) {
                (Call::Step(sample), Some(module)) => self.step(module, &sample),
                (Call::Nudge(word), Some(module)) => self.nudge(module, word),
                (Call::File(cycle, mut file), Some(module)) => {
                    let answer = (cycle.cycle)(module, &mut file);
                    self.cycle(cycle.name, answer);
                }
                (call, module) => {
                    if let Call::PowerUp(number) = call {
                        self.clock.power_up(number);
                    }
                    make_call(call, module, &mut io::sink()).expect("nothing is written");
                }
            }
        }
    }

    fn cycle(&mut self, name: &str, answer: Answer) {
        if self.clock.steps > 0 {
            self.see(format!("{name} {answer:?} after steps"));
        }
        self.clock.cycle(name, answer);
    }

    fn nudge(&mut self, module: &mut Module, word: u16) {
        let output = usize::from(word & 0x1f);
        let switch = type_of(module, output);
        let answer = module.nudge_cycle(word);
        if answer == Answer::Idle || word & NUDGE_CLEAR_ERRORS != 0 {
            return;
        }
        let setpoints = match word & (NudgeCycle::ON | NudgeCycle::OFF) {
            0 => "neither",
            NudgeCycle::ON => "on",
            NudgeCycle::OFF => "off",
            _ => "both",
        };
        let direction = if word & NudgeCycle::DOWN != 0 {
            "down"
        } else {
            "up"
        };
        self.see(format!("nudge {switch} {setpoints} {direction} {answer:?}"));
    }

    fn step(&mut self, module: &mut Module, sample: &[u16; SAMPLE_WORDS]) {
        let before = module.groups.clone();
        let answer = module.step(sample);
        self.readings(module, &answer);
        let stop = self.clock.is_update(module, &answer) && answer.tenths == 0;
        if answer.refusal.is_some() {
            return;
        }
        self.see_if(stop, "stop");
        for index in 0..before.len() {
            if let (Some(before), Some(after)) = (&before[index], &module.groups[index]) {
                self.group(before, after, answer.machine_position, module.setup.scale);
                self.first_cycle(before, after, stop);
            }
        }
        self.stopped = stop;
        self.outputs(module, sample, &answer);
    }

    fn readings(&mut self, module: &Module, answer: &StepAnswer) {
        self.see_if(answer.refusal == Some(Refusal::TransducerFault), "11");
        self.see_if(answer.changed > 0, "changed count");
        self.see_if(
            answer.refusal.is_some() && answer.changed > 0,
            "11 with changes",
        );
        self.see_if(answer.tach_overflow, "TachOv");
        self.see_if(answer.detectors == [true; 2], "both detectors");
        self.see_if(answer.tenths >> 20 != 0, "tenths over 20 bits");
        self.see_if(module.motion.c > 0, "forward");
        self.see_if(module.motion.c < 0, "backward");
        self.see(format!("SF {}", module.setup.scale));
    }

    fn group(&mut self, before: &Group, after: &Group, machine: MachinePosition, scale: u16) {
        let program = &after.program;
        let openness = if after.state.open { "open" } else { "closed" };
        self.see(format!("{:?} {:?} {openness}", program.kind, program.mode));
        let edge = after.state.input && !before.state.input;
        if !edge || !matches!(program.mode, Mode::Mode1 | Mode::Mode2) {
            return;
        }
        let led_to = before.state.position(program, machine, scale);
        let begins = !before.state.in_dwell && pair_holds(program.channel, led_to.0, scale);
        self.see_if(begins, "edge as a dwell begins");
        if before.state.armed {
            self.see(format!("{:?} edge taken", program.mode));
            self.see_if(after.state.in_dwell, "preset into the dwell");
            self.see_if(!after.state.in_dwell, "preset out of the dwell");
        } else if !begins {
            self.see(format!("{:?} edge not taken", program.mode));
        }
    }

    fn first_cycle(&mut self, before: &Group, after: &Group, stop: bool) {
        if !is_pressed(before, after) || !after.state.qualified {
            return;
        }
        self.see_if(stop, "First Cycle edge in a stop");
        self.see_if(self.stopped, "First Cycle edge after a stop");
        let opened = !before.state.open && after.state.open && !after.state.in_dwell;
        self.see_if(opened, "opened by First Cycle");
    }

    fn outputs(&mut self, module: &Module, sample: &[u16; SAMPLE_WORDS], answer: &StepAnswer) {
        let forced = u32::from(sample[5]) | u32::from(sample[7]) << 16;
        let lit = u32::from(answer.real_outputs) | u32::from(answer.virtual_outputs) << 16;
        for output in (0..32).filter(|output| (lit & !forced) >> output & 1 != 0) {
            let mode = if module.setup.independent {
                "independent"
            } else {
                "group"
            };
            let switch = type_of(module, output);
            self.see(format!("{} {switch} lit, {mode}", kind_of(output)));
        }
    }

    fn assert_seen(&self, events: impl IntoIterator<Item = String>) {
        for event in events {
            assert!(self.counts.contains_key(&event), "never seen: {event}");
        }
    }

    fn print(&self) {
        for (event, count) in &self.counts {
            println!("{count:8} {event}");
        }
    }
}

/// Every choice of one word from each list, in order, with spaces between.
fn all_of(lists: &[&[&str]]) -> Vec<String> {
    lists.iter().fold(vec![String::new()], |names, words| {
        let longer = |name: &String, word: &&str| match name.as_str() {
            "" => word.to_string(),
            name => format!("{name} {word}"),
        };
        names
            .iter()
            .flat_map(|name| words.iter().map(move |word| longer(name, word)))
            .collect()
    })
}

/// What is seen beside modes, types and scale factors.
const STEP_EVENTS: [&str; 18] = [
    "11",
    "11 with changes",
    "changed count",
    "TachOv",
    "both detectors",
    "tenths over 20 bits",
    "forward",
    "backward",
    "stop",
    "First Cycle edge in a stop",
    "First Cycle edge after a stop",
    "opened by First Cycle",
    "edge as a dwell begins",
    "preset into the dwell",
    "preset out of the dwell",
    "setup Refused(SetupData) after steps",
    "group Refused(GroupData) after steps",
    "limit Refused(LimitData) after steps",
];

#[test]
fn lists_of_steps_reach_every_state() {
    let mut seen = Seen::default();
    for seed in 0..100 {
        seen.run(&step_list(seed, USUAL_STEPS));
    }
    seen.print();
    let modes = ["Mode0", "Mode1", "Mode2", "Mode3", "Mode4", "Mode5"];
    let kinds = ["Real", "Virtual"];
    seen.assert_seen(all_of(&[&kinds, &modes, &["open"]]));
    seen.assert_seen(all_of(&[
        &kinds,
        &["Mode2", "Mode3", "Mode4", "Mode5"],
        &["closed"],
    ]));
    seen.assert_seen(all_of(&[
        &["Mode1", "Mode2"],
        &["edge taken", "edge not taken"],
    ]));
    seen.assert_seen(all_of(&[
        &["real", "virtual"],
        &["normal", "pulse", "timed"],
        &["lit, group", "lit, independent"],
    ]));
    seen.assert_seen(all_of(&[
        &["SF"],
        &["2", "3", "5", "100", "360", "1000", "1024"],
    ]));
    seen.assert_seen(all_of(&[
        &["setup", "group", "limit"],
        &["Accepted after steps", "Refused(ErrorStands) after steps"],
    ]));
    seen.assert_seen(STEP_EVENTS.map(String::from));
}

#[test]
fn lists_of_cycles_nudge_every_type_to_both_ends() {
    let mut seen = Seen::default();
    for seed in 0..400 {
        seen.run(&cycle_list(seed));
    }
    seen.print();
    seen.assert_seen(all_of(&[
        &["nudge"],
        &["normal", "pulse", "timed"],
        &["on", "off", "both"],
        &["up", "down"],
        &["Accepted", "Refused(NudgeSetpoint)", "Refused(ErrorStands)"],
    ]));
    let numbers = all_of(&[
        &["nudge"],
        &["normal", "pulse", "timed", "unprogrammed"],
        &["neither"],
        &["up", "down"],
        &["Refused(NudgeNumber)"],
    ]);
    seen.assert_seen(numbers);
}

#[test]
fn lists_have_the_steps_asked_for() {
    for (seed, steps) in [(1, 1), (2, 700), (3, 5200)] {
        let list = step_list(seed, steps);
        assert_eq!(list.steps(), steps);
        assert_eq!(step_list(seed, steps), list);
        assert_ne!(step_list(seed + 1, steps), list);
    }
}
