//! What the lists of presses reach: each reading of a First Cycle press in
//! the step of a stop, seen group by group.

use std::collections::BTreeMap;

use crate::generate::stops::{each_step, is_pressed, SeenStep, StopPresses};
use crate::generate::{press_list, CallList};
use crate::group::{Group, Mode, GROUPS};

/// Lists that are looked at: a part of those that are compared.
const LISTS: u64 = 60;

/// How often each event was seen.
#[derive(Default)]
struct Seen {
    counts: BTreeMap<&'static str, usize>,
    /// The groups that a press in a stop step opened, until the next update.
    pressed_open: [bool; GROUPS],
}

impl Seen {
    fn see_if(&mut self, happened: bool, event: &'static str) {
        *self.counts.entry(event).or_default() += usize::from(happened);
    }

    fn list(&mut self, list: &CallList) {
        self.pressed_open = [false; GROUPS];
        each_step(list, |step| self.step(&step));
    }

    fn step(&mut self, step: &SeenStep) {
        for index in 0..GROUPS {
            if let (Some(before), Some(after)) = (&step.before[index], &step.after[index]) {
                if after.program.mode == Mode::Mode5 {
                    self.until_the_update(index, step, after);
                    self.stop(index, step, before, after);
                }
            }
        }
    }

    fn until_the_update(&mut self, index: usize, step: &SeenStep, after: &Group) {
        if !self.pressed_open[index] {
            return;
        }
        let open = after.state.open;
        self.see_if(!step.update && open, "open before the next update");
        self.see_if(step.is_stop() && !open, "closed by the next stop");
        self.see_if(
            step.update && !step.is_stop() && open,
            "kept by another update",
        );
        self.pressed_open[index] &= !step.update;
    }

    fn stop(&mut self, index: usize, step: &SeenStep, before: &Group, after: &Group) {
        if !step.is_stop() {
            return;
        }
        let begins = after.state.in_dwell && !before.state.in_dwell;
        let held = before.state.first_cycle && after.state.first_cycle;
        let (was_qualified, qualified) = (before.state.qualified, after.state.qualified);
        self.see_if(held && qualified && before.state.open, "held from before");
        if !is_pressed(before, after) {
            return;
        }
        self.see_if(qualified && before.state.open, "pressed while open");
        self.see_if(qualified && !before.state.open, "pressed while closed");
        self.see_if(!qualified && !begins, "pressed without qualifying step");
        self.see_if(begins && was_qualified, "pressed as a dwell begins");
        self.see_if(
            qualified && !after.state.in_dwell,
            "pressed out of the dwell",
        );
        self.pressed_open[index] = after.state.open;
    }
}

#[test]
fn lists_of_presses_reach_every_reading() {
    let mut seen = Seen::default();
    for seed in 0..LISTS {
        seen.list(&press_list(seed));
    }
    for (event, count) in &seen.counts {
        println!("{count:8} {event}");
    }
    for (event, count) in &seen.counts {
        assert!(*count >= 20, "seldom seen: {event}");
    }
    assert_eq!(seen.counts.len(), 9);
}

#[test]
fn presses_in_stop_steps_come_often() {
    let (mut steps, mut counted) = (0, 0);
    for seed in 0..LISTS {
        let presses = StopPresses::of_list(&press_list(seed));
        assert!(presses.counted <= presses.steps);
        steps += presses.steps;
        counted += presses.counted;
    }
    println!("{steps} presses in stop steps, {counted} of them counted");
    assert!(counted > 5 * LISTS, "{counted}");
}
