//! What a list has of pulse trains, told from its calls and answers.

use std::fmt;

use crate::generate::call_list::CallList;
use crate::generate::train_events::{
    each_event, JudgedTrain, NudgedTrain, Train, TrainEvent, TrainStep,
};
use crate::limit_block::DURATION_ERROR;
use crate::switch::{bits_of, Action, OUTPUTS};

/// How often each was seen: of trains in the files of limit cycles, up to the
/// lowest failing output; of nudges and steps.
#[derive(Clone, Copy, Debug, Default, PartialEq, Eq)]
pub struct Trains {
    /// R is a count less than Q × K + Q − 1, just that, a count more.
    pub one_short: u64,
    pub exact: u64,
    pub one_more: u64,
    /// Of those that fit: Q 1, K 1, ON over OFF, R of SF − 1 counts.
    pub one_pulse: u64,
    pub one_count: u64,
    pub over_zero: u64,
    pub full_turn: u64,
    /// Q × K is over 65,535.
    pub large: u64,
    /// Those of them that would fit with 16 bits of it.
    pub cut: u64,
    /// Those of them that are below 0 as signed 32 bits.
    pub negative: u64,
    /// Q or K 0.
    pub no_pulse: u64,
    /// Such as no pair has room for, at 0/0.
    pub unread: u64,
    /// Such as do not fit, with unsound setpoints.
    pub behind: u64,
    /// Such as bring bit 4 into word 630.
    pub bit_4: u64,
    /// Nudges that would leave a count less than needed.
    pub nudged_short: u64,
    /// Nudges that leave just as many.
    pub nudged_exact: u64,
    /// Nudges of both setpoints that are taken.
    pub shifted: u64,
    /// Nudges of a setpoint from one end of the range.
    pub nudged_out: u64,
    /// Nudges that would leave 0/0.
    pub nudged_to_zero: u64,
    /// Outputs that a train brings on, in steps.
    pub rises: u64,
    /// Trains that have risen Q times since they were programmed.
    pub whole: u64,
}

impl Trains {
    /// Those in a list.
    pub fn of_list(list: &CallList) -> Trains {
        let mut trains = Trains::default();
        let mut risen = [0; OUTPUTS];
        each_event(list, |event| match event {
            TrainEvent::Programmed => risen = [0; OUTPUTS],
            TrainEvent::Judged(judged) => trains.see_judged(judged),
            TrainEvent::Nudged(nudged) => {
                trains.see_nudge(nudged);
                if nudged.is_taken {
                    risen[nudged.output()] = 0;
                }
            }
            TrainEvent::Step(step) => trains.see_step(step, &mut risen),
        });
        trains
    }

    pub fn add(&mut self, other: &Trains) {
        for (count, more) in self.counts_mut().into_iter().zip(other.counts()) {
            *count += more;
        }
    }

    fn counts(&self) -> [u64; 21] {
        let mut copy = *self;
        copy.counts_mut().map(|count| *count)
    }

    fn counts_mut(&mut self) -> [&mut u64; 21] {
        [
            &mut self.one_short,
            &mut self.exact,
            &mut self.one_more,
            &mut self.one_pulse,
            &mut self.one_count,
            &mut self.over_zero,
            &mut self.full_turn,
            &mut self.large,
            &mut self.cut,
            &mut self.negative,
            &mut self.no_pulse,
            &mut self.unread,
            &mut self.behind,
            &mut self.bit_4,
            &mut self.nudged_short,
            &mut self.nudged_exact,
            &mut self.shifted,
            &mut self.nudged_out,
            &mut self.nudged_to_zero,
            &mut self.rises,
            &mut self.whole,
        ]
    }

    fn see_judged(&mut self, judged: &JudgedTrain) {
        let (train, scale) = (judged.train, judged.module.setup.scale);
        self.bit_4 += u64::from(judged.errors & DURATION_ERROR != 0);
        if train.is_unused() {
            let fits_some = train.has_pulses() && train.least() < i64::from(scale);
            self.unread += u64::from(!fits_some);
        } else if !train.has_pulses() {
            self.no_pulse += 1;
        } else if !train.is_sound(scale) {
            self.behind += u64::from(train.spare(scale) < 0);
        } else if train.spare(scale) < 0 {
            self.see_short(train, scale);
        } else {
            self.see_fitting(train, scale);
        }
    }

    fn see_short(&mut self, train: Train, scale: u16) {
        let product = train.product();
        self.one_short += u64::from(train.spare(scale) == -1);
        self.large += u64::from(product > 65535);
        self.cut += u64::from(product > 65535 && train.fits_when_cut(scale));
        self.negative += u64::from(product >= 1 << 31);
    }

    fn see_fitting(&mut self, train: Train, scale: u16) {
        let spare = train.spare(scale);
        self.exact += u64::from(spare == 0);
        self.one_more += u64::from(spare == 1);
        self.one_pulse += u64::from(train.quantity == 1);
        self.one_count += u64::from(train.on_count == 1);
        self.over_zero += u64::from(train.is_over_zero());
        self.full_turn += u64::from(train.length(scale) == i64::from(scale) - 1);
    }

    fn see_nudge(&mut self, nudged: &NudgedTrain) {
        let (before, after) = (nudged.before, nudged.after);
        let scale = nudged.module.setup.scale;
        if before.is_unused() {
            return;
        }
        if after.is_unused() {
            self.nudged_to_zero += 1;
        } else if !after.is_in_range(scale) {
            self.nudged_out += 1;
        } else if after.is_sound(scale) {
            let spare = after.spare(scale);
            let was_longer = before.length(scale) > after.length(scale);
            let shifted = before.length(scale) == after.length(scale);
            self.nudged_short += u64::from(spare == -1 && was_longer);
            self.nudged_exact += u64::from(spare == 0 && was_longer);
            self.shifted += u64::from(shifted && nudged.is_taken);
        }
    }

    fn see_step(&mut self, step: &TrainStep, risen: &mut [u16; OUTPUTS]) {
        for output in bits_of(step.rises()) {
            self.rises += 1;
            risen[output] = risen[output].saturating_add(1);
            if let Action::Pulse { quantity, .. } = step.module.switches.programs[output].action {
                self.whole += u64::from(risen[output] == quantity);
            }
        }
    }
}

impl fmt::Display for Trains {
    fn fmt(&self, formatter: &mut fmt::Formatter) -> fmt::Result {
        let names = [
            "trains one short",
            "exact",
            "one more",
            "of one pulse",
            "of one count",
            "over zero",
            "of SF less 1",
            "products over 65535",
            "that fit in 16 bits",
            "below 0 in 32",
            "without a pulse",
            "unread without a pair",
            "unfit behind bit 3",
            "words 630 with bit 4",
            "nudged to one short",
            "nudged to exact",
            "shifted",
            "nudged from an end",
            "nudged to no pair",
            "rises",
            "trains that rose Q times",
        ];
        for (place, (name, count)) in names.into_iter().zip(self.counts()).enumerate() {
            let separator = if place == 0 { "" } else { ", " };
            write!(formatter, "{separator}{count} {name}")?;
        }
        Ok(())
    }
}

#[cfg(test)]
mod tests {
    use super::*;

    #[test]
    fn what_fits_when_cut() {
        let fits = |quantity, on_count, off| {
            let train = Train {
                on: 0,
                off,
                quantity,
                on_count,
            };
            train.fits_when_cut(1024)
        };
        // 65536 + 255, and 65535 + 256.
        assert!(fits(256, 256, 255) && !fits(256, 256, 254));
        assert!(fits(257, 255, 255) && !fits(257, 255, 254));
        assert!(!fits(65535, 1, 1023) && !fits(65535, 65535, 1023));
    }
}
