//! What a list has of slow machines, told from its steps.

use std::fmt;
use std::ops::RangeInclusive;

use crate::generate::call_list::CallList;
use crate::generate::stops::{each_step, is_pressed, SeenStep};
use crate::group::{Group, Mode};
use crate::motion::{half_up, tach, HIGHEST_TACH, STEPS_PER_MS, TENTHS, TURN};
use crate::setup::{Detector, Scalars};

/// Tenths at which 01 had a rpm of 0: an update to one of them was a stop and is
/// none any more.
pub(crate) const CREEP: RangeInclusive<u32> = 1..=5;

/// How often each was seen; of updates of the speed, but for what is said of
/// groups.
#[derive(Clone, Copy, Debug, Default, PartialEq, Eq)]
pub struct SlowUpdates {
    pub stops: u64,
    /// Those of them with movement since the update before.
    pub swung: u64,
    pub creeps: u64,
    /// Mode 5 groups that are open over a creep that does not qualify them.
    pub kept: u64,
    /// Mode 5 groups, in steps that qualify them at less than five tenths
    /// where they were not qualified.
    pub qualified: u64,
    /// Mode 5 groups that a First Cycle edge opens at the speed of a creep.
    pub pressed: u64,
    /// Ends of detectors over 0, as tenths.
    pub at_an_end: u64,
    /// The same with a tenth more or less.
    pub beside: u64,
    /// Speeds half a tenth over a whole number of them.
    pub halves: u64,
    /// Readings of the tachometer that are not those of rounded rpm.
    pub not_of_rpm: u64,
    /// Such as are not those of a quotient that is rounded before the decimal
    /// code divides it.
    pub not_twice: u64,
    /// Such as are not those of the speed before it is rounded.
    pub not_of_c: u64,
}

impl SlowUpdates {
    /// Those in a list.
    pub fn of_list(list: &CallList) -> SlowUpdates {
        let mut updates = SlowUpdates::default();
        each_slow_step(list, |step, moved| updates.see(step, moved));
        updates
    }

    pub fn add(&mut self, other: &SlowUpdates) {
        for (count, more) in self.counts_mut().into_iter().zip(other.counts()) {
            *count += more;
        }
    }

    pub fn counts(&self) -> [u64; 12] {
        let mut copy = *self;
        copy.counts_mut().map(|count| *count)
    }

    fn counts_mut(&mut self) -> [&mut u64; 12] {
        [
            &mut self.stops,
            &mut self.swung,
            &mut self.creeps,
            &mut self.kept,
            &mut self.qualified,
            &mut self.pressed,
            &mut self.at_an_end,
            &mut self.beside,
            &mut self.halves,
            &mut self.not_of_rpm,
            &mut self.not_twice,
            &mut self.not_of_c,
        ]
    }

    fn see(&mut self, step: &SeenStep, moved: bool) {
        for (before, after) in step.groups() {
            if after.program.mode == Mode::Mode5 {
                self.see_gluer(step, before, after);
            }
        }
        if step.update {
            let speed = Speed::of(step);
            self.stops += u64::from(speed.counts == 0);
            self.swung += u64::from(speed.counts == 0 && moved);
            self.creeps += u64::from(CREEP.contains(&step.answer.tenths));
            self.halves += u64::from(speed.is_a_half());
            self.see_detectors(step);
            self.see_tach(step, &speed);
        }
    }

    fn see_gluer(&mut self, step: &SeenStep, before: &Group, after: &Group) {
        let gluer = Gluer::of(step, before, after);
        self.kept += u64::from(gluer.is_kept());
        self.qualified += u64::from(gluer.becomes_qualified() && step.answer.tenths < 5);
        self.pressed += u64::from(gluer.is_pressed_open());
    }

    fn see_detectors(&mut self, step: &SeenStep) {
        for detector in step.module.setup.detectors {
            for end in ends(detector).into_iter().filter(|&end| end > 0) {
                match step.answer.tenths.abs_diff(end) {
                    0 => self.at_an_end += 1,
                    1 => self.beside += 1,
                    _ => {}
                }
            }
        }
    }

    fn see_tach(&mut self, step: &SeenStep, speed: &Speed) {
        let scalars = step.module.setup.scalars;
        let reading = (step.answer.tach, step.answer.tach_overflow);
        let is_other = |other| u64::from(other != reading);
        self.not_of_rpm += is_other(tach(TENTHS * speed.rpm(), scalars));
        self.not_twice += is_other(rounded_twice(step.answer.tenths, scalars));
        self.not_of_c += is_other(speed.unrounded_tach(scalars));
    }
}

impl fmt::Display for SlowUpdates {
    fn fmt(&self, formatter: &mut fmt::Formatter) -> fmt::Result {
        let SlowUpdates {
            stops,
            swung,
            creeps,
            kept,
            qualified,
            pressed,
            at_an_end,
            beside,
            halves,
            not_of_rpm,
            not_twice,
            not_of_c,
        } = self;
        write!(
            formatter,
            "{stops} stops, {swung} after a swing, {creeps} creeps, \
             {kept} groups kept open by them, {qualified} qualified under five tenths, \
             {pressed} opened by presses in creeps, {at_an_end} detectors at an end, \
             {beside} a tenth beside one, {halves} halves of a tenth, \
             {not_of_rpm} tachs unlike those of whole rpm, \
             {not_twice} unlike those rounded twice, {not_of_c} unlike those of C"
        )
    }
}

/// The steps of a list; each with whether the machine has moved since the
/// update of the speed before it.
pub(crate) fn each_slow_step(list: &CallList, mut see: impl FnMut(&SeenStep, bool)) {
    let (mut last_raw, mut moved) = (0, false);
    each_step(list, |step| {
        let raw = step.sample[0];
        // The first step after a module start has no movement.
        let moves = step.steps > 1 && raw != last_raw;
        moved = moves || (moved && step.steps % step.window() != 1);
        last_raw = raw;
        see(&step, moved);
    });
}

/// A Mode 5 group in a step.
pub(crate) struct Gluer<'a> {
    before: &'a Group,
    after: &'a Group,
    update: bool,
    /// The speed is that of a creep.
    pub creeps: bool,
    pub qualifies: bool,
    pub pressed: bool,
}

impl<'a> Gluer<'a> {
    pub fn of(step: &SeenStep, before: &'a Group, after: &'a Group) -> Gluer<'a> {
        let tenths = step.answer.tenths;
        let input = step.module.active_inputs(step.sample) & after.input != 0;
        Gluer {
            before,
            after,
            update: step.update,
            creeps: CREEP.contains(&tenths),
            qualifies: after.state.in_dwell && input && tenths > 0,
            pressed: is_pressed(before, after),
        }
    }

    /// Open before and after a creep that would have stopped it by 01.
    pub fn is_kept(&self) -> bool {
        let open = self.before.state.open && self.after.state.open;
        self.update && self.creeps && open && !self.qualifies && !self.pressed
    }

    pub fn is_pressed_open(&self) -> bool {
        let opened = !self.before.state.open && self.after.state.open;
        self.creeps && opened && self.pressed && !self.qualifies
    }

    pub fn becomes_qualified(&self) -> bool {
        self.qualifies && !self.before.state.qualified
    }
}

/// Both ends of a detector as tenths; none of one at 0/0.
pub(crate) fn ends(detector: Detector) -> Vec<u32> {
    match [detector.low, detector.high] {
        [0, 0] => vec![],
        ends => ends.map(|end| TENTHS * u32::from(end)).into(),
    }
}

/// A speed that is not rounded yet.
struct Speed {
    /// |C|, and 1024 × W.
    counts: u64,
    window: u64,
}

impl Speed {
    fn of(step: &SeenStep) -> Speed {
        Speed {
            counts: step.module.motion.big_c.unsigned_abs().into(),
            window: u64::from(TURN) * u64::from(step.window() / STEPS_PER_MS),
        }
    }

    /// Twice the speed in tenths is an odd number.
    fn is_a_half(&self) -> bool {
        let twice = 1_200_000 * self.counts;
        twice.is_multiple_of(self.window) && !(twice / self.window).is_multiple_of(2)
    }

    fn rpm(&self) -> u32 {
        half_up(self.counts * 60_000, self.window) as u32
    }

    fn unrounded_tach(&self, scalars: Scalars) -> (u16, bool) {
        let power = 10u64.pow(scalars.code.into());
        let exact = self.counts * 60_000 * u64::from(scalars.multiplier);
        shown(half_up(
            exact,
            self.window * u64::from(scalars.divisor) * power,
        ))
    }
}

/// The tachometer if its quotient were rounded before the decimal code divides
/// it, and then again.
pub(crate) fn rounded_twice(tenths: u32, scalars: Scalars) -> (u16, bool) {
    let exact = u64::from(tenths) * u64::from(scalars.multiplier);
    let first = half_up(exact, u64::from(TENTHS) * u64::from(scalars.divisor));
    shown(half_up(first, 10u64.pow(scalars.code.into())))
}

fn shown(tach: u64) -> (u16, bool) {
    (tach.min(HIGHEST_TACH) as u16, tach > HIGHEST_TACH)
}
