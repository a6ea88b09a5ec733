//! Position and speed: scaled position, movement sums, tenths of an rpm,
//! tachometer, motion detectors and the shift by an advance.

use crate::pair::sum;
use crate::setup::{Detector, Scalars, Setup};

/// Counts of the transducer in one turn.
pub const TURN: u16 = 1024;
/// Steps between two updates of c.
pub(crate) const ADVANCE_STEPS: u16 = 120;
/// Steps in one ms.
pub const STEPS_PER_MS: u32 = 5;
pub(crate) const HIGHEST_TACH: u64 = 32767;
/// Tenths in an rpm.
pub(crate) const TENTHS: u32 = 10;

/// The position that the step answers.
#[derive(Clone, Copy, Debug, Default, PartialEq, Eq)]
pub struct MachinePosition(pub u16);

/// q: the raw position in counting direction.
pub fn direction_count(raw: u16, counter_clockwise: bool) -> u16 {
    if counter_clockwise {
        TURN.wrapping_sub(raw) % TURN
    } else {
        raw
    }
}

/// floor(q × SF / 1024).
pub fn scaled_position(q: u16, scale: u16) -> u16 {
    (u32::from(q) * u32::from(scale) / u32::from(TURN)) as u16
}

pub fn machine_position(q: u16, scale: u16, offset: u16) -> MachinePosition {
    MachinePosition(sum(scaled_position(q, scale), offset, scale))
}

/// ((q − last q + 512) mod 1024) − 512.
pub fn movement(q: u16, last_q: u16) -> i32 {
    (i32::from(q) - i32::from(last_q) + 512).rem_euclid(i32::from(TURN)) - 512
}

/// numerator / denominator rounded half up; the denominator is not 0.
pub(crate) fn half_up(numerator: u64, denominator: u64) -> u64 {
    (2 * numerator + denominator) / (2 * denominator)
}

/// The speed in tenths of an rpm: |C| × 600000 / (1024 × W), rounded half up.
/// W is in ms and not 0. The sums of a list give 1,500,000 at most; what
/// passes 32 bits at others is u32::MAX.
pub fn tenths(movement_sum: i32, window_ms: u32) -> u32 {
    let counts = u64::from(movement_sum.unsigned_abs());
    let rounded = half_up(
        counts * 600_000,
        u64::from(TURN) * u64::from(window_ms.max(1)),
    );
    rounded.min(u64::from(u32::MAX)) as u32
}

/// Tachometer reading and TachOv: tenths × multiplier / (divisor ×
/// 10^(code + 1)), rounded half up.
pub fn tach(tenths: u32, scalars: Scalars) -> (u16, bool) {
    const POWERS_OF_TEN: [u64; 4] = [10, 100, 1000, 10000];
    let power = POWERS_OF_TEN[usize::from(scalars.code & 3)];
    // A setup is accepted only with a divisor from 1 to 63.
    let divisor = u64::from(scalars.divisor.max(1));
    let exact = u64::from(tenths) * u64::from(scalars.multiplier);
    let rounded = half_up(exact, divisor * power);
    (rounded.min(HIGHEST_TACH) as u16, rounded > HIGHEST_TACH)
}

/// Tenths are compared with ten times the setpoints.
pub fn detector_on(detector: Detector, tenths: u32) -> bool {
    let [low, high] = [detector.low, detector.high].map(|end| TENTHS * u32::from(end));
    if low == 0 && high == 0 {
        false
    } else if low <= high {
        low <= tenths && tenths <= high
    } else {
        tenths <= high || tenths >= low
    }
}

/// s = a × c × SF / 245760 toward zero, not yet reduced mod SF.
pub fn advance_shift(advance: i16, c: i32, scale: u16) -> i64 {
    i64::from(advance) * i64::from(c) * i64::from(scale) / 245_760
}

/// (setpoint − shift) mod SF.
pub fn moved_setpoint(setpoint: u16, shift: i64, scale: u16) -> u16 {
    // SF is never 0 in a setup in force.
    let scale = i64::from(scale.max(1));
    (i64::from(setpoint) - shift % scale).rem_euclid(scale) as u16
}

/// ((off − on) mod SF) + ON shift − OFF shift, a signed number: the length of
/// a pair of unmoved `length`, moved by shifts that `advance_shift` gives.
pub fn moved_length(length: u16, on_shift: i64, off_shift: i64) -> i64 {
    i64::from(length) + on_shift - off_shift
}

/// What is derived from the speed; it changes only with an update or a start.
#[derive(Clone, Copy, Debug, PartialEq, Eq)]
pub struct Reading {
    pub tenths: u32,
    pub tach: u16,
    pub tach_overflow: bool,
    pub detectors: [bool; 2],
}

impl Reading {
    /// The reading of a step answered 11.
    pub const FAULT: Reading = Reading {
        tenths: 0,
        tach: 0,
        tach_overflow: false,
        detectors: [false; 2],
    };

    pub fn at(tenths: u32, setup: &Setup) -> Reading {
        let (tach, tach_overflow) = tach(tenths, setup.scalars);
        Reading {
            tenths,
            tach,
            tach_overflow,
            detectors: setup
                .detectors
                .map(|detector| detector_on(detector, tenths)),
        }
    }
}

/// What one step's movement brought about.
#[derive(Clone, Copy, Debug, Default, PartialEq, Eq)]
pub struct Updates {
    pub c_changed: bool,
    pub stop: bool,
}

/// Movement sums since the module start.
#[derive(Clone, Debug, PartialEq, Eq)]
pub struct Motion {
    /// None before the first step after a module start.
    last_q: Option<u16>,
    advance_sum: i32,
    advance_steps: u16,
    speed_sum: i32,
    speed_steps: u32,
    /// c, the sum of 120 movements at the last update.
    pub c: i32,
    /// C, the sum of the window of the speed at the last update.
    pub big_c: i32,
    pub reading: Reading,
}

impl Motion {
    /// The motion at a module start.
    pub fn start(setup: &Setup) -> Motion {
        Motion {
            last_q: None,
            advance_sum: 0,
            advance_steps: 0,
            speed_sum: 0,
            speed_steps: 0,
            c: 0,
            big_c: 0,
            reading: Reading::at(0, setup),
        }
    }

    #[inline]
    pub fn step(&mut self, q: u16, setup: &Setup) -> Updates {
        let moved = self.last_q.map_or(0, |last_q| movement(q, last_q));
        self.last_q = Some(q);
        Updates {
            c_changed: self.sum_for_advance(moved),
            stop: self.sum_for_speed(moved, setup),
        }
    }

    /// Tells whether c became another number.
    fn sum_for_advance(&mut self, moved: i32) -> bool {
        self.advance_sum += moved;
        self.advance_steps += 1;
        if self.advance_steps < ADVANCE_STEPS {
            return false;
        }
        let changed = self.c != self.advance_sum;
        self.c = self.advance_sum;
        self.advance_sum = 0;
        self.advance_steps = 0;
        changed
    }

    /// Tells whether the step is a stop: an update of 0 tenths.
    #[inline]
    fn sum_for_speed(&mut self, moved: i32, setup: &Setup) -> bool {
        self.speed_sum += moved;
        self.speed_steps += 1;
        let window_ms = setup.window_ms();
        if self.speed_steps < window_ms * STEPS_PER_MS {
            return false;
        }
        self.big_c = self.speed_sum;
        let tenths = tenths(self.big_c, window_ms);
        if tenths != self.reading.tenths {
            self.reading = Reading::at(tenths, setup);
        }
        self.speed_sum = 0;
        self.speed_steps = 0;
        tenths == 0
    }
}

#[cfg(test)]
mod tests {
    use super::*;
    use crate::module::Module;

    /// c and C after so many steps, each so many counts on from the one
    /// before.
    fn sums(by: u32, steps: u32) -> (i32, i32) {
        let setup = Module::DEFAULT_SETUP;
        let mut motion = Motion::start(&setup);
        for step in 0..steps {
            motion.step((step * by % 1024) as u16, &setup);
        }
        (motion.c, motion.big_c)
    }

    #[test]
    fn movement_sums_reach_both_ends_in_the_second_window() {
        assert_eq!(sums(512, 120), (-60_928, 0));
        assert_eq!(sums(512, 2520), (-61_440, -1_289_728));
        assert_eq!(sums(512, 5040), (-61_440, -1_290_240));
        assert_eq!(sums(511, 120), (60_809, 0));
        assert_eq!(sums(511, 2520), (61_320, 1_287_209));
        assert_eq!(sums(511, 5040), (61_320, 1_287_720));
    }
}
