//! Limit switches: whether one holds at a position, and the nudging of its
//! setpoints.

use std::ops::Range;

use crate::blocks::LIMIT_BLOCK_WORDS;
use crate::limit_block::{
    advances, anded_detector, block_pair, pulse_errors, setpoint_errors, switch_type, SwitchType,
    ENABLE_BIT, PAIRS,
};
use crate::motion::{advance_shift, moved_length, moved_setpoint, STEPS_PER_MS};
use crate::pair::{distance, Pair};
use crate::pulse::pulse_holds;
use crate::windows::{Moved, Tests, Windows};

pub const OUTPUTS: usize = 32;

/// What a switch does within its pairs.
#[derive(Clone, Copy, Debug, PartialEq, Eq)]
pub(crate) enum Action {
    Normal,
    Pulse { quantity: u16, on_count: u16 },
    Timed { steps: u32 },
}

/// How long a timed switch's pair has held.
#[derive(Clone, Copy, Debug, Default, PartialEq, Eq)]
pub struct Timer {
    held: bool,
    passed: u32,
}

impl Timer {
    /// True while the pair holds and fewer than `limit` steps have passed
    /// since it began to hold.
    pub fn step(&mut self, holds: bool, limit: u32) -> bool {
        if !holds || !self.held {
            self.passed = 0;
        } else if self.passed < limit {
            self.passed += 1;
        }
        self.held = holds;
        holds && self.passed < limit
    }
}

/// Why a nudge is turned away.
#[derive(Clone, Copy, Debug, PartialEq, Eq)]
pub enum NudgeFault {
    PairNumber,
    Setpoint,
}

/// One count on a pair's setpoints.
#[derive(Clone, Copy, Debug, PartialEq, Eq)]
pub struct Nudge {
    /// From 0.
    pub pair: usize,
    pub on: bool,
    pub off: bool,
    pub down: bool,
}

impl Nudge {
    /// None where a setpoint would leave 0 to 65535.
    fn apply(self, pair: Pair) -> Option<Pair> {
        let moved = |setpoint: u16, chosen: bool| match (chosen, self.down) {
            (false, _) => Some(setpoint),
            (true, true) => setpoint.checked_sub(1),
            (true, false) => setpoint.checked_add(1),
        };
        Some(Pair {
            on: moved(pair.on, self.on)?,
            off: moved(pair.off, self.off)?,
        })
    }
}

/// A programmed limit switch.
#[derive(Clone, Debug, PartialEq, Eq)]
pub struct Switch {
    /// Of the used pairs, moved by the advances at the present c.
    windows: Windows,
    pub(crate) action: Action,
    /// As programmed; pulse and timed switches use the first only.
    pub(crate) pairs: [Pair; PAIRS],
    /// ON and OFF advance in tenths of a ms.
    pub(crate) advances: [i16; 2],
    /// The moved ON setpoint of the first pair, at which a pulse train starts.
    train_start: u16,
    timer: Timer,
}

impl Switch {
    const UNPROGRAMMED: Switch = Switch {
        windows: Windows::NONE,
        action: Action::Normal,
        pairs: [Pair { on: 0, off: 0 }; PAIRS],
        advances: [0; 2],
        train_start: 0,
        timer: Timer {
            held: false,
            passed: 0,
        },
    };

    /// The switch of a block without errors; its windows are not placed yet.
    pub fn decode(block: &[u16; LIMIT_BLOCK_WORDS]) -> Switch {
        let (action, pair_count) = match switch_type(block[0]) {
            SwitchType::Normal | SwitchType::Bad => (Action::Normal, PAIRS),
            SwitchType::Pulse => {
                let (quantity, on_count) = (block[5], block[6]);
                (Action::Pulse { quantity, on_count }, 1)
            }
            SwitchType::Timed => {
                let steps = u32::from(block[5]) * STEPS_PER_MS;
                (Action::Timed { steps }, 1)
            }
        };
        let mut switch = Switch {
            action,
            advances: advances(block),
            ..Switch::UNPROGRAMMED
        };
        for (index, pair) in switch.pairs.iter_mut().take(pair_count).enumerate() {
            *pair = block_pair(block, index);
        }
        switch.windows = Windows::of(&switch.pairs);
        switch
    }

    /// Moves the used pairs by the advances. 0/0 is judged unmoved.
    pub fn place(&mut self, c: i32, scale: u16) {
        let shifts = self.shifts(c, scale);
        let back = moved_setpoint(0, -shifts[0], scale);
        let moved = Moved::new(back, self.longer(shifts), scale);
        self.windows.place(&self.pairs, moved, scale);
        self.train_start = moved.setpoint(self.pairs[0].on, scale);
    }

    /// ON and OFF shift at a c.
    fn shifts(&self, c: i32, scale: u16) -> [i64; 2] {
        self.advances
            .map(|advance| advance_shift(advance, c, scale))
    }

    /// Counts by which these shifts make a used pair longer; a pulse train keeps
    /// its length.
    fn longer(&self, [on_shift, off_shift]: [i64; 2]) -> i64 {
        match self.action {
            Action::Pulse { .. } => 0,
            Action::Normal | Action::Timed { .. } => moved_length(0, on_shift, off_shift),
        }
    }

    /// The lengths of the used pairs at a c.
    pub(crate) fn lengths(&self, c: i32, scale: u16) -> impl Iterator<Item = i64> + '_ {
        let longer = self.longer(self.shifts(c, scale));
        let used = self.pairs.iter().filter(|pair| !pair.is_unused());
        used.map(move |pair| i64::from(pair.length(scale)) + longer)
    }

    pub fn restart_timer(&mut self) {
        self.timer = Timer::default();
    }

    /// Whether the switch holds at a position; a timed switch's time runs. The
    /// pairs tested are counted.
    pub fn holds(&mut self, position: u16, scale: u16, tests: &mut u16) -> bool {
        let mut made = Tests::default();
        let in_window = self.windows.some_holds(position, &mut made);
        *tests += made.count as u16;
        self.acts(in_window, position, scale)
    }

    /// The pairs that are tested at a position.
    pub(crate) fn tests(&self, position: u16) -> u16 {
        let mut tests = Tests::default();
        self.windows.some_holds(position, &mut tests);
        tests.count as u16
    }

    /// Whether the switch holds at a position that is or is not in a window; a
    /// timed switch's time runs.
    fn acts(&mut self, in_window: bool, position: u16, scale: u16) -> bool {
        match self.action {
            Action::Normal => in_window,
            Action::Timed { steps } => self.timer.step(in_window, steps),
            Action::Pulse { quantity, on_count } => {
                let distance = distance(self.train_start, position, scale);
                let length = self.pairs[0].length(scale);
                in_window && pulse_holds(distance, length, quantity, on_count)
            }
        }
    }

    /// The switch's pair after a nudge, if it may be made.
    pub fn nudged_pair(&self, nudge: Nudge, scale: u16) -> Result<Pair, NudgeFault> {
        if nudge.pair > 0 && self.action != Action::Normal {
            return Err(NudgeFault::PairNumber);
        }
        let pair = *self.pairs.get(nudge.pair).ok_or(NudgeFault::PairNumber)?;
        if pair.is_unused() {
            return Err(NudgeFault::Setpoint);
        }
        let moved = nudge.apply(pair).ok_or(NudgeFault::Setpoint)?;
        let errors = match self.action {
            Action::Pulse { quantity, on_count } => pulse_errors(moved, quantity, on_count, scale),
            Action::Normal | Action::Timed { .. } => setpoint_errors(moved, scale),
        };
        if moved.is_unused() || errors != 0 {
            return Err(NudgeFault::Setpoint);
        }
        Ok(moved)
    }

    pub(crate) fn set_pair(&mut self, index: usize, pair: Pair) {
        self.pairs[index] = pair;
    }
}

/// The limit programs of all outputs, with what they are ANDed with as sets
/// of outputs.
#[derive(Clone, Debug, PartialEq, Eq)]
pub struct Switches {
    pub programs: [Switch; OUTPUTS],
    pub programmed: u32,
    /// Those whose switch may be dark within its windows.
    timed_or_pulse: u32,
    pub enable_anded: u32,
    pub detector_anded: [u32; 2],
}

impl Switches {
    pub const NONE: Switches = Switches {
        programs: [const { Switch::UNPROGRAMMED }; OUTPUTS],
        programmed: 0,
        timed_or_pulse: 0,
        enable_anded: 0,
        detector_anded: [0; 2],
    };

    /// Programs an output, counted from 0, from a block without errors.
    pub(crate) fn program(&mut self, output: usize, block: &[u16; LIMIT_BLOCK_WORDS]) {
        let bit = 1 << output;
        let switch = Switch::decode(block);
        self.programmed |= bit;
        if switch.action != Action::Normal {
            self.timed_or_pulse |= bit;
        }
        self.programs[output] = switch;
        if block[0] & ENABLE_BIT != 0 {
            self.enable_anded |= bit;
        }
        match anded_detector(block[0]) {
            1 => self.detector_anded[0] |= bit,
            2 => self.detector_anded[1] |= bit,
            _ => {}
        }
    }

    pub fn place(&mut self, c: i32, scale: u16) {
        for output in bits_of(self.programmed) {
            self.programs[output].place(c, scale);
        }
    }

    pub fn restart_timers(&mut self) {
        for output in bits_of(self.timed_or_pulse) {
            self.programs[output].restart_timer();
        }
    }

    /// Those of a row of outputs whose switch holds at a position; the pairs
    /// tested are counted.
    #[inline]
    pub(crate) fn holding(
        &mut self,
        row: Range<usize>,
        position: u16,
        scale: u16,
        tests: &mut Tests,
    ) -> u32 {
        let switches = self.programs[row.clone()].iter().rev();
        let in_windows = switches.fold(0, |found, switch| {
            found << 1 | u32::from(switch.windows.some_holds(position, tests))
        });
        let in_windows = in_windows << row.start;
        if self.timed_or_pulse == 0 {
            return in_windows;
        }
        self.acting(row, in_windows, position, scale)
    }

    /// Those of a row whose switch holds, where those with the position in a
    /// window are known; the time of timed switches runs.
    #[inline(never)]
    fn acting(&mut self, row: Range<usize>, in_windows: u32, position: u16, scale: u16) -> u32 {
        let mut acting = in_windows;
        for output in bits_of(self.timed_or_pulse).filter(|output| row.contains(output)) {
            let bit = 1 << output;
            if !self.programs[output].acts(in_windows & bit != 0, position, scale) {
                acting &= !bit;
            }
        }
        acting
    }
}

/// The numbers of the set bits, from 0, rising.
pub(crate) fn bits_of(mut set: u32) -> impl Iterator<Item = usize> {
    std::iter::from_fn(move || {
        let bit = set.trailing_zeros();
        set &= set.wrapping_sub(1);
        (bit < 32).then_some(bit as usize)
    })
}
