//! Lists of runs at a speed for which the limit blocks are drawn before it
//! comes.

use crate::generate::call_list::CallList;
use crate::generate::file_kind::{FileKind, FILE_KINDS};
use crate::generate::ladder::Ladder;
use crate::generate::numbers::Numbers;
use crate::generate::program::Program;
use crate::generate::samples::Samples;
use crate::setup::{HIGHEST_SCALE, LOWEST_SCALE};

/// The greatest c and the least.
pub(crate) const FASTEST: i32 = 61_320;
pub(crate) const FASTEST_BACK: i32 = -61_440;
/// 1,400 rpm: 573.44 counts between two updates of c.
const FAST_LINE: (u16, u16) = (560, 590);
/// About a turn from one update of c to the next.
const ONE_TURN: (u16, u16) = (900, 1150);

/// How the lists of a kind draw what their runs have.
pub(crate) struct Drawing {
    pub groups: fn(&mut Numbers, &mut Program),
    /// Limit blocks for what c becomes in turn.
    pub limits: fn(&mut Numbers, &mut Program, [i32; 2]),
    /// Motion to that c, inputs and forces.
    pub samples: fn(&mut Samples, &mut Numbers, &Program, [i32; 2]),
}

/// The list of a ladder program whose module is powered up: so many limit
/// programs, each drawn for the speed that follows.
pub(crate) fn paced_list(ladder: Ladder, runs: u32, drawing: &'static Drawing) -> CallList {
    let mut run = Run {
        ladder,
        samples: Samples::new(),
        drawing,
    };
    run.set_up();
    for _ in 0..runs {
        if run.ladder.numbers.one_in(3) {
            run.set_up();
        }
        run.at_speed();
    }
    run.ladder.list
}

struct Run {
    ladder: Ladder,
    samples: Samples,
    drawing: &'static Drawing,
}

impl Run {
    /// Another SF and mode, and groups.
    fn set_up(&mut self) {
        let ladder = &mut self.ladder;
        ladder.clear_errors();
        let (scale, independent) = (draw_scale(&mut ladder.numbers), ladder.numbers.one_in(3));
        ladder.program_groups(scale, independent, self.drawing.groups);
        self.samples.module_start();
    }

    /// Limit blocks drawn for a speed, which comes and stays for a while.
    fn at_speed(&mut self) {
        let paces = draw_paces(&mut self.ladder.numbers);
        self.limits_for(paces);
        self.paced(paces);
        self.interlude(paces);
        self.paced(paces);
        if self.ladder.numbers.one_in(3) {
            let length = self.samples.draw_segment(&mut self.ladder.numbers);
            self.ladder.run(&mut self.samples, length);
        }
    }

    fn limits_for(&mut self, paces: [i32; 2]) {
        let ladder = &mut self.ladder;
        ladder.clear_errors();
        let mut program = ladder.program.clone();
        (self.drawing.limits)(&mut ladder.numbers, &mut program, paces);
        ladder.sound_cycle_of(FileKind::Limit, program);
    }

    /// Some updates of c, all but the first of them at these paces.
    fn paced(&mut self, paces: [i32; 2]) {
        let ladder = &mut self.ladder;
        let numbers = &mut ladder.numbers;
        (self.drawing.samples)(&mut self.samples, numbers, &ladder.program, paces);
        let length = u32::from(ladder.numbers.between(400, 800));
        ladder.run(&mut self.samples, length);
    }

    /// What comes between in mid-run.
    fn interlude(&mut self, paces: [i32; 2]) {
        match self.ladder.numbers.below(8) {
            0..=2 => (0..4).for_each(|_| self.ladder.nudges()),
            // The same speed, and limit blocks for it at once.
            3 => self.limits_for(paces),
            4 => {
                let kind = self.ladder.numbers.pick(&FILE_KINDS);
                self.ladder.faulty_cycle(kind);
            }
            5 => {
                self.ladder.keeping_setup();
                self.samples.module_start();
            }
            6 => self.ladder.fault(&mut self.samples),
            _ => {}
        }
    }
}

fn draw_scale(numbers: &mut Numbers) -> u16 {
    let any = numbers.between(LOWEST_SCALE, HIGHEST_SCALE);
    numbers.pick(&[2, 3, 10, 100, 360, 1000, 1000, 1024, 1024, 1024, any, any])
}

/// What c becomes in turn: the same again, its opposite, or another speed.
fn draw_paces(numbers: &mut Numbers) -> [i32; 2] {
    let pace = draw_pace(numbers);
    // At such a pace few positions are passed; at the other one many.
    let jumps = pace.abs() > 5000;
    let other = match numbers.below(4) {
        0 | 1 if !jumps => pace,
        2 if !jumps => -pace,
        _ => one_way_or_other(numbers, ONE_TURN),
    };
    [pace, other]
}

/// A fast line's c, or one up to the fastest.
fn draw_pace(numbers: &mut Numbers) -> i32 {
    match numbers.below(12) {
        0..=4 => one_way_or_other(numbers, FAST_LINE),
        5 => one_way_or_other(numbers, (20, 300)),
        6 | 7 => one_way_or_other(numbers, (300, 1500)),
        8 => one_way_or_other(numbers, (1500, 10_000)),
        9 => one_way_or_other(numbers, (10_000, FASTEST as u16)),
        _ => numbers.pick(&[FASTEST, FASTEST_BACK]),
    }
}

fn one_way_or_other(numbers: &mut Numbers, (low, high): (u16, u16)) -> i32 {
    let counts = i32::from(numbers.between(low, high));
    numbers.pick(&[counts, -counts])
}
