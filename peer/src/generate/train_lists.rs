//! Lists with pulse trains at the edge of what fits their pair: limit cycles that
//! are refused and mended output by output, nudges that take the last count that
//! may go and the next one, and turns in which every count is passed.

use crate::cycles::NudgeCycle;
use crate::generate::call_list::CallList;
use crate::generate::file_kind::{FileKind, FILE_KINDS};
use crate::generate::ladder::Ladder;
use crate::generate::numbers::Numbers;
use crate::generate::program::{draw_limit_block, Program, NORMAL};
use crate::generate::samples::Samples;
use crate::generate::train_blocks::{draw_train, draw_unread_train, spoil_train, LimitBlock};
use crate::setup::{HIGHEST_SCALE, LOWEST_SCALE};
use crate::switch::bits_of;

/// Setups in a list, each with some limit cycles and two walks round a turn.
const SETUPS: u32 = 4;
/// Byte accesses follow one call in so many.
const ACCESSES_EVERY: u32 = 200;

/// The list of a seed.
pub fn train_list(seed: u64) -> CallList {
    // Other numbers than the other lists have for the seed.
    let mut run = Run {
        ladder: Ladder::new(seed.rotate_left(8), ACCESSES_EVERY),
        samples: Samples::new(),
    };
    run.ladder.power_up();
    for _ in 0..SETUPS {
        run.set_up();
        for _ in 0..run.ladder.numbers.between(2, 4) {
            run.mended_cycle();
        }
        run.walk();
        run.interlude();
        run.nudges();
        run.walk();
    }
    run.ladder.list
}

struct Run {
    ladder: Ladder,
    samples: Samples,
}

impl Run {
    /// Another SF and mode, and groups that are mostly open.
    fn set_up(&mut self) {
        let ladder = &mut self.ladder;
        ladder.clear_errors();
        let (scale, independent) = (draw_scale(&mut ladder.numbers), ladder.numbers.one_in(2));
        ladder.program_groups(scale, independent, |numbers, program| {
            let mode = numbers.pick(&[0, 0, 1]);
            program.draw_groups_in(numbers, mode);
            if numbers.one_in(2) {
                program.deal_rest();
            }
        });
        self.samples.module_start();
    }

    /// Limit cycles with some trains that do not fit: the file is mended output
    /// by output, the lowest first, and sent again each time.
    fn mended_cycle(&mut self) {
        let ladder = &mut self.ladder;
        let mut sound = ladder.program.clone();
        draw_limits(&mut ladder.numbers, &mut sound);
        let mut program = sound.clone();
        let spoiled = spoil_some(&mut ladder.numbers, &mut program);
        for output in bits_of(spoiled) {
            ladder.refused_cycle_of(FileKind::Limit, &program);
            program.set_limit_block(output, &sound.limit_block(output));
        }
        ladder.clear_errors();
        ladder.sound_cycle_of(FileKind::Limit, program);
    }

    fn walk(&mut self) {
        let ladder = &mut self.ladder;
        let length = self.samples.draw_walk(&mut ladder.numbers, &ladder.program);
        ladder.run(&mut self.samples, length);
    }

    /// Some outputs' pairs, each nudged to and fro.
    fn nudges(&mut self) {
        let ladder = &mut self.ladder;
        for _ in 0..ladder.numbers.between(4, 10) {
            let trains = ladder.program.trains();
            let Some(output) = ladder.program.draw_output(&mut ladder.numbers, trains) else {
                return;
            };
            let block = ladder.program.limit_block(output);
            for setpoints in draw_nudges(&mut ladder.numbers, &block) {
                if !ladder.numbers.one_in(12) {
                    ladder.clear_errors();
                }
                ladder.nudge(setpoints | output as u16);
            }
        }
        ladder.clear_errors();
    }

    /// What now and then comes between two walks.
    fn interlude(&mut self) {
        let ladder = &mut self.ladder;
        match ladder.numbers.below(8) {
            0 => ladder.fault(&mut self.samples),
            1 => {
                ladder.keeping_setup();
                self.samples.module_start();
            }
            2 | 3 => {
                let kind = ladder.numbers.pick(&FILE_KINDS);
                ladder.faulty_cycle(kind);
            }
            _ => {}
        }
    }
}

/// Small ones, odd ones, and both ends among them.
fn draw_scale(numbers: &mut Numbers) -> u16 {
    let any = numbers.between(LOWEST_SCALE, HIGHEST_SCALE);
    let small = numbers.between(LOWEST_SCALE, 40);
    numbers.pick(&[
        2, 3, 4, 5, small, small, 100, 255, 360, 1000, 1023, 1024, 1024, any, any,
    ])
}

/// Draws trains for most outputs that may have a program.
fn draw_limits(numbers: &mut Numbers, program: &mut Program) {
    program.m1.fill(0);
    let scale = program.scale();
    for output in bits_of(program.assigned()) {
        let block = match numbers.below(14) {
            0 => continue,
            1 => draw_limit_block(numbers, NORMAL, scale),
            2 => draw_unread_train(numbers, scale),
            _ => draw_train(numbers, scale),
        };
        program.set_limit_block(output, &block);
    }
}

/// Spoils up to four trains; tells which.
fn spoil_some(numbers: &mut Numbers, program: &mut Program) -> u32 {
    let mut spoiled = 0;
    let trains = program.trains();
    for _ in 0..numbers.between(0, 4) {
        if let Some(output) = program.draw_output(numbers, trains & !spoiled) {
            let mut block = program.limit_block(output);
            spoil_train(numbers, &mut block, program.scale());
            program.set_limit_block(output, &block);
            spoiled |= 1 << output;
        }
    }
    spoiled
}

const BOTH: u16 = NudgeCycle::ON | NudgeCycle::OFF;
/// One count off a pair's length.
const SHORTER: [u16; 2] = [NudgeCycle::ON, NudgeCycle::OFF | NudgeCycle::DOWN];
const LONGER: [u16; 2] = [NudgeCycle::ON | NudgeCycle::DOWN, NudgeCycle::OFF];
/// The length stays.
const SHIFTED: [u16; 2] = [BOTH, BOTH | NudgeCycle::DOWN];

/// Nudges of a train's pair: where it is a count beside 0/0, one that leads there
/// or to equal setpoints; else some one way or another, and then shorter.
fn draw_nudges(numbers: &mut Numbers, block: &LimitBlock) -> Vec<u16> {
    let mut draw = |ways: &[u16], most: u16| -> Vec<u16> {
        let way = numbers.pick(ways);
        let count = numbers.between(1, most);
        (0..count).map(|_| way).collect()
    };
    match (block[3], block[4]) {
        (0, 1) => draw(&SHORTER, 1),
        (1, 0) => draw(&LONGER, 1),
        _ => {
            let first = draw(&[SHORTER, LONGER, SHIFTED].concat(), 3);
            let then = draw(&SHORTER, 3);
            [first, then].concat()
        }
    }
}
