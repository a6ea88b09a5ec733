//! Lists with long runs of steps, programming cycles and byte accesses
//! between them.

use crate::generate::call_list::CallList;
use crate::generate::file_kind::{FileKind, FILE_KINDS};
use crate::generate::ladder::Ladder;
use crate::generate::samples::Samples;

/// Steps of a list where no number is given: two long windows of the speed.
pub const USUAL_STEPS: usize = 5200;

/// Byte accesses follow one call in so many.
const ACCESSES_EVERY: u32 = 30;

/// The list of a seed.
pub fn step_list(seed: u64, steps: usize) -> CallList {
    let mut run = Run {
        // Other numbers than the list of cycles has for the seed.
        ladder: Ladder::new(!seed, ACCESSES_EVERY),
        samples: Samples::new(),
        steps,
    };
    run.ladder.power_up();
    if run.ladder.numbers.one_in(6) {
        run.segment();
    }
    run.program_all();
    // Half of the lists have no module starts, so that updates come.
    let restless = run.ladder.numbers.one_in(2);
    while !run.is_over() {
        if restless {
            run.segment();
            run.interlude();
        } else {
            run.stop_and_go();
            run.ladder.nudges();
            run.segment();
        }
    }
    run.ladder.list
}

struct Run {
    ladder: Ladder,
    samples: Samples,
    steps: usize,
}

impl Run {
    fn is_over(&self) -> bool {
        self.ladder.list.steps() >= self.steps
    }

    fn program_all(&mut self) {
        self.ladder.program_all();
        self.samples.module_start();
    }

    fn segment(&mut self) {
        let length = self.samples.draw_segment(&mut self.ladder.numbers);
        self.run_steps(length);
    }

    fn run_steps(&mut self, count: u32) {
        for _ in 0..count {
            self.step(None);
        }
    }

    /// One step, with a raw position of its own if given; none once the list
    /// has its steps.
    fn step(&mut self, raw: Option<u16>) {
        if self.is_over() {
            return;
        }
        let ladder = &mut self.ladder;
        let mut sample = self.samples.next(&mut ladder.numbers, &ladder.program);
        sample[0] = raw.unwrap_or(sample[0]);
        ladder.step(&sample);
    }

    /// What a ladder program does between two segments.
    fn interlude(&mut self) {
        match self.ladder.numbers.below(20) {
            0..=4 => self.ladder.nudges(),
            5 | 6 => self.ladder.sound_cycle(FileKind::Limit),
            7 => {
                self.ladder.sound_cycle(FileKind::Group);
                self.ladder.sound_cycle(FileKind::Limit);
            }
            8 | 9 => {
                self.ladder.keeping_setup();
                self.samples.module_start();
            }
            10 => self.program_all(),
            11 | 12 => {
                let kind = self.ladder.numbers.pick(&FILE_KINDS);
                self.ladder.faulty_cycle(kind);
            }
            13 | 14 => self.fault(),
            15 => self.ladder.read_block(),
            16 if self.ladder.numbers.one_in(8) => {
                self.ladder.power_up();
                self.program_all();
            }
            17 => self.stop_and_go(),
            18 => {
                self.ladder.sound_cycle(FileKind::Setup);
                self.samples.module_start();
                self.segment();
                self.program_all();
            }
            _ => {}
        }
    }

    /// Runs up to an update of the speed, then stands up to a stop.
    fn stop_and_go(&mut self) {
        let Ladder {
            numbers, program, ..
        } = &mut self.ladder;
        let length = self.samples.draw_run(numbers, program);
        self.run_steps(length);
        let Ladder {
            numbers, program, ..
        } = &mut self.ladder;
        let length = self.samples.draw_stand(numbers, program);
        self.run_steps(length);
    }

    /// A raw position over 1023, some steps in fault, then ClrErr.
    fn fault(&mut self) {
        // Another offset, before a step has answered with it.
        if self.ladder.numbers.one_in(3) {
            self.ladder.keeping_setup();
        }
        for _ in 0..self.ladder.numbers.between(1, 3) {
            let raw = self
                .ladder
                .numbers
                .pick(&[1024, 1025, 2047, 0x8000, 0xffff]);
            self.step(Some(raw));
        }
        let length = self.ladder.numbers.below(20);
        self.run_steps(length);
        match self.ladder.numbers.below(6) {
            // Accepted or not, these may leave the fault.
            0 => self.ladder.keeping_setup(),
            1 => self.ladder.faulty_cycle(FileKind::Group),
            2 => self.ladder.sound_cycle(FileKind::Limit),
            _ => {}
        }
        let length = self.ladder.numbers.below(4);
        self.run_steps(length);
        self.ladder.clear_errors();
        self.samples.module_start();
    }
}
