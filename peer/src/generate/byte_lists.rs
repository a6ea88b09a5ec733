//! Lists made mostly of byte accesses, between steps that make requests and
//! cycles with every outcome.

use crate::generate::byte_calls::{byte_access, read_table};
use crate::generate::call_list::CallList;
use crate::generate::file_kind::{FileKind, FILE_KINDS};
use crate::generate::ladder::Ladder;
use crate::generate::numbers::Numbers;
use crate::generate::samples::Samples;

/// Byte accesses follow one call in so many.
const ACCESSES_EVERY: u32 = 2;
/// The same in a long run of steps.
const ACCESSES_EVERY_IN_A_RUN: u32 = 40;

/// The list of a seed.
pub fn byte_list(seed: u64) -> CallList {
    let mut rack = Rack {
        // Other numbers than the other lists have for the seed.
        ladder: Ladder::new(!seed.rotate_left(32), ACCESSES_EVERY),
        samples: Samples::new(),
        forced: [0; 2],
    };
    if rack.ladder.numbers.one_in(8) {
        rack.calls_without_module();
    }
    rack.power_up();
    for _ in 0..rack.ladder.numbers.between(12, 18) {
        rack.episode();
        read_table(&mut rack.ladder.list);
    }
    if rack.ladder.numbers.one_in(10) {
        let tail = draw_tail(&mut rack.ladder.numbers);
        rack.ladder.list.break_off(tail);
    }
    rack.ladder.list
}

/// A byte access cut anywhere.
fn draw_tail(numbers: &mut Numbers) -> Vec<u8> {
    let mut call = CallList::default();
    byte_access(numbers, &mut call);
    let mut bytes = call.bytes();
    bytes.truncate(1 + numbers.below(bytes.len() as u32 - 1) as usize);
    bytes
}

struct Rack {
    ladder: Ladder,
    samples: Samples,
    /// Real and virtual outputs forced on.
    forced: [u16; 2],
}

impl Rack {
    fn calls_without_module(&mut self) {
        self.ladder.power_up_unknown();
        self.steps(2);
        self.ladder.faulty_cycle(FileKind::Setup);
        read_table(&mut self.ladder.list);
    }

    /// A fresh module, some steps with its defaults, then mostly SLCINT.
    fn power_up(&mut self) {
        self.ladder.power_up();
        self.some_steps();
        self.ladder.program_all();
        self.samples.module_start();
        if !self.ladder.numbers.one_in(4) {
            self.interrupting_setup();
        }
    }

    fn interrupting_setup(&mut self) {
        self.ladder.interrupting_setup();
        self.samples.module_start();
    }

    fn episode(&mut self) {
        match self.ladder.numbers.below(16) {
            0..=5 => self.some_steps(),
            6 | 7 => {
                let kind = self.ladder.numbers.pick(&FILE_KINDS);
                self.ladder.sound_cycle(kind);
                if kind == FileKind::Setup {
                    self.samples.module_start();
                }
            }
            8 | 9 => {
                let kind = self.ladder.numbers.pick(&FILE_KINDS);
                self.ladder.faulty_cycle(kind);
            }
            10 => self.ladder.nudges(),
            11 | 12 => self.fault(),
            13 => self.run(),
            14 => self.interrupting_setup(),
            _ if self.ladder.numbers.one_in(3) => self.power_up(),
            _ => self.ladder.power_up_unknown(),
        }
    }

    fn some_steps(&mut self) {
        let numbers = &mut self.ladder.numbers;
        let length = self.samples.draw_segment(numbers);
        self.steps(length.min(15));
    }

    fn steps(&mut self, count: u32) {
        for _ in 0..count {
            self.step(None);
        }
    }

    /// One step, with a raw position of its own if given. Forced outputs
    /// come and go.
    fn step(&mut self, raw: Option<u16>) {
        let Ladder {
            numbers, program, ..
        } = &mut self.ladder;
        let mut sample = self.samples.next(numbers, program);
        sample[0] = raw.unwrap_or(sample[0]);
        if numbers.one_in(4) {
            self.forced = self.forced.map(|_| {
                let some = numbers.sparse_word(3);
                numbers.pick(&[0, some])
            });
        }
        let [real, virt] = self.forced;
        sample[5] |= real;
        sample[7] |= virt;
        self.ladder.step(&sample);
    }

    /// Raw positions over 1023, some steps in fault, then mostly ClrErr.
    fn fault(&mut self) {
        for _ in 0..self.ladder.numbers.between(1, 3) {
            let raw = self.ladder.numbers.pick(&[1024, 2000, 0xffff]);
            self.step(Some(raw));
        }
        let length = self.ladder.numbers.below(6);
        self.steps(length);
        match self.ladder.numbers.below(4) {
            0 => self.ladder.keeping_setup(),
            1 => self.ladder.faulty_cycle(FileKind::Limit),
            _ => self.ladder.clear_errors(),
        }
        self.samples.module_start();
        let length = self.ladder.numbers.below(6);
        self.steps(length);
    }

    /// Runs up to an update of the speed where one comes after 600 steps.
    fn run(&mut self) {
        let window = self.ladder.program.window_steps();
        if window > 600 {
            return self.some_steps();
        }
        self.ladder.clear_errors();
        let Ladder {
            numbers, program, ..
        } = &mut self.ladder;
        let length = self.samples.draw_run(numbers, program).min(window + 2);
        self.ladder.accesses_every = ACCESSES_EVERY_IN_A_RUN;
        self.steps(length);
        self.ladder.accesses_every = ACCESSES_EVERY;
        read_table(&mut self.ladder.list);
        // A fault after it takes the readings away.
        if self.ladder.numbers.one_in(2) {
            self.fault();
        }
    }
}
