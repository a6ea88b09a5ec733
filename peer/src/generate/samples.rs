//! Samples: a machine in motion, inputs that chatter, forces in bursts.

use crate::generate::numbers::Numbers;
use crate::generate::program::Program;
use crate::generate::slow_lists::Travel;
use crate::group::FIRST_CYCLE;
use crate::motion::{ADVANCE_STEPS, TURN};
use crate::step::SAMPLE_WORDS;

/// Parts of a count in which position and speed are kept.
const PARTS: i64 = 1 << 16;
/// Counts of the encoder that a walk round a turn goes in a step, at most.
const WIDEST_STRIDE: u16 = 32;

/// How the raw position goes on; speeds in parts of a count for each step.
#[derive(Clone, Copy, Debug)]
enum Motion {
    Steady(i64),
    /// Turns round every so many steps.
    Swing {
        speed: i64,
        turn: u32,
    },
    /// Anywhere, one step in so many.
    Jumps(u32),
    /// So many counts back after each update of the speed, and forward again
    /// in the next one.
    Backed(i64),
    /// So many counts from one update of c to the next: two numbers in turn.
    Paced([i32; 2]),
    /// From one update of the speed to the next.
    Crept(Travel),
}

impl Motion {
    fn draw(numbers: &mut Numbers) -> Motion {
        match numbers.below(10) {
            0 => Motion::draw_standing(numbers),
            1 => Motion::Swing {
                speed: draw_speed(numbers),
                turn: numbers.pick(&[1, 2, 5, 15, 30, 60, 100, 300]),
            },
            2 => Motion::Jumps(numbers.pick(&[1, 3, 20, 120])),
            _ => Motion::Steady(draw_speed(numbers)),
        }
    }

    /// Standing, creeping, or a swing that ends where it began.
    fn draw_standing(numbers: &mut Numbers) -> Motion {
        match numbers.below(6) {
            0 => Motion::Steady(draw_creep(numbers)),
            1 => Motion::Steady(-draw_creep(numbers)),
            2 => Motion::Swing {
                speed: PARTS * i64::from(numbers.between(1, 40)),
                turn: numbers.pick(&[1, 5, 30, 60]),
            },
            _ => Motion::Steady(0),
        }
    }

    /// Up to eight counts a step.
    fn draw_run(numbers: &mut Numbers, program: &Program) -> Motion {
        let speed = match program.edge_speed() {
            Some(counts) => i64::from(counts) * PARTS,
            None => i64::from(numbers.between(1, 8)) * PARTS + i64::from(numbers.word()),
        };
        Motion::Steady(numbers.pick(&[speed, speed, -speed]))
    }
}

/// A count in hundreds of steps.
fn draw_creep(numbers: &mut Numbers) -> i64 {
    PARTS / i64::from(numbers.between(100, 900))
}

/// Creeping, slow, usual, fast, or half a turn in a step.
fn draw_speed(numbers: &mut Numbers) -> i64 {
    let parts = |counts: u16| i64::from(counts) * PARTS;
    let speed = match numbers.below(12) {
        0 | 1 => draw_creep(numbers),
        2 | 3 => PARTS / i64::from(numbers.between(1, 20)),
        4..=7 => parts(numbers.between(1, 8)) + i64::from(numbers.word()),
        8 | 9 => parts(numbers.between(8, 100)),
        10 => parts(numbers.between(100, 500)),
        _ => parts(numbers.pick(&[510, 511, 512, 513])),
    };
    numbers.pick(&[speed, speed, -speed])
}

/// Sixteen inputs, active or not.
#[derive(Clone, Debug)]
struct Inputs {
    active: u16,
    /// Each changes one time in 2^rarity; never at 0.
    rarity: u32,
}

impl Inputs {
    const INACTIVE: Inputs = Inputs {
        active: 0,
        rarity: 0,
    };

    fn draw(&mut self, numbers: &mut Numbers) {
        let any = numbers.word();
        self.active = numbers.pick(&[self.active, any, 0, 0xffff]);
        self.rarity = numbers.pick(&[0, 1, 2, 4, 6, 8, 10]);
    }

    fn step(&mut self, numbers: &mut Numbers) {
        if self.rarity > 0 {
            self.active ^= numbers.sparse_word(self.rarity);
        }
    }

    fn set_first_cycle(&mut self, active: bool) {
        let bit = 1 << FIRST_CYCLE;
        self.active = self.active & !bit | if active { bit } else { 0 };
    }
}

/// The six force words, for as long as a burst lasts.
#[derive(Clone, Debug)]
struct Forces {
    words: [u16; 6],
    steps_left: u32,
    /// A burst begins one step in so many.
    every: u32,
}

impl Forces {
    const NONE: Forces = Forces {
        words: [0; 6],
        steps_left: 0,
        every: 0,
    };

    fn step(&mut self, numbers: &mut Numbers) {
        if self.steps_left > 0 {
            self.steps_left -= 1;
        } else {
            self.words = [0; 6];
            if self.every > 0 && numbers.one_in(self.every) {
                self.words = self.words.map(|_| numbers.sparse_word(3));
                self.steps_left = u32::from(numbers.between(0, 12));
            }
        }
    }
}

/// Counts gone after so many steps more than one since an update of the speed;
/// after `last` it is the next update. There is no movement in the first step,
/// since none counts where that follows a module start.
fn travelled(travel: Travel, step: u32, last: u32) -> i64 {
    let [step, last] = [step, last].map(i64::from);
    let swung = i64::from(travel.swing) * 2 * step.min(last - step) / last;
    i64::from(travel.counts) * step / last + swung
}

pub struct Samples {
    position: i64,
    motion: Motion,
    real: Inputs,
    virt: Inputs,
    forces: Forces,
    /// First Cycle is pressed by updates of the speed; else it is inactive.
    pressing: bool,
    /// Steps since the module start.
    steps: u32,
}

impl Samples {
    pub fn new() -> Samples {
        Samples {
            position: 0,
            motion: Motion::Steady(0),
            real: Inputs::INACTIVE,
            virt: Inputs::INACTIVE,
            forces: Forces::NONE,
            pressing: true,
            steps: 0,
        }
    }

    pub fn module_start(&mut self) {
        self.steps = 0;
    }

    /// Draws motion, chatter and forces for the next samples; tells for how
    /// many.
    pub fn draw_segment(&mut self, numbers: &mut Numbers) -> u32 {
        if numbers.one_in(2) {
            self.motion = Motion::draw(numbers);
        }
        self.real.draw(numbers);
        self.virt.draw(numbers);
        self.forces.every = numbers.pick(&[0, 0, 0, 40, 200]);
        let (shortest, longest) = numbers.pick(&[(1, 10), (10, 60), (60, 300), (60, 600)]);
        u32::from(numbers.between(shortest, longest))
    }

    /// The machine runs with chattering inputs; tells for how many samples,
    /// an update of the speed being among them.
    pub fn draw_run(&mut self, numbers: &mut Numbers, program: &Program) -> u32 {
        let window = program.window_steps();
        self.motion = Motion::draw_run(numbers, program);
        let rarity = numbers.pick(&[2, 4, 6]);
        self.real.rarity = rarity;
        self.virt.rarity = rarity;
        // After a long window there is no time left to run on.
        let run_on = if window > 600 { 2 } else { 2 * window };
        window - self.steps % window + numbers.below(run_on)
    }

    /// The machine moves half a turn in each step, or a count less one way or
    /// the other; tells for how many samples, a whole window of the speed
    /// being among them.
    pub fn draw_farthest(&mut self, numbers: &mut Numbers, program: &Program) -> u32 {
        let window = program.window_steps();
        self.motion = Motion::Steady(numbers.pick(&[512, 511, -511]) * PARTS);
        self.real.draw(numbers);
        self.virt.draw(numbers);
        2 * window - self.steps % window + numbers.below(3)
    }

    /// The machine runs so that c becomes these two numbers in turn.
    fn pace(&mut self, program: &Program, paces: [i32; 2]) {
        let direction = if program.counts_down() { -1 } else { 1 };
        self.motion = Motion::Paced(paces.map(|pace| direction * pace));
    }

    /// The machine runs at these paces; most inputs are active.
    pub fn draw_paced(&mut self, numbers: &mut Numbers, program: &Program, paces: [i32; 2]) {
        self.pace(program, paces);
        for inputs in [&mut self.real, &mut self.virt] {
            inputs.draw(numbers);
            if !numbers.one_in(4) {
                inputs.active = 0xffff;
                inputs.rarity = numbers.pick(&[0, 0, 10]);
            }
        }
        self.forces.every = numbers.pick(&[0, 0, 200]);
    }

    /// The machine runs at these paces; inputs chatter and forces come often.
    pub fn draw_restless(&mut self, numbers: &mut Numbers, program: &Program, paces: [i32; 2]) {
        self.pace(program, paces);
        self.real.draw(numbers);
        self.virt.draw(numbers);
        self.forces.every = numbers.pick(&[0, 20, 60]);
    }

    /// The machine goes on like this from one update of the speed to the next;
    /// many inputs are active, and First Cycle is pressed or not.
    pub fn draw_crept(&mut self, numbers: &mut Numbers, travel: Travel) {
        self.motion = Motion::Crept(travel);
        for inputs in [&mut self.real, &mut self.virt] {
            let any = numbers.word();
            inputs.active = numbers.pick(&[inputs.active, any, any, 0xffff]);
            inputs.rarity = numbers.pick(&[0, 0, 4, 8, 10]);
        }
        self.forces.every = numbers.pick(&[0, 0, 200]);
        self.pressing = numbers.one_in(2);
    }

    /// The same with all inputs active or none, and First Cycle pressed or not.
    pub fn crept(&mut self, travel: Travel, active: bool, pressing: bool) {
        self.motion = Motion::Crept(travel);
        for inputs in [&mut self.real, &mut self.virt] {
            inputs.active = if active { 0xffff } else { 0 };
            inputs.rarity = 0;
        }
        self.pressing = pressing;
    }

    /// The machine passes every count of a turn, and a few of them again; most
    /// inputs are active and forces are seldom. Tells for how many samples.
    pub fn draw_walk(&mut self, numbers: &mut Numbers, program: &Program) -> u32 {
        let stride = numbers.between(1, (TURN / program.scale()).min(WIDEST_STRIDE));
        let speed = PARTS * i64::from(stride);
        self.motion = Motion::Steady(numbers.pick(&[speed, speed, -speed]));
        for inputs in [&mut self.real, &mut self.virt] {
            inputs.active = 0xffff;
            inputs.rarity = numbers.pick(&[0, 0, 0, 10]);
        }
        self.forces.every = numbers.pick(&[0, 0, 0, 200]);
        u32::from(TURN / stride + numbers.between(2, 40))
    }

    /// The machine stands; tells for how many samples, a stop being among
    /// them.
    pub fn draw_stand(&mut self, numbers: &mut Numbers, program: &Program) -> u32 {
        let window = program.window_steps();
        self.motion = Motion::draw_standing(numbers);
        let rarity = numbers.pick(&[0, 2, 8]);
        self.real.rarity = rarity;
        self.virt.rarity = rarity;
        2 * window - self.steps % window + 1 + numbers.below(window)
    }

    /// The machine stands or is backed between updates of the speed; tells
    /// for how many samples, a stop being among them and up to `longer`
    /// updates after it.
    pub fn draw_stops(&mut self, numbers: &mut Numbers, program: &Program, longer: u32) -> u32 {
        let length = self.draw_stand(numbers, program);
        if numbers.one_in(2) {
            self.motion = Motion::Backed(i64::from(numbers.between(1, 500)) * PARTS);
        }
        length + numbers.below(longer) * program.window_steps()
    }

    pub fn next(&mut self, numbers: &mut Numbers, program: &Program) -> [u16; SAMPLE_WORDS] {
        self.steps += 1;
        self.move_on(numbers, program.window_steps());
        self.real.step(numbers);
        self.virt.step(numbers);
        self.first_cycle_edges(numbers, program.window_steps());
        self.forces.step(numbers);
        let raw = (self.position / PARTS) as u16;
        let currents = !(self.real.active ^ program.active_states());
        let mut sample = [0; SAMPLE_WORDS];
        sample[..3].copy_from_slice(&[raw, currents, self.virt.active]);
        sample[3..].copy_from_slice(&self.forces.words);
        sample
    }

    fn move_on(&mut self, numbers: &mut Numbers, window: u32) {
        let speed = match self.motion {
            Motion::Steady(speed) => speed,
            Motion::Swing { speed, turn } if (self.steps / turn).is_multiple_of(2) => speed,
            Motion::Swing { speed, .. } => -speed,
            Motion::Jumps(every) if numbers.one_in(every) => {
                i64::from(numbers.between(0, 1023)) * PARTS
            }
            Motion::Jumps(_) => 0,
            Motion::Backed(counts) => match self.steps % window {
                0 => counts,
                1 => -counts,
                _ => 0,
            },
            Motion::Paced(paces) => {
                let window = u32::from(ADVANCE_STEPS);
                let (windows, step) = ((self.steps - 1) / window, (self.steps - 1) % window);
                let pace = i64::from(paces[windows as usize % 2]);
                let counts = |steps: u32| (pace * i64::from(steps)).div_euclid(window.into());
                (counts(step + 1) - counts(step)) * PARTS
            }
            Motion::Crept(travel) => {
                let step = (self.steps - 1) % window;
                let reached = |step| travelled(travel, step, window - 1);
                (reached(step) - reached(step.saturating_sub(1))) * PARTS
            }
        };
        self.position = (self.position + speed).rem_euclid(1024 * PARTS);
    }

    /// Makes edges of the First Cycle Inputs in updates and right after, and
    /// holds them from before; none where they are not pressed.
    fn first_cycle_edges(&mut self, numbers: &mut Numbers, window: u32) {
        let active = match self.steps % window {
            _ if !self.pressing => false,
            step if step + 1 == window => numbers.one_in(8),
            0 => !numbers.one_in(4),
            1 => numbers.one_in(2),
            _ => return,
        };
        self.real.set_first_cycle(active);
        self.virt.set_first_cycle(active);
    }
}
