//! Lists with slow machines: about 3 rpm, creeps of a few counts from one
//! update of the speed to the next, stops by standing and by swinging back,
//! speeds at and beside the ends of the detectors.

use crate::blocks::group_block_at;
use crate::generate::call_list::CallList;
use crate::generate::file_kind::FileKind;
use crate::generate::ladder::Ladder;
use crate::generate::numbers::Numbers;
use crate::generate::program::Program;
use crate::generate::samples::Samples;
use crate::generate::slow_updates::rounded_twice;
use crate::group::{GROUPS, GROUP_USED};
use crate::motion::{half_up, tach, tenths, STEPS_PER_MS, TENTHS};
use crate::setup::{Scalars, HIGHEST_SCALE, LOWEST_SCALE, TACH_RESPONSE};

/// Byte accesses follow one call in so many.
const ACCESSES_EVERY: u32 = 200;
/// About 3 rpm, in tenths.
const SLOW_WRAPPER: (u16, u16) = (25, 35);
/// The greatest C of a creep.
pub(crate) const MOST_CREPT: u16 = 5;
/// Counts that a swing goes, and comes back.
const WIDEST_SWING: u16 = 1024;
/// Windows of a run that stops and is started again with First Cycle.
const RESTART_WINDOWS: u16 = 4;
/// Draws that look for what is seldom.
const TRIES: usize = 20;

/// The list of a seed.
pub fn slow_list(seed: u64) -> CallList {
    // Other numbers than the other lists have for the seed.
    let mut ladder = Ladder::new(!seed.rotate_left(48), ACCESSES_EVERY);
    ladder.power_up();
    let response = ladder.numbers.pick(&[0, TACH_RESPONSE]);
    // Windows after each setup: about as many steps with either response.
    let (setups, windows) = match response {
        0 => (1, (3, 5)),
        _ => (2, (5, 9)),
    };
    let mut run = Run {
        ladder,
        samples: Samples::new(),
        response,
    };
    for _ in 0..setups {
        run.set_up();
        let windows = run.ladder.numbers.between(windows.0, windows.1);
        run.windows(windows);
    }
    run.ladder.list
}

struct Run {
    ladder: Ladder,
    samples: Samples,
    /// The response bit of the setups.
    response: u16,
}

impl Run {
    fn set_up(&mut self) {
        let ladder = &mut self.ladder;
        ladder.clear_errors();
        let mut program = ladder.program.clone();
        draw_setup(&mut ladder.numbers, &mut program, self.response);
        ladder.sound_cycle_of(FileKind::Setup, program);
        self.samples.module_start();
        if !self.ladder.program.is_independent() {
            self.group_cycle();
        }
        self.limit_cycle();
    }

    /// Groups that are mostly in Mode 5 or 4.
    fn group_cycle(&mut self) {
        let ladder = &mut self.ladder;
        ladder.clear_errors();
        let mut program = ladder.program.clone();
        let mode = ladder.numbers.pick(&[5, 5, 5, 4]);
        program.draw_groups_in(&mut ladder.numbers, mode);
        widen_dwells(&mut ladder.numbers, &mut program);
        ladder.sound_cycle_of(FileKind::Group, program);
    }

    /// Outputs that show whether their groups are open.
    fn limit_cycle(&mut self) {
        let ladder = &mut self.ladder;
        ladder.clear_errors();
        let mut program = ladder.program.clone();
        program.draw_showing_limits(&mut ladder.numbers);
        ladder.sound_cycle_of(FileKind::Limit, program);
    }

    fn windows(&mut self, count: u16) {
        let mut left = count;
        while left > 0 {
            if left >= RESTART_WINDOWS && self.ladder.numbers.one_in(4) {
                self.restart();
                left -= RESTART_WINDOWS;
            } else {
                self.window();
                left -= 1;
            }
        }
    }

    /// A creep qualifies groups, a stop closes them, and in the second creep
    /// after it First Cycle opens them.
    fn restart(&mut self) {
        let ladder = &mut self.ladder;
        let window = ladder.program.window_steps();
        for (moves, active, pressing) in [
            (true, true, false),
            (false, false, false),
            (true, false, false),
            (true, false, true),
        ] {
            let Ladder {
                numbers, program, ..
            } = ladder;
            let counts = if moves {
                draw_creep(numbers, program)
            } else {
                0
            };
            let travel = Travel::of(numbers, counts);
            self.samples.crept(travel, active, pressing);
            ladder.run(&mut self.samples, window);
        }
    }

    /// From one update of the speed to the next; further where a module start
    /// comes between.
    fn window(&mut self) {
        let ladder = &mut self.ladder;
        let travel = Travel::draw(&mut ladder.numbers, &ladder.program);
        self.samples.draw_crept(&mut ladder.numbers, travel);
        let window = ladder.program.window_steps();
        let first = match ladder.numbers.below(3) {
            0 => ladder.numbers.below(window),
            _ => window,
        };
        ladder.run(&mut self.samples, first);
        let starts = first < window && self.interlude();
        let rest = if starts { window } else { window - first };
        self.ladder.run(&mut self.samples, rest);
    }

    /// What comes between two steps; tells whether it is a module start.
    fn interlude(&mut self) -> bool {
        match self.ladder.numbers.below(8) {
            0 | 1 => self.ladder.nudges(),
            2 => self.limit_cycle(),
            3 if !self.ladder.program.is_independent() => {
                self.group_cycle();
                self.limit_cycle();
            }
            4 | 5 => self.equal_ends(),
            6 => {
                let kind = self
                    .ladder
                    .numbers
                    .pick(&[FileKind::Group, FileKind::Limit]);
                self.ladder.faulty_cycle(kind);
            }
            7 => {
                self.ladder.fault(&mut self.samples);
                return true;
            }
            _ => {}
        }
        false
    }

    /// A setup in which a detector's ends are equal and not 0: it is refused.
    fn equal_ends(&mut self) {
        let ladder = &mut self.ladder;
        let mut program = ladder.program.clone();
        let low = ladder.numbers.pick(&[4, 6]);
        let end = draw_end(&mut ladder.numbers, &program);
        program.m0[low..low + 2].fill(end);
        ladder.refused_cycle_of(FileKind::Setup, &program);
    }
}

/// Where the machine goes from one update of the speed to the next.
#[derive(Clone, Copy, Debug)]
pub(crate) struct Travel {
    /// C.
    pub counts: i32,
    /// Counts beside these, to and fro.
    pub swing: i32,
}

impl Travel {
    fn draw(numbers: &mut Numbers, program: &Program) -> Travel {
        let counts = match numbers.below(15) {
            0 | 1 => 0,
            2..=5 => draw_creep(numbers, program),
            6 => {
                let tenths = numbers.between(SLOW_WRAPPER.0, SLOW_WRAPPER.1);
                counts_at(tenths.into(), program) as u16
            }
            7 => numbers.between(50, 3000),
            8 => draw_counts_at_a_half(numbers, program),
            _ => draw_counts_by_an_end(numbers, program),
        };
        Travel::of(numbers, counts)
    }

    /// So many counts one way or the other, half of the time without a swing.
    fn of(numbers: &mut Numbers, counts: u16) -> Travel {
        let swing = match numbers.below(4) {
            0 => numbers.between(1, 8),
            1 => numbers.between(1, WIDEST_SWING),
            _ => 0,
        };
        Travel {
            counts: numbers.pick(&[1, -1]) * i32::from(counts),
            swing: numbers.pick(&[1, -1]) * i32::from(swing),
        }
    }
}

/// Counts of a creep from one update to the next; in 120 ms often the only one
/// that 01 took for a stop.
fn draw_creep(numbers: &mut Numbers, program: &Program) -> u16 {
    match window_ms(program) {
        120 => numbers.pick(&[1, 1, 1, 2, 3, 4, MOST_CREPT]),
        _ => numbers.between(1, MOST_CREPT),
    }
}

fn window_ms(program: &Program) -> u32 {
    program.window_steps() / STEPS_PER_MS
}

/// The C whose tenths are nearest to these.
fn counts_at(tenths: u32, program: &Program) -> u64 {
    let window = 1024 * u64::from(window_ms(program));
    half_up(u64::from(tenths) * window, 600_000)
}

/// Counts whose tenths are rounded up from a half: 312.5 of 64 counts in 120 ms,
/// 1562.5 of 1,344 in 504 ms, and odd multiples.
fn draw_counts_at_a_half(numbers: &mut Numbers, program: &Program) -> u16 {
    let least = if window_ms(program) == 120 { 64 } else { 1344 };
    least * numbers.pick(&[1, 3, 5])
}

/// Counts that lead to the end of a detector or a tenth beside it, where some
/// do; else near it.
fn draw_counts_by_an_end(numbers: &mut Numbers, program: &Program) -> u16 {
    let end = TENTHS * u32::from(program.m0[usize::from(numbers.between(4, 7))]);
    let leading: Vec<u16> = [end.saturating_sub(1), end, end + 1]
        .into_iter()
        .map(|aim| (aim, counts_at(aim, program)))
        .filter(|&(aim, counts)| tenths(counts as i32, window_ms(program)) == aim)
        .map(|(_, counts)| counts as u16)
        .collect();
    match leading[..] {
        [] => counts_at(end, program) as u16,
        _ => numbers.pick(&leading),
    }
}

/// Setup words with detectors and scalars for slow machines; most are in Group
/// Mode.
fn draw_setup(numbers: &mut Numbers, program: &mut Program, response: u16) {
    let any = numbers.between(LOWEST_SCALE, HIGHEST_SCALE);
    let scale = numbers.pick(&[2, 100, 360, 1000, 1024, 1024, any]);
    let independent = numbers.one_in(8);
    program.draw_setup(numbers, scale, independent);
    program.m0[0] = program.m0[0] & !TACH_RESPONSE | response;
    for low in [4, 6] {
        let ends = draw_detector(numbers, program);
        program.m0[low..low + 2].copy_from_slice(&ends);
    }
    let Scalars {
        multiplier,
        divisor,
        code,
    } = draw_scalars(numbers, program);
    program.m0[8..11].copy_from_slice(&[multiplier, divisor, code]);
}

fn draw_detector(numbers: &mut Numbers, program: &Program) -> [u16; 2] {
    let [low, high] = [0; 2].map(|_: u16| draw_end(numbers, program));
    match numbers.below(8) {
        0 => [0, 0],
        1 => [0, high],
        2 => [low, 0],
        // Equal ends are an error.
        _ if low == high => [low, high + 1],
        _ => [low, high],
    }
}

/// An end in rpm, mostly one that some slow speed meets or misses by a tenth.
fn draw_end(numbers: &mut Numbers, program: &Program) -> u16 {
    let most = numbers.pick(&[10, 60, 400, 2000]);
    for _ in 0..TRIES {
        let counts = numbers.between(1, most);
        let above = tenths(counts.into(), window_ms(program)) + 1;
        if above >= TENTHS && above % TENTHS <= 2 {
            return (above / TENTHS) as u16;
        }
    }
    numbers.between(1, 6)
}

/// Scalars with which the tachometer at many slow speeds would be another one if
/// it were rounded twice; one in four are any.
fn draw_scalars(numbers: &mut Numbers, program: &Program) -> Scalars {
    if numbers.one_in(4) {
        return draw_any_scalars(numbers);
    }
    let most = numbers.pick(&[i32::from(MOST_CREPT), 40]);
    let tells = |scalars: &Scalars| {
        let speeds = (1..=most).map(|counts| tenths(counts, window_ms(program)));
        speeds
            .filter(|&tenths| rounded_twice(tenths, *scalars) != tach(tenths, *scalars))
            .count()
    };
    let drawn = [(); TRIES].map(|()| draw_any_scalars(numbers));
    drawn.into_iter().max_by_key(tells).unwrap_or(drawn[0])
}

fn draw_any_scalars(numbers: &mut Numbers) -> Scalars {
    let (any, any_divisor) = (numbers.between(1, 1100), numbers.between(1, 63));
    Scalars {
        multiplier: numbers.pick(&[1, 2, 10, 1099, 1100, any, any, any]),
        divisor: numbers.pick(&[1, 1, 2, 3, 63, any_divisor]),
        code: numbers.pick(&[0, 0, 1, 2, 3]),
    }
}

/// Makes half of the dwells longer than half a turn.
fn widen_dwells(numbers: &mut Numbers, program: &mut Program) {
    let scale = program.scale();
    for group in 0..GROUPS {
        if program.group_block(group)[0] & GROUP_USED != 0 && numbers.one_in(2) {
            let on = numbers.between(0, scale - 1);
            let off = (on + numbers.between(scale / 2, scale - 1)) % scale;
            let at = group_block_at(group);
            program.m0[at + 1..at + 3].copy_from_slice(&[on, off]);
        }
    }
}
