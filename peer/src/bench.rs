//! Steps, programming cycles, frames and turned sections from memory with a
//! checksum over their answers, to measure their time. docs/BENCH.md has the
//! programming, the samples, the frames, the sections and the checksum.

use crate::blocks::{group_block_at, limit_block_at, GROUP_BLOCK_WORDS, LIMIT_BLOCK_WORDS};
use crate::columns::{to_columns, to_rows, MOST_SAMPLES};
use crate::cycles::{Answer, GROUP_COMMAND, M0_WORDS, M1_WORDS, TRANSMIT};
use crate::df1::{read_frame, write_frame, LONGEST_FRAME, MOST_DATA};
use crate::limit_block::PAIRS;
use crate::module::{Module, Refusal};
use crate::motion::TURN;
use crate::step::{StepAnswer, SAMPLE_WORDS};

/// What a case does with its programmed module.
enum Work {
    Steps,
    /// Steps answered 11.
    Faults,
    /// Limit cycles, each followed by the call that ends it.
    Cycles,
}

/// What a module is programmed with, and what it then does.
pub struct Case {
    number: u16,
    setup: [u16; 12],
    groups: &'static [[u16; GROUP_BLOCK_WORDS]],
    outputs: u16,
    /// The block of an output, counted from 0.
    limit_block: fn(u16) -> [u16; LIMIT_BLOCK_WORDS],
    work: Work,
}

/// 32 normal outputs with eight pairs, six groups, advances.
pub const FULL: Case = Case {
    number: 8513,
    setup: [33057, 1000, 0, 10, 100, 20000, 1, 30000, 3, 2, 0, 0],
    groups: &[
        [32773, 0, 0, 7],
        [33029, 900, 100, 50],
        [33286, 800, 850, 0],
        [49925, 0, 0, 20],
        [50181, 100, 600, 30],
        [58630, 200, 700, 40],
    ],
    outputs: 32,
    limit_block: full_block,
    work: Work::Steps,
};

/// The full card with all groups open and pairs that seldom hold, so that
/// nearly every pair is tested.
pub const EVERY_PAIR: Case = Case {
    groups: &[
        [33029, 900, 100, 50],
        [33029, 900, 100, 50],
        [33030, 900, 100, 50],
        [49413, 900, 100, 50],
        [49413, 900, 100, 50],
        [49414, 900, 100, 50],
    ],
    limit_block: every_pair_block,
    ..FULL
};

/// The full card with a raw position out of range.
pub const FAULTS: Case = Case {
    work: Work::Faults,
    ..FULL
};

/// The full card, programmed again and again.
pub const CYCLES: Case = Case {
    work: Work::Cycles,
    ..FULL
};

/// Four outputs of one pair.
pub const SMALL: Case = Case {
    number: 8512,
    setup: [32801, 1024, 0, 0, 0, 0, 0, 0, 1, 1, 0, 0],
    groups: &[[32772, 0, 0, 0]],
    outputs: 4,
    limit_block: small_block,
    work: Work::Steps,
};

fn full_block(output: u16) -> [u16; LIMIT_BLOCK_WORDS] {
    let mut block = [0; LIMIT_BLOCK_WORDS];
    block[0] = 8192 * (output % 3);
    let [on_advance, off_advance] = match output % 2 {
        0 => [10 + output, 5 + output],
        _ => [65526 - output, 65531 - output],
    };
    block[1] = on_advance;
    block[2] = off_advance;
    for index in 0..PAIRS {
        let spacing = 125 + 3 * (output % 4);
        let on = (31 * output + spacing * index as u16) % 1000;
        block[3 + 2 * index] = on;
        block[4 + 2 * index] = (on + 40 + output) % 1000;
    }
    block
}

fn every_pair_block(output: u16) -> [u16; LIMIT_BLOCK_WORDS] {
    let mut block = [0; LIMIT_BLOCK_WORDS];
    block[0] = 8192 * (1 + output % 2);
    let advance = match output % 2 {
        0 => 999,
        _ => 64537,
    };
    block[1] = advance;
    block[2] = advance;
    for index in 0..PAIRS {
        let on = (31 * output + 125 * index as u16) % 1000;
        block[3 + 2 * index] = on;
        block[4 + 2 * index] = (on + 1) % 1000;
    }
    block
}

fn small_block(output: u16) -> [u16; LIMIT_BLOCK_WORDS] {
    let mut block = [0; LIMIT_BLOCK_WORDS];
    block[3] = 256 * output;
    block[4] = 256 * output + 100;
    block
}

/// A programmed module that a case runs on.
pub trait Card {
    /// The outcome: 0 where the cycle is accepted, `IDLE`, or its refusal.
    fn limit_cycle(&mut self, m1: &mut [u16; M1_WORDS]) -> u32;

    /// The numbers that the checksum takes for a step.
    fn step(&mut self, sample: &[u16; SAMPLE_WORDS]) -> [u32; 4];
}

/// The outcome of a call that was answered Idle.
pub const IDLE: u32 = 65535;

impl Card for Module {
    fn limit_cycle(&mut self, m1: &mut [u16; M1_WORDS]) -> u32 {
        match Module::limit_cycle(self, m1) {
            Answer::Accepted => 0,
            Answer::Idle => IDLE,
            Answer::Refused(refusal) => u32::from(refusal.number()),
        }
    }

    fn step(&mut self, sample: &[u16; SAMPLE_WORDS]) -> [u32; 4] {
        numbers(&Module::step(self, sample))
    }
}

/// The files that a module is programmed with.
pub struct Files {
    pub number: u16,
    pub m0: [u16; M0_WORDS],
    pub m1: [u16; M1_WORDS],
}

impl Case {
    pub fn of_name(name: &str) -> Option<Case> {
        match name {
            "a" => Some(FULL),
            "b" => Some(SMALL),
            "x" => Some(EVERY_PAIR),
            "f" => Some(FAULTS),
            "p" => Some(CYCLES),
            _ => None,
        }
    }

    /// The files: each cycle is sent once and is accepted.
    pub fn files(&self) -> Files {
        let mut m0 = [0; M0_WORDS];
        m0[..self.setup.len()].copy_from_slice(&self.setup);
        m0[GROUP_COMMAND] = TRANSMIT;
        for (group, block) in self.groups.iter().enumerate() {
            let at = group_block_at(group);
            m0[at..at + GROUP_BLOCK_WORDS].copy_from_slice(block);
        }
        let mut m1 = [0; M1_WORDS];
        m1[0] = TRANSMIT;
        for output in 0..self.outputs {
            let at = limit_block_at(usize::from(output));
            m1[at..at + LIMIT_BLOCK_WORDS].copy_from_slice(&(self.limit_block)(output));
        }
        let number = self.number;
        Files { number, m0, m1 }
    }

    /// The module, programmed.
    fn module(&self) -> Module {
        let mut files = self.files();
        let mut module = Module::power_up(files.number).expect("known module");
        assert_eq!(module.setup_cycle(&mut files.m0), Answer::Accepted);
        assert_eq!(module.group_cycle(&mut files.m0), Answer::Accepted);
        assert_eq!(module.limit_cycle(&mut files.m1), Answer::Accepted);
        module
    }

    /// The checksum of this many steps or turns.
    pub fn run(&self, count: u32) -> u32 {
        self.run_on(&mut self.module(), count)
    }

    /// The same on a module that is programmed already.
    pub fn run_on(&self, card: &mut impl Card, count: u32) -> u32 {
        match self.work {
            Work::Steps => run_steps(card, count, sample),
            Work::Faults => run_steps(card, count, fault_sample),
            Work::Cycles => run_cycles(card, count, &mut self.files().m1),
        }
    }
}

fn run_steps(card: &mut impl Card, steps: u32, sample: impl Fn(u32) -> [u16; SAMPLE_WORDS]) -> u32 {
    (0..steps).fold(0, |sum, step| checksum(sum, card.step(&sample(step))))
}

/// Each turn moves a setpoint and sends the limit program; a step ends them.
fn run_cycles(card: &mut impl Card, turns: u32, m1: &mut [u16; M1_WORDS]) -> u32 {
    // The cycle that programmed the module is ended before the first turn.
    m1[0] = 0;
    card.limit_cycle(m1);
    let sum = (0..turns).fold(0, |sum, turn| {
        m1[limit_block_at(0) + 3] = 500 + (turn % 400) as u16;
        m1[0] = TRANSMIT;
        let sent = card.limit_cycle(m1);
        m1[0] = 0;
        let ended = card.limit_cycle(m1);
        checksum(sum, [sent << 16 | ended])
    });
    checksum(sum, card.step(&sample(turns)))
}

/// The line that a bench prints for its arguments, a case and a count, where
/// `run` gives the checksum of a case that it knows.
pub fn line(arguments: &[&str], run: fn(&str, u32) -> Option<u32>) -> Option<Vec<u8>> {
    let [name, count] = arguments else {
        return None;
    };
    let checksum = run(name, count.parse().ok()?)?;
    Some(format!("{name} {count} {checksum}\n").into_bytes())
}

/// The checksum of this many steps, turns, frames or sections of a case.
pub fn run(name: &str, count: u32) -> Option<u32> {
    match name {
        "w" => Some(write_frames(count)),
        "r" => Some(read_frames(count)),
        "c" => Some(turn_to_columns(count)),
        "d" => Some(turn_to_rows(count)),
        _ => Some(Case::of_name(name)?.run(count)),
    }
}

/// The sample of a step, counted from 0.
pub fn sample(step: u32) -> [u16; SAMPLE_WORDS] {
    let place = step % 8192;
    let raw = (2 * place + place * place / 4096) % 1024;
    let mut sample = [0; SAMPLE_WORDS];
    sample[0] = raw as u16;
    sample[1] = (step / 32) as u16;
    sample[2] = (step / 16) as u16;
    sample
}

/// The sample of a step that is answered 11.
fn fault_sample(step: u32) -> [u16; SAMPLE_WORDS] {
    let mut sample = sample(step);
    sample[0] = TURN;
    sample
}

fn numbers(answer: &StepAnswer) -> [u32; 4] {
    let [md1, md2] = answer.detectors.map(u32::from);
    let flags = 8 * u32::from(answer.refusal.is_some())
        + 4 * u32::from(answer.tach_overflow)
        + 2 * md1
        + md2;
    [
        u32::from(answer.machine_position.0) | u32::from(answer.tach) << 16,
        u32::from(answer.real_outputs) | u32::from(answer.virtual_outputs) << 16,
        16 * answer.tenths + flags + 33_554_432 * answer.changed,
        u32::from(answer.tests),
    ]
}

/// The data of the first frame.
fn first_data() -> [u8; MOST_DATA] {
    std::array::from_fn(|place| (7 * place) as u8)
}

/// The checksum of this many frames written.
fn write_frames(frames: u32) -> u32 {
    let mut data = first_data();
    let mut buffer = [0; LONGEST_FRAME];
    (0..frames).fold(0, |sum, frame| {
        let place = frame as usize % MOST_DATA;
        data[place] = data[place].wrapping_add(1);
        let length = write_frame(&data, &mut buffer).expect("a frame's data and buffer");
        checksum(sum, [number(&buffer[..length], frame)])
    })
}

/// The checksum of this many frames read.
fn read_frames(readings: u32) -> u32 {
    let mut buffer = [0; LONGEST_FRAME];
    let length = write_frame(&first_data(), &mut buffer).expect("a frame's data and buffer");
    let input = &mut buffer[..length];
    let mut data = [0; MOST_DATA];
    (0..readings).fold(0, |sum, reading| {
        let place = 2 + reading as usize % 100;
        input.swap(place, place + 1);
        let length = read_frame(input, &mut data).expect("a frame and its buffer");
        checksum(sum, [number(&data[..length], reading)])
    })
}

/// The number of a frame or of its data, the one counted `count` from 0.
fn number(bytes: &[u8], count: u32) -> u32 {
    let place = count as usize % bytes.len();
    let last = bytes[bytes.len() - 1];
    (bytes.len() as u32) << 16 | u32::from(bytes[place]) << 8 | u32::from(last)
}

/// Words of a section of the most samples.
const SECTION_WORDS: usize = MOST_SAMPLES * SAMPLE_WORDS;

/// The first section.
fn first_section() -> Vec<u16> {
    (0..SECTION_WORDS).map(|place| (7 * place) as u16).collect()
}

/// The checksum of this many sections turned to columns, whose last raw
/// difference it takes each time.
fn turn_to_columns(turns: u32) -> u32 {
    turn_sections(turns, first_section(), to_columns, MOST_SAMPLES - 1)
}

/// The checksum of this many sections turned to rows, whose last raw position
/// it takes each time.
fn turn_to_rows(turns: u32) -> u32 {
    let mut columns = vec![0; SECTION_WORDS];
    to_columns(&first_section(), &mut columns).expect("a section and its output");
    turn_sections(turns, columns, to_rows, SECTION_WORDS - SAMPLE_WORDS)
}

/// Each turn adds 1 to a word. A number is of the output's word at that place
/// and of the one at `last_raw`.
fn turn_sections(
    turns: u32,
    mut words: Vec<u16>,
    call: fn(&[u16], &mut [u16]) -> Result<(), Refusal>,
    last_raw: usize,
) -> u32 {
    let mut out = vec![0; words.len()];
    (0..turns).fold(0, |sum, turn| {
        let place = turn as usize % words.len();
        words[place] = words[place].wrapping_add(1);
        let number = match call(&words, &mut out) {
            Ok(()) => u32::from(out[place]) << 16 | u32::from(out[last_raw]),
            Err(_) => 0,
        };
        checksum(sum, [number])
    })
}

/// The checksum with the numbers of one more answer.
pub fn checksum<const COUNT: usize>(sum: u32, numbers: [u32; COUNT]) -> u32 {
    numbers.iter().fold(sum, |sum, number| {
        sum.wrapping_mul(31).wrapping_add(*number)
    })
}
