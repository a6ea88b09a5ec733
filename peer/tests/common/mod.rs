//! A card under test, and files built from few words.

#![allow(dead_code)]

use std::io::Write;
use std::process::{Command, Output, Stdio};
use std::thread;

use peer::generate::CallList;
use peer::{replay, Answer, Module, Refusal, StepAnswer, M0_WORDS, M1_WORDS};

pub const TRANSMIT: u16 = 0x8000;
pub const CLEAR_ERRORS: u16 = 0x0001;
/// Setup command bits.
pub const PRESET: u16 = 0x0002;
pub const CDIR: u16 = 0x0010;
pub const TRESP: u16 = 0x0020;
pub const SLCINT: u16 = 0x0100;
pub const INDEPENDENT: u16 = 0x0200;
/// Nudge bits.
pub const NUDGE_CLEAR: u16 = 0x4000;
pub const NUDGE_ON: u16 = 0x0100;
pub const NUDGE_OFF: u16 = 0x0200;
pub const NUDGE_DOWN: u16 = 0x0400;
/// Limit control bits and types.
pub const ENABLE: u16 = 0x8000;
pub const MD1: u16 = 0x2000;
pub const MD2: u16 = 0x4000;
pub const PULSE: u16 = 1;
pub const TIMED: u16 = 2;

/// Two pairs that hold at every position of 1024 counts.
pub const ALWAYS: [u16; 7] = [0, 0, 0, 0, 512, 512, 0];

/// Accepted setup words: SF 1024, multiplier and divisor 1, errors cleared.
pub fn setup_file(changes: &[(usize, u16)]) -> [u16; M0_WORDS] {
    let mut file = [0; M0_WORDS];
    file[0] = TRANSMIT | CLEAR_ERRORS;
    file[1] = 1024;
    file[8] = 1;
    file[9] = 1;
    for &(word, value) in changes {
        file[word] = value;
    }
    file
}

/// The command word that `setup_file` has, with further bits.
pub fn command(bits: u16) -> (usize, u16) {
    (0, TRANSMIT | CLEAR_ERRORS | bits)
}

/// A group file with blocks for groups 1, 2 and so on.
pub fn group_file(blocks: &[[u16; 4]]) -> [u16; M0_WORDS] {
    let mut file = [0; M0_WORDS];
    file[20] = TRANSMIT;
    for (index, block) in blocks.iter().enumerate() {
        file[22 + 4 * index..26 + 4 * index].copy_from_slice(block);
    }
    file
}

/// Control word of a used real group.
pub fn real_group(mode: u16, quantity: u16) -> u16 {
    0x8000 | mode << 8 | quantity
}

/// Control word of a used virtual group with a virtual First Cycle Input.
pub fn virtual_group(mode: u16, quantity: u16) -> u16 {
    0xe000 | mode << 8 | quantity
}

/// A limit file with the words given for each output's block.
pub fn limit_file(blocks: &[(usize, &[u16])]) -> [u16; M1_WORDS] {
    let mut file = [0; M1_WORDS];
    file[0] = TRANSMIT;
    for &(output, words) in blocks {
        let start = 19 * output - 17;
        file[start..start + words.len()].copy_from_slice(words);
    }
    file
}

/// A sample without forces.
pub fn sample(raw: u16, currents: u16, virtual_inputs: u16) -> [u16; 9] {
    [raw, currents, virtual_inputs, 0, 0, 0, 0, 0, 0]
}

pub struct Card {
    pub module: Module,
}

impl Card {
    pub fn fresh(number: u16) -> Card {
        Card {
            module: Module::power_up(number).expect("known module"),
        }
    }

    /// An 8513 after an accepted setup.
    pub fn set_up(changes: &[(usize, u16)]) -> Card {
        Card::fresh(8513).and_setup(changes)
    }

    /// An 8513 in Group Mode with accepted groups.
    pub fn grouped(blocks: &[[u16; 4]]) -> Card {
        Card::set_up(&[]).and_groups(blocks)
    }

    /// An 8513 in Independent Mode with accepted limit programs.
    pub fn independent(blocks: &[(usize, &[u16])]) -> Card {
        Card::set_up(&[command(INDEPENDENT)]).and_limits(blocks)
    }

    pub fn and_setup(mut self, changes: &[(usize, u16)]) -> Card {
        assert_eq!(self.setup(changes), Answer::Accepted);
        self
    }

    pub fn and_groups(mut self, blocks: &[[u16; 4]]) -> Card {
        assert_eq!(self.groups(blocks), Answer::Accepted);
        self
    }

    pub fn and_limits(mut self, blocks: &[(usize, &[u16])]) -> Card {
        assert_eq!(self.limits(blocks), Answer::Accepted);
        self
    }

    /// Sends a setup file as it is, then again with transmit clear.
    pub fn send_setup(&mut self, file: &mut [u16; M0_WORDS]) -> Answer {
        let answer = self.module.setup_cycle(file);
        self.module.setup_cycle(&mut [0; M0_WORDS]);
        answer
    }

    pub fn send_groups(&mut self, file: &mut [u16; M0_WORDS]) -> Answer {
        let answer = self.module.group_cycle(file);
        self.module.group_cycle(&mut [0; M0_WORDS]);
        answer
    }

    pub fn send_limits(&mut self, file: &mut [u16; M1_WORDS]) -> Answer {
        let answer = self.module.limit_cycle(file);
        self.module.limit_cycle(&mut [0; M1_WORDS]);
        answer
    }

    pub fn setup(&mut self, changes: &[(usize, u16)]) -> Answer {
        self.send_setup(&mut setup_file(changes))
    }

    pub fn groups(&mut self, blocks: &[[u16; 4]]) -> Answer {
        self.send_groups(&mut group_file(blocks))
    }

    pub fn limits(&mut self, blocks: &[(usize, &[u16])]) -> Answer {
        self.send_limits(&mut limit_file(blocks))
    }

    /// A nudge with transmit set, then one with transmit clear.
    pub fn nudge(&mut self, word: u16) -> Answer {
        let answer = self.module.nudge_cycle(TRANSMIT | word);
        self.module.nudge_cycle(0);
        answer
    }

    pub fn clear_errors(&mut self) {
        assert_eq!(self.nudge(NUDGE_CLEAR), Answer::Accepted);
    }

    /// Words 112 to 117, from a group cycle that is refused 7 and cleared.
    pub fn group_positions(&mut self) -> [u16; 6] {
        let mut file = group_file(&[]);
        file[20] |= CLEAR_ERRORS;
        file[21] = 1;
        assert_eq!(
            self.send_groups(&mut file),
            Answer::Refused(Refusal::GroupData)
        );
        self.clear_errors();
        file[112..118].try_into().expect("six words")
    }

    /// A step without currents or active virtual inputs.
    pub fn step(&mut self, raw: u16) -> StepAnswer {
        self.module.step(&sample(raw, 0, 0))
    }

    /// A step with virtual inputs.
    pub fn step_in(&mut self, raw: u16, virtual_inputs: u16) -> StepAnswer {
        self.module.step(&sample(raw, 0, virtual_inputs))
    }

    /// Output 17 after a step with virtual inputs.
    pub fn lit(&mut self, raw: u16, virtual_inputs: u16) -> bool {
        self.step_in(raw, virtual_inputs).virtual_outputs & 1 != 0
    }

    /// Output 17 over steps of raw position and virtual inputs.
    pub fn lit_over(&mut self, steps: &[(u16, u16)]) -> Vec<bool> {
        steps
            .iter()
            .map(|&(raw, virtual_inputs)| self.lit(raw, virtual_inputs))
            .collect()
    }

    /// Steps at one raw position.
    pub fn stand(&mut self, raw: u16, virtual_inputs: u16, steps: usize) {
        for _ in 0..steps {
            self.step_in(raw, virtual_inputs);
        }
    }

    /// Steps with one count more each, from `first` on.
    pub fn turn(&mut self, first: u16, virtual_inputs: u16, steps: u16) {
        for step in 0..steps {
            self.step_in((first + step) % 1024, virtual_inputs);
        }
    }
}

/// An 8513 whose group 1 is virtual with outputs 17 and on, output 17 always
/// holding.
pub fn one_group(mode: u16, on: u16, off: u16, offset: u16) -> Card {
    Card::grouped(&[[virtual_group(mode, 4), on, off, offset]]).and_limits(&[(17, &ALWAYS)])
}

pub fn refused(refusal: Refusal) -> Answer {
    Answer::Refused(refusal)
}

/// What a program makes of its arguments.
pub fn run_with_arguments(path: &str, arguments: &[&str]) -> Output {
    Command::new(path)
        .args(arguments)
        .output()
        .expect("program runs")
}

/// What a program prints for an input; it must end with status 0.
pub fn run_program(path: &str, input: &[u8]) -> String {
    let mut child = Command::new(path)
        .stdin(Stdio::piped())
        .stdout(Stdio::piped())
        .spawn()
        .expect("program starts");
    let mut stdin = child.stdin.take().expect("piped");
    // Written beside the reading, so that neither waits for the other.
    let output = thread::scope(|scope| {
        scope.spawn(move || stdin.write_all(input).expect("program reads"));
        child.wait_with_output().expect("program ends")
    });
    assert!(output.status.success());
    String::from_utf8(output.stdout).expect("text")
}

/// Words of the call that a list begins with.
fn call_length(words: &[u16]) -> Option<usize> {
    let count = |place: usize| words.get(place).copied().map(usize::from);
    Some(match words.first()? {
        0 | 4 | 7 => 2,
        1..=3 => 2 + count(1)?,
        5 => 10,
        6 => {
            let m0 = count(3)?;
            5 + m0 + count(4 + m0)?
        }
        8 => 3,
        _ => return None,
    })
}

/// The whole calls of a list.
pub fn calls(list: &CallList) -> Vec<Vec<u16>> {
    let bytes = list.bytes();
    let (pairs, _) = bytes.as_chunks();
    let words: Vec<u16> = pairs.iter().map(|&pair| u16::from_le_bytes(pair)).collect();
    let mut rest = &words[..];
    let mut calls = vec![];
    while let Some((call, others)) = call_length(rest).and_then(|n| rest.split_at_checked(n)) {
        calls.push(call.to_vec());
        rest = others;
    }
    calls
}

/// What the replay program prints for the bytes of a list.
pub fn printed(bytes: &[u8]) -> String {
    let mut output = Vec::new();
    replay::run(bytes, &mut output).expect("writing to memory");
    String::from_utf8(output).expect("text")
}

/// The lines of the replay program for calls, each in its fields.
pub fn answers(calls: &[Vec<u16>]) -> Vec<Vec<String>> {
    let input: Vec<u8> = calls
        .iter()
        .flatten()
        .flat_map(|word| word.to_le_bytes())
        .collect();
    let lines: Vec<Vec<String>> = printed(&input)
        .lines()
        .map(|line| line.split(' ').map(String::from).collect())
        .collect();
    assert_eq!(lines.len(), calls.len());
    lines
}

/// A linear congruential generator, so that runs repeat.
pub struct Numbers(pub u64);

impl Numbers {
    pub fn next(&mut self) -> u16 {
        self.0 = self
            .0
            .wrapping_mul(6_364_136_223_846_793_005)
            .wrapping_add(1_442_695_040_888_963_407);
        (self.0 >> 40) as u16
    }

    pub fn below(&mut self, limit: u16) -> u16 {
        self.next() % limit
    }

    /// Mostly small, sometimes at an edge, sometimes anything.
    pub fn word(&mut self) -> u16 {
        match self.below(6) {
            0 => self.next(),
            1 => [0, 1, 999, 1023, 1024, 0x7fff, 0x8000, 0xffff][usize::from(self.below(8))],
            2 => self.below(1024),
            3 => 1 << self.below(16),
            _ => self.below(8),
        }
    }

    pub fn words(&mut self, length: usize) -> Vec<u16> {
        (0..length).map(|_| self.next()).collect()
    }

    pub fn bytes(&mut self, length: usize) -> Vec<u8> {
        (0..length).map(|_| self.next() as u8).collect()
    }
}
