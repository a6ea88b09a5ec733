//! A ladder program that makes the calls of a list, and knows what they
//! should have put in force. Cycles are sent in every manner: once, again,
//! with the acknowledge left standing, with and without ClrErr. Bytes are
//! read and written between them.

use crate::blocks::limit_block_at;
use crate::cycles::{NudgeCycle, CLEAR_ERRORS, M0_WORDS, M1_WORDS, NUDGE_CLEAR_ERRORS, TRANSMIT};
use crate::generate::byte_calls::byte_accesses;
use crate::generate::call_list::CallList;
use crate::generate::file_kind::FileKind;
use crate::generate::numbers::Numbers;
use crate::generate::program::{Program, NORMAL};
use crate::generate::samples::Samples;
use crate::group::GROUPS;
use crate::limit_block::{block_pair, PAIRS};
use crate::setup::SLC_INTERRUPT;
use crate::step::SAMPLE_WORDS;
use crate::switch::OUTPUTS;

pub struct Ladder {
    pub numbers: Numbers,
    pub list: CallList,
    pub program: Program,
    /// Kinds whose acknowledge was left standing.
    acknowledged: [bool; 3],
    /// An error may stand.
    error_stands: bool,
    /// Byte accesses follow one call in so many.
    pub accesses_every: u32,
}

impl Ladder {
    /// A ladder program without a module yet.
    pub fn new(seed: u64, accesses_every: u32) -> Ladder {
        Ladder {
            numbers: Numbers::new(seed),
            list: CallList::default(),
            program: Program::fresh(0),
            acknowledged: [false; 3],
            error_stands: true,
            accesses_every,
        }
    }

    pub fn power_up(&mut self) {
        let real_count = self.numbers.pick(&[0, 8, 16, 16]);
        self.power_up_with(real_count);
    }

    /// The module with so many real outputs.
    pub fn power_up_with(&mut self, real_count: u16) {
        self.program = Program::fresh(real_count);
        self.acknowledged = [false; 3];
        self.error_stands = true;
        self.list.power_up(self.program.module_number());
        self.access_bytes();
    }

    /// A number that no module has.
    pub fn power_up_unknown(&mut self) {
        let any = self.numbers.word() & 0x1fff;
        let number = self.numbers.pick(&[0, 8510, 8514, 8500, 0xffff, any]);
        self.list.power_up(number);
        self.access_bytes();
    }

    pub fn step(&mut self, sample: &[u16; SAMPLE_WORDS]) {
        self.list.step(sample);
        self.access_bytes();
    }

    /// So many steps with the next samples.
    pub fn run(&mut self, samples: &mut Samples, count: u32) {
        for _ in 0..count {
            let sample = samples.next(&mut self.numbers, &self.program);
            self.step(&sample);
        }
    }

    /// A raw position over 1023, a few steps in fault, then ClrErr.
    pub fn fault(&mut self, samples: &mut Samples) {
        let mut sample = samples.next(&mut self.numbers, &self.program);
        sample[0] |= 1 << self.numbers.between(10, 15);
        self.step(&sample);
        let length = self.numbers.below(4);
        self.run(samples, length);
        self.clear_errors();
        samples.module_start();
    }

    fn call_file(&mut self, kind: FileKind, file: &[u16]) {
        self.list.file(kind.opcode(), file);
        self.access_bytes();
    }

    fn call_nudge(&mut self, word: u16) {
        self.list.nudge(word);
        self.access_bytes();
    }

    /// After some of the calls.
    fn access_bytes(&mut self) {
        if self.numbers.one_in(self.accesses_every) {
            byte_accesses(&mut self.numbers, &mut self.list);
        }
    }

    /// The present programming with new words for one kind.
    fn draw_program(&mut self, kind: FileKind) -> Program {
        let mut program = self.program.clone();
        let numbers = &mut self.numbers;
        match (kind, numbers.below(6)) {
            (FileKind::Setup, 0 | 1) => program.draw_keeping_setup(numbers),
            (FileKind::Setup, 2) => program.draw_other_mode(numbers),
            _ => program.draw(numbers, kind),
        }
        program
    }

    /// A cycle with sound words.
    pub fn sound_cycle(&mut self, kind: FileKind) {
        let program = self.draw_program(kind);
        self.sound_cycle_of(kind, program);
    }

    /// A setup cycle that keeps SF and mode, and so groups and limits.
    pub fn keeping_setup(&mut self) {
        let mut program = self.program.clone();
        program.draw_keeping_setup(&mut self.numbers);
        self.sound_cycle_of(FileKind::Setup, program);
    }

    /// Such a setup cycle with SLCINT.
    pub fn interrupting_setup(&mut self) {
        let mut program = self.program.clone();
        program.draw_keeping_setup(&mut self.numbers);
        program.m0[0] |= SLC_INTERRUPT;
        self.sound_cycle_of(FileKind::Setup, program);
    }

    /// A cycle with the sound words of a program.
    pub fn sound_cycle_of(&mut self, kind: FileKind, program: Program) {
        let clear = !self.numbers.one_in(6);
        self.send(kind, &program, clear);
        let barred = kind == FileKind::Group && self.program.is_independent();
        if (clear || !self.error_stands) && !barred {
            self.program = program;
        }
        self.error_stands &= !clear;
    }

    /// A cycle with the words of a program, which are refused.
    pub fn refused_cycle_of(&mut self, kind: FileKind, program: &Program) {
        self.send(kind, program, true);
        self.error_stands = true;
    }

    /// Setup, groups and limits, all sound; mostly accepted.
    pub fn program_all(&mut self) {
        if !self.numbers.one_in(10) {
            self.clear_errors();
        }
        let mut program = self.program.clone();
        program.draw(&mut self.numbers, FileKind::Setup);
        self.program_from(program);
    }

    /// The same with slow updates of the speed.
    pub fn program_slow(&mut self) {
        self.clear_errors();
        let mut program = self.program.clone();
        program.draw_slow_setup(&mut self.numbers);
        self.program_from(program);
    }

    /// This setup, then groups and limits.
    fn program_from(&mut self, setup: Program) {
        self.sound_cycle_of(FileKind::Setup, setup);
        if !self.program.is_independent() {
            self.sound_cycle(FileKind::Group);
        }
        self.sound_cycle(FileKind::Limit);
    }

    /// A setup with this SF and mode, and groups as they are drawn.
    pub fn program_groups(
        &mut self,
        scale: u16,
        independent: bool,
        draw: impl FnOnce(&mut Numbers, &mut Program),
    ) {
        let mut program = self.program.clone();
        program.draw_setup(&mut self.numbers, scale, independent);
        self.sound_cycle_of(FileKind::Setup, program);
        if !self.program.is_independent() {
            let mut program = self.program.clone();
            draw(&mut self.numbers, &mut program);
            self.sound_cycle_of(FileKind::Group, program);
        }
    }

    /// Setup, groups and limits with quick updates of the speed, groups that are
    /// mostly in Mode 5, and outputs that show whether they are open.
    pub fn program_mode_5(&mut self) {
        self.clear_errors();
        let mut program = self.program.clone();
        program.draw_quick_setup(&mut self.numbers);
        self.sound_cycle_of(FileKind::Setup, program);
        let mut program = self.program.clone();
        program.draw_groups_in(&mut self.numbers, 5);
        self.sound_cycle_of(FileKind::Group, program);
        let mut program = self.program.clone();
        program.draw_showing_limits(&mut self.numbers);
        self.sound_cycle_of(FileKind::Limit, program);
    }

    /// A cycle whose words are bad or nearly so, or of a wrong length.
    pub fn faulty_cycle(&mut self, kind: FileKind) {
        let mut program = self.draw_program(kind);
        let clear = !self.numbers.one_in(4);
        match self.numbers.below(8) {
            0 => return self.send_wrong_length(kind, &program),
            1..=4 => program.spoil(&mut self.numbers, kind),
            _ => program.change_one_word(&mut self.numbers, kind),
        }
        self.send(kind, &program, clear);
        self.error_stands = true;
    }

    /// The file of a program, ready to be sent. What the cycle does not read
    /// is sometimes noise.
    fn draw_file(&mut self, kind: FileKind, program: &Program, command: u16) -> Vec<u16> {
        let mut file = kind.file(program).to_vec();
        let numbers = &mut self.numbers;
        if numbers.one_in(2) {
            file[kind.status()].fill_with(|| numbers.word());
        }
        if kind == FileKind::Limit && numbers.one_in(4) {
            let missing = limit_block_at(usize::from(program.real_count))..limit_block_at(16);
            file[missing].fill_with(|| numbers.word());
        }
        if kind != FileKind::Limit && numbers.one_in(3) {
            let data = file[kind.data()].to_vec();
            file.fill_with(|| numbers.word());
            file[kind.data()].copy_from_slice(&data);
        }
        file[kind.command()] |= command;
        file
    }

    fn send(&mut self, kind: FileKind, program: &Program, clear_errors: bool) {
        let standing = std::mem::take(&mut self.acknowledged[kind as usize]);
        if standing && !self.numbers.one_in(4) {
            self.clear_transmit(kind, program);
        }
        let command = TRANSMIT | if clear_errors { CLEAR_ERRORS } else { 0 };
        let file = self.draw_file(kind, program, command);
        self.call_file(kind, &file);
        while self.numbers.one_in(10) {
            self.call_file(kind, &file);
        }
        if self.numbers.one_in(12) {
            self.acknowledged[kind as usize] = true;
        } else {
            self.clear_transmit(kind, program);
        }
    }

    /// The same file with transmit clear; ClrErr then does nothing.
    fn clear_transmit(&mut self, kind: FileKind, program: &Program) {
        let command = self.numbers.pick(&[0, 0, CLEAR_ERRORS]);
        let file = self.draw_file(kind, program, command);
        self.call_file(kind, &file);
    }

    fn send_wrong_length(&mut self, kind: FileKind, program: &Program) {
        let command = self.numbers.pick(&[TRANSMIT | CLEAR_ERRORS, TRANSMIT, 0]);
        let mut file = self.draw_file(kind, program, command);
        file.resize(self.draw_wrong_length(file.len()), 0);
        self.call_file(kind, &file);
    }

    fn draw_wrong_length(&mut self, right: usize) -> usize {
        let other = M0_WORDS + M1_WORDS - right;
        if self.numbers.one_in(60) {
            return 65535;
        }
        self.numbers
            .pick(&[right - 1, right - 1, right + 1, right + 1, 0, 1, other])
    }

    /// A nudge with bit 14, its other bits anything.
    pub fn clear_errors(&mut self) {
        let word = NUDGE_CLEAR_ERRORS | self.numbers.word();
        self.nudge(word);
        self.error_stands = false;
    }

    /// Sends a nudge word with transmit set, then mostly with it clear.
    pub fn nudge(&mut self, word: u16) {
        self.call_nudge(TRANSMIT | word);
        while self.numbers.one_in(12) {
            self.call_nudge(TRANSMIT | word);
        }
        if !self.numbers.one_in(15) {
            let any = self.numbers.word();
            self.call_nudge(any & !TRANSMIT);
        }
    }

    /// One count or a few on one setpoint, up to the end of its range.
    pub fn nudges(&mut self) {
        if !self.numbers.one_in(5) {
            self.clear_errors();
        }
        let word = self.draw_nudge();
        for _ in 0..self.numbers.pick(&[1, 1, 2, 4]) {
            self.nudge(word);
            if self.numbers.one_in(4) {
                self.clear_errors();
            }
        }
        self.error_stands = true;
    }

    /// A nudge word, mostly for a setpoint that is programmed.
    pub fn draw_nudge(&mut self) -> u16 {
        let programmed = self.program.programmed();
        let numbers = &mut self.numbers;
        let output = match self.program.draw_output(numbers, programmed) {
            Some(output) if !numbers.one_in(8) => output,
            _ => numbers.below(OUTPUTS as u32) as usize,
        };
        let block = self.program.limit_block(output);
        let used = (0..PAIRS).find(|&pair| !block_pair(&block, pair).is_unused());
        let pair = match used {
            _ if numbers.one_in(6) => numbers.below(PAIRS as u32) as usize,
            Some(pair) if block[0] & 3 == NORMAL => pair,
            _ => 0,
        };
        let both = NudgeCycle::ON | NudgeCycle::OFF;
        let setpoints = match numbers.below(16) {
            0 => 0,
            1..=6 => NudgeCycle::ON,
            7..=12 => NudgeCycle::OFF,
            _ => both,
        };
        let down = numbers.pick(&[0, NudgeCycle::DOWN]);
        let reserved = match numbers.below(20) {
            0 => 1 << numbers.between(11, 13),
            _ => 0,
        };
        reserved | down | setpoints | (pair as u16) << 5 | output as u16
    }

    /// A block reader call: any block of any files, mostly readable ones.
    pub fn read_block(&mut self) {
        let numbers = &mut self.numbers;
        let (which, last) = numbers.pick(&[(0, GROUPS as u16), (1, OUTPUTS as u16)]);
        let number = match numbers.below(6) {
            0 => numbers.pick(&[0, last + 1, 33, 0x8001, 0xffff]),
            1 => numbers.pick(&[1, last]),
            _ => numbers.between(1, last),
        };
        let which = if which == 1 {
            numbers.pick(&[1, 2, 0xffff])
        } else {
            0
        };
        let [m0, m1] = [M0_WORDS, M1_WORDS].map(|right| {
            let length = if self.numbers.one_in(6) {
                self.draw_wrong_length(right)
            } else {
                right
            };
            (0..length)
                .map(|_| self.numbers.word())
                .collect::<Vec<u16>>()
        });
        self.list.block(which, number, &m0, &m1);
    }
}
