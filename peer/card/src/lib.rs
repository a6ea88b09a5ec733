//! The card's own loop: the calls of crates/card/out/libcard.a on a module
//! that stays where it is, and a replay over them.

pub mod bench;
pub mod layout;
pub mod replay;

use layout::{Answer, Byte, Module, Sample};

/// What a cycle returns that was Idle.
pub const IDLE: u16 = 65535;

extern "C" {
    fn chimneyrye_power_up(module: *mut Module, number: u16) -> u16;
    fn chimneyrye_setup(module: *mut Module, file: *mut u16, words: usize) -> u16;
    fn chimneyrye_group(module: *mut Module, file: *mut u16, words: usize) -> u16;
    fn chimneyrye_limit(module: *mut Module, file: *mut u16, words: usize) -> u16;
    fn chimneyrye_nudge(module: *mut Module, word: u16) -> u16;
    fn chimneyrye_step(module: *mut Module, sample: Sample) -> Answer;
    fn chimneyrye_read_byte(module: *const Module, offset: u16) -> Byte;
    fn chimneyrye_write_byte(module: *mut Module, offset: u16, value: u8) -> u16;
    fn chimneyrye_line(module: *const Module) -> bool;
}

/// A cycle over a file.
#[derive(Clone, Copy)]
pub enum FileCycle {
    Setup,
    Group,
    Limit,
}

// In each call the reference is to a whole module that nothing else uses, and
// the slice gives a pointer to as many words as its length says.
impl Module {
    pub fn power_up(&mut self, number: u16) -> u16 {
        unsafe { chimneyrye_power_up(self, number) }
    }

    pub fn cycle(&mut self, kind: FileCycle, file: &mut [u16]) -> u16 {
        let call = match kind {
            FileCycle::Setup => chimneyrye_setup,
            FileCycle::Group => chimneyrye_group,
            FileCycle::Limit => chimneyrye_limit,
        };
        unsafe { call(self, file.as_mut_ptr(), file.len()) }
    }

    pub fn nudge(&mut self, word: u16) -> u16 {
        unsafe { chimneyrye_nudge(self, word) }
    }

    pub fn step(&mut self, sample: Sample) -> Answer {
        unsafe { chimneyrye_step(self, sample) }
    }

    pub fn read_byte(&self, offset: u16) -> Byte {
        unsafe { chimneyrye_read_byte(self, offset) }
    }

    pub fn write_byte(&mut self, offset: u16, value: u8) -> u16 {
        unsafe { chimneyrye_write_byte(self, offset, value) }
    }

    pub fn line(&self) -> bool {
        unsafe { chimneyrye_line(self) }
    }
}
