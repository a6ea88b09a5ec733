//! The steps and cycles of docs/BENCH.md over the archive, on one module that
//! stays where it is.

use peer::bench::{Card, Case};
use peer::{M1_WORDS, SAMPLE_WORDS};

use crate::layout::{Answer, Module};
use crate::replay::sample_of;
use crate::FileCycle;

/// The checksum of this many steps or turns.
pub fn run(case: &Case, count: u32) -> u32 {
    let mut files = case.files();
    let mut module = Module::default();
    assert_eq!(module.power_up(files.number), 0);
    assert_eq!(module.cycle(FileCycle::Setup, &mut files.m0), 0);
    assert_eq!(module.cycle(FileCycle::Group, &mut files.m0), 0);
    assert_eq!(module.cycle(FileCycle::Limit, &mut files.m1), 0);
    case.run_on(&mut module, count)
}

impl Card for Module {
    fn limit_cycle(&mut self, m1: &mut [u16; M1_WORDS]) -> u32 {
        u32::from(self.cycle(FileCycle::Limit, m1))
    }

    fn step(&mut self, sample: &[u16; SAMPLE_WORDS]) -> [u32; 4] {
        numbers(&Module::step(self, sample_of(*sample)))
    }
}

fn numbers(answer: &Answer) -> [u32; 4] {
    let readings = 16 * answer.tenths
        + 8 * u32::from(answer.refused)
        + 4 * u32::from(answer.overflow)
        + 2 * u32::from(answer.md1)
        + u32::from(answer.md2);
    [
        u32::from(answer.position) + 65536 * u32::from(answer.tach),
        u32::from(answer.real) + 65536 * u32::from(answer.virtuals),
        readings + 33554432 * u32::from(answer.changed),
        u32::from(answer.tests),
    ]
}
