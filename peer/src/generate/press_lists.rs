//! Lists in which First Cycle is pressed in the steps of stops: groups that
//! are mostly in Mode 5, run, stand for some updates of the speed and run
//! again.

use crate::generate::call_list::CallList;
use crate::generate::ladder::Ladder;
use crate::generate::samples::Samples;

/// Runs of the machine in a list, each with stops after it.
const RUNS: u32 = 5;
/// After a run the machine stands for fewer updates more than one stop needs.
const LONGER: u32 = 5;
/// Byte accesses follow one call in so many.
const ACCESSES_EVERY: u32 = 200;

/// The list of a seed.
pub fn press_list(seed: u64) -> CallList {
    // Other numbers than the other lists have for the seed.
    let mut ladder = Ladder::new(seed.rotate_left(16), ACCESSES_EVERY);
    let mut samples = Samples::new();
    ladder.power_up();
    ladder.program_mode_5();
    samples.module_start();
    for _ in 0..RUNS {
        let length = samples.draw_run(&mut ladder.numbers, &ladder.program);
        ladder.run(&mut samples, length);
        let length = samples.draw_stops(&mut ladder.numbers, &ladder.program, LONGER);
        ladder.run(&mut samples, length);
    }
    ladder.list
}
