//! Lists in which the machine moves as far as it can in a step, 512 counts
//! back or 511 on, through whole windows of the speed: the movement sums
//! reach both their ends.

use crate::generate::call_list::CallList;
use crate::generate::ladder::Ladder;
use crate::generate::samples::Samples;
use crate::generate::stops::each_step;

/// The ends of C by 02.
const LEAST_C: i32 = -1_290_240;
const GREATEST_C: i32 = 1_287_720;

/// Runs of the machine in a list, a whole window in each.
const RUNS: u32 = 3;
/// Steps in which c stays as it was when a window of the speed ended.
const SAME_C: u32 = 119;
/// Byte accesses follow one call in so many.
const ACCESSES_EVERY: u32 = 200;

/// The list of a seed; one in four is of a fresh module.
pub fn extreme_list(seed: u64) -> CallList {
    // Other numbers than the other lists have for the seed.
    let mut ladder = Ladder::new(seed.rotate_left(32), ACCESSES_EVERY);
    let mut samples = Samples::new();
    ladder.power_up();
    match ladder.numbers.below(4) {
        0 => {}
        1 => ladder.program_all(),
        _ => ladder.program_slow(),
    }
    for _ in 0..RUNS {
        let length = samples.draw_farthest(&mut ladder.numbers, &ladder.program);
        ladder.run(&mut samples, length);
        // Slowly on, so that switches meet this c at many positions.
        let length = samples.draw_run(&mut ladder.numbers, &ladder.program);
        ladder.run(&mut samples, length.min(SAME_C));
    }
    ladder.list
}

/// Updates of the speed whose C is one of its ends.
#[derive(Clone, Copy, Debug, Default, PartialEq, Eq)]
pub struct Extremes {
    pub least: u64,
    pub greatest: u64,
}

impl Extremes {
    /// Those in a list.
    pub fn of_list(list: &CallList) -> Extremes {
        let mut extremes = Extremes::default();
        each_step(list, |step| {
            let big_c = step.module.motion.big_c;
            extremes.least += u64::from(step.update && big_c == LEAST_C);
            extremes.greatest += u64::from(step.update && big_c == GREATEST_C);
        });
        extremes
    }
}

#[cfg(test)]
mod tests {
    use super::*;

    const LISTS: u64 = 30;

    #[test]
    fn lists_of_extremes_reach_both_ends_of_c() {
        let (mut least, mut greatest) = (0, 0);
        for seed in 0..LISTS {
            let extremes = Extremes::of_list(&extreme_list(seed));
            least += extremes.least;
            greatest += extremes.greatest;
        }
        println!("{least} windows at the least C, {greatest} at the greatest");
        assert!(least > LISTS / 2 && greatest > LISTS / 2);
    }

    #[test]
    fn no_sum_passes_an_end() {
        for seed in 0..LISTS {
            each_step(&extreme_list(seed), |step| {
                assert!((LEAST_C..=GREATEST_C).contains(&step.module.motion.big_c));
            });
        }
    }
}
