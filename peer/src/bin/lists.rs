//! Writes the list of calls of a seed to standard output, for the replay
//! program to read.

use std::process::ExitCode;

use peer::generate::{
    byte_list, column_list, cycle_list, extreme_list, frame_list, length_list, pair_test_list,
    press_list, slow_list, step_list, train_list, CallList, USUAL_STEPS,
};
use peer::words;

fn main() -> ExitCode {
    words::write_from_arguments(
        "lists cycles|presses|extremes|slow|lengths|tests|trains|bytes|frames|columns SEED | lists steps SEED [STEPS]",
        |arguments| list(arguments).map(|list| list.bytes()),
    )
}

fn list(arguments: &[&str]) -> Option<CallList> {
    Some(match arguments {
        ["cycles", seed] => cycle_list(seed.parse().ok()?),
        ["steps", seed] => step_list(seed.parse().ok()?, USUAL_STEPS),
        ["steps", seed, steps] => step_list(seed.parse().ok()?, steps.parse().ok()?),
        ["presses", seed] => press_list(seed.parse().ok()?),
        ["extremes", seed] => extreme_list(seed.parse().ok()?),
        ["slow", seed] => slow_list(seed.parse().ok()?),
        ["lengths", seed] => length_list(seed.parse().ok()?),
        ["tests", seed] => pair_test_list(seed.parse().ok()?),
        ["trains", seed] => train_list(seed.parse().ok()?),
        ["bytes", seed] => byte_list(seed.parse().ok()?),
        ["frames", seed] => frame_list(seed.parse().ok()?),
        ["columns", seed] => column_list(seed.parse().ok()?),
        _ => return None,
    })
}
