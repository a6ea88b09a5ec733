//! Writes the trace of a seed to standard output, whole or damaged, for the
//! trace program to read.

use std::process::ExitCode;

use peer::generate::{damaged_trace, whole_trace, USUAL_SAMPLES};
use peer::words;

fn main() -> ExitCode {
    words::write_from_arguments("traces SEED [SAMPLES] | traces damaged SEED", trace)
}

fn trace(arguments: &[&str]) -> Option<Vec<u8>> {
    Some(match arguments {
        ["damaged", seed] => damaged_trace(seed.parse().ok()?),
        [seed] => whole_trace(seed.parse().ok()?, USUAL_SAMPLES),
        [seed, samples] => whole_trace(seed.parse().ok()?, samples.parse().ok()?),
        _ => return None,
    })
}
