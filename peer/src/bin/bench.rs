//! Runs steps, programming cycles, frames or turned sections from memory and
//! prints a checksum over their answers.

use std::process::ExitCode;

use peer::{bench, words};

fn main() -> ExitCode {
    words::write_from_arguments(
        "bench a N | bench b N | bench x N | bench f N | bench p N | bench w N | bench r N | bench c N | bench d N",
        |arguments| bench::line(arguments, bench::run),
    )
}
