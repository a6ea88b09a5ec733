//! Runs steps or programming cycles from memory over the archive and prints a
//! checksum over their answers.

use std::process::ExitCode;

use card_loop::bench;
use peer::bench::Case;
use peer::words;

fn main() -> ExitCode {
    words::write_from_arguments(
        "card_bench a N | card_bench b N | card_bench x N | card_bench f N | card_bench p N",
        |arguments| {
            peer::bench::line(arguments, |name, count| {
                Some(bench::run(&Case::of_name(name)?, count))
            })
        },
    )
}
