//! Runs two programs on the inputs of many seeds and reports where they
//! print different lines.

use std::env;
use std::io::{self, Write};
use std::ops::Range;
use std::process::ExitCode;
use std::time::Duration;

use peer::compare::{InputKind, Programs};
use peer::words::USAGE_STATUS;

const LIMIT: Duration = Duration::from_secs(10);

fn main() -> ExitCode {
    let arguments: Vec<String> = env::args().skip(1).collect();
    let [kind, count, first_seed, a, b] = &arguments[..] else {
        return usage();
    };
    let (Some(kind), Some(seeds)) = (InputKind::of_name(kind), seeds(count, first_seed)) else {
        return usage();
    };
    let programs = Programs {
        paths: [a, b],
        limit: LIMIT,
    };
    let totals = programs.compare(kind, seeds, print);
    print(&totals.line(kind));
    if totals.differences == 0 {
        ExitCode::SUCCESS
    } else {
        ExitCode::FAILURE
    }
}

/// What cannot be written is dropped: the status still tells.
fn print(line: &str) {
    let _ = writeln!(io::stdout(), "{line}");
}

/// At least one seed: a comparison of nothing shows nothing.
fn seeds(count: &str, first: &str) -> Option<Range<u64>> {
    let (count, first): (u64, u64) = (count.parse().ok()?, first.parse().ok()?);
    let end = first.checked_add(count)?;
    (count > 0).then_some(first..end)
}

fn usage() -> ExitCode {
    eprintln!(
        "usage: compare cycles|steps|presses|extremes|slow|lengths|tests|trains|bytes|frames|columns|traces|damaged COUNT FIRST_SEED PROGRAM_A PROGRAM_B"
    );
    ExitCode::from(USAGE_STATUS)
}
