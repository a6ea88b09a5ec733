//! Reads a list of calls on standard input, writes the answers to standard
//! output.

use peer::{replay, words};

fn main() {
    words::filter_standard_streams(replay::run);
}
