//! Reads a trace on standard input, writes its lines to standard output.

use peer::{camrun, words};

fn main() {
    words::filter_standard_streams(camrun::run);
}
