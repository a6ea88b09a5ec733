//! Reads a list of calls on standard input and writes the archive's answers.

use card_loop::replay;
use peer::words;

fn main() {
    words::filter_standard_streams(replay::run);
}
