//! The archive's steps and cycles of docs/BENCH.md have the checksums of
//! peer's.

use card_loop::bench;
use peer::bench::{CYCLES, EVERY_PAIR, FAULTS, FULL, SMALL};

#[test]
fn checksums_are_those_of_peer() {
    for case in [FULL, SMALL, EVERY_PAIR, FAULTS, CYCLES] {
        for count in [0, 1, 3000, 20000] {
            assert_eq!(bench::run(&case, count), case.run(count));
        }
    }
}
