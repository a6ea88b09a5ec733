//! The pairs of a switch as windows of counts, tested together.

use crate::limit_block::PAIRS;
use crate::pair::{distance, Pair};

/// The pair tests of a step.
#[derive(Debug, Default)]
pub(crate) struct Tests {
    pub count: u32,
    /// For each window of the switch in hand whether it misses the position.
    /// Lent to the test, so that it lies in memory and is read as one number.
    missed: [u8; PAIRS],
}

/// What the advances do to every used pair of a switch.
#[derive(Clone, Copy)]
pub(crate) struct Moved {
    /// Counts by which the ON setpoints move back, 0 to SF − 1.
    back: u16,
    /// Counts by which the pairs become longer or shorter, 0 to SF; one of the
    /// two is 0.
    longer: u16,
    shorter: u16,
}

impl Moved {
    pub fn new(back: u16, longer: i64, scale: u16) -> Moved {
        // A length is from 0 to SF, so that SF more or less is enough.
        let up_to_turn = |counts: i64| counts.clamp(0, i64::from(scale)) as u16;
        Moved {
            back,
            longer: up_to_turn(longer),
            shorter: up_to_turn(longer.saturating_neg()),
        }
    }

    pub fn setpoint(self, setpoint: u16, scale: u16) -> u16 {
        distance(self.back, setpoint, scale)
    }

    /// The counts for which a pair holds: none at a length of 0 or less, all at
    /// SF or more.
    fn length(self, length: u16, scale: u16) -> u16 {
        let length = length.saturating_add(self.longer).min(scale);
        length.saturating_sub(self.shorter)
    }
}

/// For each pair the counts of the turn in which it holds. Where these go on
/// over zero, those in which it does not hold stand for them, so that no count
/// need be reduced mod SF.
#[derive(Clone, Debug, PartialEq, Eq)]
#[repr(align(16))]
pub(crate) struct Windows {
    starts: [u16; PAIRS],
    /// 0 to SF.
    lengths: [u16; PAIRS],
    /// All ones where the pair holds in the window, 0 where it holds outside.
    lit: [u8; PAIRS],
    /// The pairs tested where each is the first that holds, and where none
    /// does: the used ones so far, and all used ones.
    tests: [u8; PAIRS + 1],
}

impl Windows {
    pub const NONE: Windows = Windows {
        starts: [0; PAIRS],
        lengths: [0; PAIRS],
        lit: [0xff; PAIRS],
        tests: [0; PAIRS + 1],
    };

    /// The windows of these pairs, not placed yet.
    pub fn of(pairs: &[Pair; PAIRS]) -> Windows {
        let mut windows = Windows::NONE;
        let mut used = 0;
        for (tests, pair) in windows.tests.iter_mut().zip(pairs) {
            used += u8::from(!pair.is_unused());
            *tests = used;
        }
        windows.tests[PAIRS] = used;
        windows
    }

    /// Places the windows of the pairs moved by the advances. The same pairs as
    /// ever are used.
    // A call of its own, as it is then seen that the pairs are not written to.
    #[inline(never)]
    pub fn place(&mut self, pairs: &[Pair; PAIRS], moved: Moved, scale: u16) {
        for (place, &pair) in pairs.iter().enumerate() {
            let start = moved.setpoint(pair.on, scale);
            let length = moved.length(pair.length(scale), scale);
            let length = if pair.is_unused() { 0 } else { length };
            let past_zero = length.saturating_sub(scale - start);
            (self.starts[place], self.lengths[place], self.lit[place]) = if past_zero == 0 {
                (start, length, 0xff)
            } else {
                (past_zero, scale - length, 0)
            };
        }
    }

    /// Whether some pair holds at a position. All are looked at together; the
    /// used ones up to the first that holds count as tested.
    pub fn some_holds(&self, position: u16, tests: &mut Tests) -> bool {
        let held = self.held(position, &mut tests.missed);
        let first = held.trailing_zeros() / u8::BITS;
        tests.count += u32::from(self.tests[first as usize]);
        held != 0
    }

    /// Ones in the bytes of the pairs that hold, the first pair's the lowest.
    fn held(&self, position: u16, missed: &mut [u8; PAIRS]) -> u64 {
        for ((missed, start), length) in missed.iter_mut().zip(self.starts).zip(self.lengths) {
            let left = length.saturating_sub(position.wrapping_sub(start));
            *missed = if left == 0 { 0xff } else { 0 };
        }
        u64::from_le_bytes(*missed) ^ u64::from_le_bytes(self.lit)
    }
}

#[cfg(test)]
mod tests {
    use super::*;
    use crate::generate::numbers::Numbers;

    /// How the advances move all pairs, on a turn of `scale` counts.
    #[derive(Clone, Copy)]
    struct Turn {
        back: u16,
        longer: i64,
        scale: u16,
    }

    impl Turn {
        /// By the words of the documents, over whole numbers.
        fn holds(self, pair: Pair, position: u16) -> bool {
            let [on, off, back, position] = [pair.on, pair.off, self.back, position].map(i64::from);
            let turn = i64::from(self.scale);
            let length = (off - on).rem_euclid(turn) + self.longer;
            let from_on = (position - on + back).rem_euclid(turn);
            !pair.is_unused() && (length >= turn || from_on < length)
        }

        /// Whether one of the pairs holds, and how many are tested: those up to
        /// the first that does.
        fn expected(self, pairs: &[Pair; PAIRS], position: u16) -> (bool, u32) {
            let mut tests = 0;
            for &pair in pairs.iter().filter(|pair| !pair.is_unused()) {
                tests += 1;
                if self.holds(pair, position) {
                    return (true, tests);
                }
            }
            (false, tests)
        }

        fn tested(self, pairs: &[Pair; PAIRS], position: u16) -> (bool, u32) {
            let mut windows = Windows::of(pairs);
            let moved = Moved::new(self.back, self.longer, self.scale);
            windows.place(pairs, moved, self.scale);
            let mut tests = Tests::default();
            let holds = windows.some_holds(position, &mut tests);
            (holds, tests.count)
        }

        /// Gives what is expected and found.
        fn check(self, pairs: &[Pair; PAIRS], position: u16) -> (bool, u32) {
            let expected = self.expected(pairs, position);
            assert_eq!(self.tested(pairs, position), expected);
            expected
        }
    }

    /// All pairs and moves at the least scale factors, lengths below 0 and over
    /// SF among them.
    #[test]
    fn each_window_of_a_short_turn() {
        for scale in 2..=5u16 {
            for number in 0..scale.pow(4) {
                let drawn = |place| number / scale.pow(place) % scale;
                let [on, off, back, position] = [0, 1, 2, 3].map(drawn);
                let mut pairs = [Pair::default(); PAIRS];
                pairs[usize::from(number) % PAIRS] = Pair { on, off };
                let most = i64::from(scale) + 1;
                for longer in -most..=most {
                    let turn = Turn {
                        back,
                        longer,
                        scale,
                    };
                    turn.check(&pairs, position);
                }
            }
        }
    }

    /// At scale factors up to the greatest that a word can have.
    #[test]
    fn pairs_are_tested_up_to_the_first_that_holds() {
        let mut numbers = Numbers::new(1);
        let mut seen = [[0; PAIRS + 1]; 2];
        for _ in 0..200_000 {
            let scale = numbers.pick(&[2, 3, 360, 1000, 1024, 32_768, 65_535]);
            let [back, position] = [0; 2].map(|_| numbers.between(0, scale - 1));
            let most_used = numbers.between(0, 8);
            let pairs = [0; PAIRS].map(|_| {
                if numbers.between(1, 8) > most_used {
                    return Pair::default();
                }
                let on = numbers.between(0, scale - 1);
                let length = numbers.between(1, scale / 6);
                Pair {
                    on,
                    off: (on + length.min(scale - 1 - on)),
                }
            });
            let turns = numbers.pick(&[-2, -1, 0, 0, 0, 0, 0, 1, 2]);
            let longer = turns * i64::from(scale) + i64::from(numbers.pick(&[-1i16, 0, 0, 1]));
            let turn = Turn {
                back,
                longer,
                scale,
            };
            let (holds, tests) = turn.check(&pairs, position);
            seen[usize::from(holds)][tests as usize] += 1;
        }
        let [dark, lit] = seen;
        assert!(dark.iter().all(|&count| count > 1000), "{dark:?}");
        assert!(lit[1..].iter().all(|&count| count > 500), "{lit:?}");
    }
}
