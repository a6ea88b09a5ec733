//! Lists with slow machines, judged by the words of the request from the calls:
//! tenths, tachometer and detectors of each line, and how often what the lists
//! are made for comes.

mod common;

use common::{calls, printed};
use peer::generate::{slow_list, SlowUpdates};

const LISTS: u64 = 100;

/// The speed since the module start, by the words of 02.
struct Judge {
    setup: Vec<u16>,
    last_raw: Option<u16>,
    /// Movements since the last update, their sum, and steps.
    moved: bool,
    sum: i64,
    steps: u64,
    /// C of the last update, as a magnitude.
    counts: u64,
    seen: SlowUpdates,
}

fn half_up(numerator: u64, denominator: u64) -> u64 {
    (2 * numerator + denominator) / (2 * denominator)
}

impl Judge {
    fn new() -> Judge {
        Judge {
            setup: vec![0, 1024, 0, 0, 0, 0, 0, 0, 1, 1, 0, 0],
            last_raw: None,
            moved: false,
            sum: 0,
            steps: 0,
            counts: 0,
            seen: SlowUpdates::default(),
        }
    }

    fn start(&mut self) {
        let Judge { setup, seen, .. } = self;
        *self = Judge {
            setup: setup.clone(),
            seen: *seen,
            ..Judge::new()
        };
    }

    /// W in ms: bit 5 is TResp.
    fn window_ms(&self) -> u64 {
        match self.setup[0] >> 5 & 1 {
            1 => 120,
            _ => 504,
        }
    }

    /// Whether the step is an update.
    fn step(&mut self, raw: u16) -> bool {
        let movement = self.last_raw.map_or(0, |last| {
            // Counting down, bit 4, each movement is the other way.
            let on =
                (i64::from(raw) - i64::from(last)) * [1, -1][usize::from(self.setup[0] >> 4 & 1)];
            (on + 512).rem_euclid(1024) - 512
        });
        self.last_raw = Some(raw);
        self.moved |= movement != 0;
        self.sum += movement;
        self.steps += 1;
        self.steps.is_multiple_of(5 * self.window_ms())
    }

    fn update(&mut self) {
        self.counts = self.sum.unsigned_abs();
        self.see_update();
        self.sum = 0;
        self.moved = false;
    }

    /// |C| × 600000 / (1024 × W), rounded half up.
    fn tenths(&self) -> u64 {
        half_up(self.counts * 600_000, 1024 * self.window_ms())
    }

    /// Multiplier, divisor and ten to the decimal code.
    fn scalars(&self) -> [u64; 3] {
        let [multiplier, divisor, code] = [8, 9, 10].map(|word| u64::from(self.setup[word]));
        [multiplier, divisor, [1, 10, 100, 1000][code as usize]]
    }

    fn tach(&self) -> u64 {
        let [multiplier, divisor, power] = self.scalars();
        half_up(self.tenths() * multiplier, divisor * 10 * power)
    }

    fn detector(&self, word: usize) -> bool {
        let tenths = self.tenths();
        let [low, high] = [word, word + 1].map(|word| 10 * u64::from(self.setup[word]));
        match (low, high) {
            (0, 0) => false,
            _ if low <= high => (low..=high).contains(&tenths),
            _ => tenths <= high || low <= tenths,
        }
    }

    /// Fields 3 to 7 of the line.
    fn expected(&self) -> [u64; 5] {
        let tach = self.tach();
        [
            self.tenths(),
            tach.min(32767),
            u64::from(tach > 32767),
            u64::from(self.detector(4)),
            u64::from(self.detector(6)),
        ]
    }

    /// Counts what is said of updates, by definitions of its own.
    fn see_update(&mut self) {
        let (counts, tenths, window) = (self.counts, self.tenths(), 1024 * self.window_ms());
        let rpm = half_up(counts * 60_000, window);
        let [multiplier, divisor, power] = self.scalars();
        let of_rpm = half_up(rpm * multiplier, divisor * power);
        let once = half_up(tenths * multiplier, 10 * divisor);
        let of_c = half_up(counts * 60_000 * multiplier, window * divisor * power);
        let tach = self.tach();
        // All over 32767 read the same.
        let is_other = |other: u64| u64::from(other.min(32768) != tach.min(32768));
        let ends: Vec<u64> = (4..8)
            .map(|word| 10 * u64::from(self.setup[word]))
            .filter(|&end| end > 0)
            .collect();
        let ends_at = |tenths| ends.iter().filter(|&&end| end == tenths).count() as u64;
        self.seen.add(&SlowUpdates {
            stops: u64::from(counts == 0),
            swung: u64::from(counts == 0 && self.moved),
            creeps: u64::from((1..=5).contains(&tenths)),
            at_an_end: ends_at(tenths),
            beside: ends_at(tenths + 1) + tenths.checked_sub(1).map_or(0, ends_at),
            halves: u64::from(2 * 600_000 * counts % (2 * window) == window),
            not_of_rpm: is_other(of_rpm),
            not_twice: is_other(half_up(once, power)),
            not_of_c: is_other(of_c),
            ..SlowUpdates::default()
        });
    }

    fn call(&mut self, call: &[u16], line: &str) {
        let fields: Vec<&str> = line.split(' ').collect();
        match (call[0], fields[1]) {
            (0, "0") => {
                *self = Judge {
                    seen: self.seen,
                    ..Judge::new()
                }
            }
            (1, "0") => {
                self.setup = call[2..14].to_vec();
                self.start();
            }
            (5, "11") => {
                self.start();
                assert_eq!(fields[3..8], ["0"; 5]);
            }
            (5, _) => {
                if self.step(call[1]) {
                    self.update();
                }
                assert_eq!(
                    fields[3..8],
                    self.expected().map(|number| number.to_string())
                );
            }
            _ => {}
        }
    }
}

/// What the judge saw in the lists, and what the lists say of themselves.
fn judged() -> [SlowUpdates; 2] {
    let (mut judge, mut counted) = (Judge::new(), SlowUpdates::default());
    for seed in 1..=LISTS {
        let list = slow_list(seed);
        for (call, line) in calls(&list).iter().zip(printed(&list.bytes()).lines()) {
            judge.call(call, line);
        }
        counted.add(&SlowUpdates::of_list(&list));
    }
    [judge.seen, counted]
}

#[test]
fn every_line_is_by_the_words_of_the_request() {
    let [seen, counted] = judged();
    println!("{counted}");
    // What is said of groups is not told from these lines.
    let of_groups = SlowUpdates {
        kept: counted.kept,
        qualified: counted.qualified,
        pressed: counted.pressed,
        ..SlowUpdates::default()
    };
    let mut all = seen;
    all.add(&of_groups);
    assert_eq!(all, counted);
    let often = [
        (seen.stops, 150),
        (seen.swung, 60),
        (seen.creeps, 150),
        (seen.at_an_end, 50),
        (seen.beside, 80),
        (seen.halves, 20),
        (seen.not_of_rpm, 200),
        (seen.not_twice, 20),
        (seen.not_of_c, 100),
        (counted.kept, 18),
        (counted.qualified, 15),
        (counted.pressed, 25),
    ];
    for (count, least) in often {
        assert!(count >= least, "{count} of {least}: {counted}");
    }
}

/// A window of 600 or 2,520 steps needs as many; lists are not longer than that
/// asks for.
#[test]
fn lists_have_several_updates() {
    for seed in 1..=LISTS {
        let steps = slow_list(seed).steps();
        assert!((3000..=16_000).contains(&steps), "seed {seed}: {steps}");
    }
}
