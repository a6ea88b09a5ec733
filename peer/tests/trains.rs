//! Pulse trains by the words of request 13: what a train is like that bit 4 of
//! word 630 takes, told from its definition in 01 alone; then limit cycles,
//! nudges and steps with trains at the edge.

mod common;

use common::{
    command, limit_file, refused, sample, Card, Numbers, CLEAR_ERRORS, INDEPENDENT, NUDGE_DOWN,
    NUDGE_OFF, NUDGE_ON, PULSE,
};
use peer::pulse::{pulse_holds, pulse_start, pulses_fit};
use peer::{Answer, Refusal};

/// R, Q and K.
#[derive(Clone, Copy, Debug)]
struct Train {
    length: u64,
    quantity: u64,
    on_count: u64,
}

/// Q × K + Q − 1.
fn least_length(quantity: u64, on_count: u64) -> u64 {
    quantity * on_count + quantity - 1
}

impl Train {
    /// Pulse j starts at floor(j × (R − K) / (Q − 1)), or 0 if Q = 1.
    fn starts(self) -> Vec<u64> {
        if self.quantity == 1 {
            return vec![0];
        }
        (0..self.quantity)
            .map(|j| j * (self.length - self.on_count) / (self.quantity - 1))
            .collect()
    }

    /// On or not at each count of a turn that begins at the ON setpoint.
    fn turn(self, scale: u64) -> Vec<bool> {
        let mut on = vec![false; scale as usize];
        for start in self.starts() {
            on[start as usize..(start + self.on_count) as usize].fill(true);
        }
        on
    }

    /// R, Q and K as words.
    fn words(self) -> [u16; 3] {
        [self.length, self.quantity, self.on_count].map(|number| number as u16)
    }
}

/// The counts at which it is on and was not one before, round the turn.
fn rises(on: &[bool]) -> Vec<u64> {
    let before = |count: usize| on[(count + on.len() - 1) % on.len()];
    (0..on.len())
        .filter(|&count| on[count] && !before(count))
        .map(|count| count as u64)
        .collect()
}

fn assert_as_shown(train: Train, scale: u64) {
    let Train {
        length,
        quantity,
        on_count,
    } = train;
    let starts = train.starts();
    let apart = |pair: &[u64]| pair[1] > pair[0] + on_count;
    assert!(starts.windows(2).all(apart), "{train:?}");
    let last = starts[starts.len() - 1];
    assert!(
        last + on_count <= length && length < scale,
        "{train:?} {scale}"
    );

    let on = train.turn(scale);
    let rises = rises(&on);
    // Exactly Q, each where a pulse starts.
    assert_eq!(rises.len() as u64, quantity, "{train:?} {scale}");
    assert_eq!(rises, starts, "{train:?} {scale}");
    let lit = on.iter().filter(|&&on| on).count() as u64;
    assert_eq!(lit, quantity * on_count, "{train:?} {scale}");
    for rise in rises {
        let at = |count: u64| on[((rise + count) % scale) as usize];
        assert!((0..on_count).all(at) && !at(on_count), "{train:?} {scale}");
    }
    assert!(on[length as usize..].iter().all(|&on| !on), "{train:?}");
    assert_held(train, &on);
}

/// The engine's own words for it.
fn assert_held(train: Train, on: &[bool]) {
    let [length, quantity, on_count] = train.words();
    assert!(pulses_fit(length, quantity, on_count));
    for (distance, &on) in (0..).zip(on) {
        assert_eq!(
            pulse_holds(distance, length, quantity, on_count),
            on,
            "{train:?} at {distance}"
        );
    }
    for (j, start) in (0..).zip(train.starts()) {
        let started = pulse_start(j, length, quantity, on_count);
        assert_eq!(u64::from(started), start, "{train:?}");
    }
}

/// With a count less, two pulses would touch where there are two: bit 4 asks for
/// no more than is needed.
fn assert_sharp(quantity: u64, on_count: u64) {
    let train = Train {
        length: least_length(quantity, on_count) - 1,
        quantity,
        on_count,
    };
    let starts = train.starts();
    let touching = starts.windows(2).any(|pair| pair[1] == pair[0] + on_count);
    assert!(touching, "{train:?}");
    let rises = rises(&train.turn(train.length + 1));
    assert!((rises.len() as u64) < quantity, "{train:?}");
    let [length, quantity, on_count] = train.words();
    assert!(!pulses_fit(length, quantity, on_count));
}

/// Every Q and K that fit a length.
fn fitting(longest: u64) -> impl Iterator<Item = (u64, u64)> {
    (1..=longest).flat_map(move |quantity| {
        (1..=longest)
            .take_while(move |&on_count| least_length(quantity, on_count) <= longest)
            .map(move |on_count| (quantity, on_count))
    })
}

#[test]
fn every_train_of_a_short_turn_is_as_shown() {
    for scale in 2..=40 {
        for length in 1..scale {
            for (quantity, on_count) in fitting(length) {
                let train = Train {
                    length,
                    quantity,
                    on_count,
                };
                assert_as_shown(train, scale);
            }
        }
    }
}

/// Every Q and K that fit 1,023 counts, with as few counts as they may have, one
/// more, some more, and all of them.
#[test]
fn every_quantity_of_a_full_turn_is_as_shown() {
    let mut numbers = Numbers(13);
    let mut trains = 0;
    for (quantity, on_count) in fitting(1023) {
        let least = least_length(quantity, on_count);
        let some = least + u64::from(numbers.below((1024 - least) as u16));
        for length in [least, least + 1, some, 1023] {
            if length < 1024 {
                let train = Train {
                    length,
                    quantity,
                    on_count,
                };
                assert_as_shown(train, 1024);
                trains += 1;
            }
        }
        if quantity > 1 {
            assert_sharp(quantity, on_count);
        }
    }
    println!("{trains} trains");
    assert!(trains > 20_000);
}

/// The gap round the turn is one count, as are some or all of the others.
#[test]
fn trains_that_fill_the_turn_are_as_shown_for_every_scale_factor() {
    for scale in 2..=1024 {
        for quantity in (1..=scale / 2).filter(|quantity| scale % quantity == 0) {
            let train = Train {
                length: scale - 1,
                quantity,
                on_count: scale / quantity - 1,
            };
            assert_as_shown(train, scale);
        }
    }
}

/// An 8513 in Independent Mode.
fn card(scale: u16) -> Card {
    Card::set_up(&[command(INDEPENDENT), (1, scale)])
}

/// Words 630 and 631 after a limit cycle with these blocks; bits 5 to 13 are 0,
/// and so are the words behind.
fn status(card: &mut Card, blocks: &[(usize, &[u16])]) -> [u16; 2] {
    let mut file = limit_file(blocks);
    file[0] |= CLEAR_ERRORS;
    let answer = card.send_limits(&mut file);
    let words = [file[630], file[631]];
    let expected = match words {
        [0, 0] => Answer::Accepted,
        _ => refused(Refusal::LimitData),
    };
    assert_eq!(answer, expected, "{blocks:?}");
    assert_eq!(file[630] & 0x3fe0, 0, "{blocks:?}");
    assert!(file[632..].iter().all(|&word| word == 0), "{blocks:?}");
    words
}

/// A train with an ON setpoint.
fn block(scale: u16, on: u16, [length, quantity, on_count]: [u16; 3]) -> [u16; 7] {
    [PULSE, 0, 0, on, (on + length) % scale, quantity, on_count]
}

/// The same for output 17 alone.
fn status_of(card: &mut Card, block: &[u16]) -> [u16; 2] {
    status(card, &[(17, block)])
}

#[test]
fn word_630_of_every_train_of_a_few_counts() {
    for scale in [2, 3, 5, 8, 13] {
        let mut card = card(scale);
        for on in 0..scale {
            for length in 1..scale {
                for quantity in 0..=scale + 1 {
                    for on_count in 0..=scale + 1 {
                        let block = block(scale, on, [length, quantity, on_count]);
                        let fits = quantity > 0
                            && on_count > 0
                            && length >= quantity * on_count + quantity - 1;
                        let expected = if fits { [0, 0] } else { [0x10, 17] };
                        assert_eq!(status_of(&mut card, &block), expected, "{block:?}");
                    }
                }
            }
        }
    }
}

#[test]
fn word_630_one_short_exact_and_one_more() {
    let mut card = card(1024);
    for (quantity, on_count) in fitting(1022).step_by(7).chain([
        (1, 1),
        (1, 2),
        (1, 1022),
        (2, 1),
        (2, 510),
        (3, 340),
        (511, 1),
    ]) {
        let least = least_length(quantity, on_count) as u16;
        let [quantity, on_count] = [quantity, on_count].map(|number| number as u16);
        for (length, expected) in [
            (least - 1, [0x10, 17]),
            (least, [0, 0]),
            (least + 1, [0, 0]),
        ] {
            // Of an equal pair the length is not judged.
            if length > 0 {
                for on in [0, 1, 1023, 1024 - length] {
                    let block = block(1024, on, [length, quantity, on_count]);
                    assert_eq!(status_of(&mut card, &block), expected, "{block:?}");
                }
            }
        }
    }
    // A full turn less one count.
    assert_eq!(status_of(&mut card, &[PULSE, 0, 0, 7, 6, 512, 1]), [0, 0]);
    assert_eq!(status_of(&mut card, &[PULSE, 0, 0, 7, 6, 1, 1023]), [0, 0]);
    assert_eq!(
        status_of(&mut card, &[PULSE, 0, 0, 7, 6, 1, 1024]),
        [0x10, 17]
    );
}

/// Q and K of which Q × K + Q − 1 would fit 1,023 counts if its bits above these
/// were dropped: for each Q the least K that passes them.
fn fitting_when_cut(bits: u32) -> impl Iterator<Item = (u16, u16)> {
    let limit = 1u64 << bits;
    (2..=65535u64).filter_map(move |quantity| {
        let on_count = limit / quantity;
        let cut = least_length(quantity, on_count) % limit;
        (on_count <= 65535 && cut <= 1023).then_some((quantity as u16, on_count as u16))
    })
}

#[test]
fn products_over_65535_are_bit_4() {
    let mut card = card(1024);
    let large = [
        (256, 256),
        (257, 255),
        (4369, 15),
        (65535, 65535),
        (32768, 2),
        (2, 32768),
        (65535, 1),
        (1, 65535),
        // From 2^31 on a signed number is below 0.
        (46341, 46341),
        (32768, 65535),
        (65535, 32769),
        (65535, 65534),
    ];
    let cut: Vec<(u16, u16)> = fitting_when_cut(16).chain(fitting_when_cut(31)).collect();
    assert!(cut.contains(&(256, 256)) && cut.iter().any(|&(q, _)| q > 32768));
    println!("{} products fit when cut", cut.len());
    for (quantity, on_count) in large.into_iter().chain(cut) {
        let least = least_length(quantity.into(), on_count.into());
        assert!((65535..1 << 32).contains(&least));
        assert!(!pulses_fit(1023, quantity, on_count));
        for length in [1, 1023] {
            let block = block(1024, 1000, [length, quantity, on_count]);
            assert_eq!(status_of(&mut card, &block), [0x10, 17], "{block:?}");
        }
    }
}

#[test]
fn the_length_of_an_unsound_pair_is_not_judged() {
    let mut card = card(100);
    let unsound = [
        [50, 50],
        [100, 3],
        [3, 100],
        [65535, 0],
        [0, 65535],
        [100, 100],
    ];
    for [on, off] in unsound {
        for [quantity, on_count] in [[9, 9], [50, 2], [1, 100], [65535, 65535]] {
            let block = [PULSE, 0, 0, on, off, quantity, on_count];
            assert_eq!(status_of(&mut card, &block), [8, 17]);
        }
        for [quantity, on_count] in [[0, 1], [1, 0], [0, 0], [0, 65535]] {
            let block = [PULSE, 0, 0, on, off, quantity, on_count];
            assert_eq!(status_of(&mut card, &block), [0x18, 17]);
        }
    }
}

#[test]
fn trains_at_0_0_are_taken_and_dark() {
    let mut card = card(10);
    for [quantity, on_count] in [[0, 0], [0, 7], [3, 9], [256, 256], [65535, 65535]] {
        let block = [PULSE, 0, 0, 0, 0, quantity, on_count];
        assert_eq!(status_of(&mut card, &block), [0, 0]);
        assert!((0..1024).all(|raw| !card.lit(raw, 0)));
    }
}

/// Bits 0 to 4 are the lowest failing output's own.
#[test]
fn the_lowest_failing_output_is_named() {
    let mut card = card(100);
    let short: &[u16] = &[PULSE, 0, 0, 90, 9, 4, 5];
    let exact: &[u16] = &[PULSE, 0, 0, 90, 13, 4, 5];
    let equal: &[u16] = &[PULSE, 0, 0, 9, 9, 90, 90];
    let advanced: &[u16] = &[PULSE, 1000, 0, 90, 9, 4, 5];
    let cases: [(&[(usize, &[u16])], [u16; 2]); 6] = [
        (&[(3, short), (9, equal), (20, advanced)], [0x10, 3]),
        (&[(3, exact), (9, equal), (20, short)], [8, 9]),
        (&[(3, exact), (9, exact), (20, advanced)], [0x14, 20]),
        (&[(3, exact), (9, exact), (32, short)], [0x10, 32]),
        (&[(1, short), (2, short)], [0x10, 1]),
        (&[(3, exact), (9, exact), (20, exact)], [0, 0]),
    ];
    for (blocks, expected) in cases {
        assert_eq!(status(&mut card, blocks), expected, "{blocks:?}");
    }
}

#[test]
fn word_630_of_any_words_has_no_bits_5_to_13() {
    let mut numbers = Numbers(630);
    let mut seen = [0; 16];
    for _ in 0..40 {
        let mut card = card(2 + numbers.below(1023));
        for _ in 0..200 {
            let words: Vec<u16> = (0..19).map(|_| numbers.word()).collect();
            let mut train = words.clone();
            train[0] = PULSE;
            train[1..3].fill(0);
            let output = 1 + usize::from(numbers.below(32));
            for block in [words, train] {
                let [word, _] = status(&mut card, &[(output, &block)]);
                seen.iter_mut()
                    .enumerate()
                    .for_each(|(bit, count)| *count += word >> bit & 1);
            }
        }
    }
    println!("{seen:?}");
    assert!(seen[1..5].iter().all(|&count| count > 500));
}

/// Output 17, its first pair.
const NUDGED: u16 = 16;

fn nudged(card: &mut Card, bits: u16) -> Answer {
    card.clear_errors();
    card.nudge(NUDGED | bits)
}

#[test]
fn a_nudge_to_one_short_is_turned_away() {
    let too_short = refused(Refusal::NudgeSetpoint);
    let both = NUDGE_ON | NUDGE_OFF;
    // Q 4, K 5 needs 23 counts; the second pair is over zero.
    for [on, off] in [[10, 33], [90, 13]] {
        let mut card = Card::set_up(&[command(INDEPENDENT), (1, 100)])
            .and_limits(&[(17, &[PULSE, 0, 0, on, off, 4, 5])]);
        for shorter in [NUDGE_ON, NUDGE_OFF | NUDGE_DOWN] {
            assert_eq!(nudged(&mut card, shorter), too_short);
        }
        // 23 counts still.
        assert_eq!(nudged(&mut card, both), Answer::Accepted);
        assert_eq!(nudged(&mut card, both | NUDGE_DOWN), Answer::Accepted);
        assert_eq!(nudged(&mut card, NUDGE_ON | NUDGE_DOWN), Answer::Accepted);
        assert_eq!(nudged(&mut card, NUDGE_OFF), Answer::Accepted);
        // 25 counts: two may go.
        assert_eq!(nudged(&mut card, NUDGE_ON), Answer::Accepted);
        assert_eq!(nudged(&mut card, NUDGE_ON), Answer::Accepted);
        assert_eq!(nudged(&mut card, NUDGE_ON), too_short);
        assert_eq!(nudged(&mut card, NUDGE_OFF | NUDGE_DOWN), too_short);
    }
}

#[test]
fn a_nudge_to_no_count_or_out_of_range_is_turned_away() {
    let refusal = refused(Refusal::NudgeSetpoint);
    let both = NUDGE_ON | NUDGE_OFF;
    let cases = [
        // To 0/0, from 1 count and from 99.
        ([0, 1, 1, 1], NUDGE_OFF | NUDGE_DOWN),
        ([1, 0, 1, 1], NUDGE_ON | NUDGE_DOWN),
        // Equal setpoints.
        ([5, 6, 1, 1], NUDGE_ON),
        ([6, 5, 1, 1], NUDGE_OFF),
        ([6, 5, 50, 1], NUDGE_OFF),
        // No setpoint goes round.
        ([99, 22, 4, 5], NUDGE_ON),
        ([0, 23, 4, 5], NUDGE_ON | NUDGE_DOWN),
        ([76, 99, 4, 5], both),
        ([0, 23, 4, 5], both | NUDGE_DOWN),
        ([77, 0, 4, 5], NUDGE_OFF | NUDGE_DOWN),
    ];
    for ([on, off, quantity, on_count], bits) in cases {
        let block = [PULSE, 0, 0, on, off, quantity, on_count];
        let mut card = Card::set_up(&[command(INDEPENDENT), (1, 100)]).and_limits(&[(17, &block)]);
        assert_eq!(nudged(&mut card, bits), refusal, "{block:?}");
    }
}

/// The virtual outputs of a card over a turn of 1,024 steps.
#[test]
fn exactly_q_pulses_are_seen_in_a_turn_of_steps() {
    let trains = [
        [1, 1, 1],
        [2, 1, 1],
        [3, 2, 1],
        [20, 3, 4],
        [23, 4, 5],
        [24, 4, 5],
        [999, 5, 3],
        [1022, 1, 1022],
        [1023, 1, 1023],
        [1023, 512, 1],
        [1023, 2, 511],
        [1023, 64, 15],
        [1022, 341, 1],
        [1023, 341, 2],
        [1022, 341, 2],
        [700, 100, 6],
    ];
    let on = |index: usize| 67 * index as u16;
    let blocks: Vec<[u16; 7]> = (0..)
        .zip(trains)
        .map(|(index, train)| block(1024, on(index), train))
        .collect();
    let outputs: Vec<(usize, &[u16])> = (17..).zip(blocks.iter().map(|block| &block[..])).collect();
    let mut card = Card::independent(&outputs);
    let turn: Vec<u16> = (0..1024)
        .map(|raw| card.module.step(&sample(raw, 0, 0)).virtual_outputs)
        .collect();
    for (index, train) in trains.into_iter().enumerate() {
        let seen: Vec<bool> = (0..1024)
            .map(|count| turn[usize::from((on(index) + count) % 1024)] >> index & 1 != 0)
            .collect();
        let [length, quantity, on_count] = train.map(u64::from);
        let train = Train {
            length,
            quantity,
            on_count,
        };
        assert_eq!(seen, train.turn(1024), "{train:?}");
        assert_eq!(rises(&seen).len() as u64, quantity);
    }
}
