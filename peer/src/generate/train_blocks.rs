//! Limit blocks of pulse trains at the edge of what bit 4 of word 630 takes, on
//! either side of it.

use crate::blocks::LIMIT_BLOCK_WORDS;
use crate::generate::numbers::Numbers;
use crate::generate::program::{draw_anding, draw_limit_block, PULSE};
use crate::generate::spoil::{draw_nonzero, spoil_pair};
use crate::pair::distance;

/// Draws that look for what is seldom.
const TRIES: usize = 200;

pub(crate) type LimitBlock = [u16; LIMIT_BLOCK_WORDS];

/// Q × K + Q − 1.
pub(crate) fn least_length(quantity: u16, on_count: u16) -> u64 {
    u64::from(quantity) * u64::from(on_count) + u64::from(quantity) - 1
}

/// A sound block whose pair has as many counts as its pulses need, or a few
/// more. A few pairs are a count from 0/0.
pub(crate) fn draw_train(numbers: &mut Numbers, scale: u16) -> LimitBlock {
    let [quantity, on_count] = draw_fitting(numbers, scale);
    let least = least_length(quantity, on_count) as u16;
    let length = match numbers.below(10) {
        0..=3 => least,
        4..=6 => least + 1,
        7 => least + numbers.between(2, 9),
        8 => least + numbers.between(0, scale - 1 - least),
        _ => scale - 1,
    };
    let mut block = draw_frame(numbers, scale);
    block[5..7].copy_from_slice(&[quantity, on_count]);
    match numbers.below(24) {
        0 if least == 1 => block[3..5].copy_from_slice(&[0, 1]),
        1 => block[3..5].copy_from_slice(&[1, 0]),
        _ => place(numbers, &mut block, length.min(scale - 1), scale),
    }
    block
}

/// A block at 0/0, whose Q and K are unread: mostly no pair has room for them.
pub(crate) fn draw_unread_train(numbers: &mut Numbers, scale: u16) -> LimitBlock {
    let mut block = draw_frame(numbers, scale);
    let any = [numbers.word(), numbers.word()];
    let pulses = numbers.pick(&[[0, 0], [0, 1], [1, 0], [2, scale], [65535, 65535], any]);
    block[3..5].fill(0);
    block[5..7].copy_from_slice(&pulses);
    block
}

/// Control word, advances and words not used; few are ANDed.
fn draw_frame(numbers: &mut Numbers, scale: u16) -> LimitBlock {
    let mut block = draw_limit_block(numbers, PULSE, scale);
    block[0] = PULSE;
    if numbers.one_in(8) {
        block[0] |= draw_anding(numbers);
    }
    // Without an advance each pulse is seen where it is programmed.
    if numbers.one_in(2) {
        block[1] = 0;
    }
    block
}

/// Q and K that fit SF − 1 counts: one pulse, pulses of one count, as many or as
/// long ones as fit, any.
fn draw_fitting(numbers: &mut Numbers, scale: u16) -> [u16; 2] {
    let most = scale / 2;
    let quantity = match numbers.below(8) {
        0 | 1 => 1,
        2 => most,
        3 => draw_divisor(numbers, scale),
        4 | 5 => numbers.between(1, most.min(8)),
        _ => numbers.between(1, most),
    };
    let widest = scale / quantity - 1;
    let on_count = match numbers.below(3) {
        0 => 1,
        1 => widest,
        _ => numbers.between(1, widest),
    };
    [quantity, on_count]
}

/// As many pulses as can fill a turn, with a count between any two; 1 where none
/// is found.
fn draw_divisor(numbers: &mut Numbers, scale: u16) -> u16 {
    (0..TRIES)
        .map(|_| numbers.between(1, scale / 2))
        .find(|&quantity| scale.is_multiple_of(quantity))
        .unwrap_or(1)
}

/// Gives a block a pair of so many counts: often over zero, or with a setpoint
/// at an end of the range.
fn place(numbers: &mut Numbers, block: &mut LimitBlock, length: u16, scale: u16) {
    let on = match numbers.below(8) {
        0 => 0,
        1 => scale - 1,
        2 => scale - length,
        3 => scale - 1 - length,
        4 | 5 => scale - numbers.between(1, length),
        _ => numbers.between(0, scale - 1),
    };
    block[3..5].copy_from_slice(&[on, (on + length) % scale]);
}

/// Makes a sound train such as bit 3 or 4 turns away; now and then bits 1 and 2
/// turn it away too.
pub(crate) fn spoil_train(numbers: &mut Numbers, block: &mut LimitBlock, scale: u16) {
    match numbers.below(8) {
        0..=2 => shorten(numbers, block, scale),
        3 => draw_no_pulse(numbers, block),
        4 | 5 => {
            spoil_pair(numbers, &mut block[3..5], scale);
            draw_pulses_behind(numbers, block);
        }
        _ => {
            let pulses = draw_large(numbers, scale);
            block[5..7].copy_from_slice(&pulses);
            let length = numbers.between(scale / 2, scale - 1);
            place(numbers, block, length, scale);
        }
    }
    if numbers.one_in(8) {
        block[numbers.pick(&[1, 2])] = numbers.pick(&[1000, -1000]) as u16;
    }
    if numbers.one_in(8) {
        block[0] |= 1 << numbers.between(2, 12);
    }
}

/// A count too few, or several: of a pair, or for its pulses with a count more.
fn shorten(numbers: &mut Numbers, block: &mut LimitBlock, scale: u16) {
    let least = least_length(block[5], block[6]) as u16;
    match numbers.below(4) {
        0 | 1 if least > 1 => place(numbers, block, least - 1, scale),
        2 if least > 1 => {
            let length = numbers.between(1, least - 1);
            place(numbers, block, length, scale);
        }
        _ => {
            let length = distance(block[3], block[4], scale);
            block[6] = (length + 1) / block[5];
        }
    }
}

/// Q or K 0, or both.
fn draw_no_pulse(numbers: &mut Numbers, block: &mut LimitBlock) {
    let large = draw_nonzero(numbers);
    let [quantity, on_count] = [block[5], block[6]];
    let pulses = [[0, on_count], [quantity, 0], [0, large], [large, 0], [0, 0]];
    block[5..7].copy_from_slice(&numbers.pick(&pulses));
}

/// Q and K of a pair that is not sound: such as fit, such as fit no pair, none.
fn draw_pulses_behind(numbers: &mut Numbers, block: &mut LimitBlock) {
    match numbers.below(4) {
        0 => draw_no_pulse(numbers, block),
        1 | 2 => {
            let large = [[1, 1024], [600, 1], [256, 256], [65535, 65535]];
            block[5..7].copy_from_slice(&numbers.pick(&large));
        }
        _ => {}
    }
}

/// Q and K whose product passes 65,535, mostly such that it would fit if it were
/// held in 16 bits, in 31, or in 32 with a sign.
fn draw_large(numbers: &mut Numbers, scale: u16) -> [u16; 2] {
    match numbers.below(8) {
        0 => numbers.pick(&[[65535, 1], [1, 65535], [4369, 15], [257, 255]]),
        1 => numbers.pick(&[[256, 256], [2, 32768], [32768, 2], [512, 128], [128, 512]]),
        2 => numbers.pick(&[[65535, 65535], [65535, 32769], [46341, 46341], [2, 16384]]),
        3 => [46341; 2].map(|least| numbers.between(least, 65535)),
        4 => draw_fitting_when_cut(numbers, 31, (32769, 65535), scale),
        _ => draw_fitting_when_cut(numbers, 16, (2, scale), scale),
    }
}

/// Q from a range, and a K with which Q × K or Q × K + Q − 1 just passes so many
/// bits; what is left of the sum then fits, where such are found.
fn draw_fitting_when_cut(
    numbers: &mut Numbers,
    bits: u32,
    (fewest, most): (u16, u16),
    scale: u16,
) -> [u16; 2] {
    let limit: u32 = 1 << bits;
    let mut draw = || {
        let quantity = numbers.between(fewest, most);
        let passing = [limit / u32::from(quantity), limit.div_ceil(quantity.into())];
        [quantity, numbers.pick(&passing).min(65535) as u16]
    };
    let fits = |[quantity, on_count]: &[u16; 2]| {
        least_length(*quantity, *on_count) % u64::from(limit) <= u64::from(scale / 2)
    };
    let first = draw();
    (1..TRIES).map(|_| draw()).find(fits).unwrap_or(first)
}

#[cfg(test)]
mod tests {
    use super::*;
    use crate::limit_block::pulse_errors;
    use crate::pair::Pair;

    const SCALES: [u16; 8] = [2, 3, 4, 5, 7, 100, 1023, 1024];

    fn errors(block: &LimitBlock, scale: u16) -> u16 {
        let pair = Pair {
            on: block[3],
            off: block[4],
        };
        pulse_errors(pair, block[5], block[6], scale)
    }

    #[test]
    fn drawn_trains_are_sound() {
        let mut numbers = Numbers::new(1);
        for scale in SCALES {
            for _ in 0..2000 {
                let block = draw_train(&mut numbers, scale);
                assert_eq!(errors(&block, scale), 0, "{block:?}");
                assert!(block[3] != block[4], "{block:?}");
                let block = draw_unread_train(&mut numbers, scale);
                assert_eq!(errors(&block, scale), 0, "{block:?}");
            }
        }
    }

    #[test]
    fn spoiled_trains_are_not() {
        let mut numbers = Numbers::new(2);
        for scale in SCALES {
            for _ in 0..2000 {
                let mut block = draw_train(&mut numbers, scale);
                spoil_train(&mut numbers, &mut block, scale);
                assert!(errors(&block, scale) != 0, "{block:?} {scale}");
            }
        }
    }
}
