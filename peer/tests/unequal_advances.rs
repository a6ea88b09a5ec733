//! Lengths of pairs whose ON and OFF advance differ: request 5 of document 02
//! with its readings R5a to R5g.

mod common;

use common::{virtual_group, Card, PULSE, TIMED};
use peer::motion::{advance_shift, moved_length};
use peer::switch::Switch;

/// An advance of 24.0 ms shifts by c counts at SF 1024.
const BY_C: i16 = 240;

/// The greatest and the least c.
const FASTEST: [i32; 2] = [61_320, -61_440];

/// A limit block of a type with both advances and what follows them.
fn block(kind: u16, advances: [i16; 2], words: &[u16]) -> [u16; 19] {
    let mut block = [0; 19];
    block[..3].copy_from_slice(&[kind, advances[0] as u16, advances[1] as u16]);
    block[3..3 + words.len()].copy_from_slice(words);
    block
}

/// The positions at which a block's switch holds with a given c.
fn held(block: &[u16; 19], c: i32, scale: u16) -> Vec<u16> {
    let mut switch = Switch::decode(block);
    switch.place(c, scale);
    (0..scale)
        .filter(|&p| switch.holds(p, scale, &mut 0))
        .collect()
}

/// The same for a normal switch of one pair at SF 1024.
fn held_pair(on: u16, off: u16, advances: [i16; 2], c: i32) -> Vec<u16> {
    held(&block(0, advances, &[on, off]), c, 1024)
}

/// So many counts from a position on, over zero too, in rising order.
fn counts(from: u16, length: u16, scale: u16) -> Vec<u16> {
    let mut counts: Vec<u16> = (0..length).map(|count| (from + count) % scale).collect();
    counts.sort();
    counts
}

/// 01's s: a × c × SF / 245760 toward zero.
fn shift(advance: i16, c: i32, scale: u16) -> i128 {
    i128::from(advance) * i128::from(c) * i128::from(scale) / 245_760
}

/// The positions at which a pair holds by the words of the request.
fn held_by_request(pair: [u16; 2], advances: [i16; 2], c: i32, scale: u16) -> Vec<u16> {
    let [on, off] = pair.map(i128::from);
    let [on_shift, off_shift] = advances.map(|advance| shift(advance, c, scale));
    let turn = i128::from(scale);
    let length = (off - on).rem_euclid(turn) + on_shift - off_shift;
    let holds = |p: u16| {
        let from_moved_on = (i128::from(p) - (on - on_shift)).rem_euclid(turn);
        pair != [0, 0] && length > 0 && (length >= turn || from_moved_on < length)
    };
    (0..scale).filter(|&p| holds(p)).collect()
}

/// The positions at which a pair held by 01: both setpoints moved, each
/// reduced mod SF.
fn held_by_moved_setpoints(pair: [u16; 2], advances: [i16; 2], c: i32, scale: u16) -> Vec<u16> {
    let turn = i128::from(scale);
    let moved =
        |setpoint: u16, advance| (i128::from(setpoint) - shift(advance, c, scale)).rem_euclid(turn);
    let (on, off) = (moved(pair[0], advances[0]), moved(pair[1], advances[1]));
    let holds = |p: u16| (i128::from(p) - on).rem_euclid(turn) < (off - on).rem_euclid(turn);
    (0..scale).filter(|&p| holds(p)).collect()
}

#[test]
fn r5a_each_shift_is_cut_toward_zero_by_itself() {
    // 239 / 240 of a count either way is none.
    assert_eq!(held_pair(100, 120, [1, -1], 239), counts(100, 20, 1024));
    assert_eq!(held_pair(100, 120, [1, -1], -239), counts(100, 20, 1024));
    // A whole count either way: 20 + 1 + 1 and 20 − 1 − 1.
    assert_eq!(held_pair(100, 120, [1, -1], 240), counts(99, 22, 1024));
    assert_eq!(held_pair(100, 120, [1, -1], -240), counts(101, 18, 1024));
    // 300 / 240 and 200 / 240: 1 and 0, though they differ by less than 1.
    assert_eq!(held_pair(100, 120, [3, 2], 100), counts(99, 21, 1024));
    assert_eq!(held_pair(100, 120, [2, 3], 100), counts(100, 19, 1024));
    assert_eq!(held_pair(100, 120, [-3, -2], 100), counts(101, 19, 1024));
    // 479 / 240 and −479 / 240: 1 and −1, though they differ by nearly 4.
    assert_eq!(held_pair(100, 120, [1, -1], 479), counts(99, 22, 1024));
}

#[test]
fn r5b_shifts_are_not_reduced() {
    // 600 × 410 / 240 is 1025, 601 × 410 / 240 is 1026 and some.
    assert_eq!(held_pair(100, 120, [600, 601], 410), counts(99, 19, 1024));
    assert_eq!(held_pair(100, 120, [601, 600], 410), counts(98, 21, 1024));
    // A whole turn and 239 × 1024 / 240 = 1019: 20 + 1024 − 1019.
    assert_eq!(
        held_pair(100, 120, [BY_C, 239], 1024),
        counts(100, 25, 1024)
    );
    assert_eq!(
        held_pair(100, 120, [239, BY_C], 1024),
        counts(105, 15, 1024)
    );
    // One turn more on either side.
    assert_eq!(held_pair(100, 120, [BY_C, 0], 1024).len(), 1024);
    assert_eq!(held_pair(100, 120, [0, BY_C], 1024), []);
    // Against the count: −1025 and −1026.
    assert_eq!(held_pair(100, 120, [600, 601], -410), counts(101, 21, 1024));
}

#[test]
fn r5c_the_length_starts_from_the_unmoved_setpoints() {
    // Over zero: 24 counts, and 3 more at the front.
    assert_eq!(held_pair(1010, 10, [BY_C, 0], 3), counts(1007, 27, 1024));
    // The moved ON setpoint comes over zero.
    assert_eq!(held_pair(5, 25, [BY_C, 0], 10), counts(1019, 30, 1024));
    assert_eq!(held_pair(1020, 16, [BY_C, 0], -10), counts(6, 10, 1024));
}

/// From one count on, the pair gets a count shorter with each count of c.
#[test]
fn lengths_from_a_turn_to_none() {
    let length = |c: i32| held_pair(100, 110, [0, BY_C], c).len();
    assert_eq!([0, 1, 8, 9, 10, 11].map(length), [10, 9, 2, 1, 0, 0]);
    assert_eq!([500, 1023, 1024, 1033, 1034].map(length), [0; 5]);
    assert_eq!([-1, -1012, -1013].map(length), [11, 1022, 1023]);
    assert_eq!([-1014, -1015, -1024, -2048].map(length), [1024; 4]);
    assert_eq!(FASTEST.map(length), [0, 1024]);
    // At 1,023 counts the one before the moved ON setpoint is left out.
    assert_eq!(
        held_pair(100, 110, [0, BY_C], -1013),
        counts(100, 1023, 1024)
    );
    assert!(!held_pair(100, 110, [0, BY_C], -1013).contains(&99));
    assert_eq!(held_pair(100, 90, [BY_C, 0], 9), counts(91, 1023, 1024));
    assert_eq!(held_pair(100, 90, [BY_C, 0], 10), counts(0, 1024, 1024));
}

/// SF, pair, advances, c, the moved ON setpoint and the length.
type Row = (u16, [u16; 2], [i16; 2], i32, u16, i64);

#[test]
fn lengths_at_other_scale_factors() {
    // At c 1024 an advance a shifts by a × SF / 240 counts.
    let rows: [Row; 16] = [
        (2, [0, 1], [0, 120], 1024, 0, 0),
        (2, [0, 1], [0, 119], 1024, 0, 1),
        (2, [0, 1], [120, 0], 1024, 1, 2),
        (2, [1, 0], [240, 120], 1024, 1, 2),
        (2, [1, 0], [0, 999], 1024, 1, -7),
        (3, [2, 1], [80, 160], 1024, 1, 1),
        (3, [2, 1], [80, 80], 1024, 1, 2),
        (3, [2, 1], [160, 80], 1024, 0, 3),
        (3, [0, 1], [80, 160], 1024, 2, 0),
        (10, [3, 7], [0, 72], 1024, 3, 1),
        (10, [3, 7], [0, 96], 1024, 3, 0),
        (10, [3, 7], [120, 0], 1024, 8, 9),
        (10, [3, 7], [144, 0], 1024, 7, 10),
        // 246 × 1000 / 245760 is a little over 1, by c 999 still below 1000.
        (1000, [10, 11], [246, 0], 998, 12, 999),
        (1000, [10, 11], [246, 0], 999, 11, 1000),
        (1000, [10, 0], [246, -246], 10, 0, 1010),
    ];
    for row @ (scale, pair, advances, c, start, length) in rows {
        let expected = counts(start, length.clamp(0, i64::from(scale)) as u16, scale);
        assert_eq!(
            held(&block(0, advances, &pair), c, scale),
            expected,
            "{row:?}"
        );
        let mut timed = block(TIMED, advances, &pair);
        timed[5] = 9999;
        assert_eq!(held(&timed, c, scale), expected, "{row:?}");
    }
}

#[test]
fn every_pair_of_a_normal_switch_has_its_own_length() {
    // OFF shift 10: lengths 0, 1, −5 and 20 are left of 10, 11, 5 and 30.
    let words = [100, 110, 200, 211, 300, 305, 0, 0, 400, 430];
    let expected: Vec<u16> = [vec![200], counts(400, 20, 1024)].concat();
    assert_eq!(held(&block(0, [0, BY_C], &words), 10, 1024), expected);
}

/// Output 17 is timed for 1 ms, hence five steps.
fn timed_card(advances: [i16; 2], on: u16, off: u16) -> Card {
    Card::independent(&[(17, &block(TIMED, advances, &[on, off, 1]))])
}

/// The numbers, from 1, of the steps in which output 17 is lit.
fn lit_steps(card: &mut Card, raws: impl Iterator<Item = u16>) -> Vec<usize> {
    let steps = (1..).zip(raws);
    steps
        .filter_map(|(step, raw)| card.lit(raw, 0).then_some(step))
        .collect()
}

#[test]
fn r5d_a_timed_output_whose_pair_always_holds_begins_once() {
    // 1014 counts and c more: all of a turn from c 10 on.
    let mut card = timed_card([BY_C, 0], 100, 90);
    // One count a step from 95 on; 100 comes in the sixth step. c is 119 from
    // the 120th step on, then 120.
    let lit = lit_steps(&mut card, (95..3095).map(|count| count % 1024));
    assert_eq!(lit, [6, 7, 8, 9, 10]);
    // Standing at 95: c becomes 0 and the pair, 100/90 again, ceases to hold.
    // It begins again at 100.
    card.stand(95, 0, 240);
    assert_eq!(lit_steps(&mut card, [99, 100].into_iter()), [2]);
    assert_eq!(lit_steps(&mut card, [100; 10].into_iter()), [1, 2, 3, 4]);
}

#[test]
fn r5d_a_timed_pair_begins_with_the_c_that_makes_it_hold() {
    // 10 counts and c more. At 9 counts a step c is 119 × 9 = 1071 in step
    // 120, at 47; until then only 100 to 109 hold.
    let mut card = timed_card([0, -BY_C], 100, 110);
    let raw = |step: u16| 9 * (step - 1) % 1024;
    let lit = lit_steps(&mut card, (1..=1200).map(raw));
    // Step 13 is at 108.
    assert_eq!(lit, [13, 120, 121, 122, 123, 124]);
}

#[test]
fn r5d_a_timed_pair_that_no_longer_holds_is_off() {
    // 10 counts less c, here 0 or less from step 120 on.
    let mut card = timed_card([0, BY_C], 100, 110);
    let turn = |step: u16| step % 1024;
    assert_eq!(lit_steps(&mut card, (100..104).map(turn)), [1, 2, 3, 4]);
    assert_eq!(lit_steps(&mut card, (104..3000).map(turn)), [1]);
}

#[test]
fn r5e_0_0_never_holds() {
    for c in [48, -48, 1024, -1024, 61_320, -61_440] {
        for advances in [[0, -100], [100, 0], [-100, 0], [999, -999], [-999, 999]] {
            for kind in [0, PULSE, TIMED] {
                let unused = block(kind, advances, &[0, 0, 0, 0]);
                assert_eq!(held(&unused, c, 1024), [], "{kind} {advances:?} {c}");
            }
        }
    }
    // A used pair that moves to 0/0 goes by its length: 5 − 5 and 1019 + 5.
    assert_eq!(held_pair(0, 5, [0, BY_C], 5), []);
    assert_eq!(held_pair(5, 0, [BY_C, 0], 5).len(), 1024);
}

#[test]
fn r5e_a_pulse_train_keeps_its_length() {
    // Document 01's case e, moved by the ON shift alone.
    let train = [100, 101, 102, 103, 108, 109, 110, 111, 116, 117, 118, 119];
    for off_advance in [-999, -BY_C, 0, 7, BY_C, 999] {
        let pulses = |on_advance| block(PULSE, [on_advance, off_advance], &[100, 120, 3, 4]);
        assert_eq!(held(&pulses(0), 50, 1024), train);
        assert_eq!(held(&pulses(BY_C), 50, 1024), train.map(|p| p - 50));
        assert_eq!(held(&pulses(BY_C), -50, 1024), train.map(|p| p + 50));
    }
}

#[test]
fn r5e_the_dwell_has_no_advance() {
    // Mode 4, dwell 100/110; the output holds at 1,000 counts and c more.
    let mut card = Card::grouped(&[[virtual_group(4, 1), 100, 110, 0]])
        .and_limits(&[(17, &block(0, [BY_C, -BY_C], &[0, 1000]))]);
    for step in 0..120 {
        card.step(9 * step % 1024);
    }
    // c is 1071: the output holds everywhere while its group is open.
    let steps = [
        (99, 1),
        (99, 0),
        (110, 1),
        (110, 0),
        // In the dwell: opened, and closed as the next one begins.
        (109, 1),
        (110, 0),
        (99, 0),
        (100, 0),
        (110, 0),
    ];
    let lit = [false, false, false, false, true, true, true, false, false];
    assert_eq!(card.lit_over(&steps), lit);
}

#[test]
fn r5f_equal_advances_change_nothing() {
    for scale in [2, 3, 10, 360, 1000, 1024] {
        let last = scale - 1;
        let pairs = [[0, 1], [1, 0], [0, last], [last, 0], [scale / 2, 0]];
        for c in [-61_440, -5000, -573, -1, 0, 1, 120, 573, 5000, 61_320] {
            for advance in [-999, -240, -1, 0, 1, 7, 240, 999] {
                for pair in pairs {
                    let held = held(&block(0, [advance; 2], &pair), c, scale);
                    let before = held_by_moved_setpoints(pair, [advance; 2], c, scale);
                    assert_eq!(held, before, "SF {scale} c {c} {advance} {pair:?}");
                }
            }
        }
    }
}

/// Where the length lies from 1 to SF − 1, 01's formula gives the same.
#[test]
fn lengths_within_a_turn_are_those_of_01() {
    for c in -900..=100 {
        let advances = [30, BY_C];
        let length = 100 + i128::from(c) * 30 / 240 - i128::from(c);
        if (1..1024).contains(&length) {
            let before = held_by_moved_setpoints([700, 800], advances, c, 1024);
            assert_eq!(held_pair(700, 800, advances, c), before, "c {c}");
        }
    }
}

#[test]
fn r5g_the_greatest_shifts_have_room() {
    assert_eq!(advance_shift(999, -61_440, 1024), -255_744);
    assert_eq!(advance_shift(-999, -61_440, 1024), 255_744);
    assert_eq!(moved_length(20, -255_744, 255_744), -511_468);
    assert_eq!(moved_length(20, 255_744, -255_744), 511_508);
    assert_eq!(held_pair(100, 120, [999, -999], -61_440), []);
    assert_eq!(held_pair(100, 120, [-999, 999], -61_440).len(), 1024);
    // A tenth of a ms is 256 counts at this c: 20 + 256 and 20 − 256.
    assert_eq!(held_pair(100, 120, [998, 999], -61_440).len(), 276);
    assert_eq!(held_pair(100, 120, [999, 998], -61_440), []);
}

/// Values that no card has: the sign of the length still tells.
#[test]
fn r5g_any_values_have_room() {
    let lit = |advances, c| held(&block(0, advances, &[7, 9]), c, 0xffff).len();
    assert_eq!(lit([i16::MAX, i16::MIN], i32::MAX), 0xffff);
    assert_eq!(lit([i16::MIN, i16::MAX], i32::MIN), 0xffff);
    assert_eq!(lit([i16::MIN, i16::MAX], i32::MAX), 0);
    assert_eq!(lit([i16::MAX, i16::MIN], i32::MIN), 0);
    assert_eq!(lit([i16::MIN, i16::MIN], i32::MIN), 2);
}

/// A few numbers, the same in every run.
struct Draws(u64);

impl Draws {
    fn below(&mut self, limit: u64) -> u64 {
        let product = self.0.wrapping_mul(6_364_136_223_846_793_005);
        self.0 = product.wrapping_add(1_442_695_040_888_963_407);
        (self.0 >> 33) % limit
    }

    fn between(&mut self, low: i32, high: i32) -> i32 {
        low + self.below((high - low + 1) as u64) as i32
    }
}

#[test]
fn any_pair_holds_as_the_request_says() {
    let mut draws = Draws(5);
    let (mut none, mut some, mut all) = (0, 0, 0);
    for round in 0..4000 {
        let scale = match round % 6 {
            0 => 2,
            1 => 3,
            2 => 10,
            _ => draws.between(2, 1024) as u16,
        };
        let on = draws.below(u64::from(scale)) as u16;
        let length = 1 + draws.below(u64::from(scale) - 1) as u16;
        let pair = [on, (on + length) % scale];
        let c = match round % 4 {
            0 => draws.between(-61_440, 61_320),
            _ => draws.between(-1500, 1500),
        };
        let on_advance = draws.between(-999, 999);
        let off_advance = match round % 3 {
            0 => draws.between(-999, 999),
            _ => (on_advance + draws.between(-40, 40)).clamp(-999, 999),
        };
        let advances = [on_advance as i16, off_advance as i16];
        let held = held(&block(0, advances, &pair), c, scale);
        let expected = held_by_request(pair, advances, c, scale);
        assert_eq!(held, expected, "SF {scale} c {c} {advances:?} {pair:?}");
        match held.len() {
            0 => none += 1,
            length if length == usize::from(scale) => all += 1,
            _ => some += 1,
        }
    }
    assert!(none > 500 && some > 500 && all > 500, "{none} {some} {all}");
}
