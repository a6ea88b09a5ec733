//! The speed in tenths of an rpm, with its open points by letter.

mod common;

use common::{command, real_group, sample, virtual_group, Card, ALWAYS, MD1, MD2, TRESP};
use peer::motion::{detector_on, tach, tenths, Motion, Updates};
use peer::setup::{Detector, Scalars};
use peer::Module;

/// Windows of the speed in ms.
const WINDOWS: [u32; 2] = [120, 504];
/// The greatest C of a list in the longer window.
const GREATEST_C: i32 = 1_290_240;
/// Inputs that are active: the Group Input of group 1, and First Cycle.
const INPUT: u16 = 1 << 0;
const FIRST: u16 = 1 << 7;

/// The command word for a window of so many ms.
fn response(window_ms: u32) -> (usize, u16) {
    command(if window_ms == 120 { TRESP } else { 0 })
}

/// Steps in a window.
fn steps_of(window_ms: u32) -> usize {
    5 * window_ms as usize
}

/// The tenths at the end of each window, and whether output 17 is lit, where
/// the machine stands at a raw position for a window each: C is the distance
/// from the one before.
fn windows(card: &mut Card, window_ms: u32, stands: &[(u16, u16)]) -> Vec<(u32, bool)> {
    let mut ends = Vec::new();
    for &(raw, inputs) in stands {
        card.stand(raw, inputs, steps_of(window_ms) - 1);
        let answer = card.step_in(raw, inputs);
        ends.push((answer.tenths, answer.virtual_outputs & 1 != 0));
    }
    ends
}

/// An 8513 whose group 1 is virtual, in Mode 5 with dwell 100/900.
fn gluer(window_ms: u32) -> Card {
    Card::set_up(&[response(window_ms)])
        .and_groups(&[[virtual_group(5, 1), 100, 900, 0]])
        .and_limits(&[(17, &ALWAYS)])
}

#[test]
fn tenths_are_rounded_half_up_once() {
    for window_ms in WINDOWS {
        let window = 1024 * i64::from(window_ms);
        for c in (0..=GREATEST_C).step_by(7).chain(0..5000) {
            // A half belongs to the next number.
            let twice = 2 * 600_000 * i64::from(c);
            let given = i64::from(tenths(c, window_ms));
            assert!((2 * given - 1) * window <= twice && twice < (2 * given + 1) * window);
            assert_eq!(tenths(-c, window_ms), tenths(c, window_ms));
        }
    }
    // 32 counts in 120 ms are 156.25 tenths; 16 are 78.125, 64 are 312.5.
    assert_eq!([16, 32, 64].map(|c| tenths(c, 120)), [78, 156, 313]);
}

#[test]
fn r10a_only_c_0_is_0_tenths() {
    assert_eq!(
        [0, 1, 2, 3, 4, 5].map(|c| tenths(c, 120)),
        [0, 5, 10, 15, 20, 24]
    );
    assert_eq!(
        [0, 1, 2, 3, 4, 5].map(|c| tenths(c, 504)),
        [0, 1, 2, 3, 5, 6]
    );
    for window_ms in WINDOWS {
        assert!((1..=GREATEST_C).all(|c| tenths(c, window_ms) > 0));
    }
}

/// Open from the second window on. C 1 and −1 are no stops, C 0 is one.
#[test]
fn r10a_a_creep_is_no_stop() {
    for (window_ms, tenths_of_one) in [(120, 5), (504, 1)] {
        let mut card = gluer(window_ms);
        let stands = [(200, INPUT), (300, INPUT), (301, 0), (300, 0), (300, 0)];
        let ends = windows(&mut card, window_ms, &stands);
        let far = tenths(100, window_ms);
        let one = tenths_of_one;
        assert_eq!(
            ends,
            [
                (0, false),
                (far, true),
                (one, true),
                (one, true),
                (0, false)
            ]
        );
    }
}

/// One count on and one back in the same window.
#[test]
fn r10a_swinging_back_is_a_stop() {
    for window_ms in WINDOWS {
        let steps = steps_of(window_ms);
        let mut card = gluer(window_ms);
        windows(&mut card, window_ms, &[(200, INPUT), (201, INPUT)]);
        card.stand(202, 0, steps / 2);
        card.stand(201, 0, steps - steps / 2 - 1);
        assert!(card.lit(202, 0));
        // Back to 201 in the first step of the next window, on again later.
        card.stand(201, 0, steps / 2);
        card.stand(202, 0, steps - steps / 2 - 1);
        let stop = card.step_in(202, 0);
        assert_eq!((stop.tenths, stop.virtual_outputs), (0, 0));
    }
}

/// 103 counts in 120 ms are 50.3 rpm, 102 are 49.8.
#[test]
fn r10b_detectors_compare_tenths() {
    let detectors = [response(120), (4, 0), (5, 50), (6, 51), (7, 50)];
    let detected = |counts| {
        let mut card = Card::set_up(&detectors);
        windows(&mut card, 120, &[(0, 0)]);
        windows(&mut card, 120, &[(counts, 0)]);
        let answer = card.step(counts);
        (answer.tenths, answer.detectors)
    };
    assert_eq!(detected(102), (498, [true, true]));
    assert_eq!(detected(103), (503, [false, false]));
    // 104 counts are 507.8 tenths, 105 are 512.7.
    assert_eq!(detected(104), (508, [false, false]));
    assert_eq!(detected(105), (513, [false, true]));
}

#[test]
fn r10b_ends_are_ten_times_the_setpoints() {
    let on = |low, high, tenths| detector_on(Detector { low, high }, tenths);
    for end in [1, 2, 3, 50, 3000, 32766, 32767u16] {
        let at = 10 * u32::from(end);
        let around = [at - 1, at, at + 1];
        // Low up to high, and all but between high and low.
        for other in [0, 32767].into_iter().filter(|&other| other != end) {
            assert_eq!(
                around.map(|tenths| on(end, other, tenths)),
                [false, true, true]
            );
            assert_eq!(
                around.map(|tenths| on(other, end, tenths)),
                [true, true, false]
            );
        }
        // No setup is accepted with equal ends, but for 0/0.
        assert_eq!(
            around.map(|tenths| on(end, end, tenths)),
            [false, true, false]
        );
        assert_eq!(around.map(|tenths| on(0, 0, tenths)), [false; 3]);
    }
    assert!(on(0, 1, 0) && on(1, 0, 0) && !on(0, 0, 0) && !on(1, 2, 0));
}

/// In 504 ms 16 counts are 18.6 tenths, 17 are 19.8 and 18 are 20.9.
#[test]
fn r10b_ends_in_the_module() {
    let detectors = [response(504), (4, 2), (5, 9), (6, 0), (7, 2)];
    for (counts, expected) in [
        (16, (19, [false, true])),
        (17, (20, [true, true])),
        (18, (21, [true, false])),
    ] {
        let mut card = Card::set_up(&detectors);
        windows(&mut card, 504, &[(900, 0), (900 - counts, 0)]);
        let answer = card.step(900 - counts);
        assert_eq!((answer.tenths, answer.detectors), expected);
    }
}

/// Outputs that are ANDed with the detectors go with them.
#[test]
fn r10b_outputs_follow_the_detectors() {
    let mut card = Card::set_up(&[response(120), (4, 0), (5, 50), (6, 51), (7, 52)])
        .and_groups(&[[real_group(0, 2), 0, 0, 0]])
        .and_limits(&[
            (1, &[MD1, 0, 0, 0, 512, 512, 0]),
            (2, &[MD2, 0, 0, 0, 512, 512, 0]),
        ]);
    let mut lit = Vec::new();
    // 102, 103 and 105 counts: 498, 503 and 513 tenths.
    for raw in [0, 102, 205, 310] {
        windows(&mut card, 120, &[(raw, 0)]);
        lit.push(card.module.step(&sample(raw, 0, 0)).real_outputs);
        card.stand(raw, 0, 599);
    }
    assert_eq!(lit, [1, 1, 0, 2]);
}

/// The tachometer's reading at so many tenths.
fn scaled(tenths: u32, multiplier: u16, divisor: u16, code: u16) -> u16 {
    let scalars = Scalars {
        multiplier,
        divisor,
        code,
    };
    tach(tenths, scalars).0
}

#[test]
fn r10c_tach_starts_from_the_tenths() {
    // C 3 in 504 ms is 3 tenths; 0.34877 rpm times 1100 would be 384.
    let mut card = Card::set_up(&[response(504), (8, 1100)]);
    windows(&mut card, 504, &[(0, 0), (3, 0)]);
    let answer = card.step(3);
    assert_eq!(
        (answer.tenths, answer.tach, answer.tach_overflow),
        (3, 330, false)
    );
}

#[test]
fn r10c_tach_is_rounded_once() {
    // 45 tenths by 100 are 0.45; 5 rpm by 10 would be 0.5.
    assert_eq!(scaled(45, 1, 1, 1), 0);
    assert_eq!(scaled(49, 1, 1, 1), 0);
    assert_eq!(scaled(50, 1, 1, 1), 1);
    // 4 tenths times 3 are 1.2 rpm; rounded first they are none.
    assert_eq!(scaled(4, 3, 1, 0), 1);
    // 6 tenths by 2 are 0.3; 1 by 2 would be 0.5.
    assert_eq!(scaled(6, 1, 2, 0), 0);
    // 445, 4445 and 44445 tenths, where each digit could carry.
    assert_eq!([scaled(445, 1, 1, 2), scaled(4445, 1, 1, 3)], [0, 0]);
    assert_eq!(scaled(44445, 1, 1, 3), 4);
}

#[test]
fn r10d_case_a_is_of_1000_tenths() {
    assert_eq!(
        [0, 1, 2, 3].map(|code| scaled(1000, 2, 3, code)),
        [67, 7, 1, 0]
    );
}

/// Half a turn back in each step, 150,000 rpm.
#[test]
fn r10e_the_greatest_speed_is_1500000_tenths() {
    for window_ms in WINDOWS {
        let steps = steps_of(window_ms);
        let mut card = Card::set_up(&[response(window_ms), (4, 30000), (5, 1), (8, 0)]);
        let mut answers = Vec::new();
        for step in 0..2 * steps {
            answers.push(card.step((step % 2 * 512) as u16));
        }
        assert!(answers.iter().all(|answer| answer.tenths <= 1_500_000));
        let last = answers[2 * steps - 1];
        assert_eq!(
            (last.tenths, last.tach, last.detectors),
            (1_500_000, 0, [true, false])
        );
    }
    assert_eq!(tenths(GREATEST_C, 504), 1_500_000);
    assert_eq!(tenths(307_200, 120), 1_500_000);
}

#[test]
fn r10e_setpoints_stay_in_rpm() {
    // 599 counts in 120 ms are 292.5 rpm.
    let mut card = Card::set_up(&[response(120), (4, 292), (5, 293), (6, 2924), (7, 2926)]);
    card.turn(0, 0, 599);
    assert_eq!(card.step(599).detectors, [true, false]);
}

/// Before the first update the tenths are 0, and no step is a stop.
#[test]
fn r10f_before_the_first_update() {
    let mut motion = Motion::start(&Module::DEFAULT_SETUP);
    for step in 1..=2520 {
        assert_eq!(motion.reading.tenths, 0);
        let updates = motion.step(0, &Module::DEFAULT_SETUP);
        assert_eq!(
            updates,
            Updates {
                c_changed: false,
                stop: step == 2520
            }
        );
    }
    let mut card = Card::set_up(&[response(504), (4, 0), (5, 1), (6, 1), (7, 2), (8, 1100)]);
    for step in 0..2519 {
        let answer = card.step(step % 1024);
        assert_eq!(
            (answer.tenths, answer.tach, answer.detectors),
            (0, 0, [true, false])
        );
    }
}

/// What no list reaches is cut at 32 bits.
#[test]
fn r10g_sums_that_no_list_reaches() {
    // 879,609,302 × 600,000 / 122,880 is 4,294,967,294.9.
    assert_eq!(tenths(879_609_302, 120), u32::MAX);
    assert_eq!(tenths(879_609_303, 120), u32::MAX);
    assert_eq!(tenths(i32::MIN, 120), u32::MAX);
    // 2,147,483,648 is 4,161 × 516,096 + 8,192: 2,496,600,000 + 9,523.8.
    assert_eq!(tenths(i32::MIN, 504), 2_496_609_524);
}

/// C 1 in 504 ms is 1 tenth, C 1 in 120 ms is 5; either way round.
#[test]
fn mode_5_qualifies_on_tenths_that_are_not_0() {
    for (window_ms, tenths_of_one) in [(120, 5), (504, 1)] {
        for to in [501, 499] {
            let mut card = gluer(window_ms);
            let ends = windows(&mut card, window_ms, &[(500, INPUT), (to, INPUT)]);
            assert_eq!(ends, [(0, false), (tenths_of_one, true)]);
            // Not out of the dwell, nor without the input.
            let mut card = gluer(window_ms);
            let ends = windows(&mut card, window_ms, &[(500, 0), (to, 0)]);
            assert_eq!(ends[1], (tenths_of_one, false));
            let mut card = gluer(window_ms);
            let ends = windows(&mut card, window_ms, &[(50, INPUT), (51, INPUT)]);
            assert_eq!(ends[1], (tenths_of_one, false));
        }
    }
}

/// A qualifying step of 1 tenth lets First Cycle open again after a stop.
#[test]
fn a_creep_that_qualified_serves_first_cycle() {
    let mut card = gluer(504);
    let stands = [(500, INPUT), (501, INPUT), (501, 0)];
    assert_eq!(windows(&mut card, 504, &stands)[2], (0, false));
    assert!(card.lit(501, FIRST));
    // A creep does not close what First Cycle opened.
    assert_eq!(windows(&mut card, 504, &[(502, 0)]), [(1, true)]);
}
