//! The lettered cases of document 01, a and b as document 02 has them.

mod common;

use common::{limit_file, one_group, Card, INDEPENDENT, PULSE};
use peer::motion::{advance_shift, moved_setpoint, tach, tenths};
use peer::pair::{pair_holds, Pair};
use peer::pulse::pulse_holds;
use peer::setup::Scalars;
use peer::{Answer, Refusal};

#[test]
fn a_tach_for_codes_0_to_3() {
    let reading = |code| {
        let scalars = Scalars {
            multiplier: 2,
            divisor: 3,
            code,
        };
        // 100 rpm.
        tach(1000, scalars)
    };
    assert_eq!(
        [0, 1, 2, 3].map(reading),
        [(67, false), (7, false), (1, false), (0, false)]
    );
}

#[test]
fn b_tenths_of_one_turn_in_each_window() {
    assert_eq!(tenths(1024, 120), 5000);
    assert_eq!(tenths(1024, 504), 1190);
    assert_eq!(tenths(-1024, 120), 5000);
    assert_eq!(tenths(-1024, 504), 1190);
}

#[test]
fn c_advance_moves_the_on_setpoint() {
    assert_eq!(moved_setpoint(100, advance_shift(100, 48, 1024), 1024), 80);
    assert_eq!(
        moved_setpoint(100, advance_shift(100, -48, 1024), 1024),
        120
    );
}

#[test]
fn c_in_the_module_forward() {
    let mut card = Card::independent(&[(17, &[0, 100, 0, 100, 200])]);
    // 72 steps at 32, then 48 of one count each: c is 48 at the 120th step.
    card.stand(32, 0, 72);
    card.turn(33, 0, 46);
    assert!(!card.lit(79, 0));
    assert!(card.lit(80, 0));
    assert!(!card.lit(79, 0));
}

#[test]
fn c_in_the_module_backward() {
    let mut card = Card::independent(&[(17, &[0, 100, 0, 100, 200])]);
    card.stand(168, 0, 72);
    for raw in (122..168).rev() {
        assert!(card.lit(raw, 0));
    }
    assert!(card.lit(121, 0));
    assert!(card.lit(120, 0));
    assert!(!card.lit(119, 0));
}

#[test]
fn d_small_product_moves_nothing() {
    assert_eq!(advance_shift(1, -1, 1024), 0);
    assert_eq!(moved_setpoint(100, 0, 1024), 100);
}

#[test]
fn e_pulse_train() {
    let mut card = Card::independent(&[(17, &[PULSE, 0, 0, 100, 120, 3, 4])]);
    for raw in 0..1024 {
        let inside =
            matches!(raw, 100..=103) || matches!(raw, 108..=111) || matches!(raw, 116..=119);
        assert_eq!(card.lit(raw, 0), inside, "at {raw}");
    }
}

#[test]
fn e_pulse_as_a_leaf() {
    let lit: Vec<u16> = (0..25).filter(|&d| pulse_holds(d, 20, 3, 4)).collect();
    assert_eq!(lit, [0, 1, 2, 3, 8, 9, 10, 11, 16, 17, 18, 19]);
}

#[test]
fn f_on_count_4_fits_and_5_does_not() {
    let mut card = Card::set_up(&[common::command(INDEPENDENT)]);
    assert_eq!(
        card.limits(&[(17, &[PULSE, 0, 0, 100, 120, 4, 4])]),
        Answer::Accepted
    );
    let mut file = limit_file(&[(17, &[PULSE, 0, 0, 100, 120, 4, 5])]);
    assert_eq!(
        card.send_limits(&mut file),
        Answer::Refused(Refusal::LimitData)
    );
    assert_eq!(file[630..632], [0x0010, 17]);
}

#[test]
fn g_pair_over_zero() {
    let pair = Pair { on: 1000, off: 50 };
    assert!(pair_holds(pair, 1000, 1024));
    assert!(pair_holds(pair, 49, 1024));
    assert!(!pair_holds(pair, 50, 1024));
    assert!(!pair_holds(pair, 999, 1024));
}

#[test]
fn h_mode_4_edge_in_the_dwell() {
    let mut card = one_group(4, 0, 50, 0);
    let lit = card.lit_over(&[(1000, 0), (10, 0), (20, 1), (60, 1)]);
    assert_eq!(lit, [false, false, true, true]);
}

#[test]
fn i_mode_4_edge_before_the_dwell() {
    let mut card = one_group(4, 0, 50, 0);
    let lit = card.lit_over(&[(1000, 1), (10, 1), (20, 1), (60, 1)]);
    assert_eq!(lit, [false; 4]);
}
