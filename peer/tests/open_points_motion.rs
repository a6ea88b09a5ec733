//! Readings 0 to 14 of the open points (module, sample, speed), by number,
//! 96, and R4a.

mod common;

use common::{
    command, one_group, sample, setup_file, Card, ALWAYS, CDIR, INDEPENDENT, MD1, NUDGE_CLEAR,
    SLCINT, TRANSMIT, TRESP,
};
use peer::motion::{direction_count, movement, scaled_position, tach};
use peer::setup::Scalars;
use peer::{Answer, Refusal};

/// With an ON advance of 24.0 ms the ON setpoint moves by c counts at SF
/// 1024. The pair is 500/600.
const MOVED_BY_C: [u16; 5] = [0, 240, 0, 500, 600];

#[test]
fn p0_setup_words_in_the_layout_of_01() {
    let mut card = Card::set_up(&[]);
    assert_eq!(
        card.setup(&[(8, 1100), (9, 63), (10, 3), (11, 0xffff)]),
        Answer::Accepted
    );
}

#[test]
fn p1_first_step_counts() {
    let mut card = Card::independent(&[(17, &MOVED_BY_C)]);
    // c is 119 at the 120th step, so the ON setpoint is 381.
    card.turn(262, 0, 118);
    assert!(!card.lit(380, 0));
    assert!(card.lit(381, 0));
    assert!(!card.lit(380, 0));
}

#[test]
fn p1_first_step_after_power_up_counts() {
    let mut card = Card::fresh(8513);
    card.turn(262, 0, 60);
    // A setup is a module start: 120 steps from here on.
    assert_eq!(card.setup(&[command(INDEPENDENT)]), Answer::Accepted);
    assert_eq!(card.limits(&[(17, &MOVED_BY_C)]), Answer::Accepted);
    card.turn(262, 0, 119);
    assert!(card.lit(381, 0));
}

#[test]
fn p1_first_step_in_the_dwell_with_input_opens_mode_4() {
    let mut card = one_group(4, 0, 50, 0);
    assert!(card.lit(10, 1));
}

#[test]
fn p2_step_11_reports_the_number_once_answered() {
    let mut card = Card::set_up(&[]);
    assert_eq!(card.step(300).machine_position.0, 300);
    assert_eq!(card.setup(&[(1, 1000)]), Answer::Accepted);
    assert_eq!(card.step(5000).machine_position.0, 300);
}

#[test]
fn p4_held_input_is_an_edge_after_a_fault() {
    let mut card = one_group(2, 0, 50, 500);
    // Edge at 100 presets to 500; the dwell begins 600 counts on and closes.
    let lit = card.lit_over(&[(100, 1), (624, 1), (630, 1)]);
    assert_eq!(lit, [true, false, false]);
    assert_eq!(
        card.step_in(5000, 1).refusal,
        Some(Refusal::TransducerFault)
    );
    card.clear_errors();
    assert!(card.lit(640, 1));
}

#[test]
fn p5_setup_without_clear_leaves_the_fault() {
    let mut card = Card::set_up(&[]);
    card.step(1024);
    let mut file = setup_file(&[(0, TRANSMIT)]);
    assert_eq!(card.send_setup(&mut file), Answer::Accepted);
    assert!(card.module.fault());
    assert_eq!(card.step(3).refusal, Some(Refusal::TransducerFault));
}

#[test]
fn p7_fresh_module_steps_and_lights_by_force_only() {
    let mut card = Card::fresh(8513);
    let answer = card.step(900);
    assert_eq!((answer.refusal, answer.machine_position.0), (None, 900));
    assert_eq!((answer.real_outputs, answer.virtual_outputs), (0, 0));
    let forced = card.module.step(&[900, 0, 0, 0, 0, 6, 2, 9, 1]);
    assert_eq!((forced.real_outputs, forced.virtual_outputs), (4, 8));
}

#[test]
fn p8_c_is_held_between_updates() {
    let mut card = Card::independent(&[(17, &MOVED_BY_C)]);
    card.turn(262, 0, 120);
    // Standing: c stays 119 for 119 more steps, then it is 0.
    for step in 121..240 {
        assert!(card.lit(381, 0), "step {step}");
    }
    assert!(!card.lit(381, 0));
}

#[test]
fn p8_group_and_limit_cycles_restart_no_window() {
    let mut card = Card::set_up(&[command(TRESP)]);
    card.turn(0, 0, 300);
    assert_eq!(card.groups(&[]), Answer::Accepted);
    assert_eq!(card.limits(&[]), Answer::Accepted);
    card.turn(300, 0, 299);
    // 599 counts in 120 ms: 2924.8 tenths; 292.5 is rounded up.
    let answer = card.step(599);
    assert_eq!((answer.tenths, answer.tach), (2925, 293));
}

#[test]
fn p9_updates_count_in_their_own_step() {
    // MD1 from 100 to 400 rpm; 599 counts in 120 ms are 292.5 rpm.
    let mut card = Card::set_up(&[command(TRESP | INDEPENDENT), (4, 100), (5, 400)])
        .and_limits(&[(17, &[MD1, 0, 0, 0, 512, 512, 0])]);
    card.turn(0, 0, 598);
    let before = card.step(598);
    assert_eq!((before.tenths, before.detectors[0]), (0, false));
    assert_eq!(before.virtual_outputs, 0);
    let update = card.step(599);
    assert_eq!((update.tenths, update.detectors[0]), (2925, true));
    assert_eq!(update.virtual_outputs, 1);
}

#[test]
fn p11_rounded_tach_is_compared() {
    let scaled = |tenths, multiplier, divisor, code| {
        tach(
            tenths,
            Scalars {
                multiplier,
                divisor,
                code,
            },
        )
    };
    // 369 × 888 is 327672, 1285 × 255 is 327675.
    assert_eq!(scaled(369, 888, 1, 0), (32767, false));
    assert_eq!(scaled(3690, 888, 1, 1), (32767, false));
    assert_eq!(scaled(1285, 255, 1, 0), (32767, true));
    assert_eq!(scaled(12850, 255, 1, 1), (32767, true));
    assert_eq!(scaled(327_670, 1, 1, 0), (32767, false));
    assert_eq!(scaled(327_674, 1, 1, 0), (32767, false));
    assert_eq!(scaled(327_675, 1, 1, 0), (32767, true));
    assert_eq!(scaled(1_500_000, 1100, 1, 0), (32767, true));
    assert_eq!(scaled(1_500_000, 1100, 63, 3), (2619, false));
    // 0.5 rounds up, below it down.
    assert_eq!(scaled(5, 1, 1, 0), (1, false));
    assert_eq!(scaled(10, 1, 2, 0), (1, false));
    assert_eq!(scaled(4, 1, 1, 0), (0, false));
    assert_eq!(scaled(10, 31, 63, 0), (0, false));
    assert_eq!(scaled(5000, 0, 63, 3), (0, false));
}

#[test]
fn p12_speed_has_no_ceiling() {
    let mut card = Card::fresh(8511);
    let mut answers = Vec::new();
    for step in 0..5040u32 {
        answers.push(card.step((step * 511 % 1024) as u16).tenths);
    }
    assert_eq!(answers[2518], 0);
    assert_eq!(answers[2519], 1_496_476);
    assert_eq!(answers[5038], 1_496_476);
    assert_eq!(answers[5039], 1_497_070);
}

#[test]
fn p13_detectors_before_the_first_update() {
    let mut card = Card::set_up(&[(4, 0), (5, 100), (6, 300), (7, 0)]);
    assert_eq!(card.step(0).detectors, [true, true]);
    // 0/0 never, nor a range that starts above 0.
    let mut card = Card::set_up(&[(6, 1), (7, 100)]);
    assert_eq!(card.step(0).detectors, [false, false]);
}

#[test]
fn p13_detector_limits_are_included() {
    let on =
        |low, high, tenths| peer::motion::detector_on(peer::setup::Detector { low, high }, tenths);
    assert_eq!(
        [499, 500, 600, 601].map(|tenths| on(50, 60, tenths)),
        [false, true, true, false]
    );
    assert_eq!(
        [500, 501, 599, 600].map(|tenths| on(60, 50, tenths)),
        [true, false, false, true]
    );
    assert!(!on(0, 0, 0));
    assert!(on(1, 0, 1_500_000));
}

#[test]
fn p96_half_a_turn_is_backward() {
    assert_eq!(movement(512, 0), -512);
    assert_eq!(movement(0, 512), -512);
    assert_eq!(movement(511, 0), 511);
    assert_eq!(movement(0, 1023), 1);
    assert_eq!(movement(1023, 0), -1);
}

/// The tenths that a fresh card answers at the end of its first and its second
/// window, where each step is so many counts on from the one before.
fn two_windows(by: u32) -> [u32; 2] {
    let mut card = Card::fresh(8513);
    let tenths: Vec<u32> = (0..5040)
        .map(|step| card.step((step * by % 1024) as u16).tenths)
        .collect();
    [tenths[2519], tenths[5039]]
}

#[test]
fn r4a_the_ends_of_c_come_with_the_second_window() {
    // C is −1,289,728, then −1,290,240.
    assert_eq!(two_windows(512), [1_499_405, 1_500_000]);
    // C is 1,287,209, then 1,287,720.
    assert_eq!(two_windows(511), [1_496_476, 1_497_070]);
}

#[test]
fn raw_position_in_counting_direction() {
    assert_eq!(
        [0, 1, 512, 1023].map(|raw| direction_count(raw, false)),
        [0, 1, 512, 1023]
    );
    assert_eq!(
        [0, 1, 512, 1023].map(|raw| direction_count(raw, true)),
        [0, 1023, 512, 1]
    );
    assert_eq!(
        [0, 1, 2, 1023].map(|q| scaled_position(q, 1000)),
        [0, 0, 1, 999]
    );
    assert_eq!([511, 512].map(|q| scaled_position(q, 2)), [0, 1]);
}

#[test]
fn direction_scale_and_offset() {
    let mut card = Card::set_up(&[command(CDIR), (1, 1000), (3, 999)]);
    // q is 0 at raw 0, and 1023 at raw 1: 999 + 999 − 1000.
    assert_eq!(card.step(0).machine_position.0, 999);
    assert_eq!(card.step(1).machine_position.0, 998);
    assert_eq!(card.step(1023).machine_position.0, 999);
    // q is 2: 2 × 1000 / 1024 is 1.
    assert_eq!(card.step(1022).machine_position.0, 0);
}

#[test]
fn counter_clockwise_motion_changes_the_sign_of_c() {
    let mut card = Card::set_up(&[command(CDIR | INDEPENDENT)]).and_limits(&[(17, &MOVED_BY_C)]);
    // q runs from 262 to 381.
    for q in 262..381 {
        assert!(!card.lit(1024 - q, 0));
    }
    assert!(card.lit(1024 - 381, 0));
}

#[test]
fn speed_window_of_504_ms() {
    let mut card = Card::set_up(&[(8, 7), (9, 2), (10, 0)]);
    card.turn(0, 0, 2519);
    let answer = card.step((2519 % 1024) as u16);
    // 2519 counts in 504 ms: 2928.5 tenths; 2929 × 7 / 20 is 1025.15.
    assert_eq!((answer.tenths, answer.tach), (2929, 1025));
    // Held until the next window ends.
    card.stand(471, 0, 2519);
    assert_eq!(card.step(471).tenths, 0);
}

#[test]
fn real_inputs_follow_current_active_state_and_force() {
    // Independent Mode: real output n needs input n. Active states 5555h.
    let always: Vec<(usize, &[u16])> = (1..=16).map(|output| (output, &ALWAYS[..])).collect();
    let mut card = Card::set_up(&[command(INDEPENDENT), (11, 0x5555)]).and_limits(&always);
    let lit = |card: &mut Card, words: [u16; 9]| card.module.step(&words).real_outputs;
    assert_eq!(lit(&mut card, sample(0, 0x5555, 0)), 0xffff);
    assert_eq!(lit(&mut card, sample(0, 0xaaaa, 0)), 0);
    assert_eq!(lit(&mut card, sample(0, 0x00ff, 0)), 0xaa55);
    // Forced on, and off, which beats on.
    assert_eq!(
        lit(&mut card, [0, 0xaaaa, 0, 0x00f0, 0x0030, 0, 0, 0, 0]),
        0x00c0
    );
    assert_eq!(
        lit(&mut card, [0, 0x5555, 0, 0x0000, 0x000f, 0, 0, 0, 0]),
        0xfff0
    );
}

#[test]
fn changed_outputs_need_slcint() {
    let mut card = Card::fresh(8511);
    let force = |on| [0, 0, 0, 0, 0, 0, 0, on, 0];
    assert_eq!(card.module.step(&force(7)).changed, 0);
    assert_eq!(card.setup(&[command(SLCINT)]), Answer::Accepted);
    // 7 was lit before the setup; bit 0 goes and bit 15 comes.
    assert_eq!(card.module.step(&force(0x8006)).changed, 2);
    assert_eq!(card.module.step(&force(0x8006)).changed, 0);
    assert_eq!(card.nudge(NUDGE_CLEAR), Answer::Accepted);
    assert_eq!(card.module.step(&force(0)).changed, 3);
    // Real outputs do not count.
    assert_eq!(
        card.module.step(&[0, 0, 0, 0, 0, 0xffff, 0, 0, 0]).changed,
        0
    );
}
