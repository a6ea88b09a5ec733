//! Readings 30 to 40 of the open points (limit switches).

mod common;

use common::{
    command, limit_file, one_group, real_group, refused, sample, virtual_group, Card, ALWAYS,
    ENABLE, INDEPENDENT, MD1, MD2, NUDGE_OFF, PULSE, SLCINT, TIMED, TRESP,
};
use peer::motion::advance_shift;
use peer::pulse::{pulse_start, pulses_fit};
use peer::switch::Switch;
use peer::{Answer, Refusal};

/// The positions of 1024 at which a block's switch holds with a given c.
fn held(words: &[u16], c: i32) -> Vec<u16> {
    let mut block = [0; 19];
    block[..words.len()].copy_from_slice(words);
    let mut switch = Switch::decode(&block);
    switch.place(c, 1024);
    (0..1024)
        .filter(|&p| switch.holds(p, 1024, &mut 0))
        .collect()
}

/// An advance of 24.0 ms moves by c counts at SF 1024.
const BY_C: u16 = 240;

fn minus(advance: u16) -> u16 {
    advance.wrapping_neg()
}

/// Its example; the length is that of request 5 of document 02.
#[test]
fn p30_moved_pair_may_collapse_but_not_cross() {
    let block = [0, 0, BY_C, 100, 110];
    assert_eq!(held(&block, 0), (100..110).collect::<Vec<u16>>());
    assert_eq!(held(&block, 9), [100]);
    assert_eq!(held(&block, 10), []);
    assert_eq!(held(&block, 11), []);
}

#[test]
fn p30_each_setpoint_by_its_own_advance() {
    let block = [0, BY_C, minus(BY_C), 100, 110];
    assert_eq!(held(&block, 3), (97..113).collect::<Vec<u16>>());
    assert_eq!(held(&block, -3), (103..107).collect::<Vec<u16>>());
    // Over several turns: 61440 counts are 60 turns.
    assert_eq!(held(&[0, BY_C, BY_C, 100, 110], 61440), held(&block, 0));
}

#[test]
fn p30_shift_is_cut_toward_zero() {
    assert_eq!(advance_shift(100, 47, 1024), 19);
    assert_eq!(advance_shift(-100, 47, 1024), -19);
    assert_eq!(advance_shift(100, -47, 1024), -19);
    // 239 × 1024 × 1 is just below 245760.
    assert_eq!(advance_shift(239, 1, 1024), 0);
    assert_eq!(advance_shift(240, 1, 1024), 1);
    // The greatest product: 999 × 61440 × 1024 / 245760.
    assert_eq!(advance_shift(-999, 61440, 1024), -255_744);
    assert_eq!(advance_shift(240, 100, 500), 48);
}

#[test]
fn p31_0_0_is_judged_unmoved() {
    assert_eq!(held(&[0, 0, minus(100), 0, 0], 48), []);
    assert_eq!(held(&[TIMED, 0, minus(100), 0, 0, 9999], 48), []);
    assert_eq!(held(&[PULSE, 0, minus(100), 0, 0, 1, 5], 48), []);
    // A pair that moves to 0/0 is empty, one that moves to 0/1 is not.
    assert_eq!(held(&[0, 0, BY_C, 0, 5], 5), []);
    assert_eq!(held(&[0, 0, BY_C, 0, 6], 5), [0]);
}

#[test]
fn normal_switch_uses_eight_pairs() {
    let mut block = [0; 19];
    for pair in 0..8 {
        let on = 100 * pair as u16 + 5;
        block[3 + 2 * pair] = on;
        block[4 + 2 * pair] = on + 1;
    }
    assert_eq!(held(&block, 0), [5, 105, 205, 305, 405, 505, 605, 705]);
    // 0/0 in between is skipped.
    block[5] = 0;
    block[6] = 0;
    assert_eq!(held(&block, 0), [5, 205, 305, 405, 505, 605, 705]);
}

fn timed_card(duration_ms: u16) -> Card {
    Card::independent(&[(17, &[TIMED, 0, 0, 100, 200, duration_ms])])
}

fn lit_steps(card: &mut Card, raw: u16, steps: usize) -> usize {
    (0..steps).filter(|_| card.lit(raw, 0)).count()
}

#[test]
fn p32_timed_is_on_for_5_t_steps() {
    let mut card = timed_card(1);
    card.step(50);
    assert_eq!(
        card.lit_over(&[(150, 0); 6]),
        [true, true, true, true, true, false]
    );
    // It needs to leave the pair to fire again.
    assert_eq!(lit_steps(&mut card, 199, 20), 0);
    card.step(200);
    assert_eq!(lit_steps(&mut card, 100, 20), 5);
    let mut card = timed_card(9999);
    assert_eq!(lit_steps(&mut card, 100, 50_100), 49_995);
}

#[test]
fn p32_timed_ends_with_its_pair() {
    let mut card = timed_card(2);
    assert_eq!(
        card.lit_over(&[(198, 0), (199, 0), (200, 0), (199, 0)]),
        [true, true, false, true]
    );
}

#[test]
fn p33_time_runs_while_the_group_is_closed() {
    let mut card = Card::grouped(&[[virtual_group(3, 1), 0, 0, 0]])
        .and_limits(&[(17, &[TIMED, 0, 0, 100, 200, 2])]);
    // The pair begins to hold; the input comes 8 steps later.
    card.stand(150, 0, 8);
    let lit: Vec<bool> = (0..12).map(|_| card.lit(150, 1)).collect();
    assert_eq!(lit.iter().filter(|&&on| on).count(), 2);
    assert_eq!(lit[..2], [true, true]);
}

#[test]
fn p33_time_runs_under_force_and_without_the_detector() {
    let mut card = Card::independent(&[(17, &[TIMED | MD1, 0, 0, 100, 200, 1])]);
    card.stand(150, 0, 3);
    // Forced off for a step; MD1 is 0/0 and never on.
    card.module.step(&[150, 0, 0, 0, 0, 0, 0, 0, 1]);
    assert_eq!(lit_steps(&mut card, 150, 10), 0);
    let mut card = timed_card(1);
    for _ in 0..3 {
        card.module.step(&[150, 0, 0, 0, 0, 0, 0, 0, 1]);
    }
    assert_eq!(lit_steps(&mut card, 150, 10), 2);
}

#[test]
fn p34_jump_within_the_pair_does_not_restart() {
    let mut card = Card::grouped(&[[virtual_group(1, 1), 0, 0, 190]])
        .and_limits(&[(17, &[TIMED, 0, 0, 100, 200, 1])]);
    // Preset from 110 to 190 at the third step.
    let lit = card.lit_over(&[(110, 0), (110, 0), (110, 1), (110, 0), (110, 0), (110, 0)]);
    assert_eq!(lit, [true, true, true, true, true, false]);
}

#[test]
fn p34_nudge_does_not_restart() {
    let mut card = timed_card(1);
    card.stand(150, 0, 3);
    assert_eq!(card.nudge(NUDGE_OFF | 16), Answer::Accepted);
    assert_eq!(lit_steps(&mut card, 150, 10), 2);
}

#[test]
fn p35_timed_restarts() {
    let blocks: [(usize, &[u16]); 1] = [(17, &[TIMED, 0, 0, 100, 200, 1])];
    // An accepted limit cycle.
    let mut card = timed_card(1);
    card.stand(150, 0, 20);
    assert_eq!(card.limits(&blocks), Answer::Accepted);
    assert_eq!(lit_steps(&mut card, 150, 10), 5);
    // A module start: an accepted setup.
    assert_eq!(card.setup(&[command(INDEPENDENT)]), Answer::Accepted);
    assert_eq!(lit_steps(&mut card, 150, 10), 5);
    // A step answered 11.
    card.step(1024);
    card.clear_errors();
    assert_eq!(lit_steps(&mut card, 150, 10), 5);
    // A refused limit or setup cycle is none.
    assert_eq!(card.limits(&[(17, &[3])]), refused(Refusal::LimitData));
    assert_eq!(lit_steps(&mut card, 150, 10), 0);
    assert_eq!(card.setup(&[(1, 0)]), refused(Refusal::SetupData));
    assert_eq!(lit_steps(&mut card, 150, 10), 0);
}

#[test]
fn p36_pulse_train_moves_by_the_on_advance_only() {
    let unmoved = [100, 101, 102, 103, 108, 109, 110, 111, 116, 117, 118, 119];
    let train = |on_advance, off_advance| [PULSE, on_advance, off_advance, 100, 120, 3, 4];
    assert_eq!(held(&train(0, 0), 7), unmoved);
    assert_eq!(held(&train(0, BY_C), 7), unmoved);
    assert_eq!(held(&train(BY_C, 0), 7), unmoved.map(|p| p - 7));
    assert_eq!(held(&train(BY_C, 999), -7), unmoved.map(|p| p + 7));
}

#[test]
fn pulse_of_quantity_1_and_uneven_starts() {
    assert_eq!(held(&[PULSE, 0, 0, 1020, 6, 1, 3], 0), [1020, 1021, 1022]);
    // R 10, K 1, Q 4: starts 0, 3, 6, 9.
    assert_eq!(held(&[PULSE, 0, 0, 1020, 6, 4, 1], 0), [2, 5, 1020, 1023]);
    // R 11, K 2, Q 3: starts 0, 4, 9. R 12, K 2, Q 4: starts 0, 3, 6, 10.
    assert_eq!([0, 1, 2].map(|j| pulse_start(j, 11, 3, 2)), [0, 4, 9]);
    assert_eq!(
        [0, 1, 2, 3].map(|j| pulse_start(j, 12, 4, 2)),
        [0, 3, 6, 10]
    );
    assert_eq!(
        held(&[PULSE, 0, 0, 0, 12, 4, 2], 0),
        [0, 1, 3, 4, 6, 7, 10, 11]
    );
}

#[test]
fn p66_pulse_room_does_not_wrap() {
    assert!(!pulses_fit(1000, 65535, 65535));
    assert!(!pulses_fit(1000, 256, 256));
    assert!(!pulses_fit(1000, 1, 65535));
    assert!(pulses_fit(1023, 512, 1));
    assert!(!pulses_fit(1022, 512, 1));
}

#[test]
fn p38_ls_enable_of_the_outputs_kind() {
    let enabled: &[u16] = &[ENABLE, 0, 0, 0, 512, 512, 0];
    let mut card = Card::set_up(&[(11, 0xffff)])
        .and_groups(&[[real_group(0, 2), 0, 0, 0], [virtual_group(0, 2), 0, 0, 0]])
        .and_limits(&[(1, enabled), (2, &ALWAYS), (17, enabled), (18, &ALWAYS)]);
    let mut outputs = |words: [u16; 9]| {
        let answer = card.module.step(&words);
        (answer.real_outputs, answer.virtual_outputs)
    };
    assert_eq!(outputs(sample(0, 0, 0)), (2, 2));
    assert_eq!(outputs(sample(0, 0x40, 0)), (3, 2));
    assert_eq!(outputs(sample(0, 0, 0x40)), (2, 3));
    // After forces, off beating on.
    assert_eq!(outputs([0, 0, 0, 0x40, 0, 0, 0, 0, 0]), (3, 2));
    assert_eq!(outputs([0, 0x40, 0, 0x40, 0x40, 0, 0, 0, 0]), (2, 2));
}

#[test]
fn independent_mode_ignores_ls_enable() {
    let mut card = Card::set_up(&[command(INDEPENDENT), (11, 0xffff)])
        .and_limits(&[(1, &[ENABLE, 0, 0, 0, 512]), (17, &[ENABLE, 0, 0, 0, 512])]);
    let answer = card.module.step(&sample(5, 1, 0));
    assert_eq!((answer.real_outputs, answer.virtual_outputs), (1, 1));
    // The real output needs its own input, the virtual one none.
    let answer = card.module.step(&sample(5, 0xfffe, 0));
    assert_eq!((answer.real_outputs, answer.virtual_outputs), (0, 1));
}

#[test]
fn detectors_anded() {
    // MD1 on at 0 to 100 rpm, MD2 on at 200 to 300 rpm.
    let mut card = Card::set_up(&[
        command(INDEPENDENT | TRESP),
        (4, 0),
        (5, 100),
        (6, 200),
        (7, 300),
    ])
    .and_limits(&[
        (17, &[MD1, 0, 0, 0, 512, 512, 0]),
        (18, &[MD2, 0, 0, 0, 512, 512, 0]),
    ]);
    assert_eq!(card.step(0).virtual_outputs, 1);
    card.turn(1, 0, 598);
    // 599 counts: 292.5 rpm.
    assert_eq!(card.step(599).virtual_outputs, 2);
}

#[test]
fn p39_forced_on_beats_all_but_forced_off() {
    let force = |on, off| [0, 0, 0, 0, 0, on, off, on, off];
    // A closed group and unprogrammed outputs.
    let mut card = one_group(3, 0, 0, 0);
    let answer = card.module.step(&force(0xffff, 0x00f0));
    assert_eq!(
        (answer.real_outputs, answer.virtual_outputs),
        (0xff0f, 0xff0f)
    );
    // Independent Mode without the output's input.
    let mut card = Card::set_up(&[command(INDEPENDENT), (11, 0xffff)]).and_limits(&[(1, &ALWAYS)]);
    assert_eq!(card.step(0).real_outputs, 0);
    assert_eq!(card.module.step(&force(1, 0)).real_outputs, 1);
    // Missing outputs never.
    let mut card = Card::fresh(8512);
    assert_eq!(card.module.step(&force(0xffff, 0)).real_outputs, 0x00ff);
    let mut card = Card::fresh(8511);
    assert_eq!(card.module.step(&force(0xffff, 0)).real_outputs, 0);
}

#[test]
fn p40_changed_count_in_a_step_answered_11() {
    let mut card = Card::set_up(&[command(SLCINT)]);
    let force = |raw, on| [raw, 0, 0, 0, 0, 0, 0, on, 0];
    assert_eq!(card.module.step(&force(0, 7)).changed, 3);
    let fault = card.module.step(&force(2000, 0));
    assert_eq!(fault.refusal, Some(Refusal::TransducerFault));
    assert_eq!(fault.changed, 3);
    assert_eq!(card.module.step(&force(0, 1)).changed, 1);
    card.clear_errors();
    assert_eq!(card.module.step(&force(0, 3)).changed, 1);
}

#[test]
fn pulse_and_timed_read_group_position() {
    let mut card = Card::grouped(&[[virtual_group(0, 4), 0, 0, 1000]]).and_limits(&[
        (17, &[0, 0, 0, 10, 20]),
        (18, &[PULSE, 0, 0, 10, 20, 1, 10]),
        (19, &[TIMED, 0, 0, 10, 20, 9999]),
    ]);
    assert_eq!(card.step(33).virtual_outputs, 0);
    assert_eq!(card.step(34).virtual_outputs, 7);
    assert_eq!(card.step(43).virtual_outputs, 7);
    assert_eq!(card.step(44).virtual_outputs, 0);
}

#[test]
fn nudged_setpoints_are_moved_by_the_advance() {
    let mut card = Card::independent(&[(17, &[0, BY_C, 0, 500, 600])]);
    card.turn(262, 0, 120);
    // c 119, ON setpoint 501 after the nudge: acts at 382.
    assert_eq!(card.nudge(0x0100 | 16), Answer::Accepted);
    assert_eq!(card.lit_over(&[(381, 0), (382, 0)]), [false, true]);
}

#[test]
fn limit_cycle_in_mid_run_uses_the_present_c() {
    let mut card = Card::set_up(&[command(INDEPENDENT)]);
    card.turn(262, 0, 120);
    let mut file = limit_file(&[(17, &[0, BY_C, 0, 500, 600])]);
    assert_eq!(card.send_limits(&mut file), Answer::Accepted);
    assert_eq!(card.lit_over(&[(380, 0), (381, 0)]), [false, true]);
    // After a fault c is 0 again.
    card.step(1024);
    card.clear_errors();
    assert_eq!(
        card.lit_over(&[(381, 0), (499, 0), (500, 0)]),
        [false, false, true]
    );
}
