//! The number of pair tests in a step's answer: request 6 of document 02 with
//! its readings R6a to R6g.

mod common;

use common::{
    command, limit_file, real_group, sample, setup_file, virtual_group, Card, ALWAYS, ENABLE,
    INDEPENDENT, MD1, MD2, NUDGE_OFF, PULSE, TIMED,
};
use peer::switch::Switch;
use peer::{Answer, Refusal, StepAnswer};

/// Used pairs in places 2, 4, 6 and 7: 305 is in the third of them, 50 in
/// none.
const SPREAD: [u16; 19] = [
    0, 0, 0, 0, 0, 100, 110, 0, 0, 200, 210, 0, 0, 300, 310, 400, 410, 0, 0,
];
/// Pairs from 100, 200 and so on to 800, ten counts each.
const EIGHT: [u16; 19] = [
    0, 0, 0, 100, 110, 200, 210, 300, 310, 400, 410, 500, 510, 600, 610, 700, 710, 800, 810,
];
/// An advance of 24.0 ms shifts by c counts at SF 1024.
const BY_C: u16 = 240;

fn spread_with(control: u16) -> [u16; 19] {
    let mut block = SPREAD;
    block[0] = control;
    block
}

/// An 8513 in Independent Mode whose output 17 alone is programmed.
fn alone(block: &[u16]) -> Card {
    Card::independent(&[(17, block)])
}

/// The tests of a step of such a card, at a position.
fn tests_at(block: &[u16], position: u16) -> u16 {
    alone(block).step(position).tests
}

/// A sample with forces on and off of all real and of all virtual outputs.
fn forced(raw: u16, [on, off]: [u16; 2]) -> [u16; 9] {
    [raw, 0, 0, 0, 0, on, off, on, off]
}

fn lit_and_tests(answer: StepAnswer) -> ([u16; 2], u16) {
    ([answer.real_outputs, answer.virtual_outputs], answer.tests)
}

#[test]
fn used_pairs_are_tested_up_to_the_first_that_holds() {
    let tests = |position| tests_at(&SPREAD, position);
    assert_eq!([105, 205, 305, 405].map(tests), [1, 2, 3, 4]);
    assert_eq!([50, 110, 299, 310, 1023].map(tests), [4; 5]);
}

#[test]
fn pairs_are_tested_in_block_order() {
    let tests = |position| tests_at(&EIGHT, position);
    let within = [105, 205, 305, 405, 505, 605, 705, 805];
    assert_eq!(within.map(tests), [1, 2, 3, 4, 5, 6, 7, 8]);
    assert_eq!(tests(50), 8);
    let falling = [
        0, 0, 0, 800, 810, 700, 710, 600, 610, 500, 510, 400, 410, 300, 310, 200, 210, 100, 110,
    ];
    let tests = |position| tests_at(&falling, position);
    assert_eq!(within.map(tests), [8, 7, 6, 5, 4, 3, 2, 1]);
    // Two pairs hold: the first of them ends the count.
    let overlapping = [0, 0, 0, 700, 710, 100, 300, 200, 400];
    assert_eq!(tests_at(&overlapping, 250), 2);
    assert_eq!(tests_at(&overlapping, 350), 3);
}

#[test]
fn unused_pairs_are_not_tested_wherever_they_stand() {
    for used in 0..256u16 {
        // The OFF advance alone programs an output without a used pair.
        let mut block = [0; 19];
        block[2] = 1;
        for place in (0..8).filter(|place| used >> place & 1 != 0) {
            block[3 + 2 * place..5 + 2 * place].copy_from_slice(&EIGHT[3 + 2 * place..][..2]);
        }
        let mut card = alone(&block);
        let all = used.count_ones() as u16;
        assert_eq!(card.step(50).tests, all, "{used:08b}");
        for place in 0..8 {
            let up_to_it = (used & ((2 << place) - 1)).count_ones() as u16;
            let expected = if used >> place & 1 != 0 {
                up_to_it
            } else {
                all
            };
            let position = 105 + 100 * place;
            assert_eq!(card.step(position).tests, expected, "{used:08b} {position}");
        }
    }
}

/// Setpoints of 0 beside another one are used; 0/0 is not.
#[test]
fn a_pair_with_one_setpoint_at_0_is_used() {
    assert_eq!(tests_at(&[0, 0, 0, 0, 5, 700, 0], 600), 2);
    assert_eq!(tests_at(&[0, 0, 0, 0, 0, 700, 0], 600), 1);
}

/// Steps of one count from 0 on: c is 119 from the 120th on, 120 from the
/// 240th. The tests of the step at `position` of the second turn.
fn tests_at_speed(block: &[u16], position: u16) -> u16 {
    let mut card = alone(block);
    card.turn(0, 0, 1024);
    card.turn(0, 0, position);
    card.step(position).tests
}

#[test]
fn r6a_a_pair_holds_where_it_acts() {
    // Both setpoints 120 counts earlier: 1004 to 1013, and 680 to 684.
    let moved = [0, BY_C, BY_C, 100, 110, 800, 805];
    assert_eq!(tests_at_speed(&moved, 1005), 1);
    assert_eq!(tests_at_speed(&moved, 105), 2);
    assert_eq!(tests_at(&moved, 1005), 2);
    assert_eq!(tests_at(&moved, 105), 1);
    // ON shift 60: 80 counts, 40 to 119, instead of 100 to 119.
    let longer = [0, BY_C / 2, 0, 100, 120, 900, 901];
    assert_eq!(tests_at_speed(&longer, 40), 1);
    assert_eq!(tests_at_speed(&longer, 39), 2);
    assert_eq!(tests_at(&longer, 40), 2);
}

#[test]
fn r6a_a_pair_that_never_holds_is_tested() {
    // OFF shift 120: the first pair has 10 − 120 counts, the second 200 − 120,
    // the third 5 − 120.
    let block = [0, 0, BY_C, 100, 110, 500, 700, 800, 805];
    assert_eq!(tests_at_speed(&block, 105), 3);
    assert_eq!(tests_at_speed(&block, 579), 2);
    assert_eq!(tests_at_speed(&block, 580), 3);
    assert_eq!(tests_at(&block, 105), 1);
    let timed = [TIMED, 0, BY_C, 100, 110, 1];
    assert_eq!(tests_at_speed(&timed, 105), 1);
}

#[test]
fn r6f_a_pair_that_always_holds_ends_the_count() {
    // ON shift 120: 1014 + 120 counts are more than a turn.
    let first = [0, BY_C, 0, 100, 90, 500, 510, 600, 610];
    assert_eq!(tests_at_speed(&first, 95), 1);
    assert_eq!(tests_at_speed(&first, 505), 1);
    assert_eq!(tests_at(&first, 95), 3);
    // 500/510 has 130 counts from 380 on.
    let second = [0, BY_C, 0, 500, 510, 100, 90, 600, 610];
    assert_eq!(tests_at_speed(&second, 95), 2);
    assert_eq!(tests_at_speed(&second, 380), 1);
    assert_eq!(tests_at_speed(&second, 510), 2);
}

#[test]
fn r6b_a_normal_output_without_a_used_pair_has_none() {
    for block in [[ENABLE, 0, 0], [MD1, 0, 0], [0, 1, 0], [0, 0, 999]] {
        for position in [0, 1, 512] {
            assert_eq!(tests_at(&block, position), 0);
        }
    }
}

#[test]
fn r6b_a_timed_or_pulse_output_at_0_0_has_none() {
    for kind in [PULSE, TIMED] {
        // The words after the pair are not read.
        for word in [0, 7, 65535] {
            let block = [kind, 1, 2, 0, 0, word, word, word, word];
            assert_eq!(tests_at(&block, 0), 0);
            assert_eq!(tests_at(&block, 600), 0);
        }
    }
}

#[test]
fn a_timed_output_has_one_test_whether_it_holds_or_not() {
    // 1 ms: lit in five steps of the pair.
    let mut card = alone(&[TIMED, 0, 0, 100, 200, 1, 700, 800]);
    let answers = [99, 100, 101, 102, 103, 104, 105, 199, 200].map(|raw| card.step(raw));
    assert!(answers.iter().all(|answer| answer.tests == 1));
    let lit = answers.map(|answer| answer.virtual_outputs);
    assert_eq!(lit, [0, 1, 1, 1, 1, 1, 0, 0, 0]);
}

#[test]
fn a_pulse_output_has_one_test_whether_it_holds_or_not() {
    // Document 01's case e: 100 to 103, 108 to 111, 116 to 119.
    let mut card = alone(&[PULSE, 0, 0, 100, 120, 3, 4, 700, 800]);
    let answers = [99, 100, 104, 108, 119, 120, 750].map(|raw| card.step(raw));
    assert!(answers.iter().all(|answer| answer.tests == 1));
    let lit = answers.map(|answer| answer.virtual_outputs);
    assert_eq!(lit, [0, 1, 0, 1, 1, 0, 0]);
}

#[test]
fn r6c_forced_outputs_are_tested() {
    for output in [1, 17] {
        let mut card = Card::independent(&[(output, &SPREAD)]);
        let mut tests = |raw, forces| card.module.step(&forced(raw, forces)).tests;
        for forces in [[0xffff, 0], [0, 0xffff], [0xffff, 0xffff]] {
            assert_eq!(tests(305, forces), 3);
            assert_eq!(tests(50, forces), 4);
        }
    }
    let mut card = alone(&SPREAD);
    let off = card.module.step(&forced(305, [0, 1]));
    assert_eq!(lit_and_tests(off), ([0, 0], 3));
    let on = card.module.step(&forced(50, [1, 0]));
    assert_eq!(lit_and_tests(on), ([1, 1], 4));
}

/// Output 17 of a virtual group, beside a timed and a pulse output.
fn in_group(mode: u16) -> Card {
    Card::grouped(&[[virtual_group(mode, 3), 900, 950, 0]]).and_limits(&[
        (17, &SPREAD),
        (18, &[TIMED, 0, 0, 300, 310, 1]),
        (19, &[PULSE, 0, 0, 600, 610, 1, 1]),
    ])
}

/// Without an input Modes 2 to 5 are closed.
#[test]
fn r6c_outputs_of_closed_groups_are_tested() {
    for mode in 0..6 {
        let mut card = in_group(mode);
        let lit = if mode < 2 { 3 } else { 0 };
        assert_eq!(lit_and_tests(card.step(305)), ([0, lit], 3 + 1 + 1));
        assert_eq!(lit_and_tests(card.step(50)), ([0, 0], 4 + 1 + 1));
    }
    // Mode 3, open with its input: no other count.
    let mut card = in_group(3);
    assert_eq!(lit_and_tests(card.step_in(305, 1)), ([0, 3], 5));
}

#[test]
fn r6c_outputs_blocked_by_ls_enable_are_tested() {
    let block = spread_with(ENABLE);
    let groups = [[real_group(0, 1), 0, 0, 0], [virtual_group(0, 1), 0, 0, 0]];
    let mut card = Card::grouped(&groups).and_limits(&[(1, &block), (17, &block)]);
    // Active states are 0, so that a current makes real input 7 inactive.
    for (currents, virtual_inputs, lit) in [
        (1 << 6, 0, [0, 0]),
        (0, 0, [1, 0]),
        (1 << 6, 1 << 6, [0, 1]),
        (0, 1 << 6, [1, 1]),
    ] {
        let answer = card.module.step(&sample(305, currents, virtual_inputs));
        assert_eq!(lit_and_tests(answer), (lit, 3 + 3));
    }
}

#[test]
fn r6c_outputs_blocked_by_a_detector_are_tested() {
    // At 0 rpm MD1 is on from 0 to 1, MD2 from 1 to 2 is off.
    let detectors = [command(INDEPENDENT), (5, 1), (6, 1), (7, 2)];
    for (control, lit) in [(MD1, 1), (MD2, 0), (MD1 | ENABLE, 1), (MD2 | ENABLE, 0)] {
        let mut card = Card::set_up(&detectors).and_limits(&[(17, &spread_with(control))]);
        assert_eq!(lit_and_tests(card.step(305)), ([0, lit], 3));
    }
    // Both detectors the other way round.
    let detectors = [command(INDEPENDENT), (4, 1), (5, 2), (7, 1)];
    for (control, lit) in [(MD1, 0), (MD2, 1)] {
        let mut card = Card::set_up(&detectors).and_limits(&[(17, &spread_with(control))]);
        assert_eq!(lit_and_tests(card.step(305)), ([0, lit], 3));
    }
}

#[test]
fn r6c_outputs_blocked_by_their_own_input_are_tested() {
    let mut card = Card::independent(&[(1, &SPREAD), (2, &SPREAD)]);
    for (currents, lit) in [(0, 3), (1, 2), (2, 1), (3, 0)] {
        let answer = card.module.step(&sample(305, currents, 0));
        assert_eq!(lit_and_tests(answer), ([lit, 0], 3 + 3));
    }
}

/// Every block has eight used pairs.
fn full_file() -> [u16; 650] {
    let blocks: Vec<(usize, &[u16])> = (1..=32).map(|output| (output, &EIGHT[..])).collect();
    limit_file(&blocks)
}

/// A card in Independent Mode with that file.
fn full_card(number: u16) -> Card {
    let mut card = Card::fresh(number).and_setup(&[command(INDEPENDENT)]);
    assert_eq!(card.send_limits(&mut full_file()), Answer::Accepted);
    card
}

#[test]
fn r6d_a_full_card_reaches_256() {
    let mut card = full_card(8513);
    assert_eq!(lit_and_tests(card.step(50)), ([0, 0], 256));
    assert_eq!(lit_and_tests(card.step(805)), ([0xffff, 0xffff], 256));
    assert_eq!(lit_and_tests(card.step(105)), ([0xffff, 0xffff], 32));
    assert_eq!(lit_and_tests(card.step(405)), ([0xffff, 0xffff], 128));
}

#[test]
fn r6d_closed_groups_reach_256() {
    let groups = [
        [real_group(0, 16), 0, 0, 0],
        [virtual_group(3, 16), 0, 0, 0],
    ];
    let mut card = Card::grouped(&groups);
    assert_eq!(card.send_limits(&mut full_file()), Answer::Accepted);
    assert_eq!(lit_and_tests(card.step(50)), ([0, 0], 256));
    assert_eq!(lit_and_tests(card.step(805)), ([0xffff, 0], 256));
    assert_eq!(lit_and_tests(card.step(205)), ([0xffff, 0], 64));
}

#[test]
fn missing_outputs_are_not_tested() {
    for (number, outputs) in [(8511, 16), (8512, 24), (8513, 32)] {
        let mut card = full_card(number);
        assert_eq!(card.step(50).tests, 8 * outputs);
        assert_eq!(card.step(305).tests, 3 * outputs);
        let forced_on = card.module.step(&forced(50, [0xffff, 0]));
        assert_eq!(forced_on.tests, 8 * outputs);
    }
}

#[test]
fn unprogrammed_outputs_are_not_tested() {
    let mut card = Card::fresh(8513);
    assert_eq!(card.step(305).tests, 0);
    assert_eq!(card.module.step(&forced(305, [0xffff, 0])).tests, 0);
    // A limit cycle that leaves output 17 out, then a refused one.
    let mut card = Card::independent(&[(17, &SPREAD), (18, &SPREAD)]);
    assert_eq!(card.step(305).tests, 6);
    card = card.and_limits(&[(18, &SPREAD)]);
    assert_eq!(card.step(305).tests, 3);
    let refused = Answer::Refused(Refusal::LimitData);
    assert_eq!(card.limits(&[(18, &[3])]), refused);
    assert_eq!(card.step(305).tests, 3);
    // Group Mode drops the limit programs; so does a group cycle.
    card.clear_errors();
    card = card.and_setup(&[]);
    assert_eq!(card.step(305).tests, 0);
    let group = [virtual_group(0, 1), 0, 0, 0];
    card = card.and_groups(&[group]).and_limits(&[(17, &SPREAD)]);
    assert_eq!(card.step(305).tests, 3);
    card = card.and_groups(&[group]);
    assert_eq!(card.step(305).tests, 0);
}

#[test]
fn a_step_answered_11_has_none() {
    let mut card = full_card(8513);
    assert_eq!(card.step(50).tests, 256);
    // The fault is latched at a sound raw position too.
    for raw in [1024, 65535, 50, 105] {
        let answer = card.module.step(&forced(raw, [0xffff, 0]));
        assert_eq!(answer.refusal, Some(Refusal::TransducerFault));
        assert_eq!(lit_and_tests(answer), ([0xffff, 0xffff], 0));
    }
    card.clear_errors();
    assert_eq!(card.step(50).tests, 256);
}

/// Outputs 17 to 22: 4 or fewer tests, 8 or fewer, none, none, 1, 1.
#[test]
fn the_tests_of_all_outputs_are_one_sum() {
    let blocks: [(usize, &[u16]); 6] = [
        (17, &SPREAD),
        (18, &EIGHT),
        (19, &[ENABLE]),
        (20, &[TIMED]),
        (21, &[TIMED, 0, 0, 1, 2, 1]),
        (22, &[PULSE, 0, 0, 1, 2, 1, 1]),
    ];
    let mut card = Card::independent(&blocks);
    assert_eq!(card.step(305).tests, 3 + 3 + 2);
    assert_eq!(card.step(705).tests, 4 + 7 + 2);
    // Two groups of three, the second of them 200 counts on: its switches see
    // 505 and 905.
    let groups = [
        [virtual_group(0, 1), 0, 0, 0],
        [virtual_group(4, 5), 0, 0, 200],
    ];
    let mut card = Card::grouped(&groups).and_limits(&blocks);
    assert_eq!(card.step(305).tests, 3 + 5 + 2);
    assert_eq!(card.step(705).tests, 4 + 8 + 2);
}

#[test]
fn nudged_pairs_are_tested_where_they_then_stand() {
    // Places are counted from 0 in the nudge word, and so are outputs.
    let nudge = |place: u16| NUDGE_OFF | place << 5 | 16;
    let mut card = alone(&SPREAD);
    assert_eq!(card.step(210).tests, 4);
    assert_eq!(card.nudge(nudge(3)), Answer::Accepted);
    assert_eq!(card.step(210).tests, 2);
    // An unused pair stays so.
    let refused = Answer::Refused(Refusal::NudgeSetpoint);
    assert_eq!(card.nudge(nudge(0)), refused);
    assert_eq!(card.step(210).tests, 2);
    assert_eq!(card.step(50).tests, 4);
}

#[test]
fn r6e_the_lines_of_camrun_have_no_count() {
    let setup = setup_file(&[command(INDEPENDENT)]);
    let limits = limit_file(&[(17, &ALWAYS)]);
    let trace = [
        &[1, 8513, 20][..],
        &setup[..20],
        &[0, 630],
        &limits[..630],
        &[1, 5, 0, 0, 0, 0, 0, 0, 0, 0],
    ];
    let bytes: Vec<u8> = trace
        .concat()
        .iter()
        .flat_map(|word| word.to_le_bytes())
        .collect();
    let mut output = Vec::new();
    peer::camrun::run(&bytes[..], &mut output).expect("writing to memory");
    assert_eq!(output, b"1 5 0 0000 0001\n");
}

/// The evaluation of a switch adds its tests to those of the others.
#[test]
fn r6g_a_switch_counts_as_it_tests() {
    let mut switch = Switch::decode(&SPREAD);
    switch.place(0, 1024);
    let mut tests = 0;
    assert!(switch.holds(305, 1024, &mut tests));
    assert_eq!(tests, 3);
    assert!(!switch.holds(50, 1024, &mut tests));
    assert_eq!(tests, 3 + 4);
    assert!(switch.holds(105, 1024, &mut tests));
    assert_eq!(tests, 3 + 4 + 1);
}
