//! Readings 41 to 73 and 87 to 95 of the open points (programming).

mod common;

use common::{
    command, group_file, limit_file, one_group, real_group, refused, setup_file, virtual_group,
    Card, ALWAYS, CDIR, CLEAR_ERRORS, INDEPENDENT, NUDGE_CLEAR, NUDGE_DOWN, NUDGE_OFF, NUDGE_ON,
    PRESET, PULSE, TIMED, TRANSMIT, TRESP,
};
use peer::{read_block, Answer, Block, Refusal};

#[test]
fn p41_refused_cycle_sets_acknowledge() {
    let mut card = Card::set_up(&[]);
    let mut file = setup_file(&[(1, 0)]);
    assert_eq!(
        card.module.setup_cycle(&mut file),
        refused(Refusal::SetupData)
    );
    assert_eq!(card.module.acknowledges(), 1);
    // Sent again without transmit clear: Idle, though the words are sound.
    let mut sound = setup_file(&[]);
    assert_eq!(card.module.setup_cycle(&mut sound), Answer::Idle);
    assert_eq!(card.module.errors(), 1);
}

#[test]
fn p42_clear_errors_of_a_refused_cycle_stays() {
    let mut card = Card::fresh(8513);
    card.step(1024);
    let mut file = limit_file(&[(1, &[3])]);
    file[0] |= CLEAR_ERRORS;
    assert_eq!(card.send_limits(&mut file), refused(Refusal::LimitData));
    // SUErr and the fault are gone, LSErr is set.
    assert_eq!(card.module.errors(), 4);
    assert!(!card.module.fault());
}

#[test]
fn p42_clear_errors_in_independent_mode() {
    let mut card = Card::set_up(&[command(INDEPENDENT)]);
    card.step(1024);
    card.setup(&[(1, 0), command(INDEPENDENT)]);
    card.step(1024);
    assert!(card.module.fault());
    let mut file = group_file(&[]);
    file[20] |= CLEAR_ERRORS;
    assert_eq!(card.send_groups(&mut file), refused(Refusal::ErrorStands));
    assert_eq!(card.module.errors(), 0);
    assert!(!card.module.fault());
    assert!(card.module.message_ignored());
}

#[test]
fn p43_msgign_shows_the_last_acting_cycle() {
    let mut card = Card::fresh(8513);
    assert!(!card.module.message_ignored());
    assert_eq!(card.groups(&[]), refused(Refusal::ErrorStands));
    // The Idle call that followed is no acting cycle.
    assert!(card.module.message_ignored());
    card.step(0);
    assert!(card.module.message_ignored());
    // A refusal 6 of another kind ends it.
    assert_eq!(card.setup(&[(1, 0)]), refused(Refusal::SetupData));
    assert!(!card.module.message_ignored());
    assert_eq!(card.nudge(NUDGE_ON), refused(Refusal::ErrorStands));
    assert!(card.module.message_ignored());
    card.clear_errors();
    assert!(!card.module.message_ignored());
}

#[test]
fn p44_offset_in_force_on_refusal_5() {
    let mut card = Card::set_up(&[(1, 1000), (3, 715)]);
    card.setup(&[(1, 0)]);
    let mut file = setup_file(&[(0, TRANSMIT)]);
    assert_eq!(card.send_setup(&mut file), refused(Refusal::ErrorStands));
    assert_eq!(file[100..103], [0x4000, 0x02cb, 0]);
}

#[test]
fn p46_offset_word_is_tested_with_the_preset_bit() {
    let mut card = Card::set_up(&[]);
    let mut file = setup_file(&[command(PRESET), (1, 100), (3, 100)]);
    assert_eq!(card.send_setup(&mut file), refused(Refusal::SetupData));
    assert_eq!(file[100], 4);
    let mut file = setup_file(&[(1, 100), (2, 100)]);
    assert_eq!(card.send_setup(&mut file), refused(Refusal::SetupData));
    assert_eq!(file[100], 2);
}

#[test]
fn p47_preset_under_the_new_scale() {
    let mut card = Card::set_up(&[]);
    card.step(300);
    let mut file = setup_file(&[command(PRESET), (1, 1000), (2, 7)]);
    assert_eq!(card.send_setup(&mut file), Answer::Accepted);
    assert_eq!(file[101], 715);
}

#[test]
fn p47_preset_without_a_step() {
    let mut card = Card::fresh(8513);
    let mut file = setup_file(&[command(PRESET | CDIR), (1, 1000), (2, 7), (3, 9)]);
    assert_eq!(card.send_setup(&mut file), Answer::Accepted);
    assert_eq!(file[101], 7);
    // A step answered 11 does not count.
    card.step(1024);
    let mut file = setup_file(&[command(PRESET), (2, 8)]);
    assert_eq!(card.send_setup(&mut file), Answer::Accepted);
    assert_eq!(file[101], 8);
}

#[test]
fn p48_setup_bit_15_joins() {
    let mut card = Card::set_up(&[]);
    let mut file = setup_file(&[(1, 0), (12, 1)]);
    assert_eq!(card.send_setup(&mut file), refused(Refusal::SetupData));
    assert_eq!(file[100], 0x8001);
}

#[test]
fn p49_changed_scale_or_mode_drops_programs() {
    let kept = |changes: &[(usize, u16)]| {
        let mut card = one_group(0, 0, 0, 0);
        assert_eq!(card.setup(changes), Answer::Accepted);
        card.step(0).virtual_outputs == 1
    };
    assert!(kept(&[]));
    assert!(kept(&[command(CDIR), (3, 5), (8, 2), (11, 9)]));
    assert!(kept(&[command(TRESP)]));
    assert!(!kept(&[(1, 1023)]));
    assert!(!kept(&[command(INDEPENDENT)]));
    // Dropped for good, not hidden.
    let mut card = one_group(0, 0, 0, 0);
    card.setup(&[(1, 1023)]);
    card.setup(&[]);
    assert_eq!(card.step(0).virtual_outputs, 0);
    assert_eq!(card.limits(&[(17, &ALWAYS)]), refused(Refusal::LimitData));
    // Independent Mode's limit programs are dropped too.
    let mut card = Card::independent(&[(17, &ALWAYS)]);
    assert_eq!(card.setup(&[command(INDEPENDENT)]), Answer::Accepted);
    assert_eq!(card.step(0).virtual_outputs, 1);
    assert_eq!(card.setup(&[]), Answer::Accepted);
    assert_eq!(card.step(0).virtual_outputs, 0);
}

#[test]
fn p50_reserved_group_word_is_alone() {
    let mut card = Card::set_up(&[]);
    let mut file = group_file(&[[0; 4], [real_group(7, 0), 5, 5, 2000]]);
    file[46] = 1;
    assert_eq!(card.send_groups(&mut file), refused(Refusal::GroupData));
    assert_eq!(file[110..112], [0x8000, 0]);
}

#[test]
fn p51_unused_group_is_ignored() {
    let mut card = Card::set_up(&[]);
    assert_eq!(
        card.groups(&[[0x0020, 0, 0, 0], [0x7fff, 65535, 7, 65535]]),
        Answer::Accepted
    );
}

#[test]
fn p52_channel_is_tested_in_modes_0_and_3() {
    for mode in [0, 3] {
        let mut card = Card::set_up(&[]);
        let mut file = group_file(&[[real_group(mode, 1), 5, 5, 0]]);
        assert_eq!(card.send_groups(&mut file), refused(Refusal::GroupData));
        assert_eq!(file[110..112], [4, 1]);
    }
}

#[test]
fn p53_fcityp_outside_mode_5() {
    for number in [8511, 8512, 8513] {
        for mode in 0..5 {
            for first_cycle in [0, 0x2000] {
                let control = 0xc001 | mode << 8 | first_cycle;
                let mut card = Card::fresh(number).and_setup(&[]);
                assert_eq!(card.groups(&[[control, 0, 0, 0]]), Answer::Accepted);
            }
        }
    }
}

#[test]
fn p54_dealt_in_group_order() {
    // Virtual outputs 17–19 to group 1, 20 to group 3.
    let mut card = Card::set_up(&[])
        .and_groups(&[
            [virtual_group(3, 3), 0, 0, 0],
            [0x0005, 0, 0, 0],
            [virtual_group(3, 1), 0, 0, 0],
        ])
        .and_limits(&[(19, &ALWAYS), (20, &ALWAYS)]);
    assert_eq!(card.step_in(0, 0x1).virtual_outputs, 0x4);
    assert_eq!(card.step_in(0, 0x4).virtual_outputs, 0x8);
    assert_eq!(card.limits(&[(21, &ALWAYS)]), refused(Refusal::LimitData));
}

#[test]
fn p55_positions_under_the_steps_own_programming() {
    let mut card = Card::grouped(&[
        [virtual_group(0, 1), 0, 0, 10],
        [virtual_group(0, 1), 0, 0, 20],
    ]);
    card.step(100);
    let mut file = group_file(&[[virtual_group(0, 1), 0, 0, 500]]);
    assert_eq!(card.send_groups(&mut file), Answer::Accepted);
    assert_eq!(file[112..114], [110, 120]);
    // Kept until the next step.
    assert_eq!(card.group_positions()[..2], [110, 120]);
    card.step(100);
    assert_eq!(card.group_positions()[..2], [600, 0]);
}

#[test]
fn p56_limit_cycle_replaces_all() {
    let mut card = Card::independent(&[(17, &ALWAYS)]);
    assert_eq!(card.limits(&[(18, &ALWAYS)]), Answer::Accepted);
    assert_eq!(card.step(0).virtual_outputs, 2);
    assert_eq!(card.limits(&[]), Answer::Accepted);
    assert_eq!(card.step(0).virtual_outputs, 0);
}

#[test]
fn p57_enable_bit_alone_programs_the_output() {
    let mut card = Card::independent(&[(17, &[0x8000])]);
    assert_eq!(card.step(0).virtual_outputs, 0);
    assert_eq!(card.nudge(NUDGE_ON | 16), refused(Refusal::NudgeSetpoint));
}

fn limit_errors(block: &[u16]) -> u16 {
    let mut card = Card::set_up(&[command(INDEPENDENT)]);
    let mut file = limit_file(&[(1, block)]);
    card.send_limits(&mut file);
    file[630]
}

#[test]
fn p58_both_advances_of_every_type_are_tested() {
    for (control, words) in [
        (0, [1, 2, 0, 0]),
        (PULSE, [1, 9, 1, 1]),
        (TIMED, [1, 9, 1, 0]),
    ] {
        let block = |on, off| [&[control, on, off][..], &words[..]].concat();
        assert_eq!(limit_errors(&block(0, 0)), 0);
        assert_eq!(limit_errors(&block(1000, 0)), 4);
        assert_eq!(limit_errors(&block(0, 1000)), 4);
    }
}

#[test]
fn p59_further_words_of_0_0_are_unread() {
    assert_eq!(limit_errors(&[TIMED, 0, 0, 0, 0, 0]), 0);
    assert_eq!(limit_errors(&[TIMED, 0, 0, 0, 0, 65535]), 0);
    assert_eq!(limit_errors(&[PULSE, 0, 0, 0, 0, 0, 0]), 0);
    assert_eq!(limit_errors(&[PULSE, 0, 0, 0, 0, 65535, 65535]), 0);
    assert_eq!(limit_errors(&[TIMED, 1000, 0, 0, 0, 0]), 4);
    assert_eq!(limit_errors(&[PULSE | 4, 0, 0, 0, 0]), 2);
}

#[test]
fn p60_bit_4_with_bit_3() {
    assert_eq!(limit_errors(&[PULSE, 0, 0, 100, 100, 0, 5]), 0x18);
    assert_eq!(limit_errors(&[PULSE, 0, 0, 100, 100, 5, 0]), 0x18);
    assert_eq!(limit_errors(&[PULSE, 0, 0, 100, 100, 4, 400]), 0x08);
    assert_eq!(limit_errors(&[PULSE, 0, 0, 100, 1024, 4, 400]), 0x08);
}

#[test]
fn p61_type_3_tests_bits_1_and_2() {
    assert_eq!(limit_errors(&[3, 0, 0, 5, 5, 0, 0]), 2);
    assert_eq!(limit_errors(&[3, 0, 1000, 5, 5, 0, 0]), 6);
}

#[test]
fn p62_fifth_timed_joins_its_other_bits() {
    let timed: &[u16] = &[TIMED, 0, 0, 1, 2, 3];
    let mut card = Card::set_up(&[command(INDEPENDENT)]);
    let mut file = limit_file(&[
        (1, timed),
        (2, timed),
        (3, timed),
        (4, timed),
        (5, &[TIMED | 4, 1000, 0, 5, 5, 3]),
    ]);
    assert_eq!(card.send_limits(&mut file), refused(Refusal::LimitData));
    assert_eq!(file[630..632], [0x1e, 5]);
}

#[test]
fn p64_bit_14_is_message_ignored() {
    let mut card = Card::fresh(8513);
    let mut file = limit_file(&[]);
    assert_eq!(card.send_limits(&mut file), refused(Refusal::ErrorStands));
    assert_eq!(file[630..632], [0x4000, 0]);
}

#[test]
fn p65_reserved_limit_word_is_alone() {
    let mut card = Card::set_up(&[command(INDEPENDENT)]);
    let mut file = limit_file(&[(1, &[3, 1000])]);
    file[629] = 1;
    assert_eq!(card.send_limits(&mut file), refused(Refusal::LimitData));
    assert_eq!(file[630..632], [0x8000, 0]);
}

#[test]
fn p66_room_for_pulses_is_worked_out_whole() {
    // 256 × 256 + 255 would be 255 in 16 bits.
    assert_eq!(limit_errors(&[PULSE, 0, 0, 0, 1000, 256, 256]), 0x10);
    assert_eq!(limit_errors(&[PULSE, 0, 0, 0, 1000, 65535, 65535]), 0x10);
}

#[test]
fn p67_nudge_clear_with_reserved_bits() {
    let mut card = Card::fresh(8513);
    assert_eq!(card.groups(&[]), refused(Refusal::ErrorStands));
    assert!(card.module.message_ignored());
    assert_eq!(
        card.module
            .nudge_cycle(TRANSMIT | NUDGE_CLEAR | 0x3800 | NUDGE_ON),
        Answer::Accepted
    );
    assert_eq!(card.module.errors(), 0);
    assert!(!card.module.message_ignored());
    assert_eq!(card.module.acknowledges(), 8);
}

#[test]
fn p68_nudge_order() {
    let mut card = Card::fresh(8513);
    assert_eq!(card.nudge(NUDGE_ON), refused(Refusal::ErrorStands));
    card.clear_errors();
    assert_eq!(card.nudge(NUDGE_ON), refused(Refusal::NudgeNumber));
    assert_eq!(card.nudge(NUDGE_ON), refused(Refusal::ErrorStands));
}

#[test]
fn p69_no_wrap() {
    let blocks: [(usize, &[u16]); 2] = [(17, &[0, 0, 0, 0, 9]), (18, &[0, 0, 0, 9, 1023])];
    for word in [
        16 | NUDGE_ON | NUDGE_DOWN,
        17 | NUDGE_OFF,
        16 | NUDGE_ON | NUDGE_OFF | NUDGE_DOWN,
        17 | NUDGE_ON | NUDGE_OFF,
    ] {
        let mut card = Card::independent(&blocks);
        assert_eq!(card.nudge(word), refused(Refusal::NudgeSetpoint));
        let lit = |p: u16, card: &mut Card| card.step(p).virtual_outputs;
        assert_eq!(lit(0, &mut card), 1);
        assert_eq!(lit(8, &mut card), 1);
        assert_eq!(lit(9, &mut card), 2);
        assert_eq!(lit(1022, &mut card), 2);
        assert_eq!(lit(1023, &mut card), 0);
    }
}

#[test]
fn p69_range_is_that_of_sf() {
    let mut card =
        Card::set_up(&[command(INDEPENDENT), (1, 100)]).and_limits(&[(17, &[0, 0, 0, 5, 98])]);
    assert_eq!(card.nudge(16 | NUDGE_OFF), Answer::Accepted);
    assert_eq!(card.nudge(16 | NUDGE_OFF), refused(Refusal::NudgeSetpoint));
}

#[test]
fn p70_nudge_counts_no_timed_switches() {
    let timed: &[u16] = &[TIMED, 0, 0, 1, 9, 3];
    let mut card = Card::independent(&[(1, timed), (2, timed), (3, timed), (4, timed)]);
    for output in 0..4 {
        assert_eq!(card.nudge(output | NUDGE_ON), Answer::Accepted);
    }
}

#[test]
fn p71_nudge_is_no_start() {
    let mut card = one_group(2, 500, 510, 7);
    assert!(card.lit(400, 1));
    assert_eq!(card.nudge(16 | NUDGE_OFF), Answer::Accepted);
    // Open still, with its shift; the speed window goes on.
    assert!(card.lit(401, 0));
    assert_eq!(card.group_positions()[0], 8);
}

#[test]
fn p72_other_words_may_be_anything() {
    let mut card = Card::set_up(&[]);
    let mut file = setup_file(&[]);
    file[20..].fill(0xffff);
    assert_eq!(card.send_setup(&mut file), Answer::Accepted);
    assert!(file[20..100].iter().all(|&word| word == 0xffff));
    let mut file = group_file(&[]);
    file[..20].fill(0xffff);
    file[100..].fill(0xffff);
    assert_eq!(card.send_groups(&mut file), Answer::Accepted);
    assert!(file[100..110].iter().all(|&word| word == 0xffff));
    let mut file = limit_file(&[]);
    file[630..].fill(0xffff);
    assert_eq!(card.send_limits(&mut file), Answer::Accepted);
}

#[test]
fn p73_block_reader_judges_both_lengths() {
    let m0: Vec<u16> = (0..120).collect();
    let m1: Vec<u16> = (1000..1650).collect();
    let none: &[u16] = &[];
    assert_eq!(read_block(&m0, &m1[..649], Block::Group(1)), (2, none));
    assert_eq!(
        read_block(&m0[..119], &m1[..649], Block::Limit(1)),
        (1, none)
    );
    assert_eq!(read_block(&m0[..119], &m1, Block::Limit(99)), (1, none));
    assert_eq!(read_block(&m0, &[], Block::Group(0)), (2, none));
    assert_eq!(read_block(&m0, &m1, Block::Group(7)), (4, none));
}

#[test]
fn block_reader_gives_parts_of_the_files() {
    let m0: Vec<u16> = (0..120).collect();
    let m1: Vec<u16> = (1000..1650).collect();
    assert_eq!(
        read_block(&m0, &m1, Block::Group(1)),
        (0, &[22, 23, 24, 25][..])
    );
    let (refusal, part) = read_block(&m0, &m1, Block::Group(6));
    assert_eq!((refusal, part), (0, &[42, 43, 44, 45][..]));
    assert!(std::ptr::eq(part, &m0[42..46]));
    let (refusal, part) = read_block(&m0, &m1, Block::Limit(1));
    assert_eq!(refusal, 0);
    assert!(std::ptr::eq(part, &m1[2..21]));
    let (refusal, part) = read_block(&m0, &m1, Block::Limit(32));
    assert_eq!(refusal, 0);
    assert!(std::ptr::eq(part, &m1[591..610]));
    assert_eq!(part[0], 1591);
}

#[test]
fn p87_unnamed_status_words_and_bits_are_0() {
    let mut card = Card::set_up(&[command(INDEPENDENT)]);
    card.step(1024);
    let mut file = limit_file(&[(1, &[0, 0, 0, 5, 5])]);
    card.send_limits(&mut file);
    assert_eq!(file[630..633], [8, 1, 0]);
}

#[test]
fn p88_clear_errors_in_an_idle_call() {
    let mut card = Card::fresh(8513);
    card.module.setup_cycle(&mut setup_file(&[(0, 1)]));
    card.module.nudge_cycle(NUDGE_CLEAR);
    assert_eq!(card.module.errors(), 1);
    // With the acknowledge standing.
    card.module.nudge_cycle(TRANSMIT);
    assert_eq!(
        card.module.nudge_cycle(TRANSMIT | NUDGE_CLEAR),
        Answer::Idle
    );
    assert_eq!(card.module.errors(), 1);
}

#[test]
fn p89_clear_errors_of_a_group_cycle_drops_suerr() {
    let mut card = Card::fresh(8513);
    let mut file = group_file(&[[virtual_group(0, 1), 0, 0, 0]]);
    file[20] |= CLEAR_ERRORS;
    assert_eq!(card.send_groups(&mut file), Answer::Accepted);
    assert_eq!(card.limits(&[(17, &ALWAYS)]), Answer::Accepted);
    assert_eq!(card.step(1000).virtual_outputs, 1);
}

#[test]
fn p90_wrong_length_leaves_the_acknowledge() {
    let mut card = Card::fresh(8513);
    card.module.group_cycle(&mut group_file(&[]));
    assert_eq!(card.module.acknowledges(), 2);
    assert_eq!(
        card.module.group_cycle(&mut [0; 121]),
        refused(Refusal::M0Length)
    );
    assert_eq!(card.module.acknowledges(), 2);
}

#[test]
fn p91_same_scale_and_mode_keeps_nudges_and_restarts() {
    let mut card = Card::set_up(&[])
        .and_groups(&[[virtual_group(2, 2), 0, 0, 0]])
        .and_limits(&[(17, &[0, 0, 0, 100, 102]), (18, &ALWAYS)]);
    assert_eq!(card.nudge(16 | NUDGE_ON | NUDGE_DOWN), Answer::Accepted);
    assert_eq!(card.step_in(50, 1).virtual_outputs, 2);
    assert_eq!(card.setup(&[]), Answer::Accepted);
    // The group is closed and its shift is 0 again.
    assert_eq!(card.step_in(99, 0).virtual_outputs, 0);
    assert_eq!(card.group_positions()[0], 99);
    // Opened at position 0; 99 counts on the nudged pair holds.
    card.step_in(100, 1);
    assert_eq!(card.step_in(198, 0).virtual_outputs, 2);
    assert_eq!(card.step_in(199, 0).virtual_outputs, 3);
}

#[test]
fn p94_nudge_is_judged_after_both_have_moved() {
    let mut card = Card::independent(&[(17, &[0, 0, 0, 10, 11])]);
    assert_eq!(card.nudge(16 | NUDGE_ON | NUDGE_OFF), Answer::Accepted);
    let lit: Vec<u16> = (9..14).filter(|&p| card.lit(p, 0)).collect();
    assert_eq!(lit, [11]);
}

#[test]
fn p95_missing_output_of_a_nudge() {
    let mut card = Card::fresh(8511).and_setup(&[command(INDEPENDENT)]);
    assert_eq!(card.nudge(NUDGE_ON), refused(Refusal::NudgeNumber));
}

#[test]
fn accepted_group_cycle_drops_limit_programs() {
    let mut card = one_group(0, 0, 0, 0);
    assert_eq!(card.step(0).virtual_outputs, 1);
    assert_eq!(
        card.groups(&[[virtual_group(0, 4), 0, 0, 0]]),
        Answer::Accepted
    );
    assert_eq!(card.step(0).virtual_outputs, 0);
    assert_eq!(card.nudge(16 | NUDGE_ON), refused(Refusal::NudgeNumber));
}
