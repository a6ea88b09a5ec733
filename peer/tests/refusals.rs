//! Refusals 1 to 11, each cause that document 01 names. Refusal 12 is the
//! trace program's.

mod common;

use common::{
    command, group_file, limit_file, one_group, real_group, refused, sample, setup_file,
    virtual_group, Card, ALWAYS, CLEAR_ERRORS, INDEPENDENT, NUDGE_CLEAR, NUDGE_DOWN, NUDGE_OFF,
    NUDGE_ON, PULSE, TIMED, TRANSMIT,
};
use peer::{read_block, Answer, Block, Module, Refusal};

const SETUP_ERROR: u8 = 1;
const GROUP_ERROR: u8 = 2;
const LIMIT_ERROR: u8 = 4;
const NUDGE_NUMBER_ERROR: u8 = 8;
const NUDGE_SETPOINT_ERROR: u8 = 16;

fn setup_only(word: usize, value: u16) -> Card {
    let mut card = Card::set_up(&[]);
    assert_eq!(
        card.setup(&[(word, value)]),
        refused(Refusal::SetupData),
        "word {word} = {value}"
    );
    assert_eq!(card.module.errors(), SETUP_ERROR);
    card
}

#[test]
fn r1_m0_length() {
    for length in [0, 1, 20, 119, 121, 650] {
        let mut card = Card::fresh(8513);
        let before = card.module.clone();
        let mut file = vec![TRANSMIT | CLEAR_ERRORS; length];
        let sent = file.clone();
        assert_eq!(
            card.module.setup_cycle(&mut file),
            refused(Refusal::M0Length)
        );
        assert_eq!(
            card.module.group_cycle(&mut file),
            refused(Refusal::M0Length)
        );
        assert_eq!(file, sent);
        assert_eq!(card.module, before);
    }
}

#[test]
fn r2_m1_length() {
    for length in [0, 1, 120, 630, 649, 651] {
        let mut card = Card::fresh(8513);
        let before = card.module.clone();
        let mut file = vec![TRANSMIT | CLEAR_ERRORS; length];
        let sent = file.clone();
        assert_eq!(
            card.module.limit_cycle(&mut file),
            refused(Refusal::M1Length)
        );
        assert_eq!(file, sent);
        assert_eq!(card.module, before);
    }
}

#[test]
fn r1_and_r2_leave_a_standing_acknowledge() {
    let mut card = Card::fresh(8513);
    card.module.setup_cycle(&mut setup_file(&[]));
    card.module.limit_cycle(&mut limit_file(&[]));
    assert_eq!(card.module.acknowledges(), 0b0101);
    assert_eq!(
        card.module.setup_cycle(&mut [0; 119]),
        refused(Refusal::M0Length)
    );
    assert_eq!(
        card.module.limit_cycle(&mut [0; 120]),
        refused(Refusal::M1Length)
    );
    assert_eq!(card.module.acknowledges(), 0b0101);
}

#[test]
fn r3_unknown_module() {
    for number in [0, 1, 8510, 8514, 65535] {
        assert_eq!(Module::power_up(number), Err(Refusal::UnknownModule));
    }
    for number in [8511, 8512, 8513] {
        assert!(Module::power_up(number).is_ok());
    }
}

#[test]
fn r4_block_number() {
    let (m0, m1) = ([0; 120], [0; 650]);
    for number in [0, 7, 65535] {
        assert_eq!(read_block(&m0, &m1, Block::Group(number)), (4, &[][..]));
    }
    for number in [0, 33, 65535] {
        assert_eq!(read_block(&m0, &m1, Block::Limit(number)), (4, &[][..]));
    }
}

#[test]
fn r5_error_at_power_up_stops_every_cycle() {
    let mut card = Card::fresh(8513);
    let mut setup = setup_file(&[(0, TRANSMIT)]);
    assert_eq!(card.send_setup(&mut setup), refused(Refusal::ErrorStands));
    assert_eq!(card.groups(&[]), refused(Refusal::ErrorStands));
    assert_eq!(card.limits(&[]), refused(Refusal::ErrorStands));
    assert_eq!(card.nudge(NUDGE_ON), refused(Refusal::ErrorStands));
    assert!(card.module.message_ignored());
    assert_eq!(card.module.errors(), SETUP_ERROR);
}

#[test]
fn r5_comes_before_bad_data() {
    let mut card = Card::fresh(8513);
    let mut setup = setup_file(&[(0, TRANSMIT), (1, 1)]);
    assert_eq!(card.send_setup(&mut setup), refused(Refusal::ErrorStands));
    assert_eq!(setup[100], 0x4000);
    assert_eq!(card.groups(&[[0x9fff; 4]]), refused(Refusal::ErrorStands));
    assert_eq!(
        card.limits(&[(1, &[0xffff; 19])]),
        refused(Refusal::ErrorStands)
    );
}

#[test]
fn r5_group_cycle_in_independent_mode() {
    let mut card = Card::set_up(&[command(INDEPENDENT)]);
    let mut file = group_file(&[[real_group(0, 1), 0, 0, 0]]);
    assert_eq!(card.send_groups(&mut file), refused(Refusal::ErrorStands));
    assert_eq!(file[110..120], [0x4000, 0, 0, 0, 0, 0, 0, 0, 0, 0]);
    // MsgIgn is itself no error.
    assert_eq!(card.module.errors(), 0);
    assert!(card.module.message_ignored());
    assert_eq!(card.limits(&[]), Answer::Accepted);
    assert!(!card.module.message_ignored());
}

#[test]
fn r6_every_setup_word() {
    for (word, value) in [
        (1, 0),
        (1, 1),
        (1, 1025),
        (2, 1024),
        (3, 1024),
        (4, 32768),
        (5, 32768),
        (6, 65535),
        (7, 65535),
        (8, 1101),
        (9, 0),
        (9, 64),
        (10, 4),
        (12, 1),
        (19, 0x8000),
        (0, 0x8005),
    ] {
        setup_only(word, value);
    }
}

#[test]
fn r6_leaves_the_programming() {
    let mut card = Card::set_up(&[(1, 1000), (3, 100)]);
    assert_eq!(card.setup(&[(1, 500), (9, 0)]), refused(Refusal::SetupData));
    assert_eq!(card.step(512).machine_position.0, 600);
}

#[test]
fn r7_every_group_word() {
    for block in [
        [real_group(0, 0), 0, 0, 0],
        [real_group(0, 17), 0, 0, 0],
        [real_group(6, 1), 0, 0, 0],
        [real_group(7, 1), 0, 0, 0],
        [real_group(0, 1) | 0x0020, 0, 0, 0],
        [real_group(0, 1), 1024, 0, 0],
        [real_group(0, 1), 0, 1024, 0],
        [real_group(0, 1), 3, 3, 0],
        [real_group(0, 1), 0, 0, 1024],
    ] {
        let mut card = Card::set_up(&[]);
        assert_eq!(card.groups(&[block]), refused(Refusal::GroupData));
        assert_eq!(card.module.errors(), GROUP_ERROR);
    }
}

#[test]
fn r7_outputs_that_the_module_lacks() {
    let first = |number: u16, control: u16| {
        Card::fresh(number)
            .and_setup(&[])
            .groups(&[[control, 0, 0, 0]])
    };
    assert_eq!(first(8511, real_group(0, 1)), refused(Refusal::GroupData));
    assert_eq!(first(8512, real_group(0, 8)), Answer::Accepted);
    assert_eq!(first(8512, real_group(0, 9)), refused(Refusal::GroupData));
    assert_eq!(first(8513, real_group(0, 16)), Answer::Accepted);
    assert_eq!(first(8511, virtual_group(0, 16)), Answer::Accepted);
}

#[test]
fn r8_every_limit_cause() {
    for block in [
        &[0x0004, 0, 0, 1, 2][..],
        &[3],
        &[0x6000, 0, 0, 1, 2],
        &[0, 1000, 0, 1, 2],
        &[0, 0, 0xfc18, 1, 2],
        &[0, 0, 0, 1024, 2],
        &[0, 0, 0, 5, 5],
        &[TIMED, 0, 0, 1, 2, 0],
        &[PULSE, 0, 0, 1, 9, 0, 1],
    ] {
        let mut card = Card::set_up(&[command(INDEPENDENT)]);
        assert_eq!(card.limits(&[(1, block)]), refused(Refusal::LimitData));
        assert_eq!(card.module.errors(), LIMIT_ERROR);
    }
}

#[test]
fn r8_leaves_the_programming() {
    let mut card = Card::independent(&[(17, &ALWAYS)]);
    assert_eq!(
        card.limits(&[(18, &ALWAYS), (19, &[3])]),
        refused(Refusal::LimitData)
    );
    assert_eq!(card.step(0).virtual_outputs, 1);
}

#[test]
fn r8_unassigned_output_in_group_mode() {
    let mut card = Card::grouped(&[[virtual_group(0, 4), 0, 0, 0]]);
    assert_eq!(card.limits(&[(21, &ALWAYS)]), refused(Refusal::LimitData));
}

/// Output 1 normal, 2 pulse, 3 timed, 5 programmed with no pair.
fn nudged_card() -> Card {
    Card::independent(&[
        (1, &[0, 0, 0, 100, 200, 0, 5, 1023, 300]),
        (2, &[PULSE, 0, 0, 100, 111, 3, 3]),
        (3, &[TIMED, 0, 0, 100, 102, 1]),
        (5, &[0x8000]),
    ])
}

fn nudge_word(output: u16, pair: u16, bits: u16) -> u16 {
    bits | (pair - 1) << 5 | (output - 1)
}

#[test]
fn r9_nudge_numbers() {
    for word in [
        nudge_word(4, 1, NUDGE_ON),
        nudge_word(1, 1, 0),
        nudge_word(1, 1, NUDGE_DOWN),
        nudge_word(2, 2, NUDGE_ON),
        nudge_word(3, 8, NUDGE_OFF),
        nudge_word(1, 1, NUDGE_ON | 0x0800),
        nudge_word(1, 1, NUDGE_ON | 0x1000),
        nudge_word(1, 1, NUDGE_ON | 0x2000),
        // 9 comes before 10: pair 4 is unused as well.
        nudge_word(1, 4, 0),
    ] {
        let mut card = nudged_card();
        let switches = card.module.clone();
        assert_eq!(card.nudge(word), refused(Refusal::NudgeNumber), "{word:x}");
        assert_eq!(card.module.errors(), NUDGE_NUMBER_ERROR);
        card.clear_errors();
        assert_eq!(card.module, switches);
    }
}

#[test]
fn r9_missing_output() {
    let mut card = Card::fresh(8512)
        .and_setup(&[command(INDEPENDENT)])
        .and_limits(&[(9, &ALWAYS)]);
    assert_eq!(
        card.nudge(nudge_word(9, 2, NUDGE_ON)),
        refused(Refusal::NudgeNumber)
    );
}

#[test]
fn r10_nudge_setpoints() {
    for word in [
        // Pair unused.
        nudge_word(1, 4, NUDGE_ON),
        nudge_word(5, 1, NUDGE_ON),
        // Out of range.
        nudge_word(1, 2, NUDGE_ON | NUDGE_DOWN),
        nudge_word(1, 3, NUDGE_ON),
        nudge_word(1, 3, NUDGE_ON | NUDGE_OFF),
        // The train of 3 pulses of 3 needs 11 counts.
        nudge_word(2, 1, NUDGE_ON),
        nudge_word(2, 1, NUDGE_OFF | NUDGE_DOWN),
    ] {
        let mut card = nudged_card();
        let switches = card.module.clone();
        assert_eq!(
            card.nudge(word),
            refused(Refusal::NudgeSetpoint),
            "{word:x}"
        );
        assert_eq!(card.module.errors(), NUDGE_SETPOINT_ERROR);
        card.clear_errors();
        assert_eq!(card.module, switches);
    }
}

#[test]
fn r10_equal_pair_and_zero_pair() {
    let mut card = Card::independent(&[
        (17, &[0, 0, 0, 10, 11, 0, 1]),
        (18, &[TIMED, 0, 0, 1, 0, 5]),
    ]);
    assert_eq!(
        card.nudge(nudge_word(17, 1, NUDGE_ON)),
        refused(Refusal::NudgeSetpoint)
    );
    card.clear_errors();
    assert_eq!(
        card.nudge(nudge_word(17, 2, NUDGE_OFF | NUDGE_DOWN)),
        refused(Refusal::NudgeSetpoint)
    );
    card.clear_errors();
    assert_eq!(
        card.nudge(nudge_word(18, 1, NUDGE_ON | NUDGE_DOWN)),
        refused(Refusal::NudgeSetpoint)
    );
}

#[test]
fn nudges_that_are_accepted() {
    let mut card = Card::independent(&[(17, &[0, 0, 0, 100, 102]), (32, &ALWAYS)]);
    let lit = |card: &mut Card| -> Vec<u16> { (98..105).filter(|&p| card.lit(p, 0)).collect() };
    assert_eq!(lit(&mut card), [100, 101]);
    assert_eq!(
        card.nudge(nudge_word(17, 1, NUDGE_ON | NUDGE_DOWN)),
        Answer::Accepted
    );
    assert_eq!(lit(&mut card), [99, 100, 101]);
    assert_eq!(card.nudge(nudge_word(17, 1, NUDGE_OFF)), Answer::Accepted);
    assert_eq!(lit(&mut card), [99, 100, 101, 102]);
    assert_eq!(
        card.nudge(nudge_word(17, 1, NUDGE_ON | NUDGE_OFF)),
        Answer::Accepted
    );
    assert_eq!(lit(&mut card), [100, 101, 102, 103]);
    assert_eq!(card.nudge(nudge_word(32, 2, NUDGE_OFF)), Answer::Accepted);
}

#[test]
fn nudge_of_a_pulse_that_keeps_its_length() {
    let mut card = nudged_card();
    assert_eq!(
        card.nudge(nudge_word(2, 1, NUDGE_ON | NUDGE_OFF | NUDGE_DOWN)),
        Answer::Accepted
    );
    // Pulses of 3 at 99, 103 and 107; input 2 is active without current.
    let lit: Vec<u16> = (97..113)
        .filter(|&p| card.step(p).real_outputs & 2 != 0)
        .collect();
    assert_eq!(lit, [99, 100, 101, 103, 104, 105, 107, 108, 109]);
}

#[test]
fn r11_raw_over_1023_latches() {
    let mut card = one_group(0, 0, 0, 0);
    let good = card.step(77);
    assert_eq!(good.refusal, None);
    assert_eq!(good.virtual_outputs, 1);
    for raw in [1024, 65535] {
        let answer = card.step(raw);
        assert_eq!(answer.refusal, Some(Refusal::TransducerFault));
        assert_eq!(answer.machine_position.0, 77);
        assert_eq!(answer.virtual_outputs, 0);
        assert!(card.module.fault());
    }
    // A sound raw with the fault latched.
    assert_eq!(card.step(5).refusal, Some(Refusal::TransducerFault));
    assert_eq!(card.module.errors(), 0);
    card.clear_errors();
    assert!(!card.module.fault());
    let after = card.step(5);
    assert_eq!((after.refusal, after.machine_position.0), (None, 5));
    assert_eq!(after.virtual_outputs, 1);
}

#[test]
fn r11_before_any_good_step_reports_0() {
    let mut card = Card::set_up(&[(3, 50)]);
    assert_eq!(card.step(2000).machine_position.0, 0);
    assert_eq!(card.step(3).machine_position.0, 0);
}

#[test]
fn r11_readings_are_0() {
    // MD1 0 to 100 and MD2 not between 5 and 20000: both on at 0 rpm.
    let mut card = Card::set_up(&[(4, 0), (5, 100), (6, 20000), (7, 5)]);
    assert_eq!(card.step(0).detectors, [true, true]);
    let fault = card.step(1024);
    assert_eq!(fault.detectors, [false, false]);
    assert_eq!(
        (fault.tenths, fault.tach, fault.tach_overflow),
        (0, 0, false)
    );
}

#[test]
fn r11_forced_outputs_stay() {
    let mut card = Card::fresh(8512);
    let answer = card
        .module
        .step(&[1024, 0, 0, 0, 0, 0xffff, 0x0001, 0x8003, 0x0002]);
    assert_eq!(answer.real_outputs, 0x00fe);
    assert_eq!(answer.virtual_outputs, 0x8001);
}

#[test]
fn refused_cycles_acknowledge() {
    let mut card = Card::fresh(8513);
    card.module.setup_cycle(&mut setup_file(&[(1, 0)]));
    assert_eq!(card.module.acknowledges(), 0b0001);
    card.module.group_cycle(&mut group_file(&[]));
    assert_eq!(card.module.acknowledges(), 0b0011);
    card.module.limit_cycle(&mut limit_file(&[]));
    assert_eq!(card.module.acknowledges(), 0b0111);
    card.module.nudge_cycle(TRANSMIT);
    assert_eq!(card.module.acknowledges(), 0b1111);
    card.module.nudge_cycle(0);
    assert_eq!(card.module.acknowledges(), 0b0111);
}

#[test]
fn idle_calls_write_nothing() {
    let mut card = Card::set_up(&[]);
    let mut clear = setup_file(&[(0, CLEAR_ERRORS), (1, 0), (100, 0x1234), (101, 9)]);
    let sent = clear;
    assert_eq!(card.module.setup_cycle(&mut clear), Answer::Idle);
    assert_eq!(clear, sent);
    // With the acknowledge standing.
    card.module.setup_cycle(&mut setup_file(&[]));
    let before = card.module.clone();
    let mut again = setup_file(&[(1, 0), (100, 0x1234)]);
    let sent = again;
    assert_eq!(card.module.setup_cycle(&mut again), Answer::Idle);
    assert_eq!(again, sent);
    assert_eq!(card.module, before);
}

#[test]
fn each_kind_has_its_own_acknowledge() {
    let mut card = Card::set_up(&[]);
    card.module.setup_cycle(&mut setup_file(&[]));
    assert_eq!(
        card.module.group_cycle(&mut group_file(&[])),
        Answer::Accepted
    );
    assert_eq!(
        card.module.nudge_cycle(TRANSMIT | NUDGE_CLEAR),
        Answer::Accepted
    );
    assert_eq!(card.module.acknowledges(), 0b1011);
    assert_eq!(card.module.nudge_cycle(TRANSMIT), Answer::Idle);
    assert_eq!(card.module.nudge_cycle(0), Answer::Idle);
    assert_eq!(card.module.acknowledges(), 0b0011);
}

#[test]
fn clear_errors_in_every_kind() {
    for kind in 0..4 {
        let mut card = Card::fresh(8513);
        card.module.step(&sample(1024, 0, 0));
        assert!(card.module.fault());
        assert_eq!(card.module.errors(), SETUP_ERROR);
        let mut groups = group_file(&[]);
        groups[20] |= CLEAR_ERRORS;
        let mut limits = limit_file(&[]);
        limits[0] |= CLEAR_ERRORS;
        let answer = match kind {
            0 => card.setup(&[]),
            1 => card.send_groups(&mut groups),
            2 => card.send_limits(&mut limits),
            _ => card.nudge(NUDGE_CLEAR),
        };
        assert_eq!(answer, Answer::Accepted);
        assert!(!card.module.fault());
        assert_eq!(card.module.errors(), 0);
    }
}

#[test]
fn bit_0_of_a_nudge_clears_nothing() {
    let mut card = Card::fresh(8513);
    assert_eq!(
        card.nudge(NUDGE_ON | CLEAR_ERRORS),
        refused(Refusal::ErrorStands)
    );
    assert_eq!(card.module.errors(), SETUP_ERROR);
}

#[test]
fn nudge_clear_leaves_other_bits_unread() {
    let mut card = nudged_card();
    let before = card.module.clone();
    assert_eq!(card.nudge(NUDGE_CLEAR | 0x3fff), Answer::Accepted);
    assert_eq!(card.module, before);
}
