//! The rack bus: request 1 of document 02 and its open points by letter.

mod common;

use common::{
    command, group_file, limit_file, real_group, sample, setup_file, virtual_group, Card, ALWAYS,
    INDEPENDENT, NUDGE_CLEAR, NUDGE_ON, SLCINT, TRANSMIT, TRESP,
};
use peer::Refusal::{self, ByteOffset, ByteReadOnly, ErrorStands, SetupData};
use peer::{Answer, M0_WORDS, M1_WORDS};

/// Offsets over 17, some with a low byte that is none.
const OUTSIDE: [u16; 9] = [18, 19, 32, 255, 256, 272, 273, 0x8010, 65535];

const SU_ERR: u16 = 1 << 0;
const MSG_IGN: u16 = 1 << 5;
const TR_FLT: u16 = 1 << 7;
const MD1: u16 = 1 << 8;
const MD2: u16 = 1 << 9;
const TACH_OV: u16 = 1 << 10;
const ID_ACK: u16 = 1 << 12;
const SU_ACK: u16 = 1 << 13;
const GP_ACK: u16 = 1 << 14;
const LS_ACK: u16 = 1 << 15;

impl Card {
    fn byte(&self, offset: u16) -> u8 {
        self.module.read_byte(offset).expect("an offset up to 17")
    }

    /// A word of the input table.
    fn word(&self, number: u16) -> u16 {
        u16::from(self.byte(2 * number)) + 256 * u16::from(self.byte(2 * number + 1))
    }

    fn words(&self) -> [u16; 8] {
        [0, 1, 2, 3, 4, 5, 6, 7].map(|number| self.word(number))
    }

    fn write(&mut self, offset: u16, value: u8) {
        assert_eq!(self.module.write_byte(offset, value), Ok(()));
    }

    /// Bytes 16 and 17, and the line.
    fn interrupt(&self) -> (u8, u8, bool) {
        (self.byte(16), self.byte(17), self.module.line())
    }

    /// A step at 0 with these virtual outputs forced on; gives the count.
    fn force(&mut self, on: u16) -> u32 {
        self.module.step(&[0, 0, 0, 0, 0, 0, 0, on, 0]).changed
    }
}

/// An 8513 after an accepted setup with SLCINT.
fn interrupting() -> Card {
    Card::set_up(&[command(SLCINT)])
}

/// Such a card with a request.
fn requesting() -> Card {
    let mut card = interrupting();
    assert_eq!(card.force(1), 1);
    assert_eq!(card.byte(16), 1);
    card
}

#[test]
fn fresh_card_shows_its_setup_error_alone() {
    for number in [8511, 8512, 8513] {
        let card = Card::fresh(number);
        assert_eq!(card.words(), [SU_ERR, 0, 0, 0, 0, 0, 0, 0]);
        assert_eq!(card.interrupt(), (0, 0, false));
    }
}

#[test]
fn words_stand_low_byte_first() {
    let mut card = Card::set_up(&[]);
    card.module
        .step(&[0x2fe, !0x8765, 0, 0, 0, 0x1234, 0, 0xabcd, 0]);
    let bytes: Vec<u8> = (0..16).map(|offset| card.byte(offset)).collect();
    assert_eq!(
        bytes,
        [0, 0, 0xfe, 0x02, 0, 0, 0x34, 0x12, 0xcd, 0xab, 0x65, 0x87, 0, 0, 0, 0]
    );
}

/// One count a step is 599 counts in the first 120 ms, 292.5 rpm; three times
/// that is 877.5.
#[test]
fn readings_of_a_turning_machine() {
    let turned = |multiplier, counts: u32, steps: u32| {
        let words = [(4, 1), (5, 30000), (6, 30000), (7, 1), (8, multiplier)];
        let mut card = Card::set_up(&[&[command(TRESP)], &words[..]].concat());
        for step in 0..steps {
            card.step((step * counts % 1024) as u16);
        }
        card.words()
    };
    assert_eq!(turned(3, 1, 600)[..3], [MD1, 599, 878]);
    assert_eq!(turned(1100, 1, 600)[..3], [MD1 | TACH_OV, 599, 32767]);
    // Half a turn a step is over 30000 rpm, which the second detector has.
    assert_eq!(turned(0, 512, 600)[..3], [MD2, 512, 0]);
    // Before an update the speed is 0, which it has too.
    assert_eq!(turned(1100, 1, 599)[..3], [MD2, 598, 0]);
}

#[test]
fn each_error_has_its_bit() {
    let word_after = |mut card: Card, call: fn(&mut Card) -> Answer, refusal| {
        assert_eq!(card.word(0), 0);
        assert_eq!(call(&mut card), Answer::Refused(refusal));
        card.word(0)
    };
    let set_up = || Card::set_up(&[]);
    let setup = |card: &mut Card| card.setup(&[(1, 1)]);
    assert_eq!(word_after(set_up(), setup, SetupData), 0x0001);
    let group = |card: &mut Card| card.groups(&[[virtual_group(6, 1), 0, 0, 0]]);
    assert_eq!(word_after(set_up(), group, Refusal::GroupData), 0x0002);
    let limit = |card: &mut Card| card.limits(&[(1, &ALWAYS)]);
    assert_eq!(word_after(set_up(), limit, Refusal::LimitData), 0x0004);
    let number = |card: &mut Card| card.nudge(NUDGE_ON);
    assert_eq!(word_after(set_up(), number, Refusal::NudgeNumber), 0x0008);
    let programmed = Card::independent(&[(1, &ALWAYS)]);
    let setpoint = |card: &mut Card| card.nudge(NUDGE_ON | 7 << 5);
    let refusal = Refusal::NudgeSetpoint;
    assert_eq!(word_after(programmed, setpoint, refusal), 0x0010);
}

#[test]
fn each_acknowledge_has_its_bit() {
    let mut card = Card::set_up(&[]);
    assert_eq!(card.word(0), 0);
    card.module.nudge_cycle(TRANSMIT | NUDGE_CLEAR);
    assert_eq!(card.word(0), ID_ACK);
    card.module.nudge_cycle(0);
    card.module.setup_cycle(&mut setup_file(&[]));
    assert_eq!(card.word(0), SU_ACK);
    card.module.group_cycle(&mut group_file(&[]));
    assert_eq!(card.word(0), SU_ACK | GP_ACK);
    card.module.setup_cycle(&mut [0; M0_WORDS]);
    card.module.limit_cycle(&mut limit_file(&[]));
    assert_eq!(card.word(0), GP_ACK | LS_ACK);
    card.module.group_cycle(&mut [0; M0_WORDS]);
    assert_eq!(card.word(0), LS_ACK);
    card.module.limit_cycle(&mut [0; M1_WORDS]);
    assert_eq!(card.word(0), 0);
}

#[test]
fn r1a_message_ignored_is_the_last_acting_cycles() {
    let mut card = Card::fresh(8513);
    let refused = card.module.limit_cycle(&mut limit_file(&[]));
    assert_eq!(refused, Answer::Refused(ErrorStands));
    assert_eq!(card.byte(0), 0x21);
    card.module.limit_cycle(&mut [0; M1_WORDS]);
    assert_eq!(card.byte(0), 0x21);
    card.module.nudge_cycle(0xc000);
    assert_eq!(card.byte(0), 0x00);
}

/// None of these acts: transmit clear, acknowledge standing, wrong lengths.
#[test]
fn r1a_calls_that_do_not_act_leave_message_ignored() {
    let mut card = Card::fresh(8513);
    let mut clearing = limit_file(&[]);
    clearing[0] |= 1;
    card.module.limit_cycle(&mut limit_file(&[]));
    assert_eq!(card.module.limit_cycle(&mut clearing), Answer::Idle);
    assert_eq!(card.module.setup_cycle(&mut [0; M0_WORDS]), Answer::Idle);
    assert_eq!(card.module.nudge_cycle(NUDGE_CLEAR), Answer::Idle);
    assert_eq!(
        card.module.setup_cycle(&mut [0x8001; 119]),
        Answer::Refused(Refusal::M0Length)
    );
    assert_eq!(
        card.module.limit_cycle(&mut [0x8001; 120]),
        Answer::Refused(Refusal::M1Length)
    );
    assert_eq!(card.word(0), LS_ACK | MSG_IGN | SU_ERR);
    // Nor does a step.
    card.step(5);
    assert_eq!(card.word(0), LS_ACK | MSG_IGN | SU_ERR);
}

#[test]
fn r1a_any_other_outcome_drops_message_ignored() {
    let ignored = || {
        let mut card = Card::fresh(8513);
        assert_eq!(card.nudge(NUDGE_ON), Answer::Refused(ErrorStands));
        assert_eq!(card.byte(0), 0x21);
        card
    };
    let mut card = ignored();
    assert_eq!(card.setup(&[(1, 1)]), Answer::Refused(SetupData));
    assert_eq!(card.byte(0), 0x01);
    let mut card = ignored();
    assert_eq!(card.setup(&[]), Answer::Accepted);
    assert_eq!(card.byte(0), 0x00);
    // A group cycle in Independent Mode is refused 5 without an error.
    let mut card = Card::set_up(&[command(INDEPENDENT)]);
    assert_eq!(card.groups(&[]), Answer::Refused(ErrorStands));
    assert_eq!(card.byte(0), 0x20);
    assert_eq!(card.limits(&[]), Answer::Accepted);
    assert_eq!(card.byte(0), 0x00);
}

/// Every input and output on, both detectors on, an error, a fault, and all
/// acknowledges: bits 6 and 11, words 6 and 7 are still 0.
#[test]
fn r1b_parts_left_out_read_0() {
    let detectors = [(4, 1), (5, 0), (6, 2), (7, 1), (8, 1100)];
    let mut card = Card::set_up(&detectors);
    for _ in 0..2 {
        card.module
            .step(&[1023, 0, 0xffff, 0, 0, 0xffff, 0, 0xffff, 0]);
    }
    card.module.limit_cycle(&mut limit_file(&[(1, &ALWAYS)]));
    card.module.nudge_cycle(TRANSMIT);
    card.module.setup_cycle(&mut setup_file(&[(0, TRANSMIT)]));
    card.module.group_cycle(&mut group_file(&[]));
    let acknowledges = ID_ACK | SU_ACK | GP_ACK | LS_ACK;
    // LSErr stands, so the three cycles after it are ignored.
    let word = acknowledges | MD1 | MD2 | MSG_IGN | 1 << 2;
    assert_eq!(card.words(), [word, 1023, 0, 0xffff, 0xffff, 0xffff, 0, 0]);
    card.module.step(&[0xffff; 9]);
    assert_eq!(card.word(0), acknowledges | TR_FLT | MSG_IGN | 1 << 2);
    assert_eq!((card.word(6), card.word(7)), (0, 0));
}

#[test]
fn r1c_status_is_as_it_stands_at_the_read() {
    let mut card = Card::set_up(&[]);
    card.step(2000);
    assert_eq!(card.byte(0), 0x80);
    card.module.nudge_cycle(0xc000);
    assert_eq!(card.byte(0), 0x00);
    assert_eq!(card.word(0), ID_ACK);
    card.module.nudge_cycle(0);
    assert_eq!(card.word(0), 0);
    assert_eq!(card.setup(&[(1, 1)]), Answer::Refused(SetupData));
    assert_eq!(card.word(0), SU_ERR);
}

/// The detectors are the last step's under its own setup.
#[test]
fn r1c_detectors_are_the_last_steps() {
    let mut card = Card::set_up(&[(4, 1), (5, 0)]);
    assert_eq!(card.word(0), 0);
    card.step(0);
    assert_eq!(card.word(0), MD1);
    assert_eq!(card.setup(&[(6, 1), (7, 0)]), Answer::Accepted);
    assert_eq!(card.word(0), MD1);
    card.step(0);
    assert_eq!(card.word(0), MD2);
}

#[test]
fn r1d_inputs_of_a_step_answered_11() {
    let mut card = Card::set_up(&[(11, 0xffff)]);
    card.step(5);
    assert_eq!(card.word(5), 0);
    card.module.step(&sample(2000, 0x0002, 0));
    assert_eq!((card.byte(10), card.byte(11)), (0x02, 0x00));
    // In the latched fault each step shows its own inputs, forces included.
    card.module
        .step(&[5, 0x00f0, 0xffff, 0x8000, 0x0010, 0, 0, 0, 0]);
    assert_eq!(card.word(5), 0x80e0);
}

#[test]
fn inputs_after_active_states_and_forces() {
    let inputs = |number, states, words: [u16; 4]| {
        let mut card = Card::fresh(number).and_setup(&[(11, states)]);
        let [currents, virtual_inputs, on, off] = words;
        card.module
            .step(&[0, currents, virtual_inputs, on, off, 0, 0, 0, 0]);
        card.word(5)
    };
    assert_eq!(inputs(8513, 0xff00, [0x0ff0, 0, 0, 0]), 0x0f0f);
    assert_eq!(inputs(8513, 0xffff, [0x0ff0, 0, 0x8001, 0]), 0x8ff1);
    assert_eq!(inputs(8513, 0xffff, [0x0ff0, 0, 0x8011, 0x8010]), 0x0fe1);
    // Missing inputs are inactive, forced or not; virtual ones are not shown.
    assert_eq!(inputs(8512, 0, [0, 0xffff, 0xff00, 0]), 0x00ff);
    assert_eq!(inputs(8511, 0, [0, 0xffff, 0xffff, 0]), 0);
}

#[test]
fn r1e_no_start_clears_what_is_shown() {
    let mut card = Card::set_up(&[]);
    card.step(300);
    assert_eq!(card.setup(&[(1, 2)]), Answer::Accepted);
    assert_eq!((card.byte(2), card.byte(3)), (0x2c, 0x01));
}

#[test]
fn r1e_cycles_leave_the_last_steps_words() {
    let mut card = Card::set_up(&[(6, 1), (7, 0), (11, 0xffff)]);
    card.module
        .step(&[300, 0x5a5a, 0, 0, 0, 0x0f0f, 0, 0x3333, 0]);
    let words = [MD2, 300, 0, 0x0f0f, 0x3333, 0x5a5a, 0, 0];
    assert_eq!(card.words(), words);
    assert_eq!(card.setup(&[(1, 2), (11, 0)]), Answer::Accepted);
    assert_eq!(card.words(), words);
    assert_eq!(
        card.groups(&[[real_group(0, 1), 0, 0, 0]]),
        Answer::Accepted
    );
    assert_eq!(card.limits(&[(1, &[0, 0, 0, 0, 1])]), Answer::Accepted);
    assert_eq!(card.words(), words);
}

/// A 1 written to bit 0 of byte 16 is the only end of a request.
#[test]
fn r1f_nothing_else_drops_the_request() {
    let mut card = requesting();
    assert_eq!(card.force(1), 0);
    assert_eq!(card.byte(16), 1);
    assert_eq!(card.setup(&[command(INDEPENDENT)]), Answer::Accepted);
    assert_eq!(card.byte(16), 1);
    assert_eq!(card.setup(&[]), Answer::Accepted);
    assert_eq!(
        card.groups(&[[virtual_group(0, 1), 0, 0, 0]]),
        Answer::Accepted
    );
    assert_eq!(card.limits(&[(17, &ALWAYS)]), Answer::Accepted);
    assert_eq!(card.byte(16), 1);
    card.step(2000);
    assert_eq!(card.byte(16), 1);
    card.clear_errors();
    assert_eq!(card.byte(16), 1);
    assert_eq!(card.nudge(NUDGE_ON), Answer::Refused(Refusal::NudgeNumber));
    assert_eq!(card.byte(16), 1);
    card.write(17, 1);
    card.write(17, 0);
    card.write(16, 0);
    assert_eq!(card.byte(16), 1);
    card.write(16, 1);
    assert_eq!(card.byte(16), 0);
}

#[test]
fn r1g_only_bit_0_of_a_written_value_counts() {
    let mut card = requesting();
    card.write(17, 1);
    card.write(17, 0x02);
    assert_eq!(card.byte(17), 0);
    card.write(17, 0xff);
    assert_eq!(card.byte(17), 1);
    card.write(17, 0xfe);
    assert_eq!(card.byte(17), 0);
    card.write(16, 0xfe);
    assert_eq!(card.byte(16), 1);
    card.write(16, 0x81);
    assert_eq!(card.byte(16), 0);
}

/// An input that changes at every step is shown as it is in each.
#[test]
fn r1h_inputs_are_shown_unsettled() {
    let mut card = Card::set_up(&[(11, 0xffff)]);
    for currents in [1, 0, 1, 1, 0, 1, 0] {
        card.module.step(&sample(0, currents, 0));
        assert_eq!(card.word(5), currents);
    }
}

/// 292.5 rpm: the tachometer overflows, both detectors are on.
#[test]
fn r1i_words_after_a_step_answered_11() {
    let words = [(4, 1), (5, 30000), (6, 2), (7, 30000), (8, 1100)];
    let mut card = Card::set_up(&[&[command(TRESP)], &words[..]].concat());
    for raw in 0..600 {
        card.module.step(&[raw, 0, 0, 0, 0, 0x0003, 0, 0x0030, 0]);
    }
    let shown = [
        MD1 | MD2 | TACH_OV,
        599,
        32767,
        0x0003,
        0x0030,
        0xffff,
        0,
        0,
    ];
    assert_eq!(card.words(), shown);
    card.module
        .step(&[1024, 0xfff0, 0, 0, 0, 0x0100, 0, 0x0c00, 0x0400]);
    assert_eq!(card.words(), [TR_FLT, 599, 0, 0x0100, 0x0800, 0x000f, 0, 0]);
}

#[test]
fn r1j_a_step_answered_11_with_a_count_sets_the_request() {
    let mut card = requesting();
    card.write(16, 1);
    let answer = card.step(2000);
    assert_eq!(
        (answer.refusal, answer.changed),
        (Some(Refusal::TransducerFault), 1)
    );
    assert_eq!(card.byte(16), 1);
    // And without a count none.
    card.write(16, 1);
    assert_eq!(card.step(2000).changed, 0);
    assert_eq!(card.byte(16), 0);
}

#[test]
fn r1k_an_offset_over_17_comes_first() {
    let mut card = requesting();
    let before = card.module.clone();
    for offset in OUTSIDE {
        assert_eq!(card.module.read_byte(offset), Err(ByteOffset));
        for value in [0, 1, 0xff] {
            assert_eq!(card.module.write_byte(offset, value), Err(ByteOffset));
        }
    }
    assert_eq!(card.module, before);
    assert_eq!((ByteOffset.number(), ByteReadOnly.number()), (13, 14));
}

#[test]
fn r1k_the_table_cannot_be_written() {
    let mut card = requesting();
    let before = card.module.clone();
    for offset in 0..16 {
        for value in [0, 1, 0xff] {
            assert_eq!(card.module.write_byte(offset, value), Err(ByteReadOnly));
        }
    }
    assert_eq!(card.module, before);
}

#[test]
fn reads_change_nothing() {
    let mut card = requesting();
    card.write(17, 1);
    let before = card.module.clone();
    for offset in (0..18).chain(OUTSIDE) {
        let _ = card.module.read_byte(offset);
    }
    assert_eq!(card.module, before);
    assert_eq!(card.interrupt(), (1, 1, true));
}

#[test]
fn r1l_without_a_write_to_the_mask_the_line_is_down() {
    let mut card = requesting();
    assert_eq!(card.interrupt(), (1, 0, false));
    card.force(2);
    assert_eq!(card.interrupt(), (1, 0, false));
}

/// A 1 written before a request is neither kept for it nor in its way.
#[test]
fn r1l_a_1_without_a_request() {
    let mut card = interrupting();
    card.write(17, 1);
    card.write(16, 1);
    assert_eq!(card.interrupt(), (0, 1, false));
    card.force(1);
    assert_eq!(card.interrupt(), (1, 1, true));
    card.write(16, 1);
    card.write(16, 1);
    assert_eq!(card.interrupt(), (0, 1, false));
    card.force(3);
    assert_eq!(card.interrupt(), (1, 1, true));
}

#[test]
fn r1m_the_line_is_a_level() {
    let mut card = requesting();
    for _ in 0..2 {
        card.write(17, 1);
        assert_eq!(card.interrupt(), (1, 1, true));
        card.write(17, 0);
        assert_eq!(card.interrupt(), (1, 0, false));
    }
    card.write(16, 1);
    card.write(17, 1);
    assert_eq!(card.interrupt(), (0, 1, false));
}

#[test]
fn r1n_without_slcint_no_request_arises() {
    let mut card = Card::set_up(&[]);
    card.write(17, 1);
    assert_eq!(card.force(0xffff), 0);
    assert_eq!(card.interrupt(), (0, 1, false));
    // The step before a setup with SLCINT still counts as the previous one.
    assert_eq!(card.setup(&[command(SLCINT)]), Answer::Accepted);
    assert_eq!(card.force(0xffff), 0);
    assert_eq!(card.interrupt(), (0, 1, false));
    assert_eq!(card.force(0), 16);
    assert_eq!(card.interrupt(), (1, 1, true));
}

/// Real outputs do not count.
#[test]
fn a_changed_real_output_makes_no_request() {
    let mut card = interrupting();
    card.module.step(&[0, 0, 0, 0, 0, 0xffff, 0, 0, 0]);
    assert_eq!(card.word(3), 0xffff);
    assert_eq!(card.byte(16), 0);
}

/// The same steps with and without a line that is up.
#[test]
fn r1o_answers_are_the_same_whatever_the_line() {
    let (mut plain, mut watched) = (interrupting(), interrupting());
    for step in 0..50 {
        watched.write(17, 1);
        assert_eq!(watched.module.line(), step > 0);
        let words = [step, 0, 0, 0, 0, 0, 0, step / 3, 0];
        assert_eq!(watched.module.step(&words), plain.module.step(&words));
        watched.force(1 << 15);
        plain.force(1 << 15);
        assert_eq!((watched.module.line(), plain.module.line()), (true, false));
    }
}
