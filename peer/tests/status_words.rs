//! Status words 100 to 119 of M0 and 630 to 649 of M1.

mod common;

use common::{
    command, group_file, limit_file, one_group, real_group, refused, setup_file, virtual_group,
    Card, ALWAYS, CDIR, ENABLE, INDEPENDENT, MD1, MD2, PRESET, PULSE, TIMED, TRANSMIT,
};
use peer::{Answer, Refusal};

/// Word 100 of a setup with some words changed.
fn word_100(changes: &[(usize, u16)]) -> u16 {
    let mut card = Card::set_up(&[]);
    let mut file = setup_file(changes);
    let answer = card.send_setup(&mut file);
    assert_eq!(answer == Answer::Accepted, file[100] == 0);
    assert_eq!(file[102..110], [0; 8]);
    file[100]
}

#[test]
fn word_100_scale_factor() {
    assert_eq!(word_100(&[(1, 0)]), 0x0001);
    assert_eq!(word_100(&[(1, 1)]), 0x0001);
    assert_eq!(word_100(&[(1, 1025)]), 0x0001);
    assert_eq!(word_100(&[(1, 2)]), 0);
    assert_eq!(word_100(&[(1, 1024)]), 0);
}

#[test]
fn word_100_preset_value() {
    assert_eq!(word_100(&[(1, 100), (2, 100)]), 0x0002);
    assert_eq!(word_100(&[(1, 100), (2, 99)]), 0);
}

#[test]
fn word_100_offset() {
    assert_eq!(word_100(&[(1, 100), (3, 100)]), 0x0004);
    assert_eq!(word_100(&[(1, 100), (3, 99)]), 0);
}

#[test]
fn word_100_bad_scale_judges_against_1024() {
    assert_eq!(word_100(&[(1, 0), (2, 1023), (3, 1023)]), 0x0001);
    assert_eq!(word_100(&[(1, 0), (2, 1024), (3, 1024)]), 0x0007);
    assert_eq!(word_100(&[(1, 2000), (2, 1500), (3, 0)]), 0x0003);
}

#[test]
fn word_100_detectors() {
    assert_eq!(word_100(&[(4, 32768)]), 0x0008);
    assert_eq!(word_100(&[(5, 32768)]), 0x0008);
    assert_eq!(word_100(&[(4, 7), (5, 7)]), 0x0008);
    assert_eq!(word_100(&[(4, 32767), (5, 1)]), 0);
    assert_eq!(word_100(&[(6, 65535)]), 0x0010);
    assert_eq!(word_100(&[(7, 32768)]), 0x0010);
    assert_eq!(word_100(&[(6, 1), (7, 1)]), 0x0010);
    assert_eq!(word_100(&[(6, 0), (7, 32767)]), 0);
}

#[test]
fn word_100_scalars() {
    assert_eq!(word_100(&[(8, 1101)]), 0x0020);
    assert_eq!(word_100(&[(9, 0)]), 0x0020);
    assert_eq!(word_100(&[(8, 0), (9, 0)]), 0x0020);
    assert_eq!(word_100(&[(9, 64)]), 0x0020);
    assert_eq!(word_100(&[(10, 4)]), 0x0020);
    assert_eq!(word_100(&[(8, 0)]), 0);
    assert_eq!(word_100(&[(8, 1100), (9, 63), (10, 3)]), 0);
}

#[test]
fn word_100_reserved() {
    for bit in [2, 3, 6, 7, 10, 11, 12, 13, 14] {
        assert_eq!(word_100(&[command(1 << bit)]), 0x8000, "bit {bit}");
    }
    for bit in [1, 4, 5, 8, 9] {
        assert_eq!(word_100(&[command(1 << bit)]), 0, "bit {bit}");
    }
    for word in 12..20 {
        assert_eq!(word_100(&[(word, 0x0100)]), 0x8000, "word {word}");
    }
    // Word 11, the active states, takes any value.
    assert_eq!(word_100(&[(11, 0xffff)]), 0);
}

#[test]
fn word_100_takes_all_failing_bits() {
    assert_eq!(
        word_100(&[
            (1, 0),
            (2, 2000),
            (3, 2000),
            (4, 5),
            (5, 5),
            (6, 40000),
            (10, 9),
            (12, 1)
        ]),
        0x803f
    );
}

#[test]
fn word_100_ignored() {
    let mut card = Card::fresh(8513);
    let mut file = setup_file(&[(0, TRANSMIT), (105, 77), (109, 78)]);
    assert_eq!(card.send_setup(&mut file), refused(Refusal::ErrorStands));
    assert_eq!(file[100..110], [0x4000, 0, 0, 0, 0, 0, 0, 0, 0, 0]);
    // Only the setup status words are rewritten.
    assert_eq!(file[110..120], [0; 10]);
}

#[test]
fn setup_leaves_the_group_status_words() {
    let mut card = Card::set_up(&[]);
    let mut file = setup_file(&[(110, 1), (119, 2), (99, 3), (20, 4)]);
    assert_eq!(card.send_setup(&mut file), Answer::Accepted);
    assert_eq!([file[110], file[119], file[99], file[20]], [1, 2, 3, 4]);
}

#[test]
fn word_101_is_the_offset_in_force() {
    let mut card = Card::set_up(&[]);
    let mut file = setup_file(&[(3, 321), (104, 5)]);
    assert_eq!(card.send_setup(&mut file), Answer::Accepted);
    assert_eq!(file[100..105], [0, 321, 0, 0, 0]);
    // Refused 6 and 5 show the offset that stays.
    let mut bad = setup_file(&[(3, 400), (12, 1)]);
    card.send_setup(&mut bad);
    assert_eq!(bad[100..102], [0x8000, 321]);
    let mut ignored = setup_file(&[(0, TRANSMIT), (3, 400)]);
    card.send_setup(&mut ignored);
    assert_eq!(ignored[100..102], [0x4000, 321]);
}

#[test]
fn word_101_after_a_preset() {
    let mut card = Card::set_up(&[]);
    card.step(300);
    let mut file = setup_file(&[command(PRESET), (2, 7), (3, 500)]);
    assert_eq!(card.send_setup(&mut file), Answer::Accepted);
    // 7 − 300 + 1024.
    assert_eq!(file[101], 731);
    assert_eq!(card.step(300).machine_position.0, 7);
}

#[test]
fn word_101_after_a_counter_clockwise_preset() {
    let mut card = Card::set_up(&[]);
    card.step(24);
    card.step(5000);
    // q is 1000 at raw 24; 1000 × 512 / 1024 is 500; 3 − 500 + 512.
    let mut file = setup_file(&[command(PRESET | CDIR), (1, 512), (2, 3)]);
    assert_eq!(card.send_setup(&mut file), Answer::Accepted);
    assert_eq!(file[101], 15);
    assert_eq!(card.step(24).machine_position.0, 3);
}

/// Words 110 and 111 of a group cycle with the blocks on a module.
fn words_110(number: u16, blocks: &[[u16; 4]]) -> [u16; 2] {
    let mut card = Card::fresh(number).and_setup(&[(1, 100)]);
    let mut file = group_file(blocks);
    let answer = card.send_groups(&mut file);
    assert_eq!(answer == Answer::Accepted, file[110] == 0);
    assert_eq!(file[112..120], [0; 8]);
    [file[110], file[111]]
}

#[test]
fn word_110_offset() {
    assert_eq!(words_110(8513, &[[real_group(0, 1), 0, 0, 100]]), [1, 1]);
    assert_eq!(words_110(8513, &[[real_group(0, 1), 0, 0, 99]]), [0, 0]);
}

#[test]
fn word_110_program() {
    for control in [
        real_group(0, 0),
        real_group(0, 17),
        real_group(0, 31),
        real_group(6, 1),
        real_group(7, 1),
    ] {
        assert_eq!(words_110(8513, &[[control, 0, 0, 0]]), [2, 1]);
    }
    for bit in [5, 6, 7, 11, 12] {
        let control = real_group(0, 1) | 1 << bit;
        assert_eq!(words_110(8513, &[[control, 0, 0, 0]]), [2, 1], "bit {bit}");
    }
}

#[test]
fn word_110_first_cycle_on_an_8511() {
    let control = 0xc000 | 5 << 8 | 1;
    assert_eq!(words_110(8511, &[[control, 0, 0, 0]]), [2, 1]);
    assert_eq!(words_110(8511, &[[control | 0x2000, 0, 0, 0]]), [0, 0]);
    assert_eq!(words_110(8512, &[[control, 0, 0, 0]]), [0, 0]);
}

#[test]
fn word_110_channel() {
    for (on, off) in [(100, 0), (0, 100), (5, 5), (65535, 3)] {
        assert_eq!(words_110(8513, &[[real_group(4, 1), on, off, 0]]), [4, 1]);
    }
    assert_eq!(words_110(8513, &[[real_group(4, 1), 99, 0, 0]]), [0, 0]);
}

#[test]
fn word_110_bits_of_the_lowest_group_only() {
    let good = [real_group(0, 1), 0, 0, 0];
    let bad_channel = [real_group(0, 1), 5, 5, 0];
    let all_bad = [real_group(7, 0), 100, 0, 100];
    assert_eq!(words_110(8513, &[good, bad_channel, all_bad]), [4, 2]);
    assert_eq!(words_110(8513, &[good, good, all_bad]), [7, 3]);
    assert_eq!(
        words_110(8513, &[good, good, good, good, good, bad_channel]),
        [4, 6]
    );
}

#[test]
fn word_110_outputs_dealt_per_kind() {
    let real = |quantity| [real_group(0, quantity), 0, 0, 0];
    let virt = |quantity| [virtual_group(0, quantity), 0, 0, 0];
    // The manual's example: six, eight, and two are left.
    assert_eq!(words_110(8513, &[real(6), real(8), real(2)]), [0, 0]);
    assert_eq!(words_110(8513, &[real(6), real(8), real(3)]), [2, 3]);
    assert_eq!(words_110(8513, &[real(16), virt(16)]), [0, 0]);
    assert_eq!(words_110(8513, &[virt(15), real(16), virt(2)]), [2, 3]);
    assert_eq!(words_110(8512, &[real(8), real(1)]), [2, 2]);
    // An unused group between takes none.
    assert_eq!(words_110(8512, &[real(4), [5, 0, 0, 0], real(4)]), [0, 0]);
}

#[test]
fn word_110_reserved_is_alone() {
    let bad = [real_group(7, 0), 100, 0, 100];
    let reserved = |word: usize, value: u16| {
        let mut card = Card::set_up(&[(1, 100)]);
        let mut file = group_file(&[bad]);
        file[word] |= value;
        assert_eq!(card.send_groups(&mut file), refused(Refusal::GroupData));
        [file[110], file[111]]
    };
    for bit in 1..15 {
        assert_eq!(reserved(20, 1 << bit), [0x8000, 0], "bit {bit}");
    }
    for word in [21, 46, 60, 99] {
        assert_eq!(reserved(word, 1), [0x8000, 0], "word {word}");
    }
}

#[test]
fn word_110_ignored() {
    let mut card = Card::fresh(8513);
    let mut file = group_file(&[[real_group(7, 0), 0, 0, 0]]);
    file[111] = 5;
    file[118] = 6;
    assert_eq!(card.send_groups(&mut file), refused(Refusal::ErrorStands));
    assert_eq!(file[110..120], [0x4000, 0, 0, 0, 0, 0, 0, 0, 0, 0]);
}

#[test]
fn words_112_to_117() {
    let mut card = Card::grouped(&[
        [virtual_group(0, 1), 0, 0, 10],
        [0, 0, 0, 0],
        [virtual_group(1, 1), 0, 0, 20],
        [real_group(3, 1), 0, 0, 1000],
        [0, 0, 0, 0],
        [real_group(2, 1), 0, 0, 30],
    ]);
    assert_eq!(card.group_positions(), [0; 6]);
    card.step(100);
    // Group 6's real input is active without current: preset to 30.
    assert_eq!(card.group_positions(), [110, 0, 100, 76, 0, 30]);
    card.step_in(101, 0x0004);
    assert_eq!(card.group_positions(), [111, 0, 20, 77, 0, 31]);
    // An accepted group cycle shows what the last step left.
    let mut file = group_file(&[]);
    assert_eq!(card.send_groups(&mut file), Answer::Accepted);
    assert_eq!(file[110..120], [0, 0, 111, 0, 20, 77, 0, 31, 0, 0]);
    card.step(102);
    assert_eq!(card.group_positions(), [0; 6]);
}

#[test]
fn words_112_to_117_on_refusal_5() {
    let mut card = Card::grouped(&[[virtual_group(0, 1), 0, 0, 10]]);
    card.step(100);
    card.setup(&[(1, 0)]);
    let mut file = group_file(&[]);
    assert_eq!(card.send_groups(&mut file), refused(Refusal::ErrorStands));
    assert_eq!(file[110..120], [0x4000, 0, 110, 0, 0, 0, 0, 0, 0, 0]);
}

#[test]
fn words_112_to_117_after_a_module_start() {
    let mut card = Card::grouped(&[[virtual_group(0, 1), 0, 0, 10]]);
    card.step(100);
    assert_eq!(card.setup(&[]), Answer::Accepted);
    assert_eq!(card.group_positions(), [0; 6]);
    card.step(100);
    assert_eq!(card.group_positions()[0], 110);
    card.step(1024);
    assert_eq!(card.group_positions(), [0; 6]);
}

/// Words 630 and 631 in Independent Mode with SF 1000.
fn words_630(blocks: &[(usize, &[u16])]) -> [u16; 2] {
    let mut card = Card::set_up(&[command(INDEPENDENT), (1, 1000)]);
    let mut file = limit_file(blocks);
    file[632] = 9;
    file[649] = 9;
    let answer = card.send_limits(&mut file);
    assert_eq!(answer == Answer::Accepted, file[630] == 0);
    assert_eq!(file[632..650], [0; 18]);
    [file[630], file[631]]
}

#[test]
fn word_630_unassigned() {
    let mut card = Card::grouped(&[[virtual_group(0, 4), 0, 0, 0], [real_group(0, 2), 0, 0, 0]]);
    let mut file = limit_file(&[(2, &ALWAYS), (20, &ALWAYS), (21, &[0x1ffc, 2000, 0, 5, 5])]);
    assert_eq!(card.send_limits(&mut file), refused(Refusal::LimitData));
    assert_eq!(file[630..632], [0x0001, 21]);
    card.clear_errors();
    // All zero is no fault of an unassigned output.
    assert_eq!(
        card.limits(&[(2, &ALWAYS), (20, &ALWAYS)]),
        Answer::Accepted
    );
    // Any word makes the block not all zero.
    let mut last_word = [0; 19];
    last_word[18] = 1;
    let mut file = limit_file(&[(3, &last_word)]);
    assert_eq!(card.send_limits(&mut file), refused(Refusal::LimitData));
    assert_eq!(file[630..632], [0x0001, 3]);
}

#[test]
fn word_630_control() {
    for bit in 2..13 {
        let control = 1 << bit;
        assert_eq!(words_630(&[(3, &[control, 0, 0, 1, 2])]), [0x0002, 3]);
    }
    assert_eq!(words_630(&[(3, &[MD1 | MD2, 0, 0, 1, 2])]), [0x0002, 3]);
    for control in [MD1, MD2, ENABLE, ENABLE | MD1] {
        assert_eq!(words_630(&[(3, &[control, 0, 0, 1, 2])]), [0, 0]);
    }
}

#[test]
fn word_630_type_3_tests_bits_1_and_2_only() {
    assert_eq!(words_630(&[(3, &[3, 0, 0, 5, 5, 0, 0])]), [0x0002, 3]);
    assert_eq!(words_630(&[(3, &[3, 1000, 0, 5, 5])]), [0x0006, 3]);
}

#[test]
fn word_630_advances() {
    // 999, −999, 1000 and −1000.
    for (advance, errors) in [(999, 0), (0xfc19, 0), (1000, 4), (0xfc18, 4), (0x8000, 4)] {
        let number = if errors == 0 { 0 } else { 17 };
        assert_eq!(words_630(&[(17, &[0, advance, 0, 1, 2])]), [errors, number]);
        assert_eq!(words_630(&[(17, &[0, 0, advance, 1, 2])]), [errors, number]);
    }
}

#[test]
fn word_630_setpoints() {
    assert_eq!(words_630(&[(1, &[0, 0, 0, 1000, 2])]), [0x0008, 1]);
    assert_eq!(words_630(&[(1, &[0, 0, 0, 2, 1000])]), [0x0008, 1]);
    assert_eq!(words_630(&[(1, &[0, 0, 0, 2, 2])]), [0x0008, 1]);
    assert_eq!(words_630(&[(1, &[TIMED, 0, 0, 2, 2, 1])]), [0x0008, 1]);
    assert_eq!(
        words_630(&[(1, &[PULSE, 0, 0, 2, 1000, 1, 1])]),
        [0x0008, 1]
    );
    // Each of the eight pairs.
    for pair in 0..8 {
        let mut block = [0; 19];
        block[3 + 2 * pair] = 7;
        block[4 + 2 * pair] = 7;
        assert_eq!(words_630(&[(1, &block)]), [0x0008, 1], "pair {pair}");
        block[4 + 2 * pair] = 999;
        assert_eq!(words_630(&[(1, &block)]), [0, 0], "pair {pair}");
    }
}

#[test]
fn word_630_words_not_used_are_ignored() {
    let mut timed = [0xffff; 19];
    timed[..6].copy_from_slice(&[TIMED, 0, 0, 1, 2, 9999]);
    let mut pulse = [0xffff; 19];
    pulse[..7].copy_from_slice(&[PULSE, 0, 0, 1, 9, 2, 3]);
    assert_eq!(words_630(&[(1, &timed), (2, &pulse)]), [0, 0]);
}

#[test]
fn word_630_duration() {
    assert_eq!(words_630(&[(1, &[TIMED, 0, 0, 1, 2, 0])]), [0x0010, 1]);
    assert_eq!(words_630(&[(1, &[TIMED, 0, 0, 1, 2, 10000])]), [0x0010, 1]);
    assert_eq!(words_630(&[(1, &[TIMED, 0, 0, 1, 2, 9999])]), [0, 0]);
    assert_eq!(words_630(&[(1, &[TIMED, 0, 0, 2, 2, 0])]), [0x0018, 1]);
}

#[test]
fn word_630_fifth_timed() {
    let timed: &[u16] = &[TIMED, 0, 0, 1, 2, 3];
    let at_zero: &[u16] = &[TIMED];
    let four_real = [(1, timed), (3, timed), (5, at_zero), (16, timed)];
    let four_virtual = [(17, timed), (18, timed), (19, timed), (32, at_zero)];
    assert_eq!(words_630(&[four_real, four_virtual].concat()), [0, 0]);
    let mut fifth_real = four_real.to_vec();
    fifth_real.push((7, timed));
    assert_eq!(words_630(&fifth_real), [0x0010, 16]);
    let mut fifth_virtual = four_virtual.to_vec();
    fifth_virtual.push((24, timed));
    assert_eq!(words_630(&fifth_virtual), [0x0010, 32]);
}

#[test]
fn word_630_pulse_counts() {
    assert_eq!(words_630(&[(1, &[PULSE, 0, 0, 1, 9, 0, 1])]), [0x0010, 1]);
    assert_eq!(words_630(&[(1, &[PULSE, 0, 0, 1, 9, 1, 0])]), [0x0010, 1]);
    // 2 pulses of 4 need 9 counts.
    assert_eq!(words_630(&[(1, &[PULSE, 0, 0, 1, 9, 2, 4])]), [0x0010, 1]);
    assert_eq!(words_630(&[(1, &[PULSE, 0, 0, 0, 9, 2, 4])]), [0, 0]);
    // The length is taken over 0.
    assert_eq!(words_630(&[(1, &[PULSE, 0, 0, 995, 4, 2, 4])]), [0, 0]);
    assert_eq!(words_630(&[(1, &[PULSE, 0, 0, 996, 4, 2, 4])]), [0x0010, 1]);
}

#[test]
fn word_630_reserved_is_alone() {
    let reserved = |word: usize, value: u16| {
        let mut card = Card::set_up(&[command(INDEPENDENT)]);
        let mut file = limit_file(&[(1, &[3])]);
        file[word] |= value;
        assert_eq!(card.send_limits(&mut file), refused(Refusal::LimitData));
        [file[630], file[631]]
    };
    for bit in 1..15 {
        assert_eq!(reserved(0, 1 << bit), [0x8000, 0], "bit {bit}");
    }
    for word in [1, 610, 620, 629] {
        assert_eq!(reserved(word, 1), [0x8000, 0], "word {word}");
    }
}

#[test]
fn word_630_ignored() {
    let mut card = Card::fresh(8513);
    let mut file = limit_file(&[(1, &[3])]);
    file[631] = 5;
    assert_eq!(card.send_limits(&mut file), refused(Refusal::ErrorStands));
    let mut expected = [0; 20];
    expected[0] = 0x4000;
    assert_eq!(file[630..650], expected);
}

#[test]
fn word_631_is_the_lowest_failing_output() {
    assert_eq!(
        words_630(&[
            (2, &[0, 0, 0, 1, 2]),
            (9, &[0, 1000, 0, 5, 5]),
            (30, &[3]),
            (32, &[0, 0, 0, 5, 5])
        ]),
        [0x000c, 9]
    );
    assert_eq!(words_630(&[(32, &[0, 0, 0, 5, 5])]), [0x0008, 32]);
}

#[test]
fn missing_outputs_are_unread() {
    let mut card = Card::fresh(8512).and_setup(&[command(INDEPENDENT)]);
    assert_eq!(card.limits(&[(9, &[3]), (16, &[3])]), Answer::Accepted);
    assert_eq!(card.limits(&[(8, &[3])]), refused(Refusal::LimitData));
    // Timed blocks of missing outputs are not counted.
    let timed: &[u16] = &[TIMED, 0, 0, 1, 2, 3];
    let mut card = Card::fresh(8512).and_setup(&[command(INDEPENDENT)]);
    assert_eq!(
        card.limits(&[(1, timed), (2, timed), (3, timed), (4, timed), (9, timed)]),
        Answer::Accepted
    );
}

#[test]
fn accepted_cycles_zero_their_status_words() {
    let mut card = one_group(0, 0, 0, 0);
    let mut file = limit_file(&[(17, &ALWAYS)]);
    file[630..].fill(0xffff);
    assert_eq!(card.send_limits(&mut file), Answer::Accepted);
    assert_eq!(file[630..650], [0; 20]);
    let mut file = group_file(&[]);
    file[110..].fill(0xffff);
    assert_eq!(card.send_groups(&mut file), Answer::Accepted);
    assert_eq!(file[110..120], [0; 10]);
    let mut file = setup_file(&[]);
    file[100..].fill(0xffff);
    assert_eq!(card.send_setup(&mut file), Answer::Accepted);
    assert_eq!(file[100..110], [0; 10]);
    assert_eq!(file[110..120], [0xffff; 10]);
}
