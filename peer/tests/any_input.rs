//! Every call and program is total: any words, any lengths, any bytes.

mod common;

use common::{
    group_file, limit_file, real_group, setup_file, virtual_group, Card, Numbers, ALWAYS, PULSE,
    TIMED,
};
use peer::columns::{to_columns, to_rows};
use peer::{camrun, read_block, replay, Block, Refusal};

/// Changes some words of a file.
fn damage(numbers: &mut Numbers, file: &mut [u16]) {
    for _ in 0..numbers.below(4) {
        let word = usize::from(numbers.next()) % file.len();
        file[word] = numbers.word();
    }
}

fn random_call(numbers: &mut Numbers, card: &mut Card) {
    match numbers.below(24) {
        0 => {
            let command = 0x8001 | numbers.next() & 0x0332;
            let scale = [1024, 1000, 2, 3][usize::from(numbers.below(4))];
            let mut file = setup_file(&[(0, command), (1, scale), (4, 1), (7, 9000)]);
            damage(numbers, &mut file[..20]);
            card.send_setup(&mut file);
        }
        1 => {
            let block = |mode| [virtual_group(mode, 3), 0, 1, 1];
            let mut file = group_file(&[block(1), block(2), block(4), block(5)]);
            file[38..42].copy_from_slice(&[real_group(5, 4), 1, 0, 0]);
            file[20] |= 1;
            damage(numbers, &mut file[20..46]);
            card.send_groups(&mut file);
        }
        2 => {
            let mut file = limit_file(&[
                (1, &[TIMED, 999, 0, 0, 1, 3]),
                (17, &ALWAYS),
                (18, &[PULSE, 999, 0, 0, 1, 1, 1]),
                (20, &[TIMED | 0x2000, 0, 500, 1, 0, 1]),
                (25, &[0xc000, 0xfc19, 999, 1, 0, 0, 1]),
            ]);
            file[0] |= 1;
            damage(numbers, &mut file[..630]);
            card.send_limits(&mut file);
        }
        3 | 4 => {
            let word = numbers.next() & 0x87ff | 0x8000;
            card.module.nudge_cycle(word);
            card.module.nudge_cycle(0);
        }
        5 => card.clear_errors(),
        6..=8 => {
            let offset = numbers.word();
            let value = numbers.next() as u8;
            assert_eq!(card.module.read_byte(offset).is_ok(), offset <= 17);
            let is_written = card.module.write_byte(offset, value).is_ok();
            assert_eq!(is_written, [16, 17].contains(&offset));
        }
        _ => {}
    }
}

#[test]
fn random_calls_keep_the_answers_in_range() {
    for seed in 0..40 {
        let mut numbers = Numbers(seed);
        let number = [8511, 8512, 8513][usize::from(numbers.below(3))];
        let real = match number {
            8511 => 0,
            8512 => 0x00ff,
            _ => 0xffff,
        };
        let mut card = Card::fresh(number);
        let mut raw = 0;
        for _ in 0..3000 {
            random_call(&mut numbers, &mut card);
            raw = match numbers.below(50) {
                0 => numbers.next(),
                _ => (raw % 1024 + numbers.below(90)) % 1024,
            };
            let mut words = [0; 9].map(|_: u16| numbers.next() & numbers.next());
            words[0] = raw;
            let was_fault = card.module.fault();
            let answer = card.module.step(&words);
            let bad = raw > 1023 || was_fault;
            assert_eq!(answer.refusal == Some(Refusal::TransducerFault), bad);
            assert!(answer.machine_position.0 < 1024);
            assert!(answer.tenths <= 1_500_000 && answer.tach <= 32767);
            assert!(answer.changed <= 16);
            assert!(answer.tests <= if bad { 0 } else { 256 });
            let (on, off) = (words[5], words[6]);
            assert_eq!(answer.real_outputs & (off | !real), 0);
            assert_eq!(answer.real_outputs & on & !off, on & !off & real);
            let (on, off) = (words[7], words[8]);
            assert_eq!(answer.virtual_outputs & off, 0);
            assert_eq!(answer.virtual_outputs & on & !off, on & !off);
        }
    }
}

#[test]
fn random_files_of_any_length() {
    let mut numbers = Numbers(77);
    let mut card = Card::fresh(8513);
    for _ in 0..4000 {
        let length = match numbers.below(4) {
            0 => usize::from(numbers.below(700)),
            1 => 650,
            _ => 120,
        };
        let mut file: Vec<u16> = (0..length).map(|_| numbers.word()).collect();
        card.module.setup_cycle(&mut file);
        card.module.group_cycle(&mut file);
        card.module.limit_cycle(&mut file);
        card.module.nudge_cycle(numbers.word());
        let mut words = [0; 9];
        words.fill_with(|| numbers.word());
        card.module.step(&words);
        let other = vec![0; [120, 650, 0][usize::from(numbers.below(3))]];
        let number = numbers.word();
        read_block(&file, &other, Block::Group(number));
        read_block(&other, &file, Block::Limit(number));
    }
}

#[test]
fn programs_take_any_bytes() {
    let mut numbers = Numbers(5);
    for _ in 0..2000 {
        let length = usize::from(numbers.below(400));
        let mut input = numbers.bytes(length);
        // Words with a high byte of 0 reach further into the calls.
        if numbers.below(2) == 0 {
            input
                .iter_mut()
                .skip(1)
                .step_by(2)
                .for_each(|high| *high = 0);
            input.iter_mut().step_by(2).for_each(|low| *low %= 15);
        }
        let mut output = Vec::new();
        replay::run(&input[..], &mut output).expect("writing to memory");
        camrun::run(&input[..], &mut output).expect("writing to memory");
        let traced = [&[1, 0, 0x41, 0x21][..], &input].concat();
        let mut output = Vec::new();
        camrun::run(&traced[..], &mut output).expect("writing to memory");
        let text = String::from_utf8(output).expect("text");
        assert!(text.is_empty() || text.ends_with('\n'));
    }
}

#[test]
fn sections_and_outputs_of_any_lengths() {
    let mut numbers = Numbers(31);
    for _ in 0..4000 {
        let length = match numbers.below(3) {
            0 => usize::from(numbers.below(100)),
            1 => 9 * usize::from(numbers.below(12)),
            _ => 26_990 + usize::from(numbers.below(30)),
        };
        let words: Vec<u16> = (0..length).map(|_| numbers.word()).collect();
        let out_words = match numbers.below(4) {
            0 => usize::from(numbers.below(100)),
            _ => length,
        };
        let is_section = length % 9 == 0 && (9..=27_000).contains(&length) && out_words == length;
        for turn in [to_columns, to_rows] {
            let mut out = vec![0; out_words];
            assert_eq!(turn(&words, &mut out).is_ok(), is_section);
        }
    }
}

#[test]
fn leaf_functions_take_any_numbers() {
    use peer::motion::{
        advance_shift, machine_position, moved_length, moved_setpoint, movement, tach, tenths,
    };
    use peer::pair::{pair_holds, Pair};
    use peer::pulse::{pulse_holds, pulse_start, pulses_fit};
    use peer::setup::Scalars;

    let edges = [0, 1, 2, 1023, 1024, 0x7fff, 0x8000, 0xffff];
    for a in edges {
        for b in edges {
            for c in edges {
                machine_position(a, b, c);
                movement(a, b);
                pair_holds(Pair { on: a, off: b }, c, b);
                pulses_fit(a, b, c);
                pulse_start(a, b, c, a);
                pulse_holds(a, b, c, a);
                pulse_holds(a, b, a, c);
                let scalars = Scalars {
                    multiplier: a,
                    divisor: b,
                    code: c,
                };
                tach(u32::MAX, scalars);
                let shift = advance_shift(a as i16, i32::MIN, b);
                moved_setpoint(c, shift, b);
                moved_length(a, shift, advance_shift(c as i16, i32::MIN, b));
            }
            moved_setpoint(a, i64::MIN, b);
        }
        tenths(i32::MIN, u32::from(a));
    }
}
