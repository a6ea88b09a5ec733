//! The checksum of the bench, made again from the replay program's lines
//! with the programming, samples, cycles, frames and sections of
//! docs/BENCH.md.

mod common;

use std::collections::BTreeSet;

use common::{group_file, limit_file, run_with_arguments, sample};
use peer::generate::CallList;
use peer::replay;

struct Programming {
    number: u16,
    setup: [u16; 12],
    groups: Vec<[u16; 4]>,
    limits: Vec<Vec<u16>>,
}

fn full() -> Programming {
    let limit = |n: u16| {
        let sign = if n & 1 == 0 { 1 } else { -1 };
        let advance = |tenths: u16| (sign * (tenths + n) as i16) as u16;
        let mut block = vec![8192 * (n % 3), advance(10), advance(5)];
        for k in 0..8 {
            let on = (31 * n + 125 * k + 3 * k * (n % 4)) % 1000;
            block.extend([on, (on + 40 + n) % 1000]);
        }
        block
    };
    Programming {
        number: 8513,
        setup: [0x8121, 1000, 0, 10, 100, 20000, 1, 30000, 3, 2, 0, 0],
        groups: vec![
            [0x8005, 0, 0, 7],
            [0x8105, 900, 100, 50],
            [0x8206, 800, 850, 0],
            [0xc305, 0, 0, 20],
            [0xc405, 100, 600, 30],
            [0xe506, 200, 700, 40],
        ],
        limits: (0..32).map(limit).collect(),
    }
}

fn small() -> Programming {
    let limit = |n: u16| vec![0, 0, 0, n << 8, (n << 8) + 100];
    Programming {
        number: 8512,
        setup: [0x8021, 1024, 0, 0, 0, 0, 0, 0, 1, 1, 0, 0],
        groups: vec![[0x8004, 0, 0, 0]],
        limits: (0..4).map(limit).collect(),
    }
}

/// The full card with every group of Mode 1, always open, and pairs of one
/// count.
fn every_pair() -> Programming {
    let limit = |n: u16| {
        let advance = if n & 1 == 0 { 999 } else { -999i16 as u16 };
        let detector = if n & 1 == 0 { 0x2000 } else { 0x4000 };
        let mut block = vec![detector, advance, advance];
        for k in 0..8 {
            let on = (31 * n + 125 * k) % 1000;
            block.extend([on, if on == 999 { 0 } else { on + 1 }]);
        }
        block
    };
    let group = |control: u16| [0x8100 | control, 900, 100, 50];
    Programming {
        groups: [0x05, 0x05, 0x06, 0x4005, 0x4005, 0x4006]
            .map(group)
            .to_vec(),
        limits: (0..32).map(limit).collect(),
        ..full()
    }
}

/// A list that powers up and programs a module; and its limit file.
fn programmed(programming: &Programming) -> (CallList, [u16; 650]) {
    let mut list = CallList::default();
    list.power_up(programming.number);
    let mut setup = [0; 120];
    setup[..12].copy_from_slice(&programming.setup);
    list.file(1, &setup);
    list.file(2, &group_file(&programming.groups));
    let blocks: Vec<(usize, &[u16])> = (1..)
        .zip(programming.limits.iter().map(|block| &block[..]))
        .collect();
    let limits = limit_file(&blocks);
    list.file(3, &limits);
    (list, limits)
}

/// The sample of step i.
fn sample_of(i: u64) -> [u16; 9] {
    let p = i % 8192;
    let raw = (2 * p + p * p / 4096) % 1024;
    sample(raw as u16, (i / 32) as u16, (i / 16) as u16)
}

/// The replay program's lines for the programming and the steps; `raw` is
/// every sample's raw position, where it is given.
fn lines_at(programming: &Programming, steps: u64, raw: Option<u16>) -> Vec<Vec<String>> {
    let (mut list, _) = programmed(programming);
    for i in 0..steps {
        let mut sample = sample_of(i);
        sample[0] = raw.unwrap_or(sample[0]);
        list.step(&sample);
    }
    fields_of(&list)
}

fn lines(programming: &Programming, steps: u64) -> Vec<Vec<String>> {
    lines_at(programming, steps, None)
}

/// The replay program's lines for the turns of case p: four of the
/// programming, one that ends its limit cycle, two of each turn and a step.
fn lines_of_cycles(turns: u64) -> Vec<Vec<String>> {
    let (mut list, mut limits) = programmed(&full());
    limits[0] = 0;
    list.file(3, &limits);
    for i in 0..turns {
        limits[5] = 500 + (i % 400) as u16;
        for command in [0x8000, 0] {
            limits[0] = command;
            list.file(3, &limits);
        }
    }
    list.step(&sample_of(turns));
    fields_of(&list)
}

/// The fields of the replay program's lines.
fn fields_of(list: &CallList) -> Vec<Vec<String>> {
    let mut output = Vec::new();
    replay::run(&list.bytes()[..], &mut output).expect("writing to memory");
    let text = String::from_utf8(output).expect("text");
    text.lines()
        .map(|line| line.split(' ').map(String::from).collect())
        .collect()
}

/// The replay program's lines for the frames of case w.
fn written(frames: usize) -> Vec<Vec<String>> {
    let mut list = CallList::default();
    let mut data: Vec<u16> = (0..244).map(|k| 7 * k % 256).collect();
    for i in 0..frames {
        data[i % 244] = (data[i % 244] + 1) % 256;
        list.write_frame(493, &data);
    }
    fields_of(&list)
}

/// The replay program's lines for the readings of case r.
fn readings(count: usize) -> Vec<Vec<String>> {
    let mut list = CallList::default();
    let data: Vec<u16> = (0..244).map(|k| 7 * k % 256).collect();
    // Byte 112 is a DLE: 784 is 3 × 256 + 10h. The sum of all is 30,114, which
    // is 117 × 256 + 162, so that the check byte is 94.
    let input = [
        &[0x10, 0x02][..],
        &data[..112],
        &[0x10, 0x10],
        &data[113..],
        &[0x10, 0x03, 94],
    ];
    let mut input = input.concat();
    assert_eq!(input.len(), 250);
    for i in 0..count {
        input.swap(2 + i % 100, 3 + i % 100);
        list.read_frame(244, &input);
    }
    fields_of(&list)
}

/// The checksum of case w or r.
fn frame_checksum(lines: &[Vec<String>]) -> u64 {
    lines.iter().enumerate().fold(0, |sum, (i, fields)| {
        assert_eq!(fields[1], "0");
        let length: usize = fields[2].parse().expect("decimal");
        let byte = |place: usize| {
            u64::from_str_radix(&fields[3][2 * place..2 * place + 2], 16).expect("hexadecimal")
        };
        let number = 65536 * length as u64 + 256 * byte(i % length) + byte(length - 1);
        (31 * sum + number) % 4_294_967_296
    })
}

/// Word i of the first section.
fn section_word(i: usize) -> u16 {
    (7 * i % 65536) as u16
}

/// The replay program's lines for the turns of case c.
fn turned_to_columns(turns: usize) -> Vec<Vec<String>> {
    let mut list = CallList::default();
    let mut section: Vec<u16> = (0..27000).map(section_word).collect();
    for t in 0..turns {
        section[t % 27000] = section[t % 27000].wrapping_add(1);
        list.columns(27000, &section);
    }
    fields_of(&list)
}

/// The replay program's lines for the turns of case d. The raw positions of
/// the first section are 63 apart.
fn turned_to_rows(turns: usize) -> Vec<Vec<String>> {
    let mut list = CallList::default();
    let differences = (0..3000).map(|r| if r == 0 { 0 } else { 63 });
    let others = (1..9).flat_map(|k| (0..3000).map(move |r| section_word(9 * r + k)));
    let mut columns: Vec<u16> = differences.chain(others).collect();
    for t in 0..turns {
        columns[t % 27000] = columns[t % 27000].wrapping_add(1);
        list.rows(27000, &columns);
    }
    fields_of(&list)
}

/// The checksum of case c or d, whose second word is the one at this place.
fn section_checksum(lines: &[Vec<String>], second: usize) -> u64 {
    lines.iter().enumerate().fold(0, |sum, (t, fields)| {
        assert_eq!(fields[1], "0");
        assert_eq!(fields.len(), 2 + 27000);
        let word = |place: usize| u64::from_str_radix(&fields[2 + place], 16).expect("hexadecimal");
        let number = 65536 * word(t % 27000) + word(second);
        (31 * sum + number) % 4_294_967_296
    })
}

fn checksum(steps: &[Vec<String>]) -> u64 {
    checksum_from(0, steps)
}

/// The checksum that the lines of steps make of the one before them.
fn checksum_from(sum: u64, steps: &[Vec<String>]) -> u64 {
    steps.iter().fold(sum, |sum, fields| {
        let decimal = |field: usize| -> u64 { fields[field].parse().expect("decimal") };
        let hex = |field: usize| u64::from_str_radix(&fields[field], 16).expect("hexadecimal");
        let refused = u64::from(decimal(1) == 11);
        let flags = 8 * refused + 4 * decimal(5) + 2 * decimal(6) + decimal(7);
        [
            decimal(2) + 65536 * decimal(4),
            hex(8) + 65536 * hex(9),
            16 * decimal(3) + flags + 33_554_432 * decimal(10),
            decimal(12),
        ]
        .iter()
        .fold(sum, |sum, number| (31 * sum + number) % 4_294_967_296)
    })
}

/// The checksum of the lines of case p's turns and its step.
fn checksum_of_cycles(turns: &[Vec<String>]) -> u64 {
    let (step, turns) = turns.split_last().expect("a step");
    let outcome = |fields: &[String]| -> u64 {
        match fields[1].as_str() {
            "idle" => 65535,
            number => number.parse().expect("decimal"),
        }
    };
    let (turns, _) = turns.as_chunks::<2>();
    let sum = turns.iter().fold(0, |sum, [sent, ended]| {
        (31 * sum + 65536 * outcome(sent) + outcome(ended)) % 4_294_967_296
    });
    checksum_from(sum, std::slice::from_ref(step))
}

fn bench(case: &str, steps: u64) -> String {
    let output = run_with_arguments(env!("CARGO_BIN_EXE_bench"), &[case, &steps.to_string()]);
    assert!(output.status.success());
    String::from_utf8(output.stdout).expect("text")
}

#[test]
fn checksums_are_those_of_the_replay_program() {
    let cases = [
        ("a", full(), None),
        ("b", small(), None),
        ("x", every_pair(), None),
        ("f", full(), Some(1024)),
    ];
    for (case, programming, raw) in cases {
        for steps in [0, 1, 9000] {
            let lines = lines_at(&programming, steps, raw);
            let (calls, steps_lines) = lines.split_at(4);
            assert!(
                calls.iter().all(|fields| fields[1] == "0"),
                "{case} accepted"
            );
            let expected = format!("{case} {steps} {}\n", checksum(steps_lines));
            assert_eq!(bench(case, steps), expected);
        }
    }
}

#[test]
fn checksums_of_cycles_are_those_of_the_replay_program() {
    for turns in [0, 1, 2, 900] {
        let lines = lines_of_cycles(turns);
        let checksum = checksum_of_cycles(&lines[5..]);
        assert_eq!(bench("p", turns), format!("p {turns} {checksum}\n"));
    }
}

#[test]
fn checksums_of_frames_are_those_of_the_replay_program() {
    for count in [0, 1, 1000] {
        let checksum = frame_checksum(&written(count));
        assert_eq!(bench("w", count as u64), format!("w {count} {checksum}\n"));
        let checksum = frame_checksum(&readings(count));
        assert_eq!(bench("r", count as u64), format!("r {count} {checksum}\n"));
    }
}

#[test]
fn checksums_of_sections_are_those_of_the_replay_program() {
    for turns in [0, 1, 40] {
        let checksum = section_checksum(&turned_to_columns(turns), 2999);
        assert_eq!(bench("c", turns as u64), format!("c {turns} {checksum}\n"));
        let checksum = section_checksum(&turned_to_rows(turns), 26991);
        assert_eq!(bench("d", turns as u64), format!("d {turns} {checksum}\n"));
    }
}

/// By hand. In the first turn of case c word 0 is 1, and so is the first raw
/// position; the last two are 63 apart. In the first of case d the first raw
/// position is 1, and the last 1 + 2,999 × 63, which is 2 × 65,536 + 57,866.
#[test]
fn first_section_by_hand() {
    assert_eq!(bench("c", 1), format!("c 1 {}\n", 65536 + 63));
    assert_eq!(bench("d", 1), format!("d 1 {}\n", 65536 + 57866));
}

/// After 27,000 turns each word is one more, and in the next the first is two
/// more: the first raw position is 2, and the last two are 63 apart.
#[test]
fn sections_of_the_bench_go_round() {
    let sum = |turns: u64| -> u64 {
        let line = bench("c", turns);
        let checksum = line.trim_end().split(' ').next_back();
        checksum.expect("a field").parse().expect("decimal")
    };
    let expected = (31 * sum(27000) + 65536 * 2 + 63) % 4_294_967_296;
    assert_eq!(sum(27001), expected);
}

/// By hand: in the first frame data byte 0 is 1, so that the check byte is
/// 93; its first byte is 10h. In the first reading bytes 0 and 1 change
/// places, so that byte 0 is 7; the last is 7 × 243 mod 256, 165.
#[test]
fn first_frame_by_hand() {
    let written = 65536 * 250 + 256 * 0x10 + 93;
    assert_eq!(bench("w", 1), format!("w 1 {written}\n"));
    let read = 65536 * 244 + 256 * 7 + 165;
    assert_eq!(bench("r", 1), format!("r 1 {read}\n"));
}

/// Frames of many lengths are written, and data in many orders read.
#[test]
fn frames_of_the_bench_differ() {
    let lines = written(4000);
    let lengths: BTreeSet<&String> = lines.iter().map(|fields| &fields[2]).collect();
    assert!(lengths.len() > 1);
    let buffers: BTreeSet<&String> = lines.iter().map(|fields| &fields[3]).collect();
    assert_eq!(buffers.len(), 4000);
    let lines = readings(1000);
    let buffers: BTreeSet<&String> = lines.iter().map(|fields| &fields[3]).collect();
    assert_eq!(buffers.len(), 1000);
}

/// A bench in which nothing happens measures nothing.
#[test]
fn outputs_of_the_full_card_all_light() {
    let lines = lines(&full(), 9000);
    let seen = |field: usize| -> BTreeSet<&String> {
        lines[4..].iter().map(|fields| &fields[field]).collect()
    };
    assert_eq!(lit_in(&lines[4..]), [0xffff; 2]);
    for field in [8, 9] {
        assert!(seen(field).len() > 100);
    }
    assert!(seen(3).len() > 10, "speeds");
    assert!(seen(10).len() > 3, "changed counts");
    assert!(seen(12).len() > 30, "counts of tests");
    assert_eq!(seen(1).len(), 1);
}

/// The outputs, real and virtual, that some of the steps light.
fn lit_in(steps: &[Vec<String>]) -> [u16; 2] {
    [8, 9].map(|field| {
        steps.iter().fold(0, |lit, fields| {
            lit | u16::from_str_radix(&fields[field], 16).expect("hexadecimal")
        })
    })
}

/// All six groups are open, and no output's detector is off for good.
#[test]
fn nearly_every_pair_is_tested_in_case_x() {
    let lines = lines(&every_pair(), 9000);
    let tests: Vec<u64> = lines[4..]
        .iter()
        .map(|fields| fields[12].parse().expect("decimal"))
        .collect();
    let all = tests.iter().filter(|&&tests| tests == 256).count();
    assert!(all > tests.len() * 3 / 4, "{all} steps with all pairs");
    assert!(tests.iter().sum::<u64>() > 254 * 9000);
    assert_eq!(lit_in(&lines[4..]), [0xffff; 2]);
}

#[test]
fn every_step_of_case_f_is_answered_11() {
    let lines = lines_at(&full(), 5000, Some(1024));
    for fields in &lines[4..] {
        assert_eq!(fields.join(" "), "step 11 0 0 0 0 0 0 0000 0000 0 0 0");
    }
}

/// Each turn's limit program is accepted and its end is Idle; the step after
/// them runs by the last one.
#[test]
fn each_turn_of_case_p_is_accepted_and_ended() {
    let lines = lines_of_cycles(450);
    assert!(lines[..4].iter().all(|fields| fields[1] == "0"));
    assert_eq!(lines[4][1], "idle");
    let (step, turns) = lines[5..].split_last().expect("a step");
    assert_eq!(turns.len(), 900);
    for turn in turns.chunks(2) {
        assert_eq!([&turn[0][0], &turn[0][1]], ["limit", "0"]);
        assert_eq!([&turn[1][0], &turn[1][1]], ["limit", "idle"]);
    }
    assert_eq!([&step[0], &step[1]], ["step", "0"]);
    assert_ne!(step[12], "0", "pairs tested");
}

/// By hand: without a turn one step is made with the sample of step 0, at
/// Machine Position 10, and tenths, tach and detectors are 0.
#[test]
fn cases_f_and_p_by_hand() {
    // 11 stands alone: three numbers of 0, and 8 in the third place of four.
    assert_eq!(bench("f", 1), format!("f 1 {}\n", 31 * 8));
    let step = &lines_of_cycles(0)[5];
    assert_eq!(step[..5], ["step", "0", "10", "0", "0"]);
}

#[test]
fn wrong_arguments_show_the_usage() {
    for arguments in [
        &["g", "1"][..],
        &["c"],
        &["a"],
        &["a", "-1"],
        &["a", "4294967296"],
    ] {
        let output = run_with_arguments(env!("CARGO_BIN_EXE_bench"), arguments);
        assert_eq!(output.status.code(), Some(2));
    }
}
