//! The replay program: one line for each call.

mod common;

use common::{
    command, group_file, limit_file, sample, setup_file, virtual_group, ALWAYS, INDEPENDENT,
    NUDGE_CLEAR, NUDGE_ON, SLCINT, TRANSMIT,
};
use peer::replay::run;

fn bytes(words: &[u16]) -> Vec<u8> {
    words.iter().flat_map(|word| word.to_le_bytes()).collect()
}

fn lines_of(input: &[u8]) -> String {
    let mut output = Vec::new();
    run(input, &mut output).expect("writing to memory");
    String::from_utf8(output).expect("text")
}

/// A list of calls.
#[derive(Default)]
struct Calls(Vec<u16>);

impl Calls {
    fn power(mut self, number: u16) -> Calls {
        self.0.extend([0, number]);
        self
    }

    fn file(mut self, opcode: u16, file: &[u16]) -> Calls {
        self.0.extend([opcode, file.len() as u16]);
        self.0.extend(file);
        self
    }

    fn nudge(mut self, word: u16) -> Calls {
        self.0.extend([4, word]);
        self
    }

    fn step(mut self, words: [u16; 9]) -> Calls {
        self.0.push(5);
        self.0.extend(words);
        self
    }

    fn block(mut self, which: u16, number: u16, m0: &[u16], m1: &[u16]) -> Calls {
        self.0.extend([6, which, number, m0.len() as u16]);
        self.0.extend(m0);
        self.0.push(m1.len() as u16);
        self.0.extend(m1);
        self
    }

    fn read(mut self, offset: u16) -> Calls {
        self.0.extend([7, offset]);
        self
    }

    fn write(mut self, offset: u16, value: u16) -> Calls {
        self.0.extend([8, offset, value]);
        self
    }

    fn write_frame(mut self, capacity: u16, words: &[u16]) -> Calls {
        self.0.extend([9, capacity, words.len() as u16]);
        self.0.extend(words);
        self
    }

    fn read_frame(mut self, capacity: u16, words: &[u16]) -> Calls {
        self.0.extend([10, capacity, words.len() as u16]);
        self.0.extend(words);
        self
    }

    fn columns(mut self, out_words: u16, words: &[u16]) -> Calls {
        self.0.extend([11, out_words, words.len() as u16]);
        self.0.extend(words);
        self
    }

    fn rows(mut self, out_words: u16, words: &[u16]) -> Calls {
        self.0.extend([12, out_words, words.len() as u16]);
        self.0.extend(words);
        self
    }

    fn lines(&self) -> String {
        lines_of(&bytes(&self.0))
    }
}

fn calls() -> Calls {
    Calls::default()
}

#[test]
fn program_from_standard_input_to_output() {
    let list = bytes(&calls().power(8511).step(sample(5, 0, 0)).0);
    assert_eq!(
        common::run_program(env!("CARGO_BIN_EXE_replay"), &list),
        "power 0\nstep 0 5 0 0 0 0 0 0000 0000 0 0 0\n"
    );
    assert_eq!(
        common::run_program(env!("CARGO_BIN_EXE_replay"), &[9, 9, 9]),
        "bad\n"
    );
}

#[test]
fn empty_list_prints_nothing() {
    assert_eq!(lines_of(&[]), "");
}

#[test]
fn power_lines() {
    let list = calls().power(8511).power(1).power(8513);
    assert_eq!(list.lines(), "power 0\npower 3\npower 0\n");
}

#[test]
fn calls_without_a_module() {
    let list = calls()
        .file(1, &[0; 120])
        .file(2, &[1, 2])
        .file(3, &[])
        .nudge(5)
        .step([0; 9])
        .read(0)
        .write(17, 1)
        .power(8514)
        .read(18)
        .write(0, 0)
        .step([0; 9]);
    assert_eq!(
        list.lines(),
        "none\nnone\nnone\nnone\nnone\nnone\nnone\npower 3\nnone\nnone\nnone\n"
    );
}

#[test]
fn refused_power_up_keeps_the_module() {
    let list = calls()
        .power(8512)
        .step([9, 0, 0, 0, 0, 0xffff, 0, 0, 0])
        .power(0)
        .step([1024, 0, 0, 0, 0, 0xffff, 0, 0, 0]);
    assert_eq!(
        list.lines(),
        "power 0\nstep 0 9 0 0 0 0 0 00ff 0000 0 0 0\npower 3\nstep 11 9 0 0 0 0 0 00ff 0000 0 0 0\n"
    );
}

#[test]
fn power_up_replaces_the_module() {
    let list = calls()
        .power(8512)
        .step(sample(1024, 0, 0))
        .power(8512)
        .step(sample(7, 0, 0));
    assert_eq!(
        list.lines(),
        "power 0\nstep 11 0 0 0 0 0 0 0000 0000 0 0 0\npower 0\nstep 0 7 0 0 0 0 0 0000 0000 0 0 0\n"
    );
}

#[test]
fn setup_lines() {
    let zeros = "0000 0000 0000 0000 0000 0000 0000 0000";
    let list = calls()
        .power(8513)
        .file(1, &setup_file(&[(0, TRANSMIT)]))
        .file(1, &setup_file(&[]))
        .file(1, &setup_file(&[(0, 1), (100, 0xabcd)]))
        .file(1, &setup_file(&[(1, 1000), (3, 715)]))
        .file(1, &[0x8001; 119]);
    assert_eq!(
        list.lines(),
        format!(
            "power 0\n\
             setup 5 1 01 0 1 4000 0000 {zeros}\n\
             setup idle 1 01 0 1 0000 0000 {zeros}\n\
             setup idle 0 01 0 1 abcd 0000 {zeros}\n\
             setup 0 1 00 0 0 0000 02cb {zeros}\n\
             setup 1 1 00 0 0\n"
        )
    );
}

#[test]
fn group_lines() {
    let zeros = "0000 0000 0000 0000 0000 0000 0000";
    let mut clearing = group_file(&[[virtual_group(0, 1), 0, 0, 10]]);
    clearing[20] |= 1;
    let list = calls()
        .power(8513)
        .file(2, &clearing)
        .step(sample(100, 0, 0))
        .file(2, &[0; 120])
        .file(2, &group_file(&[[virtual_group(6, 0), 5, 5, 2000]]))
        .file(2, &[]);
    assert_eq!(
        list.lines(),
        format!(
            "power 0\n\
             group 0 2 00 0 0 0000 0000 0000 {zeros}\n\
             step 0 100 0 0 0 0 0 0000 0000 0 0 0\n\
             group idle 0 00 0 0 0000 0000 0000 {zeros}\n\
             group 7 2 02 0 0 0007 0001 006e {zeros}\n\
             group 1 2 02 0 0\n"
        )
    );
}

#[test]
fn limit_and_nudge_lines() {
    let zeros = ["0000"; 18].join(" ");
    let list = calls()
        .power(8513)
        .file(1, &setup_file(&[command(INDEPENDENT | SLCINT)]))
        .file(3, &limit_file(&[(17, &ALWAYS), (19, &ALWAYS)]))
        .step(sample(5, 0, 0))
        .nudge(TRANSMIT | NUDGE_ON | 17)
        .nudge(TRANSMIT | NUDGE_CLEAR)
        .nudge(0)
        .nudge(TRANSMIT | NUDGE_ON | 16)
        .file(3, &limit_file(&[]))
        .file(3, &[0; 650])
        .file(3, &limit_file(&[(2, &[3])]))
        .file(3, &[0; 120])
        .step(sample(2000, 0, 0))
        .nudge(0);
    let setup_zeros = ["0000"; 10].join(" ");
    assert_eq!(
        list.lines(),
        format!(
            "power 0\n\
             setup 0 1 00 0 0 {setup_zeros}\n\
             limit 0 5 00 0 0 0000 0000 {zeros}\n\
             step 0 5 0 0 0 0 0 0000 0005 2 0 2\n\
             nudge 9 d 08 0 0\n\
             nudge idle d 08 0 0\n\
             nudge idle 5 08 0 0\n\
             nudge 5 d 08 0 1\n\
             limit idle d 08 0 1 0000 0000 {zeros}\n\
             limit idle 9 08 0 1 0000 0000 {zeros}\n\
             limit 5 d 08 0 1 4000 0000 {zeros}\n\
             limit 2 d 08 0 1\n\
             step 11 5 0 0 0 0 0 0000 0000 2 0 0\n\
             nudge idle 5 08 1 1\n"
        )
    );
}

#[test]
fn step_line_has_all_readings() {
    // 511 counts a step: 1496476 tenths after 2520 steps; both detectors above
    // 30000 rpm.
    let list = (0..2520u32).fold(
        calls()
            .power(8511)
            .file(1, &setup_file(&[(4, 30000), (5, 1), (6, 30000), (7, 2)])),
        |list, step| list.step([(step * 511 % 1024) as u16, 0, 0, 0, 0, 0, 0, 0x8000, 0]),
    );
    let text = list.lines();
    // 2519 × 511 mod 1024 is 41.
    assert_eq!(
        text.lines().last(),
        Some("step 0 41 1496476 32767 1 1 1 0000 8000 0 0 0")
    );
}

#[test]
fn block_lines() {
    let m0: Vec<u16> = (0..120).collect();
    let m1: Vec<u16> = (0x1000..0x128a).collect();
    let list = calls()
        .block(0, 2, &m0, &m1)
        .block(1, 1, &m0, &m1)
        .block(9, 32, &m0, &m1)
        .block(0, 7, &m0, &m1)
        .block(1, 0, &m0, &m1)
        .block(0, 1, &m0[1..], &m1[1..])
        .block(0, 1, &m0, &m1[1..]);
    let words = |first: u16| -> String {
        (first..first + 19)
            .map(|word| format!(" {word:04x}"))
            .collect()
    };
    assert_eq!(
        list.lines(),
        format!(
            "block 0 001a 001b 001c 001d\nblock 0{}\nblock 0{}\nblock 4\nblock 4\nblock 1\nblock 2\n",
            words(0x1002),
            words(0x1000 + 591)
        )
    );
}

/// docs/REPLAY.md's list: a setup that is accepted, a step with two virtual
/// outputs forced on, then byte accesses. SLCINT is clear.
#[test]
fn byte_lines() {
    let mut m0 = vec![0x8001, 1024, 0, 0, 0, 0, 0, 0, 1, 1, 0, 0];
    m0.resize(120, 0);
    let list = calls()
        .power(8511)
        .file(1, &m0)
        .step([7, 0, 0, 0, 0, 0, 0, 3, 0])
        .write(17, 1)
        .read(0)
        .read(0x13);
    assert_eq!(
        list.lines(),
        format!(
            "power 0\n\
             setup 0 1 00 0 0 {}\n\
             step 0 7 0 0 0 0 0 0000 0003 0 0 0\n\
             write 0 0\n\
             read 0 00\n\
             read 13 00\n",
            ["0000"; 10].join(" ")
        )
    );
}

#[test]
fn read_and_write_lines() {
    let list = calls()
        .power(8513)
        .read(0)
        .read(1)
        .file(1, &setup_file(&[command(SLCINT), (11, 0xffff)]))
        .step([300, 0xbeef, 0, 0, 0, 0, 0, 0x00c0, 0])
        .read(0)
        .read(1)
        .read(2)
        .read(3)
        .read(8)
        .read(10)
        .read(11)
        .read(15)
        .read(16)
        .read(18)
        .read(65535);
    let text = list.lines();
    let read: Vec<&str> = text
        .lines()
        .filter_map(|line| line.strip_prefix("read "))
        .collect();
    assert_eq!(
        read.join(", "),
        "0 01, 0 00, 0 00, 0 20, 0 2c, 0 01, 0 c0, 0 ef, 0 be, 0 00, 0 01, 13 00, 13 00"
    );
}

/// The level after each step and each write, refused ones too.
#[test]
fn the_line_in_the_lines() {
    let forced = |on| [0, 0, 0, 0, 0, 0, 0, on, 0];
    let list = calls()
        .power(8511)
        .file(1, &setup_file(&[command(SLCINT)]))
        .write(17, 1)
        .step(forced(1))
        .step(forced(1))
        .write(15, 1)
        .write(18, 1)
        .write(17, 0)
        .write(17, 1)
        .step([1024, 0, 0, 0, 0, 0, 0, 1, 0])
        .write(16, 1)
        .step(forced(3));
    let lines = list.lines();
    let lines: Vec<&str> = lines.lines().skip(2).collect();
    assert_eq!(
        lines,
        [
            "write 0 0",
            "step 0 0 0 0 0 0 0 0000 0001 1 1 0",
            "step 0 0 0 0 0 0 0 0000 0001 0 1 0",
            "write 14 1",
            "write 13 1",
            "write 0 0",
            "write 0 1",
            "step 11 0 0 0 0 0 0 0000 0001 0 1 0",
            "write 0 0",
            "step 11 0 0 0 0 0 0 0000 0003 1 1 0",
        ]
    );
}

/// Only a power-up that is not refused.
#[test]
fn power_up_drops_request_and_mask() {
    let list = calls()
        .power(8511)
        .file(1, &setup_file(&[command(SLCINT)]))
        .write(17, 1)
        .step([0, 0, 0, 0, 0, 0, 0, 1, 0])
        .power(8514)
        .read(16)
        .read(17)
        .power(8511)
        .read(16)
        .read(17)
        .read(8);
    let text = list.lines();
    let lines: Vec<&str> = text.lines().skip(3).collect();
    assert_eq!(
        lines.join("\n"),
        "step 0 0 0 0 0 0 0 0000 0001 1 1 0\n\
         power 3\nread 0 01\nread 0 01\n\
         power 0\nread 0 00\nread 0 00\nread 0 00"
    );
}

#[test]
fn only_the_low_byte_of_a_written_word_counts() {
    let list = calls()
        .power(8511)
        .write(17, 0x0100)
        .read(17)
        .write(17, 0xff01)
        .read(17)
        .write(0x0111, 0)
        .read(17);
    assert_eq!(
        list.lines(),
        "power 0\nwrite 0 0\nread 0 00\nwrite 0 0\nread 0 01\nwrite 13 0\nread 0 01\n"
    );
}

#[test]
fn frame_lines() {
    let list = calls()
        .write_frame(8, &[0xf0])
        .write_frame(7, &[0x10])
        .write_frame(6, &[0x10])
        .write_frame(0, &[0x10])
        .write_frame(3, &[])
        .write_frame(1, &[1; 245])
        .write_frame(0, &[1; 245]);
    assert_eq!(
        list.lines(),
        "frame 0 6 1002f0100310eeee\n\
         frame 0 7 100210101003f0\n\
         frame 16 0 eeeeeeeeeeee\n\
         frame 16 0\n\
         frame 15 0 eeeeee\n\
         frame 15 0 ee\n\
         frame 15 0\n"
    );
}

#[test]
fn data_lines() {
    let frame = [0x10, 0x02, 0x0a, 0x10, 0x10, 0x10, 0x03, 0xe6];
    let list = calls()
        .read_frame(4, &frame)
        .read_frame(2, &frame)
        .read_frame(1, &frame)
        .read_frame(0, &frame)
        .read_frame(2, &frame[1..])
        .read_frame(0, &frame[1..])
        .read_frame(1, &[]);
    assert_eq!(
        list.lines(),
        "data 0 2 0a10eeee\n\
         data 0 2 0a10\n\
         data 16 0 ee\n\
         data 16 0\n\
         data 17 0 eeee\n\
         data 17 0\n\
         data 17 0 ee\n"
    );
}

#[test]
fn only_the_low_bytes_of_frame_words_count() {
    let list = calls()
        .write_frame(6, &[0xab05])
        .read_frame(1, &[0x0110, 0xff02, 0x1005, 0x1010, 0x0203, 0x80fb]);
    assert_eq!(list.lines(), "frame 0 6 1002051003fb\ndata 0 1 05\n");
}

/// They need no module and leave the one that is there.
#[test]
fn frames_beside_a_module() {
    let list = calls()
        .write_frame(0, &[])
        .nudge(0)
        .power(8511)
        .step(sample(7, 0, 0))
        .read_frame(0, &[])
        .step([2000, 0, 0, 0, 0, 0, 0, 0, 0]);
    assert_eq!(
        list.lines(),
        "frame 15 0\nnone\npower 0\nstep 0 7 0 0 0 0 0 0000 0000 0 0 0\n\
         data 17 0\nstep 11 7 0 0 0 0 0 0000 0000 0 0 0\n"
    );
}

#[test]
fn longest_frame_calls() {
    let list = calls()
        .write_frame(65535, &[1; 65535])
        .read_frame(65535, &[0x10; 65535])
        .write_frame(65535, &[0x10; 244]);
    let text = list.lines();
    let lines: Vec<&str> = text.lines().collect();
    let untouched = "ee".repeat(65535);
    assert_eq!(lines[0], format!("frame 15 0 {untouched}"));
    assert_eq!(lines[1], format!("data 17 0 {untouched}"));
    // 244 × 10h is F40h, so that the check byte is C0h.
    let written = format!("1002{}1003c0", "1010".repeat(244));
    let rest = "ee".repeat(65535 - 493);
    assert_eq!(lines[2], format!("frame 0 493 {written}{rest}"));
}

/// Two samples.
const SECTION: [u16; 18] = [
    10, 11, 12, 13, 14, 15, 16, 17, 18, 7, 0x21, 0x22, 0x23, 0x24, 0x25, 0x26, 0x27, 0xabcd,
];
/// Their columns: 7 − 10 is FFFDh.
const COLUMNS: [u16; 18] = [
    10, 0xfffd, 11, 0x21, 12, 0x22, 13, 0x23, 14, 0x24, 15, 0x25, 16, 0x26, 17, 0x27, 18, 0xabcd,
];

#[test]
fn columns_lines() {
    let list = calls()
        .columns(18, &SECTION)
        .columns(17, &SECTION)
        .columns(2, &SECTION[1..])
        .columns(1, &[])
        .columns(0, &SECTION)
        .columns(0, &[]);
    let untouched = " eeee".repeat(17);
    assert_eq!(
        list.lines(),
        format!(
            "columns 0 000a fffd 000b 0021 000c 0022 000d 0023 000e 0024 000f 0025 0010 0026 \
             0011 0027 0012 abcd\n\
             columns 18{untouched}\n\
             columns 18 eeee eeee\n\
             columns 18 eeee\n\
             columns 18\n\
             columns 18\n"
        )
    );
}

#[test]
fn rows_lines() {
    let list = calls()
        .rows(18, &COLUMNS)
        .rows(19, &COLUMNS)
        .rows(2, &COLUMNS[1..])
        .rows(1, &[])
        .rows(0, &COLUMNS)
        .rows(0, &[]);
    let untouched = " eeee".repeat(19);
    assert_eq!(
        list.lines(),
        format!(
            "rows 0 000a 000b 000c 000d 000e 000f 0010 0011 0012 0007 0021 0022 0023 0024 0025 \
             0026 0027 abcd\n\
             rows 18{untouched}\n\
             rows 18 eeee eeee\n\
             rows 18 eeee\n\
             rows 18\n\
             rows 18\n"
        )
    );
}

/// They need no module and leave the one that is there.
#[test]
fn columns_beside_a_module() {
    let list = calls()
        .columns(0, &[])
        .nudge(0)
        .power(8511)
        .step(sample(7, 0, 0))
        .rows(0, &[])
        .step([2000, 0, 0, 0, 0, 0, 0, 0, 0]);
    assert_eq!(
        list.lines(),
        "columns 18\nnone\npower 0\nstep 0 7 0 0 0 0 0 0000 0000 0 0 0\n\
         rows 18\nstep 11 7 0 0 0 0 0 0000 0000 0 0 0\n"
    );
}

#[test]
fn longest_columns_calls() {
    let list = calls()
        .columns(65535, &[1; 65535])
        .rows(65529, &[1; 65529])
        .rows(27000, &[1; 27000])
        .columns(27000, &[1; 27000]);
    let text = list.lines();
    let lines: Vec<&str> = text.lines().collect();
    assert_eq!(lines[0], format!("columns 18{}", " eeee".repeat(65535)));
    assert_eq!(lines[1], format!("rows 18{}", " eeee".repeat(65529)));
    // The raw positions are 1 to 3,000.
    let samples: Vec<String> = (1..=3000)
        .map(|raw| format!(" {raw:04x}{}", " 0001".repeat(8)))
        .collect();
    assert_eq!(lines[2], format!("rows 0{}", samples.concat()));
    let columns = [" 0001", &" 0000".repeat(2999), &" 0001".repeat(24000)].concat();
    assert_eq!(lines[3], format!("columns 0{columns}"));
}

#[test]
fn unknown_opcode_is_bad_and_ends() {
    for opcode in [13, 14, 256 + 7, 65535] {
        assert_eq!(lines_of(&bytes(&[opcode])), "bad\n");
        assert_eq!(lines_of(&bytes(&[opcode, 0, 0, 0, 0])), "bad\n");
    }
    assert_eq!(
        lines_of(&bytes(&[0, 8511, 65535, 0, 8511])),
        "power 0\nbad\n"
    );
}

#[test]
fn p84_odd_byte_is_bad() {
    let mut input = bytes(&[0, 8511]);
    input.push(0);
    assert_eq!(lines_of(&input), "power 0\nbad\n");
    assert_eq!(lines_of(&[5]), "bad\n");
}

#[test]
fn p85_cut_calls_are_bad_with_or_without_a_module() {
    let list = [
        calls().power(8511),
        calls().file(1, &[1, 2, 3]),
        calls().file(2, &[1, 2, 3]),
        calls().file(3, &[1, 2, 3]),
        calls().nudge(3),
        calls().step([0; 9]),
        calls().block(0, 1, &[1], &[2]),
        calls().read(0),
        calls().write(17, 1),
        calls().write_frame(8, &[1, 2, 3]),
        calls().read_frame(8, &[1, 2, 3]),
        calls().columns(9, &[1, 2, 3]),
        calls().rows(9, &[1, 2, 3]),
    ];
    for call in list {
        let whole = bytes(&call.0);
        for length in 1..whole.len() {
            assert_eq!(lines_of(&whole[..length]), "bad\n");
            let after_power = [&bytes(&[0, 8511]), &whole[..length]].concat();
            assert_eq!(lines_of(&after_power), "power 0\nbad\n");
        }
    }
}

#[test]
fn longest_files() {
    let list = calls()
        .power(8513)
        .file(1, &[0x8001; 65535])
        .file(3, &[0x8001; 65535])
        .block(0, 1, &[0; 65535], &[0; 65535]);
    assert_eq!(
        list.lines(),
        "power 0\nsetup 1 0 01 0 0\nlimit 2 0 01 0 0\nblock 1\n"
    );
}
