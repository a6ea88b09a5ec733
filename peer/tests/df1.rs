//! Frames of the serial link: request 3 of document 02 and its open points
//! by letter.

use std::collections::BTreeSet;

use peer::df1::{read_frame, write_frame};
use peer::replay;
use peer::Refusal::{self, FrameBuffer, FrameData, FrameForm};

/// What a byte of a buffer is before a call.
const BEFORE: u8 = 0xee;

/// The frame written into a buffer that is longer than any frame. The bytes
/// behind it are left.
fn frame(data: &[u8]) -> Vec<u8> {
    let mut buffer = [BEFORE; 500];
    let length = write_frame(data, &mut buffer).expect("written");
    assert!(buffer[length..].iter().all(|&byte| byte == BEFORE));
    buffer[..length].to_vec()
}

/// The data read into a buffer that is longer than any. The bytes behind
/// them are left.
fn data(input: &[u8]) -> Result<Vec<u8>, Refusal> {
    let mut buffer = [BEFORE; 300];
    match read_frame(input, &mut buffer) {
        Ok(length) => {
            assert!(buffer[length..].iter().all(|&byte| byte == BEFORE));
            Ok(buffer[..length].to_vec())
        }
        Err(refusal) => {
            assert_eq!(buffer, [BEFORE; 300], "touched");
            Err(refusal)
        }
    }
}

fn assert_frame(bytes: &[u8], expected: &[u8]) {
    assert_eq!(frame(bytes), expected);
    assert_eq!(data(expected).as_deref(), Ok(bytes));
}

/// Refused 17 whatever the buffer's length.
fn assert_no_frame(input: &[u8]) {
    for capacity in [0, 1, 243, 244, 245, 600] {
        let mut buffer = vec![BEFORE; capacity];
        assert_eq!(read_frame(input, &mut buffer), Err(FrameForm), "{input:x?}");
        assert_eq!(buffer, vec![BEFORE; capacity]);
    }
}

/// The sum on wide numbers, and what is missing to a multiple of 256.
fn check(data: &[u8]) -> u8 {
    let sum: u32 = data.iter().map(|&byte| u32::from(byte)).sum();
    ((256 - sum % 256) % 256) as u8
}

/// The frame by the words of the request, for data of any length.
fn expected_frame(data: &[u8]) -> Vec<u8> {
    let mut frame = vec![0x10, 0x02];
    for &byte in data {
        frame.push(byte);
        if byte == 0x10 {
            frame.push(0x10);
        }
    }
    frame.extend([0x10, 0x03, check(data)]);
    frame
}

/// Data of a length: all alike, counting, and with DLE, STX and ETX.
fn samples(length: usize) -> [Vec<u8>; 5] {
    let counting = |step: usize| (0..length).map(|place| (place * step) as u8).collect();
    [
        vec![0x10; length],
        vec![0xff; length],
        counting(1),
        counting(0x39),
        (0..length)
            .map(|place| [0x10, 0x03, 0x02, 0x10][place % 4])
            .collect(),
    ]
}

#[test]
fn refusals_have_their_numbers() {
    assert_eq!(
        [FrameData, FrameBuffer, FrameForm].map(Refusal::number),
        [15, 16, 17]
    );
}

#[test]
fn frames_by_hand() {
    assert_frame(&[0], &[0x10, 0x02, 0x00, 0x10, 0x03, 0x00]);
    assert_frame(&[1], &[0x10, 0x02, 0x01, 0x10, 0x03, 0xff]);
    assert_frame(
        &[0x41, 0x42, 0x43],
        &[0x10, 0x02, 0x41, 0x42, 0x43, 0x10, 0x03, 0x3a],
    );
    // STX and ETX alone are data as any other.
    assert_frame(&[0x02, 0x03], &[0x10, 0x02, 0x02, 0x03, 0x10, 0x03, 0xfb]);
    // DLE ETX among the data: 10h + 03h is 13h.
    assert_frame(
        &[0x10, 0x03],
        &[0x10, 0x02, 0x10, 0x10, 0x03, 0x10, 0x03, 0xed],
    );
    // 255 and 2 wrap to 1.
    assert_frame(&[0xff, 0x02], &[0x10, 0x02, 0xff, 0x02, 0x10, 0x03, 0xff]);
}

#[test]
fn every_length_is_written_and_read_back() {
    for length in 1..=244 {
        for bytes in samples(length) {
            let expected = expected_frame(&bytes);
            assert_frame(&bytes, &expected);
            // A buffer of exactly the needed length is enough, one byte less
            // is not.
            let needed = expected.len();
            let mut buffer = vec![BEFORE; needed];
            assert_eq!(write_frame(&bytes, &mut buffer), Ok(needed));
            assert_eq!(buffer, expected);
            for capacity in [0, 1, needed - 1] {
                let mut buffer = vec![BEFORE; capacity];
                assert_eq!(write_frame(&bytes, &mut buffer), Err(FrameBuffer));
                assert_eq!(buffer, vec![BEFORE; capacity]);
            }
            let mut buffer = vec![BEFORE; length];
            assert_eq!(read_frame(&expected, &mut buffer), Ok(length));
            assert_eq!(buffer, bytes);
            for capacity in [0, length / 2, length - 1] {
                let mut buffer = vec![BEFORE; capacity];
                assert_eq!(read_frame(&expected, &mut buffer), Err(FrameBuffer));
                assert_eq!(buffer, vec![BEFORE; capacity]);
            }
        }
    }
}

#[test]
fn data_of_0_or_over_244_bytes_are_refused_15() {
    for length in [0, 245, 246, 256, 300, 500, 65535] {
        // 15 before 16: whether the buffer is long enough or not.
        for capacity in [0, 5, 493, 65535] {
            let mut buffer = vec![BEFORE; capacity];
            let answer = write_frame(&vec![7; length], &mut buffer);
            assert_eq!(answer, Err(FrameData));
            assert_eq!(buffer, vec![BEFORE; capacity]);
        }
    }
}

/// The line of the replay program for a call.
fn line(opcode: u16, capacity: u16, words: &[u16]) -> String {
    let call = [&[opcode, capacity, words.len() as u16], words].concat();
    let bytes: Vec<u8> = call.iter().flat_map(|word| word.to_le_bytes()).collect();
    let mut output = Vec::new();
    replay::run(&bytes[..], &mut output).expect("writing to memory");
    String::from_utf8(output).expect("text")
}

#[test]
fn r3a_the_length_on_a_refusal_is_0() {
    assert_eq!(line(9, 2, &[]), "frame 15 0 eeee\n");
    assert_eq!(line(9, 2, &[5]), "frame 16 0 eeee\n");
    assert_eq!(line(10, 2, &[5]), "data 17 0 eeee\n");
    let frame = [0x10, 0x02, 1, 2, 3, 0x10, 0x03, 0xfa];
    assert_eq!(line(10, 2, &frame), "data 16 0 eeee\n");
}

#[test]
fn r3b_form_check_and_number_before_the_buffer() {
    let mut buffer = [BEFORE; 2];
    let frame = [0x10, 0x02, 1, 2, 3, 0x10, 0x03, 0xfa];
    assert_eq!(read_frame(&frame, &mut buffer), Err(FrameBuffer));
    for place in 0..frame.len() {
        let mut spoilt = frame;
        spoilt[place] ^= 0x20;
        assert_eq!(read_frame(&spoilt, &mut buffer), Err(FrameForm));
    }
    let long = expected_frame(&[9; 245]);
    assert_eq!(read_frame(&long, &mut buffer), Err(FrameForm));
    assert_eq!(write_frame(&[9; 245], &mut buffer), Err(FrameData));
    assert_eq!(write_frame(&[9; 244], &mut buffer), Err(FrameBuffer));
    assert_eq!(buffer, [BEFORE; 2]);
    assert_eq!(read_frame(&frame, &mut [BEFORE; 3]), Ok(3));
    assert_eq!(write_frame(&[1, 2, 3], &mut [BEFORE; 8]), Ok(8));
    assert_eq!(write_frame(&[1, 2, 3], &mut [BEFORE; 7]), Err(FrameBuffer));
}

#[test]
fn r3c_dle_with_another_byte_behind_it() {
    for other in (0..=255).filter(|&other| other != 0x10) {
        for counted in [&[other][..], &[0x10, other]] {
            assert_no_frame(&[0x10, 0x02, 0x10, other, 0x10, 0x03, check(counted)]);
            let with_more = [&[5][..], counted, &[6]].concat();
            assert_no_frame(&[0x10, 0x02, 5, 0x10, other, 6, 0x10, 0x03, check(&with_more)]);
        }
    }
    // A lone DLE as the last data byte pairs with the end's.
    for sum in [&[5][..], &[5, 0x10]] {
        assert_no_frame(&[0x10, 0x02, 5, 0x10, 0x10, 0x03, check(sum)]);
    }
    assert_no_frame(&[0x10, 0x02, 0x10, 0x10, 0x03, 0xf0]);
}

#[test]
fn r3d_bytes_before_and_after() {
    let one = expected_frame(&[1, 2]);
    let two = expected_frame(&[0xf0]);
    for byte in 0..=255 {
        assert_no_frame(&[&[byte][..], &one].concat());
        assert_no_frame(&[&one[..], &[byte]].concat());
        assert_no_frame(&[&two[..], &[byte]].concat());
    }
    assert_no_frame(&[&one[..], &two].concat());
    assert_no_frame(&[&one[..], &one].concat());
}

#[test]
fn r3e_no_data_and_over_244() {
    assert_no_frame(&[0x10, 0x02, 0x10, 0x03, 0x00]);
    for length in [245, 246, 300, 488, 489, 65000] {
        for bytes in samples(length) {
            assert_no_frame(&expected_frame(&bytes));
        }
    }
}

#[test]
fn r3f_a_check_byte_of_10h_stands_alone() {
    assert_frame(&[0xf0], &[0x10, 0x02, 0xf0, 0x10, 0x03, 0x10]);
    assert_no_frame(&[0x10, 0x02, 0xf0, 0x10, 0x03, 0x10, 0x10]);
    assert_frame(
        &[0x10, 0xe0],
        &[0x10, 0x02, 0x10, 0x10, 0xe0, 0x10, 0x03, 0x10],
    );
}

#[test]
fn r3g_a_doubled_dle_counts_once() {
    assert_frame(&[0x10], &[0x10, 0x02, 0x10, 0x10, 0x10, 0x03, 0xf0]);
    assert_no_frame(&[0x10, 0x02, 0x10, 0x10, 0x10, 0x03, 0xe0]);
    assert_frame(&[0x80, 0x80], &[0x10, 0x02, 0x80, 0x80, 0x10, 0x03, 0x00]);
    // Sixteen DLEs have the sum 0 however they are counted.
    assert_eq!(frame(&[0x10; 16])[34..], [0x10, 0x03, 0x00]);
    assert_eq!(frame(&[0x10; 17])[36..], [0x10, 0x03, 0xf0]);
}

#[test]
fn r3h_framing_only() {
    for symbol in [0x05, 0x06, 0x15] {
        assert_no_frame(&[0x10, symbol]);
        assert_eq!(data(&frame(&[symbol])), Ok(vec![symbol]));
        assert_eq!(data(&frame(&[0x10, symbol])), Ok(vec![0x10, symbol]));
    }
}

#[test]
fn r3i_the_longest_frame() {
    let longest = frame(&[0x10; 244]);
    assert_eq!(longest.len(), 493);
    // 244 × 10h is F40h: 40h, and C0h with it is 100h.
    assert_eq!(longest[..4], [0x10, 0x02, 0x10, 0x10]);
    assert_eq!(longest[490..], [0x10, 0x03, 0xc0]);
    assert_eq!(data(&longest), Ok(vec![0x10; 244]));
    // 489 and more bytes that are not doubled, or that are.
    assert_no_frame(&expected_frame(&[1; 488]));
    assert_no_frame(&expected_frame(&[0x10; 245]));
    for length in [494, 652, 65535] {
        assert_no_frame(&vec![0x10; length]);
        let mut input = longest.clone();
        input.resize(length, 0);
        assert_no_frame(&input);
    }
}

#[test]
fn r3j_the_rest_of_the_buffer_is_left() {
    let mut buffer: Vec<u8> = (0..20).collect();
    let expected = [0x10, 0x02, 0x55, 0x10, 0x03, 0xab];
    assert_eq!(write_frame(&[0x55], &mut buffer), Ok(6));
    assert_eq!(buffer[..6], expected);
    assert_eq!(buffer[6..], (6..20).collect::<Vec<u8>>());
    let mut buffer: Vec<u8> = (0..20).collect();
    assert_eq!(read_frame(&expected, &mut buffer), Ok(1));
    assert_eq!(buffer[0], 0x55);
    assert_eq!(buffer[1..], (1..20).collect::<Vec<u8>>());
}

/// On eight bits: every sum has its check byte, and no other is taken.
#[test]
fn r3k_every_check_byte() {
    for byte in 0..=255 {
        for second in [0, 1, 0x10, 0x7f, 0xff] {
            let expected = check(&[byte, second]);
            let mut written = frame(&[byte, second]);
            let last = written.len() - 1;
            assert_eq!(written[last], expected);
            for wrong in (0..=255).filter(|&wrong| wrong != expected) {
                written[last] = wrong;
                assert_eq!(data(&written), Err(FrameForm));
            }
        }
    }
}

#[test]
fn every_cut_is_refused() {
    for bytes in samples(20).iter().chain(&samples(1)) {
        let whole = frame(bytes);
        for length in 0..whole.len() {
            assert_no_frame(&whole[..length]);
            assert_no_frame(&whole[length + 1..]);
        }
    }
}

#[test]
fn every_change_of_one_byte_is_refused() {
    for bytes in [&[0x10][..], &[0xf0], &[0x00], &[0x10, 0x03], &[0x03, 0x10]] {
        let whole = frame(bytes);
        for place in 0..whole.len() {
            for difference in 1..=255 {
                let mut changed = whole.clone();
                changed[place] = changed[place].wrapping_add(difference);
                assert_eq!(data(&changed), Err(FrameForm));
            }
        }
    }
}

/// All inputs of up to seven bytes of few values: exactly those are read that
/// are written from some data.
#[test]
fn an_accepted_input_is_what_the_writer_makes_of_its_data() {
    const VALUES: [u8; 6] = [0x10, 0x02, 0x03, 0x00, 0xf0, 0xfd];
    let longer = |strings: &[Vec<u8>]| -> Vec<Vec<u8>> {
        strings
            .iter()
            .flat_map(|string| VALUES.map(|value| [&string[..], &[value]].concat()))
            .collect()
    };
    let one = longer(&[vec![]]);
    let two = longer(&one);
    let frames: BTreeSet<Vec<u8>> = [one, two].concat().iter().map(|data| frame(data)).collect();
    let mut inputs = vec![vec![]];
    let mut accepted = 0;
    for _ in 0..7 {
        inputs = longer(&inputs);
        for input in &inputs {
            assert_eq!(data(input).is_ok(), frames.contains(input), "{input:x?}");
            accepted += usize::from(data(input).is_ok());
        }
    }
    // Those whose check byte is of the values, too: 00, 03, 10, F0 and FD; 00
    // twice; 00 and 03, 00 and F0, 00 and FD, 03 and FD in both orders.
    assert_eq!(accepted, 5 + 1 + 4 * 2);
}
