//! The trace program.

mod common;

use common::{
    command, group_file, limit_file, real_group, setup_file, ALWAYS, INDEPENDENT, TRANSMIT,
};
use peer::camrun::run;

fn bytes(words: &[u16]) -> Vec<u8> {
    words.iter().flat_map(|word| word.to_le_bytes()).collect()
}

fn lines_of(input: &[u8]) -> String {
    let mut output = Vec::new();
    run(input, &mut output).expect("writing to memory");
    String::from_utf8(output).expect("text")
}

fn lines(words: &[u16]) -> String {
    lines_of(&bytes(words))
}

/// Document 01's input.
const EXAMPLE: [u16; 24] = [
    1, 8513, 0, 0, 0, 2, 10, 0, 0, 0, 0, 5, 4, 0, 0, 1023, 0, 0, 0, 0, 0, 0, 0, 0,
];
const EXAMPLE_LINES: &str = "1 10 0 0001 0000\n2 1023 0 0000 0000\n";

/// A whole trace: module, three sections as given, and samples.
fn trace(sections: [&[u16]; 3], samples: &[[u16; 9]]) -> Vec<u16> {
    let mut words = vec![1, 8513];
    for section in sections {
        words.push(section.len() as u16);
        words.extend(section);
    }
    words.push(samples.len() as u16);
    words.extend(samples.iter().flatten());
    words
}

#[test]
fn example_of_document_01() {
    assert_eq!(lines(&EXAMPLE), EXAMPLE_LINES);
}

#[test]
fn program_from_standard_input_to_output() {
    assert_eq!(
        common::run_program(env!("CARGO_BIN_EXE_camrun"), &bytes(&EXAMPLE)),
        EXAMPLE_LINES
    );
    assert_eq!(
        common::run_program(env!("CARGO_BIN_EXE_camrun"), &[1]),
        "bad\n"
    );
}

#[test]
fn empty_input_is_bad() {
    assert_eq!(lines_of(&[]), "bad\n");
}

#[test]
fn input_cut_anywhere_is_bad() {
    let whole = bytes(&EXAMPLE);
    for length in 0..whole.len() {
        let expected = if length < 30 {
            "bad\n".to_string()
        } else {
            "1 10 0 0001 0000\nbad\n".to_string()
        };
        assert_eq!(lines_of(&whole[..length]), expected, "{length} bytes");
    }
}

#[test]
fn trailing_bytes_are_bad() {
    let mut input = bytes(&EXAMPLE);
    input.push(0);
    assert_eq!(lines_of(&input), format!("{EXAMPLE_LINES}bad\n"));
    input.push(0);
    assert_eq!(lines_of(&input), format!("{EXAMPLE_LINES}bad\n"));
}

#[test]
fn no_samples_print_nothing() {
    assert_eq!(lines(&[1, 8511, 0, 0, 0, 0]), "");
}

#[test]
fn wrong_counts_are_bad_at_once() {
    assert_eq!(lines(&[0]), "bad\n");
    assert_eq!(lines(&[2, 8513, 0]), "bad\n");
    assert_eq!(lines(&[1, 8513, 19]), "bad\n");
    assert_eq!(lines(&[1, 8513, 0, 79]), "bad\n");
    assert_eq!(lines(&[1, 8513, 0, 0, 629]), "bad\n");
    // The groups of a setup section's length.
    assert_eq!(lines(&[1, 8513, 0, 20]), "bad\n");
}

#[test]
fn unknown_module_ends_the_trace() {
    assert_eq!(lines(&[1, 8514]), "refused 3\n");
    assert_eq!(lines(&[1, 8514, 77, 78, 79]), "refused 3\n");
    let mut odd = bytes(&[1, 0]);
    odd.push(9);
    assert_eq!(lines_of(&odd), "refused 3\n");
}

#[test]
fn programmed_trace() {
    let setup = setup_file(&[(1, 1000), (3, 100), (11, 0xffff)]);
    let groups = group_file(&[[real_group(0, 2), 0, 0, 0]]);
    // Output 1 holds from 300 to 399.
    let limits = limit_file(&[(1, &[0, 0, 0, 300, 400])]);
    let words = trace(
        [&setup[..20], &groups[20..100], &limits[..630]],
        &[
            [204, 0, 0, 0, 0, 0, 0, 0, 0],
            [205, 0, 0, 0, 0, 0, 0, 0, 0],
            [205, 0, 0, 0, 0, 0, 1, 0xf0, 0x30],
        ],
    );
    // 204 × 1000 / 1024 is 199, 205 × 1000 / 1024 is 200.
    assert_eq!(
        lines(&words),
        "1 299 0 0000 0000\n2 300 0 0001 0000\n3 300 0 0000 00c0\n"
    );
}

#[test]
fn refused_cycles_print_and_samples_run() {
    let setup = setup_file(&[(1, 1), command(0)]);
    let groups = group_file(&[[real_group(0, 2), 0, 0, 0]]);
    let limits = limit_file(&[(1, &ALWAYS)]);
    let words = trace(
        [&setup[..20], &groups[20..100], &limits[..630]],
        &[[7, 0, 0, 0, 0, 0, 0, 0, 0]],
    );
    assert_eq!(
        lines(&words),
        "refused 6\nrefused 5\nrefused 5\n1 7 0 0000 0000\n"
    );
}

#[test]
fn group_and_limit_refusals_print_their_numbers() {
    let setup = setup_file(&[]);
    let mut groups = group_file(&[[real_group(6, 2), 0, 0, 0]]);
    let mut limits = limit_file(&[(1, &ALWAYS)]);
    limits[0] |= 1;
    let words = trace([&setup[..20], &groups[20..100], &limits[..630]], &[]);
    assert_eq!(lines(&words), "refused 7\nrefused 8\n");
    groups[22] = real_group(0, 2);
    let words = trace([&setup[..20], &groups[20..100], &limits[..630]], &[]);
    assert_eq!(lines(&words), "");
}

#[test]
fn section_without_transmit_is_idle() {
    let mut setup = setup_file(&[(1, 100)]);
    setup[0] = 1;
    let mut groups = group_file(&[]);
    groups[20] = TRANSMIT;
    let words = trace(
        [&setup[..20], &groups[20..100], &[]],
        &[[1000, 0, 0, 0, 0, 0, 0, 0, 0]],
    );
    // The defaults and SUErr stand.
    assert_eq!(lines(&words), "refused 5\n1 1000 0 0000 0000\n");
}

#[test]
fn step_answered_11_prints_as_usual() {
    let words = trace(
        [&[], &[], &[]],
        &[
            [400, 0, 0, 0, 0, 0, 0, 0, 0],
            [1024, 0, 0, 0, 0, 2, 0, 1, 0],
            [500, 0, 0, 0, 0, 0, 0, 0, 0],
        ],
    );
    assert_eq!(
        lines(&words),
        "1 400 0 0000 0000\n2 400 0 0002 0001\n3 400 0 0000 0000\n"
    );
}

#[test]
fn setup_section_acts_though_the_next_is_short() {
    let setup = setup_file(&[(1, 1)]);
    let mut words = vec![1, 8512, 20];
    words.extend(&setup[..20]);
    assert_eq!(lines(&words), "refused 6\nbad\n");
    // A section that is not whole does not act.
    words.pop();
    assert_eq!(lines(&words), "bad\n");
}

#[test]
fn tach_is_printed_in_decimal() {
    // TResp 1, 599 movements of 2 counts: 1198 counts in 120 ms, 5850
    // tenths; times 3, by 10, that is 1755.
    let setup = setup_file(&[command(0x20 | INDEPENDENT), (8, 3)]);
    let samples: Vec<[u16; 9]> = (0..600u16)
        .map(|step| [step * 2 % 1024, 0, 0, 0, 0, 0, 0, 0, 0])
        .collect();
    let text = lines(&trace([&setup[..20], &[], &[]], &samples));
    let last: Vec<&str> = text.lines().skip(598).collect();
    assert_eq!(last, ["599 172 0 0000 0000", "600 174 1755 0000 0000"]);
}

#[test]
fn sample_count_is_all_16_bits() {
    let mut words = vec![1, 8511, 0, 0, 0, 65535];
    words.extend([5; 9].iter().cycle().take(9 * 65535));
    let text = lines(&words);
    assert_eq!(text.lines().count(), 65535);
    assert_eq!(text.lines().last(), Some("65535 5 0 0000 0000"));
}
