//! The comparison: programs that agree, that differ and that fail.

mod common;

use std::process::{Command, Output};
use std::time::{Duration, Instant};

use common::{run_program, run_with_arguments};
use peer::compare::{InputKind, Programs};
use peer::generate::{
    column_list, extreme_list, length_list, pair_test_list, press_list, slow_list, train_list,
    Conversions, Extremes, Lengths, PairTests, SlowUpdates, StopPresses, Trains,
};

const REPLAY: &str = env!("CARGO_BIN_EXE_replay");
const CAMRUN: &str = env!("CARGO_BIN_EXE_camrun");

/// A program under tests/programs.
fn program(name: &str) -> String {
    format!("{}/tests/programs/{name}", env!("CARGO_MANIFEST_DIR"))
}

fn compare(arguments: &[&str]) -> Output {
    Command::new(env!("CARGO_BIN_EXE_compare"))
        .args(arguments)
        .env("REPLAY", REPLAY)
        .output()
        .expect("program runs")
}

fn text(output: &Output) -> String {
    String::from_utf8(output.stdout.clone()).expect("text")
}

/// The four numbers of the last line.
fn totals(output: &Output) -> Vec<u64> {
    let text = text(output);
    let last = text.lines().last().expect("a line");
    let numbers: Vec<u64> = last
        .split(' ')
        .filter_map(|word| word.parse().ok())
        .collect();
    let [lists, calls, steps, differences] = numbers[..] else {
        panic!("{last}");
    };
    assert_eq!(
        last,
        format!("compared {lists} lists, {calls} calls, {steps} steps, {differences} differences")
    );
    numbers
}

#[test]
fn replay_agrees_with_itself() {
    let cycles = compare(&["cycles", "30", "1", REPLAY, REPLAY]);
    let [lists, calls, steps, differences] = totals(&cycles)[..] else {
        panic!("four numbers");
    };
    assert_eq!((lists, steps, differences), (30, 0, 0));
    assert!(calls > 30 * 20);
    assert_eq!(cycles.status.code(), Some(0));
    assert_eq!(text(&cycles).lines().count(), 1);

    let steps = compare(&["steps", "3", "1", REPLAY, REPLAY]);
    assert_eq!(totals(&steps)[2], 3 * 5200);
    assert_eq!(steps.status.code(), Some(0));

    let frames = compare(&["frames", "10", "1", REPLAY, REPLAY]);
    let [lists, calls, steps, differences] = totals(&frames)[..] else {
        panic!("four numbers");
    };
    assert_eq!((lists, steps, differences), (10, 0, 0));
    assert!(calls > 10 * 30);
    assert_eq!(frames.status.code(), Some(0));
}

/// The last line has one number more.
#[test]
fn byte_accesses_are_counted() {
    let output = compare(&["bytes", "10", "1", REPLAY, REPLAY]);
    assert_eq!(output.status.code(), Some(0));
    let text = text(&output);
    let numbers: Vec<usize> = text
        .split(' ')
        .filter_map(|word| word.parse().ok())
        .collect();
    let [10, calls, steps, accesses, 0] = numbers[..] else {
        panic!("{text}");
    };
    assert_eq!(
        text,
        format!(
            "compared 10 lists, {calls} calls, {steps} steps, {accesses} byte accesses, \
             0 differences\n"
        )
    );
    let lines = (1..=10).flat_map(|seed| replay_lines(&["bytes", &seed.to_string()]));
    let lines: Vec<String> = lines.collect();
    let count = |names: &[&str]| {
        let is_one = |line: &&String| names.contains(&line.split(' ').next().unwrap_or_default());
        lines.iter().filter(is_one).count()
    };
    let expected = (lines.len(), count(&["step"]), count(&["read", "write"]));
    assert_eq!((calls, steps, accesses), expected);
    assert!(accesses > 3000);
}

/// The last line of a comparison on ten lists, without differences, counts
/// what the lists have.
fn assert_counted(kind: &str, counted: &str) {
    let output = compare(&[kind, "10", "1", REPLAY, REPLAY]);
    assert_eq!(output.status.code(), Some(0));
    let text = text(&output);
    let end = format!(" {counted}, 0 differences\n");
    assert!(
        text.starts_with("compared 10 lists, ") && text.ends_with(&end),
        "{text}"
    );
}

#[test]
fn presses_in_stop_steps_are_counted() {
    let presses: Vec<StopPresses> = (1..=10)
        .map(|seed| StopPresses::of_list(&press_list(seed)))
        .collect();
    let steps: u64 = presses.iter().map(|presses| presses.steps).sum();
    let counted: u64 = presses.iter().map(|presses| presses.counted).sum();
    assert_counted(
        "presses",
        &format!("{steps} presses in stop steps, {counted} of them counted"),
    );
    assert!(counted > 50);
}

#[test]
fn windows_at_the_ends_of_c_are_counted() {
    let extremes: Vec<Extremes> = (1..=10)
        .map(|seed| Extremes::of_list(&extreme_list(seed)))
        .collect();
    let least: u64 = extremes.iter().map(|extremes| extremes.least).sum();
    let greatest: u64 = extremes.iter().map(|extremes| extremes.greatest).sum();
    assert_counted(
        "extremes",
        &format!("{least} windows at the least C, {greatest} at the greatest"),
    );
    assert!(least > 3 && greatest > 3);
}

#[test]
fn updates_of_slow_machines_are_counted() {
    let mut updates = SlowUpdates::default();
    for seed in 1..=10 {
        updates.add(&SlowUpdates::of_list(&slow_list(seed)));
    }
    let [stops, swung, creeps, kept, qualified, pressed, at_an_end, beside, halves, rest @ ..] =
        updates.counts();
    let [not_of_rpm, not_twice, not_of_c] = rest;
    assert_counted(
        "slow",
        &format!(
            "{stops} stops, {swung} after a swing, {creeps} creeps, \
             {kept} groups kept open by them, {qualified} qualified under five tenths, \
             {pressed} opened by presses in creeps, {at_an_end} detectors at an end, \
             {beside} a tenth beside one, {halves} halves of a tenth, \
             {not_of_rpm} tachs unlike those of whole rpm, \
             {not_twice} unlike those rounded twice, {not_of_c} unlike those of C"
        ),
    );
    assert!(stops > 10 && creeps > 5, "{updates}");
}

#[test]
fn lengths_are_counted() {
    let mut lengths = Lengths::default();
    for seed in 1..=10 {
        lengths.add(&Lengths::of_list(&length_list(seed)));
    }
    let Lengths {
        below_zero,
        zero,
        one,
        all_but_one,
        all,
        over_all,
    } = lengths;
    assert_counted(
        "lengths",
        &format!(
            "{below_zero} lengths below 0, {zero} at 0, {one} at 1, \
             {all_but_one} at SF less 1, {all} at SF, {over_all} over SF"
        ),
    );
    let least = [below_zero, zero, one, all_but_one, all, over_all];
    assert!(least.iter().all(|&count| count > 10_000), "{least:?}");
}

#[test]
fn tests_are_counted() {
    let mut tests = PairTests::default();
    for seed in 1..=10 {
        tests.add(&PairTests::of_list(&pair_test_list(seed)));
    }
    let PairTests {
        at_most,
        closed,
        forced,
        blocked,
        never,
        always,
    } = tests;
    assert_counted(
        "tests",
        &format!(
            "{at_most} steps at 256, {closed} tests of closed outputs, {forced} of forced, \
             {blocked} of blocked, {never} of pairs that never hold, {always} that always hold"
        ),
    );
    let least = [at_most, closed, forced, blocked, never, always];
    assert!(least.iter().all(|&count| count > 1000), "{least:?}");
}

/// Of ten lists: steps at 256 are those whose line ends so.
#[test]
fn steps_at_256_are_those_of_the_lines() {
    let lines = (1..=10).flat_map(|seed| replay_lines(&["tests", &seed.to_string()]));
    let full = lines.filter(|line| line.starts_with("step ") && line.ends_with(" 256"));
    let counted = (1..=10).map(|seed| PairTests::of_list(&pair_test_list(seed)).at_most);
    assert_eq!(full.count() as u64, counted.sum::<u64>());
}

#[test]
fn trains_are_counted() {
    let mut trains = Trains::default();
    for seed in 1..=10 {
        trains.add(&Trains::of_list(&train_list(seed)));
    }
    let text = trains.to_string();
    assert_counted("trains", &text);
    let Trains {
        one_short,
        exact,
        bit_4,
        nudged_short,
        rises,
        whole,
        ..
    } = trains;
    let start = format!("{one_short} trains one short, {exact} exact, ");
    let end = format!(" nudged to no pair, {rises} rises, {whole} trains that rose Q times");
    assert!(text.starts_with(&start) && text.ends_with(&end), "{text}");
    assert!(text.contains(&format!(", {bit_4} words 630 with bit 4, ")));
    let least = [one_short, bit_4, nudged_short, whole / 10];
    assert!(least.iter().all(|&count| count > 20), "{text}");
}

#[test]
fn sections_turned_are_counted() {
    let mut conversions = Conversions::default();
    for seed in 1..=10 {
        conversions.add(&Conversions::of_list(&column_list(seed)));
    }
    let Conversions {
        accepted,
        refused,
        longest,
    } = conversions;
    assert_counted(
        "columns",
        &format!("{accepted} accepted, {refused} refused, {longest} of 3000 samples"),
    );
    assert!(accepted > 100 && refused > 200 && longest > 2);
}

/// Of ten lists: by the answer of each line, and its number of words.
#[test]
fn sections_turned_are_those_of_the_lines() {
    let mut conversions = Conversions::default();
    for line in (1..=10).flat_map(|seed| replay_lines(&["columns", &seed.to_string()])) {
        let fields: Vec<&str> = line.split(' ').collect();
        match fields[..] {
            ["columns" | "rows", "0", ref words @ ..] => {
                conversions.accepted += 1;
                conversions.longest += u64::from(words.len() == 9 * 3000);
            }
            ["columns" | "rows", "18", ..] => conversions.refused += 1,
            _ => {}
        }
    }
    let mut counted = Conversions::default();
    for seed in 1..=10 {
        counted.add(&Conversions::of_list(&column_list(seed)));
    }
    assert_eq!(conversions, counted);
}

/// The replay program's lines for a list.
fn replay_lines(arguments: &[&str]) -> Vec<String> {
    let list = run_with_arguments(env!("CARGO_BIN_EXE_lists"), arguments);
    let text = run_program(REPLAY, &list.stdout);
    text.lines().map(String::from).collect()
}

#[test]
fn camrun_agrees_with_itself() {
    for kind in ["traces", "damaged"] {
        let output = compare(&[kind, "20", "1", CAMRUN, CAMRUN]);
        assert_eq!(totals(&output)[3], 0);
        assert!(totals(&output)[2] > 0);
        assert_eq!(output.status.code(), Some(0));
    }
}

#[test]
fn a_changed_line_is_reported() {
    let other = program("changed_line");
    let output = compare(&["cycles", "1", "4", REPLAY, &other]);
    assert_eq!(output.status.code(), Some(1));
    assert_eq!(totals(&output)[0], 1);
    assert_eq!(totals(&output)[3], 1);
    let text = text(&output);
    let lines: Vec<&str> = text.lines().collect();
    let [first, a, b, _] = lines[..] else {
        panic!("{text}");
    };
    assert_eq!(first, "cycles seed 4: line 20 differs");
    let line = a.strip_prefix("  A \"").expect("line of A");
    assert_eq!(b, format!("  B \"other {line}"));
}

#[test]
fn a_changed_line_of_another_kind_is_reported() {
    for kind in ["frames", "columns", "bytes"] {
        let output = compare(&[kind, "1", "2", REPLAY, &program("changed_line")]);
        assert_eq!(output.status.code(), Some(1));
        let start = format!("{kind} seed 2: line 20 differs\n");
        assert!(text(&output).starts_with(&start));
    }
}

#[test]
fn every_differing_list_counts() {
    let other = program("changed_line");
    let output = compare(&["cycles", "12", "1", &other, REPLAY]);
    assert_eq!(output.status.code(), Some(1));
    assert_eq!(totals(&output)[3], 12);
    for seed in 1..=12 {
        assert!(text(&output).contains(&format!("cycles seed {seed}: line 20")));
    }
}

#[test]
fn a_missing_line_is_reported() {
    let output = compare(&["cycles", "1", "1", REPLAY, &program("missing_line")]);
    assert_eq!(output.status.code(), Some(1));
    assert!(text(&output).contains("  B has no such line\n"));
}

#[test]
fn a_crash_is_reported_though_the_output_agrees() {
    let crash = program("crash");
    let output = compare(&["cycles", "1", "1", REPLAY, &crash]);
    assert_eq!(output.status.code(), Some(1));
    assert!(text(&output).contains(&format!("{crash} crashed: exit status: 3")));
    assert_eq!(totals(&output)[3], 1);
}

#[test]
fn agreement_on_nothing_is_reported() {
    let silent = program("silent");
    let output = compare(&["cycles", "1", "1", &silent, &silent]);
    assert_eq!(output.status.code(), Some(1));
    assert!(text(&output).contains("cycles seed 1: 0 lines instead of "));
}

#[test]
fn a_program_that_does_not_start_is_reported() {
    let output = compare(&["damaged", "1", "1", CAMRUN, "/nowhere/camrun"]);
    assert_eq!(output.status.code(), Some(1));
    assert!(text(&output).contains("/nowhere/camrun does not start"));
}

#[test]
fn a_hang_is_cut_short() {
    for name in ["hang", "endless"] {
        let hang = program(name);
        let programs = Programs {
            paths: [CAMRUN, &hang],
            limit: Duration::from_millis(300),
        };
        let started = Instant::now();
        let mut reports = vec![];
        let totals = programs.compare(InputKind::Damaged, 1..2, |report| {
            reports.push(report.to_string());
        });
        assert!(started.elapsed() < Duration::from_secs(10));
        assert_eq!(totals.differences, 1);
        assert_eq!(reports.len(), 1);
        assert!(reports[0].starts_with(&format!("damaged seed 1: {hang} ")));
    }
}

#[test]
fn wrong_arguments_show_the_usage() {
    for arguments in [
        &["cycles", "0", "1", REPLAY, REPLAY][..],
        &["other", "1", "1", REPLAY, REPLAY],
        &["cycles", "1", REPLAY, REPLAY],
        &["cycles", "1", "18446744073709551615", REPLAY, REPLAY],
    ] {
        let output = compare(arguments);
        assert_eq!(output.status.code(), Some(2));
        assert!(output.stdout.is_empty());
    }
}
