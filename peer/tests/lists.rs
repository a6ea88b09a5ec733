//! The programs that write lists and traces, read by those that run them.

mod common;

use common::{run_program, run_with_arguments};

const LISTS: &str = env!("CARGO_BIN_EXE_lists");
const TRACES: &str = env!("CARGO_BIN_EXE_traces");

fn written(program: &str, arguments: &[&str]) -> Vec<u8> {
    let output = run_with_arguments(program, arguments);
    assert!(output.status.success());
    output.stdout
}

/// The lines of the replay program for a list.
fn answers(arguments: &[&str]) -> String {
    let text = run_program(env!("CARGO_BIN_EXE_replay"), &written(LISTS, arguments));
    assert!(text.lines().all(|line| line != "bad"));
    text
}

fn steps(text: &str) -> usize {
    text.lines()
        .filter(|line| line.starts_with("step "))
        .count()
}

#[test]
fn lists_of_cycles_have_no_steps() {
    let text = answers(&["cycles", "5"]);
    assert!(text.lines().count() > 20);
    assert_eq!(steps(&text), 0);
}

#[test]
fn lists_of_steps_have_as_many_as_asked_for() {
    assert_eq!(steps(&answers(&["steps", "5", "10"])), 10);
    assert_eq!(steps(&answers(&["steps", "5"])), 5200);
}

#[test]
fn lists_of_bytes_have_reads_writes_and_steps() {
    // A seed whose list is not broken off.
    let text = answers(&["bytes", "5"]);
    for name in ["read ", "write ", "step "] {
        let lines = text.lines().filter(|line| line.starts_with(name));
        assert!(lines.count() > 20, "{name}");
    }
}

#[test]
fn lists_of_presses_have_steps() {
    assert!(steps(&answers(&["presses", "5"])) > 5000);
}

#[test]
fn lists_of_extremes_have_steps() {
    // Three runs of a window of the speed or more.
    assert!(steps(&answers(&["extremes", "5"])) > 3 * 600);
}

#[test]
fn lists_of_slow_machines_have_steps() {
    // Three long windows of the speed or ten short ones.
    assert!(steps(&answers(&["slow", "5"])) >= 10 * 600);
}

#[test]
fn lists_of_lengths_have_steps() {
    // Four runs, each of two times 400 steps or more.
    assert!(steps(&answers(&["lengths", "5"])) > 8 * 400);
}

#[test]
fn lists_of_tests_have_steps() {
    // Three runs, each of two times 400 steps or more.
    assert!(steps(&answers(&["tests", "5"])) > 6 * 400);
}

#[test]
fn lists_of_trains_have_steps() {
    // Eight walks round a turn, the shortest of 32 steps and two more.
    assert!(steps(&answers(&["trains", "5"])) >= 8 * 34);
}

#[test]
fn lists_of_frames_have_both_calls() {
    // A seed whose list is not broken off.
    let text = answers(&["frames", "2"]);
    for name in ["frame ", "data "] {
        let lines = text.lines().filter(|line| line.starts_with(name));
        assert!(lines.count() > 4, "{name}");
    }
    assert_eq!(steps(&text), 0);
}

#[test]
fn lists_of_columns_have_both_calls() {
    // A seed whose list is not broken off.
    let text = answers(&["columns", "2"]);
    for name in ["columns ", "rows "] {
        let lines = text.lines().filter(|line| line.starts_with(name));
        assert!(lines.count() > 10, "{name}");
    }
    assert_eq!(steps(&text), 0);
}

#[test]
fn lists_repeat() {
    let kinds = [
        "frames", "columns", "bytes", "presses", "extremes", "slow", "lengths", "tests", "trains",
    ];
    for kind in kinds {
        let list = written(LISTS, &[kind, "9"]);
        assert_eq!(written(LISTS, &[kind, "9"]), list);
        assert_ne!(written(LISTS, &[kind, "10"]), list);
    }
    let list = written(LISTS, &["steps", "9", "500"]);
    assert_eq!(written(LISTS, &["steps", "9", "500"]), list);
    assert_ne!(written(LISTS, &["steps", "10", "500"]), list);
}

#[test]
fn traces_have_as_many_samples_as_asked_for() {
    let report =
        |arguments: &[&str]| run_program(env!("CARGO_BIN_EXE_camrun"), &written(TRACES, arguments));
    let last = |text: &str| text.lines().last().map(String::from).unwrap_or_default();
    assert!(last(&report(&["1", "50"])).starts_with("50 "));
    assert!(last(&report(&["1"])).starts_with("2600 "));
    assert_eq!(last(&report(&["damaged", "1"])), "bad");
}

#[test]
fn wrong_arguments_show_the_usage() {
    let lists = [
        &["cycles"][..],
        &["cycles", "x"],
        &["frames"],
        &["frames", "1", "2"],
        &["columns"],
        &["columns", "1", "2"],
        &["presses", "1", "2"],
        &["extremes", "1", "2"],
        &["slow", "1", "2"],
        &["lengths", "1", "2"],
        &["tests", "1", "2"],
        &["trains", "1", "2"],
        &["bytes"],
        &["bytes", "1", "2"],
        &["steps", "1", "2", "3"],
        &[],
    ];
    let traces = [&["damaged"][..], &["1", "65536"], &["1", "2", "3"], &[]];
    for (program, cases) in [(LISTS, &lists[..]), (TRACES, &traces)] {
        for arguments in cases {
            let output = run_with_arguments(program, arguments);
            assert_eq!(output.status.code(), Some(2), "{arguments:?}");
            assert!(output.stdout.is_empty() && !output.stderr.is_empty());
        }
    }
}
