//! What the lists of cycles reach: every answer, every status bit. What the
//! lists of frames, of columns and of bytes are answered.

mod common;

use std::collections::BTreeMap;

use common::printed;
use peer::generate::{
    byte_list, column_list, cycle_list, extreme_list, frame_list, length_list, pair_test_list,
    press_list, slow_list, step_list, train_list, CallList, USUAL_STEPS,
};

const LISTS: usize = 2000;
const FRAME_LISTS: u64 = 500;
const COLUMN_LISTS: u64 = 100;
const BYTE_LISTS: u64 = 400;

/// How often something was seen.
#[derive(Default)]
struct Counts(BTreeMap<String, usize>);

impl Counts {
    fn add(&mut self, name: String) {
        *self.0.entry(name).or_default() += 1;
    }

    fn of(&self, name: &str) -> usize {
        self.0.get(name).copied().unwrap_or(0)
    }

    fn assert_all_seen(&self, names: impl IntoIterator<Item = String>) {
        for name in names {
            assert!(self.of(&name) > 0, "never seen: {name}");
        }
    }

    fn print(&self) {
        let total: usize = self.0.values().sum();
        for (name, count) in &self.0 {
            let percent = 100.0 * *count as f64 / total as f64;
            println!("{count:8} {percent:6.2} % {name}");
        }
    }
}

fn answers(list: &CallList) -> String {
    printed(&list.bytes())
}

/// Call and answer: the first two fields, with the length of a block.
fn answer_of(fields: &[&str]) -> String {
    match fields {
        ["block", "0", words @ ..] => format!("block 0 of {} words", words.len()),
        [call, answer, ..] => format!("{call} {answer}"),
        _ => fields.join(" "),
    }
}

/// First status word of a cycle refused 5 to 8, and the block it names.
fn status_of(fields: &[&str]) -> Vec<String> {
    let [call, "5" | "6" | "7" | "8", _, _, _, _, status, number, ..] = fields else {
        return vec![];
    };
    let mut names = vec![format!("{call} {status}")];
    if *call != "setup" {
        names.push(format!("{call} at {number}"));
    }
    names
}

/// Each bit alone and each two together, as the call's name and a word.
fn bits_and_pairs<'a>(call: &'a str, bits: &'a [u16]) -> impl Iterator<Item = String> + 'a {
    let pairs = move |&first: &'a u16| bits.iter().map(move |second| first | second);
    bits.iter()
        .flat_map(pairs)
        .map(move |word| format!("{call} {word:04x}"))
}

fn names<'a>(call: &'a str, answers: &'a str) -> impl Iterator<Item = String> + 'a {
    answers
        .split(' ')
        .map(move |answer| format!("{call} {answer}"))
}

#[test]
fn lists_of_cycles_reach_every_answer() {
    let (mut calls, mut words, mut lists) =
        (Counts::default(), Counts::default(), Counts::default());
    for seed in 0..LISTS as u64 {
        let text = answers(&cycle_list(seed));
        let mut accepted = vec![];
        for line in text.lines() {
            let fields: Vec<&str> = line.split(' ').collect();
            calls.add(answer_of(&fields));
            status_of(&fields)
                .into_iter()
                .for_each(|name| words.add(name));
            if fields.get(1) == Some(&"0") && !accepted.contains(&fields[0]) {
                accepted.push(fields[0]);
            }
        }
        accepted.iter().for_each(|call| lists.add(call.to_string()));
    }
    calls.print();
    words.print();
    println!("lists with accepted: {:?}", lists.0);

    calls.assert_all_seen(names("setup", "idle 0 1 5 6"));
    calls.assert_all_seen(names("group", "idle 0 1 5 7"));
    calls.assert_all_seen(names("limit", "idle 0 2 5 8"));
    calls.assert_all_seen(names("nudge", "idle 0 5 9 10"));
    calls.assert_all_seen(names("power", "0 3"));
    calls.assert_all_seen(["none".to_string()]);
    calls.assert_all_seen(["block 0 of 4 words", "block 0 of 19 words"].map(String::from));
    calls.assert_all_seen(names("block", "1 2 4"));
    assert!(calls.of("bad") > LISTS / 40);
    assert_status_words(&words);
    for call in ["setup", "group", "limit", "nudge"] {
        assert!(lists.of(call) > LISTS * 8 / 10, "{call} seldom accepted");
    }
}

fn assert_status_words(words: &Counts) {
    let setup_bits = [1, 2, 4, 8, 0x10, 0x20, 0x8000];
    words.assert_all_seen(bits_and_pairs("setup", &setup_bits));
    words.assert_all_seen(bits_and_pairs("group", &[1, 2, 4]));
    words.assert_all_seen(bits_and_pairs("limit", &[2, 4, 8, 0x10]));
    words.assert_all_seen(names("limit", "0001 8000 4000"));
    words.assert_all_seen(names("group", "8000 4000"));
    words.assert_all_seen(names("setup", "4000"));
    words.assert_all_seen((1..=6).map(|group| format!("group at {group:04x}")));
    words.assert_all_seen((1..=32).map(|output| format!("limit at {output:04x}")));
}

#[test]
fn lists_of_frames_reach_every_answer() {
    let calls = answered((1..=FRAME_LISTS).map(frame_list));
    calls.assert_all_seen(names("power", "0 3"));
    calls.assert_all_seen(names("nudge", "idle 5"));
    calls.assert_all_seen(["none".to_string()]);
    let seen_often = names("frame", "0 15 16").chain(names("data", "0 16 17"));
    let mut frame_calls = 0;
    for name in seen_often {
        assert!(calls.of(&name) > 300, "seldom seen: {name}");
        frame_calls += calls.of(&name);
    }
    assert!(frame_calls >= 20_000);
    assert!(calls.of("bad") > FRAME_LISTS as usize / 20);
}

#[test]
fn lists_of_columns_reach_every_answer() {
    let calls = answered((1..=COLUMN_LISTS).map(column_list));
    calls.assert_all_seen(names("power", "0 3"));
    calls.assert_all_seen(names("nudge", "idle 5"));
    calls.assert_all_seen(["none".to_string()]);
    for name in names("columns", "0 18").chain(names("rows", "0 18")) {
        assert!(calls.of(&name) > 500, "seldom seen: {name}");
    }
    assert_eq!(calls.of("bad") as u64, COLUMN_LISTS / 10);
}

/// How often each call was answered how, over lists.
fn answered(lists: impl Iterator<Item = CallList>) -> Counts {
    let mut calls = Counts::default();
    for list in lists {
        for line in answers(&list).lines() {
            let fields: Vec<&str> = line.split(' ').collect();
            calls.add(answer_of(&fields));
        }
    }
    calls.print();
    calls
}

#[test]
fn lists_of_bytes_reach_every_answer() {
    let calls = answered((1..=BYTE_LISTS).map(byte_list));
    calls.assert_all_seen(names("power", "0 3"));
    calls.assert_all_seen(names("setup", "idle 0 1 5 6"));
    calls.assert_all_seen(names("group", "idle 0 1 5 7"));
    calls.assert_all_seen(names("limit", "idle 0 2 5 8"));
    calls.assert_all_seen(names("nudge", "idle 0 5 9 10"));
    calls.assert_all_seen(["none".to_string()]);
    let of = |names: &[&str]| names.iter().map(|name| calls.of(name)).sum::<usize>();
    let accesses = of(&["read 0", "read 13", "write 0", "write 13", "write 14"]);
    assert!(accesses >= 250_000, "{accesses}");
    for (name, least) in [("step 0", 10_000), ("step 11", 2000), ("bad", 20)] {
        assert!(calls.of(name) > least, "seldom seen: {name}");
    }
}

#[test]
fn lists_of_slow_machines_have_cycles_in_mid_run() {
    assert_cycles_in_mid_run(answered((1..=120).map(slow_list)));
}

#[test]
fn lists_of_lengths_have_cycles_in_mid_run() {
    assert_cycles_in_mid_run(answered((1..=60).map(length_list)));
}

#[test]
fn lists_of_tests_have_cycles_in_mid_run() {
    assert_cycles_in_mid_run(answered((1..=80).map(pair_test_list)));
}

#[test]
fn lists_of_trains_have_cycles_in_mid_run() {
    assert_cycles_in_mid_run(answered((1..=80).map(train_list)));
}

fn assert_cycles_in_mid_run(calls: Counts) {
    for (name, least) in [
        ("step 0", 200_000),
        ("step 11", 50),
        ("setup 0", 60),
        ("group 0", 60),
        ("limit 0", 200),
        ("nudge 0", 200),
        ("nudge 10", 20),
        ("read 0", 1000),
    ] {
        assert!(calls.of(name) > least, "seldom seen: {name}");
    }
    calls.assert_all_seen(names("setup", "idle 6"));
    calls.assert_all_seen(names("group", "idle 7"));
    calls.assert_all_seen(names("limit", "idle 8"));
    calls.assert_all_seen(names("nudge", "idle 5 9"));
}

#[test]
fn other_lists_have_byte_accesses() {
    let steps = answered((1..=20).map(|seed| step_list(seed, USUAL_STEPS)));
    let cycles = answered((1..=100).map(cycle_list));
    for calls in [steps, cycles] {
        for name in names("read", "0 13").chain(names("write", "0 13 14")) {
            assert!(calls.of(&name) > 30, "seldom seen: {name}");
        }
    }
}

#[test]
fn a_seed_gives_one_list_and_another_seed_another() {
    for list in [
        cycle_list,
        frame_list,
        column_list,
        byte_list,
        press_list,
        extreme_list,
        slow_list,
        length_list,
        pair_test_list,
        train_list,
    ] {
        assert_eq!(list(7), list(7));
        assert_ne!(list(7).bytes(), list(8).bytes());
    }
}

/// A list that is broken off ends with `bad`, no other has it.
fn assert_answered(list: &CallList) {
    let answers = answers(list);
    assert_eq!(answers.lines().count(), list.lines());
    let bad = answers.lines().position(|line| line == "bad");
    assert!(bad.is_none_or(|bad| bad + 1 == list.lines()));
}

#[test]
fn every_call_is_answered() {
    for seed in 0..200 {
        for list in [cycle_list(seed), frame_list(seed), column_list(seed)] {
            assert_eq!(list.steps(), 0);
            assert_answered(&list);
        }
        assert_answered(&byte_list(seed));
    }
    for seed in 0..10 {
        assert_answered(&press_list(seed));
        assert_answered(&extreme_list(seed));
        assert_answered(&slow_list(seed));
        assert_answered(&length_list(seed));
        assert_answered(&pair_test_list(seed));
        assert_answered(&train_list(seed));
    }
}
