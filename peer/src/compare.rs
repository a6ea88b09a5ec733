//! Two programs on the same inputs: whether they print the same.

use std::io::{Read, Write};
use std::ops::Range;
use std::process::{Child, Command, ExitStatus, Stdio};
use std::sync::atomic::{AtomicU64, Ordering};
use std::sync::{mpsc, Arc};
use std::thread;
use std::time::{Duration, Instant};

use crate::generate::{
    byte_list, column_list, cycle_list, damaged_trace, extreme_list, frame_list, length_list,
    pair_test_list, press_list, slow_list, step_list, train_list, whole_trace, CallList,
    Conversions, Extremes, Lengths, PairTests, SlowUpdates, StopPresses, Trains, USUAL_SAMPLES,
    USUAL_STEPS,
};

/// Inputs compared at the same time.
const WORKERS: usize = 2;
/// More output than any input asks for.
const MOST_OUTPUT: u64 = 1 << 28;
/// Characters shown of a differing line.
const SHOWN: usize = 300;

/// What the programs are fed with.
#[derive(Clone, Copy, Debug, PartialEq, Eq)]
pub enum InputKind {
    Cycles,
    Steps,
    Presses,
    Extremes,
    Slow,
    Lengths,
    Tests,
    Trains,
    Bytes,
    Frames,
    Columns,
    Traces,
    Damaged,
}

impl InputKind {
    pub fn of_name(name: &str) -> Option<InputKind> {
        [
            InputKind::Cycles,
            InputKind::Steps,
            InputKind::Presses,
            InputKind::Extremes,
            InputKind::Slow,
            InputKind::Lengths,
            InputKind::Tests,
            InputKind::Trains,
            InputKind::Bytes,
            InputKind::Frames,
            InputKind::Columns,
            InputKind::Traces,
            InputKind::Damaged,
        ]
        .into_iter()
        .find(|kind| kind.name() == name)
    }

    fn name(self) -> &'static str {
        match self {
            InputKind::Cycles => "cycles",
            InputKind::Steps => "steps",
            InputKind::Presses => "presses",
            InputKind::Extremes => "extremes",
            InputKind::Slow => "slow",
            InputKind::Lengths => "lengths",
            InputKind::Tests => "tests",
            InputKind::Trains => "trains",
            InputKind::Bytes => "bytes",
            InputKind::Frames => "frames",
            InputKind::Columns => "columns",
            InputKind::Traces => "traces",
            InputKind::Damaged => "damaged",
        }
    }

    fn input(self, seed: u64) -> Input {
        match self {
            InputKind::Cycles => Input::of_list(&cycle_list(seed)),
            InputKind::Steps => Input::of_list(&step_list(seed, USUAL_STEPS)),
            InputKind::Presses => Input::of_counted_list(&press_list(seed), |list| Counted {
                presses: StopPresses::of_list(list),
                ..Counted::default()
            }),
            InputKind::Extremes => Input::of_counted_list(&extreme_list(seed), |list| Counted {
                extremes: Extremes::of_list(list),
                ..Counted::default()
            }),
            InputKind::Slow => Input::of_counted_list(&slow_list(seed), |list| Counted {
                slow: SlowUpdates::of_list(list),
                ..Counted::default()
            }),
            InputKind::Lengths => Input::of_counted_list(&length_list(seed), |list| Counted {
                lengths: Lengths::of_list(list),
                ..Counted::default()
            }),
            InputKind::Tests => Input::of_counted_list(&pair_test_list(seed), |list| Counted {
                tests: PairTests::of_list(list),
                ..Counted::default()
            }),
            InputKind::Trains => Input::of_counted_list(&train_list(seed), |list| Counted {
                trains: Trains::of_list(list),
                ..Counted::default()
            }),
            InputKind::Bytes => Input::of_list(&byte_list(seed)),
            InputKind::Frames => Input::of_list(&frame_list(seed)),
            InputKind::Columns => Input::of_counted_list(&column_list(seed), |list| Counted {
                conversions: Conversions::of_list(list),
                ..Counted::default()
            }),
            InputKind::Traces => Input::of_trace(whole_trace(seed, USUAL_SAMPLES)),
            InputKind::Damaged => Input::of_trace(damaged_trace(seed)),
        }
    }
}

struct Input {
    bytes: Arc<[u8]>,
    /// Lines that must come out of a list.
    lines: Option<usize>,
    counted: Counted,
}

impl Input {
    fn of_list(list: &CallList) -> Input {
        Input {
            bytes: list.bytes().into(),
            lines: Some(list.lines()),
            counted: Counted::default(),
        }
    }

    fn of_counted_list(list: &CallList, count: fn(&CallList) -> Counted) -> Input {
        Input {
            counted: count(list),
            ..Input::of_list(list)
        }
    }

    fn of_trace(bytes: Vec<u8>) -> Input {
        Input {
            bytes: bytes.into(),
            lines: None,
            counted: Counted::default(),
        }
    }
}

/// What lists have of that which they are made for; 0 for lists of another
/// kind.
#[derive(Clone, Copy, Debug, Default, PartialEq, Eq)]
pub struct Counted {
    pub presses: StopPresses,
    pub extremes: Extremes,
    pub slow: SlowUpdates,
    pub lengths: Lengths,
    pub tests: PairTests,
    pub trains: Trains,
    pub conversions: Conversions,
}

impl Counted {
    fn add(&mut self, other: &Counted) {
        self.presses.steps += other.presses.steps;
        self.presses.counted += other.presses.counted;
        self.extremes.least += other.extremes.least;
        self.extremes.greatest += other.extremes.greatest;
        self.slow.add(&other.slow);
        self.lengths.add(&other.lengths);
        self.tests.add(&other.tests);
        self.trains.add(&other.trains);
        self.conversions.add(&other.conversions);
    }
}

/// What was compared.
#[derive(Clone, Copy, Debug, Default, PartialEq, Eq)]
pub struct Totals {
    pub lists: u64,
    /// Lines that the first program printed.
    pub calls: u64,
    /// Those of them that are steps.
    pub steps: u64,
    /// Those of them that are byte reads or writes.
    pub byte_accesses: u64,
    pub counted: Counted,
    /// Lists on which the programs differed or one of them failed.
    pub differences: u64,
}

impl Totals {
    /// The last line of a comparison; it counts byte accesses, presses in the
    /// steps of stops, ends of C, updates of slow machines, lengths, tests, trains
    /// or sections turned, where the lists are made for them.
    pub fn line(&self, kind: InputKind) -> String {
        let counted = match kind {
            InputKind::Bytes => format!(", {} byte accesses", self.byte_accesses),
            InputKind::Presses => {
                let StopPresses { steps, counted } = self.counted.presses;
                format!(", {steps} presses in stop steps, {counted} of them counted")
            }
            InputKind::Extremes => {
                let Extremes { least, greatest } = self.counted.extremes;
                format!(", {least} windows at the least C, {greatest} at the greatest")
            }
            InputKind::Slow => format!(", {}", self.counted.slow),
            InputKind::Lengths => format!(", {}", self.counted.lengths),
            InputKind::Tests => format!(", {}", self.counted.tests),
            InputKind::Trains => format!(", {}", self.counted.trains),
            InputKind::Columns => format!(", {}", self.counted.conversions),
            _ => String::new(),
        };
        format!(
            "compared {} lists, {} calls, {} steps{counted}, {} differences",
            self.lists, self.calls, self.steps, self.differences
        )
    }

    fn add(&mut self, result: &ListResult) {
        self.lists += 1;
        self.calls += result.calls;
        self.steps += result.steps;
        self.byte_accesses += result.byte_accesses;
        self.counted.add(&result.counted);
        self.differences += u64::from(result.difference.is_some());
    }
}

struct ListResult {
    calls: u64,
    steps: u64,
    byte_accesses: u64,
    counted: Counted,
    difference: Option<String>,
}

/// Two programs that read standard input and write standard output.
#[derive(Clone, Copy, Debug)]
pub struct Programs<'a> {
    pub paths: [&'a str; 2],
    /// The time that one of them may take for one input.
    pub limit: Duration,
}

impl Programs<'_> {
    /// Compares them on the inputs of all seeds; each difference is reported
    /// as it is found.
    pub fn compare(
        &self,
        kind: InputKind,
        seeds: Range<u64>,
        mut report: impl FnMut(&str),
    ) -> Totals {
        let next = AtomicU64::new(seeds.start);
        let mut totals = Totals::default();
        thread::scope(|scope| {
            let (sender, results) = mpsc::channel();
            for _ in 0..WORKERS {
                let (sender, next) = (sender.clone(), &next);
                scope.spawn(move || loop {
                    let seed = next.fetch_add(1, Ordering::Relaxed);
                    if seed >= seeds.end || sender.send(self.compare_one(kind, seed)).is_err() {
                        return;
                    }
                });
            }
            drop(sender);
            for result in results {
                totals.add(&result);
                if let Some(difference) = &result.difference {
                    report(difference);
                }
            }
        });
        totals
    }

    fn compare_one(&self, kind: InputKind, seed: u64) -> ListResult {
        let input = kind.input(seed);
        let outputs = self
            .paths
            .map(|path| run_program(path, &input.bytes, self.limit));
        let first: &[u8] = outputs[0].as_deref().unwrap_or_default();
        let count = |is_counted: fn(&[u8]) -> bool| {
            lines(first).filter(|line| is_counted(line)).count() as u64
        };
        ListResult {
            calls: count(|_| true),
            steps: count(is_step),
            byte_accesses: count(is_byte_access),
            counted: input.counted,
            difference: self
                .difference(&outputs, input.lines)
                .map(|difference| format!("{} seed {seed}: {difference}", kind.name())),
        }
    }

    fn difference(
        &self,
        outputs: &[Result<Vec<u8>, String>; 2],
        expected_lines: Option<usize>,
    ) -> Option<String> {
        let failures: Vec<String> = self
            .paths
            .iter()
            .zip(outputs)
            .filter_map(|(path, output)| Some(format!("{path} {}", output.as_ref().err()?)))
            .collect();
        match outputs {
            [Ok(first), Ok(second)] => first_difference(first, second).or_else(|| {
                let count = lines(first).count();
                let expected = expected_lines.filter(|&expected| expected != count)?;
                Some(format!("{count} lines instead of {expected}"))
            }),
            _ => Some(failures.join("; ")),
        }
    }
}

/// Lines with their ends.
fn lines(output: &[u8]) -> impl Iterator<Item = &[u8]> {
    output.split_inclusive(|&byte| byte == b'\n')
}

/// A step of the replay program, or a sample of the trace program.
fn is_step(line: &[u8]) -> bool {
    line.starts_with(b"step") || line.first().is_some_and(u8::is_ascii_digit)
}

/// One that a module answered.
fn is_byte_access(line: &[u8]) -> bool {
    line.starts_with(b"read ") || line.starts_with(b"write ")
}

/// The first differing line of both, with its number from 1.
fn first_difference(first: &[u8], second: &[u8]) -> Option<String> {
    let (mut first, mut second) = (lines(first), lines(second));
    let mut number = 0;
    loop {
        number += 1;
        match (first.next(), second.next()) {
            (None, None) => return None,
            (line, other) if line == other => {}
            (line, other) => {
                let (line, other) = (shown(line), shown(other));
                return Some(format!("line {number} differs\n  A {line}\n  B {other}"));
            }
        }
    }
}

fn shown(line: Option<&[u8]>) -> String {
    let Some(line) = line else {
        return "has no such line".to_string();
    };
    let text = String::from_utf8_lossy(line);
    let start: String = text.chars().take(SHOWN).collect();
    format!("{start:?}")
}

/// What a program prints for an input, or how it failed.
fn run_program(path: &str, input: &Arc<[u8]>, limit: Duration) -> Result<Vec<u8>, String> {
    let deadline = Instant::now() + limit;
    let mut child = Command::new(path)
        .stdin(Stdio::piped())
        .stdout(Stdio::piped())
        .stderr(Stdio::null())
        .spawn()
        .map_err(|error| format!("does not start: {error}"))?;
    let output = feed(&mut child, input).recv_timeout(limit).ok();
    let status = wait_until(&mut child, deadline);
    match (output, status) {
        (Some(output), _) if output.len() as u64 == MOST_OUTPUT => {
            Err("prints without end".to_string())
        }
        (Some(output), Some(status)) if status.success() => Ok(output),
        (_, Some(status)) if !status.success() => Err(format!("crashed: {status}")),
        _ => Err("hung".to_string()),
    }
}

/// Writes the input and reads the output; gives the place where the whole
/// output arrives. A program need not read all of its input.
fn feed(child: &mut Child, input: &Arc<[u8]>) -> mpsc::Receiver<Vec<u8>> {
    let (sender, output) = mpsc::channel();
    if let (Some(mut stdin), Some(stdout)) = (child.stdin.take(), child.stdout.take()) {
        let input = Arc::clone(input);
        thread::spawn(move || stdin.write_all(&input));
        thread::spawn(move || {
            let mut bytes = Vec::new();
            if stdout.take(MOST_OUTPUT).read_to_end(&mut bytes).is_ok() {
                // The other end may have given up.
                let _ = sender.send(bytes);
            }
        });
    }
    output
}

/// The status with which a program ends by itself; one that does not end in
/// time is killed.
fn wait_until(child: &mut Child, deadline: Instant) -> Option<ExitStatus> {
    loop {
        match child.try_wait() {
            Ok(Some(status)) => return Some(status),
            Ok(None) if Instant::now() < deadline => thread::sleep(Duration::from_micros(50)),
            _ => {
                let _ = child.kill();
                let _ = child.wait();
                return None;
            }
        }
    }
}
