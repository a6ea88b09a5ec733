//! What the lists with slow machines reach: each C of a creep, each place beside
//! the ends of detectors of each form, and what creeps and stops do to groups,
//! by module.

use crate::generate::classes::Classes;
use crate::generate::slow_lists::{slow_list, MOST_CREPT};
use crate::generate::slow_updates::{each_slow_step, Gluer};
use crate::generate::stops::SeenStep;
use crate::group::{Group, Mode};
use crate::motion::{tach, STEPS_PER_MS, TENTHS};
use crate::setup::Detector;

const LISTS: u64 = 200;

/// The form of a detector; none of one at 0/0.
fn form(detector: Detector) -> Option<&'static str> {
    Some(match (detector.low, detector.high) {
        (0, 0) => return None,
        (0, _) => "0/x",
        (_, 0) => "x/0",
        (low, high) if low < high => "low < high",
        _ => "low > high",
    })
}

/// Where a number is that is an end, or one more or less.
fn place(tenths: u32, end: u16) -> Option<&'static str> {
    match i64::from(tenths) - i64::from(TENTHS * u32::from(end)) {
        -1 => Some("one under"),
        0 => Some("at"),
        1 => Some("one over"),
        _ => None,
    }
}

fn see_step(classes: &mut Classes, step: &SeenStep, moved: bool) {
    let model = 8511 + step.module.real_count() / 8;
    for (before, after) in step.groups() {
        match after.program.mode {
            Mode::Mode5 => see_gluer(classes, model, step, before, after),
            Mode::Mode4 => {
                let opened = after.state.open && !before.state.open;
                let slow = step.answer.tenths <= 5;
                classes.see_if(opened && slow, format!("Mode 4 opened, {model}"));
            }
            _ => {}
        }
    }
    if step.update {
        see_update(classes, step, moved);
    }
}

fn see_gluer(classes: &mut Classes, model: u16, step: &SeenStep, before: &Group, after: &Group) {
    let gluer = Gluer::of(step, before, after);
    let tenths = step.answer.tenths;
    if gluer.becomes_qualified() && tenths <= 5 {
        classes.see(format!("qualified at {tenths}"));
        classes.see(format!("qualified, {model}"));
    }
    let closed = step.is_stop() && before.state.open && !after.state.open;
    classes.see_if(closed, format!("closed by a stop, {model}"));
    classes.see_if(gluer.is_kept(), format!("kept, {model}"));
    classes.see_if(gluer.is_pressed_open(), format!("pressed open, {model}"));
    let lost = gluer.creeps && gluer.pressed && !after.state.qualified;
    classes.see_if(lost, "pressed without qualifying step");
    let forgotten = gluer.creeps && before.state.qualified && !after.state.qualified;
    classes.see_if(forgotten, "forgotten in a creep");
}

fn see_update(classes: &mut Classes, step: &SeenStep, moved: bool) {
    let window_ms = step.window() / STEPS_PER_MS;
    let (counts, tenths) = (step.module.motion.big_c, step.answer.tenths);
    let how = match counts {
        0 if moved => "swung",
        0 => "stood",
        _ => "crept",
    };
    if counts.unsigned_abs() <= MOST_CREPT.into() {
        classes.see(format!("C {counts} in {window_ms}, {how}"));
    }
    classes.see_if((25..=35).contains(&tenths), format!("3 rpm in {window_ms}"));
    for detector in step.module.setup.detectors {
        see_detector(classes, detector, tenths);
    }
    let scalars = step.module.setup.scalars;
    let (shown, _) = tach(tenths, scalars);
    classes.see_if(shown > 0, format!("code {}", scalars.code));
    classes.see_if(step.answer.tach_overflow, "TachOv");
}

fn see_detector(classes: &mut Classes, detector: Detector, tenths: u32) {
    let Some(form) = form(detector) else {
        classes.see_if(tenths == 0, "0/0 at 0");
        classes.see_if(tenths == 1, "0/0 at 1");
        return;
    };
    for (end, name) in [(detector.low, "low"), (detector.high, "high")] {
        if let Some(place) = place(tenths, end) {
            classes.see(format!("{form}: {place} {name}"));
        }
    }
}

/// What must come, each with its least number.
const REQUIRED: [(&str, usize); 23] = [
    ("pressed without qualifying step", 20),
    ("forgotten in a creep", 20),
    ("qualified at 1", 5),
    ("qualified at 2", 5),
    ("qualified at 3", 5),
    ("qualified at 5", 20),
    ("C 0 in 120, stood", 20),
    ("C 0 in 120, swung", 20),
    ("C 0 in 504, stood", 20),
    ("C 0 in 504, swung", 20),
    ("3 rpm in 120", 20),
    ("3 rpm in 504", 10),
    ("0/0 at 0", 20),
    ("0/0 at 1", 3),
    // One tenth over 0 is of a C of 1 in 504 ms.
    ("0/x: at low", 20),
    ("0/x: one over low", 3),
    ("x/0: at high", 20),
    ("x/0: one over high", 3),
    ("TachOv", 10),
    ("code 0", 20),
    ("code 1", 20),
    ("code 2", 20),
    ("code 3", 20),
];

/// What must come of each module, each window and each end.
fn required_of_each() -> Vec<(String, usize)> {
    let mut required = vec![];
    for model in [8511, 8512, 8513] {
        for what in ["qualified", "closed by a stop", "kept", "pressed open"] {
            required.push((format!("{what}, {model}"), 5));
        }
        required.push((format!("Mode 4 opened, {model}"), 20));
    }
    for counts in 1..=MOST_CREPT {
        for window_ms in [120, 504] {
            required.push((format!("C {counts} in {window_ms}, crept"), 5));
            required.push((format!("C -{counts} in {window_ms}, crept"), 5));
        }
    }
    for place in ["one under", "at", "one over"] {
        for form in ["low < high", "low > high"] {
            required.push((format!("{form}: {place} low"), 3));
            required.push((format!("{form}: {place} high"), 3));
        }
        required.push((format!("0/x: {place} high"), 3));
        required.push((format!("x/0: {place} low"), 3));
    }
    required
}

#[test]
fn lists_of_slow_machines_reach_every_class() {
    let mut classes = Classes::default();
    for seed in 1..=LISTS {
        each_slow_step(&slow_list(seed), |step, moved| {
            see_step(&mut classes, step, moved);
        });
    }
    classes.print();
    let mut required = required_of_each();
    required.extend(REQUIRED.map(|(class, least)| (class.to_string(), least)));
    let missing = classes.missing(required);
    assert!(missing.is_empty(), "{missing:?}");
}
