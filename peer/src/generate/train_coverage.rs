//! What the lists of trains reach: trains that fit and such as do not, of each
//! form, module, mode and SF, nudges of either setpoint, and pulses seen.

use crate::generate::classes::Classes;
use crate::generate::train_events::{
    each_event, JudgedTrain, NudgedTrain, Train, TrainEvent, TrainStep,
};
use crate::generate::train_list;
use crate::limit_block::{ADVANCE_ERROR, CONTROL_ERROR, DURATION_ERROR, SETPOINT_ERROR};
use crate::module::Module;
use crate::switch::{bits_of, Action};

const LISTS: u64 = 200;

fn model(module: &Module) -> u16 {
    8511 + module.real_count() / 8
}

fn mode(module: &Module) -> &'static str {
    if module.setup.independent {
        "independent"
    } else {
        "group"
    }
}

/// Where R is beside Q × K + Q − 1.
fn place(spare: i64) -> Option<&'static str> {
    match spare {
        -1 => Some("one short"),
        0 => Some("exact"),
        1 => Some("one more"),
        _ => None,
    }
}

fn see_judged(classes: &mut Classes, judged: &JudgedTrain) {
    let (train, scale) = (judged.train, judged.module.setup.scale);
    let errors = judged.errors;
    if train.is_unused() {
        return classes.see_if(!train.has_pulses(), "0/0 without a pulse");
    }
    classes.see_if(errors != 0, format!("word 630 {errors:04x}"));
    if !train.is_sound(scale) {
        return see_unsound(classes, train, scale);
    }
    if !train.has_pulses() {
        classes.see_if(train.quantity == 0, "Q 0");
        return classes.see_if(train.on_count == 0, "K 0");
    }
    let spare = train.spare(scale);
    let turn = i64::from(scale) - 1;
    if let Some(place) = place(spare) {
        see_place(classes, judged, place);
        classes.see_if(train.length(scale) == turn, format!("{place}, SF less 1"));
    }
    let product = train.product();
    if product > 65535 {
        classes.see_if(train.fits_when_cut(scale), "fits in 16 bits");
        let cut = train.least() % (1 << 31);
        classes.see_if(
            train.least() != cut && cut <= train.length(scale),
            "fits in 31 bits",
        );
        classes.see_if(product >= 1 << 31, "below 0 in 32 bits");
        classes.see_if(product < 1 << 17, "just over 65535");
    }
}

fn see_place(classes: &mut Classes, judged: &JudgedTrain, place: &str) {
    let (module, train) = (judged.module, judged.train);
    let scale = module.setup.scale;
    classes.see(format!("{place}, {}, {}", model(module), mode(module)));
    classes.see(format!("{place} at SF {scale}"));
    classes.see_if(scale % 2 == 1, format!("{place} at an odd SF"));
    classes.see_if(train.is_over_zero(), format!("{place}, over zero"));
    classes.see_if(train.off == 0, format!("{place}, OFF 0"));
    classes.see_if(train.on == 0, format!("{place}, ON 0"));
    classes.see_if(train.quantity == 1, format!("{place}, Q 1"));
    classes.see_if(train.on_count == 1, format!("{place}, K 1"));
    let more = train.quantity > 1 && train.on_count > 1;
    classes.see_if(more, format!("{place}, Q and K more"));
}

/// Bit 3 comes, and bit 4 with it only where Q or K is 0.
fn see_unsound(classes: &mut Classes, train: Train, scale: u16) {
    let form = match train.on == train.off {
        true if train.is_in_range(scale) => "equal",
        true => "equal out of range",
        false if train.on >= i32::from(scale) => "ON out of range",
        false => "OFF out of range",
    };
    if !train.has_pulses() {
        classes.see(format!("{form}, without a pulse"));
    } else if train.spare(scale) < 0 {
        classes.see(format!("{form}, unfit"));
    } else {
        classes.see(format!("{form}, fitting"));
    }
}

fn see_nudge(classes: &mut Classes, nudged: &NudgedTrain) {
    let (before, after) = (nudged.before, nudged.after);
    let scale = nudged.module.setup.scale;
    let which = match (before.on != after.on, before.off != after.off) {
        (true, true) => "both",
        (true, false) => "ON",
        _ => "OFF",
    };
    let way = match (after.on + after.off) < before.on + before.off {
        true => "down",
        false => "up",
    };
    if before.is_unused() {
        return;
    }
    if after.is_unused() {
        return classes.see(format!("{which} {way} to 0/0"));
    }
    if !after.is_in_range(scale) {
        return classes.see(format!("{which} {way} out of range"));
    }
    if !after.is_sound(scale) {
        return classes.see(format!("{which} {way} to equal setpoints"));
    }
    let over_zero = if after.is_over_zero() {
        ", over zero"
    } else {
        ""
    };
    if let Some(place) = place(after.spare(scale)) {
        classes.see(format!("{which} {way} to {place}{over_zero}"));
    }
    let to_zero = after.off == 0 && before.off != 0;
    classes.see_if(to_zero && nudged.is_taken, "OFF to 0");
}

fn see_step(classes: &mut Classes, step: &TrainStep) {
    let module = step.module;
    for output in bits_of(step.rises()) {
        let kind = if output < 16 { "real" } else { "virtual" };
        let (model, mode) = (model(module), mode(module));
        classes.see(format!("rise, {kind}, {mode}, {model}"));
        let switch = &module.switches.programs[output];
        let moved = switch.advances[0] != 0 && module.motion.c != 0;
        classes.see_if(moved, "rise at a moved setpoint");
        classes.see_if(module.motion.c < 0, "rise backward");
        let Action::Pulse { quantity, on_count } = switch.action else {
            continue;
        };
        classes.see_if(quantity > 100, "rise of many");
        classes.see_if(on_count > 100, "rise of a long one");
    }
}

/// What must come, each with its least number.
const REQUIRED: [(&str, usize); 35] = [
    ("0/0 without a pulse", 100),
    ("Q 0", 50),
    ("K 0", 50),
    ("fits in 16 bits", 50),
    ("fits in 31 bits", 5),
    ("below 0 in 32 bits", 50),
    ("just over 65535", 50),
    ("exact, SF less 1", 100),
    ("one short, SF less 1", 20),
    ("one short at SF 3", 10),
    ("one short at SF 1023", 10),
    ("one short at SF 1024", 10),
    ("one short at an odd SF", 50),
    ("exact at SF 2", 100),
    ("exact at SF 3", 100),
    ("exact at SF 1024", 100),
    ("one more at SF 3", 10),
    ("one more at SF 1024", 50),
    ("equal, unfit", 50),
    ("equal, without a pulse", 10),
    ("equal out of range, unfit", 10),
    ("ON out of range, unfit", 10),
    ("ON out of range, fitting", 10),
    ("ON out of range, without a pulse", 5),
    ("OFF out of range, unfit", 10),
    ("OFF out of range, fitting", 5),
    ("OFF out of range, without a pulse", 5),
    ("ON down to 0/0", 20),
    ("OFF down to 0/0", 20),
    ("OFF to 0", 10),
    ("rise at a moved setpoint", 1000),
    ("rise backward", 1000),
    ("rise of many", 1000),
    ("rise of a long one", 100),
    ("both up to one more", 10),
];

/// What must come of each place of R, setpoint, module and mode.
fn required_of_each() -> Vec<(String, usize)> {
    let mut required = vec![];
    for model in [8511, 8512, 8513] {
        for mode in ["group", "independent"] {
            for place in ["one short", "exact", "one more"] {
                required.push((format!("{place}, {model}, {mode}"), 20));
            }
            required.push((format!("rise, virtual, {mode}, {model}"), 500));
            if model > 8511 {
                required.push((format!("rise, real, {mode}, {model}"), 500));
            }
        }
    }
    for place in ["one short", "exact", "one more"] {
        for form in ["over zero", "OFF 0", "ON 0", "Q 1", "K 1", "Q and K more"] {
            required.push((format!("{place}, {form}"), 20));
        }
        for over_zero in ["", ", over zero"] {
            required.push((format!("ON up to {place}{over_zero}"), 10));
            required.push((format!("OFF down to {place}{over_zero}"), 10));
        }
    }
    for way in ["ON up", "ON down", "OFF up", "OFF down"] {
        required.push((format!("{way} out of range"), 20));
    }
    for way in ["both up", "both down"] {
        required.push((format!("{way} out of range"), 20));
        required.push((format!("{way} to exact"), 20));
        required.push((format!("{way} to exact, over zero"), 20));
    }
    for way in ["ON up", "ON down", "OFF up", "OFF down"] {
        required.push((format!("{way} to equal setpoints"), 5));
    }
    for with in [0, CONTROL_ERROR, ADVANCE_ERROR] {
        required.push((format!("word 630 {:04x}", with | DURATION_ERROR), 10));
        required.push((format!("word 630 {:04x}", with | SETPOINT_ERROR), 10));
    }
    let both = SETPOINT_ERROR | DURATION_ERROR;
    required.push((format!("word 630 {both:04x}"), 10));
    required
}

#[test]
fn lists_of_trains_reach_every_class() {
    let mut classes = Classes::default();
    for seed in 1..=LISTS {
        each_event(&train_list(seed), |event| match event {
            TrainEvent::Programmed => classes.see("accepted limit cycles"),
            TrainEvent::Judged(judged) => see_judged(&mut classes, judged),
            TrainEvent::Nudged(nudged) => see_nudge(&mut classes, nudged),
            TrainEvent::Step(step) => see_step(&mut classes, step),
        });
    }
    classes.print();
    let mut required = required_of_each();
    required.extend(REQUIRED.map(|(class, least)| (class.to_string(), least)));
    let missing = classes.missing(required);
    assert!(missing.is_empty(), "{missing:?}");
}
