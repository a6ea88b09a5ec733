//! Lists with byte accesses, judged by the words of request 1 from the calls
//! and the lines of the others: the line, the bytes of the input table, and
//! that accesses are no event for anything else.

mod common;

use common::{answers, calls};
use peer::generate::{byte_list, cycle_list, step_list, CallList};

fn lists() -> impl Iterator<Item = CallList> {
    let bytes = (1..=80).map(byte_list);
    let steps = (1..=10).map(|seed| step_list(seed, 3000));
    bytes.chain(steps).chain((1..=80).map(cycle_list))
}

fn hex(field: &str) -> u16 {
    u16::from_str_radix(field, 16).expect("hexadecimal")
}

fn decimal(field: &str) -> u16 {
    field.parse().expect("decimal")
}

/// What the line hangs on, by the places of the calls in their list.
#[derive(Default)]
struct LineHistory {
    /// Bit 0 of the last write to byte 17.
    mask: Option<bool>,
    /// The last 1 written to bit 0 of byte 16.
    last_1: Option<usize>,
    /// The last step whose count was not 0.
    last_count: Option<usize>,
}

impl LineHistory {
    fn is_up(&self) -> bool {
        let after = |step| self.last_1.is_none_or(|last_1| step > last_1);
        self.mask == Some(true) && self.last_count.is_some_and(after)
    }

    fn call(&mut self, place: usize, call: &[u16], line: &[String]) {
        match (call, line[0].as_str()) {
            ([0, _], _) if line[1] == "0" => *self = LineHistory::default(),
            ([8, 17, value], "write") => self.mask = Some(value & 1 == 1),
            ([8, 16, value], "write") if value & 1 == 1 => self.last_1 = Some(place),
            (_, "step") if line[10] != "0" => self.last_count = Some(place),
            _ => {}
        }
    }
}

/// The field that has the line's level.
fn level_field(line: &[String]) -> Option<usize> {
    match line[0].as_str() {
        "step" => Some(11),
        "write" => Some(2),
        _ => None,
    }
}

#[test]
fn line_is_up_exactly_when_the_request_says() {
    let mut levels = [0; 2];
    for list in lists() {
        let calls = calls(&list);
        let mut history = LineHistory::default();
        for (place, (call, line)) in calls.iter().zip(answers(&calls)).enumerate() {
            history.call(place, call, &line);
            if let Some(field) = level_field(&line) {
                let level = usize::from(history.is_up());
                assert_eq!(line[field], level.to_string(), "call {place} {call:?}");
                levels[level] += 1;
            }
        }
    }
    println!("line down and up: {levels:?}");
    assert!(levels.iter().all(|&count| count > 3000));
}

/// The input table as the calls and the other calls' lines tell it.
#[derive(Default)]
struct Told {
    words: [u16; 8],
    /// Real inputs that the module has, and their active states.
    present: u16,
    states: u16,
}

impl Told {
    fn call(&mut self, call: &[u16], line: &[String]) {
        match line[0].as_str() {
            "power" if line[1] == "0" => self.power_up(call[1]),
            "setup" | "group" | "limit" | "nudge" => {
                if line[0] == "setup" && line[1] == "0" {
                    self.states = call[2 + 11];
                }
                self.status(&line[2..6]);
            }
            "step" => self.step(&call[1..], line),
            _ => {}
        }
    }

    /// SUErr stands.
    fn power_up(&mut self, number: u16) {
        *self = Told {
            words: [1, 0, 0, 0, 0, 0, 0, 0],
            present: [0, 0x00ff, 0xffff][usize::from(number - 8511)],
            states: 0,
        };
    }

    /// Acknowledges, errors, fault and MsgIgn.
    fn status(&mut self, fields: &[String]) {
        let acknowledges = hex(&fields[0]);
        let nudge = acknowledges / 8;
        let others = acknowledges % 8;
        self.words[0] = self.words[0] & 0x0700
            | hex(&fields[1])
            | decimal(&fields[3]) << 5
            | decimal(&fields[2]) << 7
            | nudge << 12
            | others << 13;
    }

    fn step(&mut self, sample: &[u16], line: &[String]) {
        let [_, currents, _, on, off, ..] = *sample else {
            panic!("nine words");
        };
        let bits = decimal(&line[5]) << 10 | decimal(&line[6]) << 8 | decimal(&line[7]) << 9;
        let fault = u16::from(line[1] == "11") << 7;
        self.words[0] = self.words[0] & !0x0700 | bits | fault;
        self.words[1] = decimal(&line[2]);
        self.words[2] = decimal(&line[4]);
        self.words[3] = hex(&line[8]);
        self.words[4] = hex(&line[9]);
        self.words[5] = (!(currents ^ self.states) | on) & !off & self.present;
    }
}

#[test]
fn bytes_are_what_the_list_tells() {
    let mut compared = 0;
    for list in lists() {
        let calls = calls(&list);
        let mut told = Told::default();
        for (place, (call, line)) in calls.iter().zip(answers(&calls)).enumerate() {
            told.call(call, &line);
            if let ([7, offset @ 0..=15], "read") = (&call[..], line[0].as_str()) {
                let bytes = told.words[usize::from(offset / 2)].to_le_bytes();
                let expected = format!("{:02x}", bytes[usize::from(offset % 2)]);
                assert_eq!(
                    line[1..],
                    ["0".to_string(), expected],
                    "call {place} {call:?}"
                );
                compared += 1;
            }
        }
    }
    println!("{compared} bytes");
    assert!(compared > 50_000);
}

/// Dropping all byte accesses leaves every other line but for the line's
/// level.
#[test]
fn byte_accesses_are_no_event_for_anything_else() {
    let other_lines = |calls: &[Vec<u16>]| -> Vec<String> {
        let lines = answers(calls).into_iter().zip(calls);
        lines
            .filter(|(_, call)| call[0] != 7 && call[0] != 8)
            .map(|(mut line, _)| {
                if let Some(field) = level_field(&line) {
                    line.remove(field);
                }
                line.join(" ")
            })
            .collect()
    };
    for list in lists() {
        let with = calls(&list);
        let mut without = with.clone();
        without.retain(|call| call[0] != 7 && call[0] != 8);
        assert!(without.len() < with.len());
        assert_eq!(other_lines(&with), other_lines(&without));
    }
}
