//! What the lists of frames reach, seen call by call. A call is of a class
//! by its bytes and its buffer alone, whatever it is answered.

use std::collections::BTreeSet;
use std::ops::RangeInclusive;

use crate::df1::{DLE, ETX, STX};
use crate::generate::classes::Classes;
use crate::generate::frame_parts::{check_of, frame_of};
use crate::generate::{frame_list, CallList};
use crate::replay::{read_call, Call, FrameCall};
use crate::words::Words;

/// Numbers of data bytes that a frame may have.
const ALLOWED: RangeInclusive<usize> = 1..=244;

/// How many calls, frames or lists of each class were seen.
#[derive(Default)]
struct Seen {
    classes: Classes,
}

/// The data of an input that is correct but perhaps for their number.
fn data_of(input: &[u8]) -> Option<Vec<u8>> {
    let [DLE, STX, body @ .., DLE, ETX, _] = input else {
        return None;
    };
    let mut data = vec![];
    let mut bytes = body.iter();
    while let Some(&byte) = bytes.next() {
        data.push(byte);
        if byte == DLE {
            bytes.next();
        }
    }
    (frame_of(&data) == input).then_some(data)
}

fn is_frame(input: &[u8]) -> bool {
    data_of(input).is_some_and(|data| ALLOWED.contains(&data.len()))
}

/// The place after the first DLE that is not followed by another.
fn after_lone_dle(body: &[u8]) -> Option<usize> {
    let mut at = 0;
    while at < body.len() {
        if body[at] != DLE {
            at += 1;
        } else if body.get(at + 1) == Some(&DLE) {
            at += 2;
        } else {
            return Some(at + 1);
        }
    }
    None
}

/// What a buffer is to the length that is needed.
fn buffer_of(capacity: u16, needed: usize) -> &'static str {
    match usize::from(capacity) {
        0 => "no buffer",
        capacity if capacity == needed => "exact buffer",
        capacity if capacity + 1 == needed => "buffer one short",
        capacity if capacity < needed => "buffer shorter",
        _ => "buffer longer",
    }
}

/// The place at which two inputs of one length differ, if it is only one.
fn only_difference(input: &[u8], other: &[u8]) -> Option<usize> {
    let mut places = (0..input.len()).filter(|&place| input[place] != other[place]);
    let first = places.next()?;
    places.next().is_none().then_some(first)
}

impl Seen {
    fn of(seeds: impl IntoIterator<Item = u64>) -> Seen {
        let mut seen = Seen::default();
        for seed in seeds {
            seen.list(&frame_list(seed));
        }
        seen
    }

    fn list(&mut self, list: &CallList) {
        let bytes = list.bytes();
        let mut words = Words::new(&bytes[..]);
        let mut powered = false;
        let mut inputs = BTreeSet::new();
        while let Some(call) = read_call(&mut words) {
            self.classes.see("call");
            match call {
                Call::Frame(call) => {
                    self.classes.see("frame call");
                    self.classes.see_if(powered, "frame call after a power-up");
                    self.classes
                        .see_if(!powered, "frame call before any power-up");
                    let bytes = call.bytes();
                    self.frame_call(&call, &bytes);
                    if call.name == "data" {
                        inputs.insert(bytes);
                    }
                }
                Call::PowerUp(_) => {
                    powered = true;
                    self.classes.see("power-up");
                }
                Call::Nudge(_) => self.classes.see("nudge"),
                _ => self.classes.see("another call"),
            }
        }
        for frame in inputs.iter().filter(|input| is_frame(input)) {
            self.cuts(frame, &inputs);
            self.changes(frame, &inputs);
        }
        self.tail(list.tail());
    }

    fn frame_call(&mut self, call: &FrameCall, bytes: &[u8]) {
        let FrameCall { name, capacity, .. } = call;
        self.classes.see(format!("{name} of {} bytes", bytes.len()));
        if [600, 65535].contains(capacity) {
            self.classes.see(format!("{name} into {capacity}"));
        }
        let (data, buffer) = if *name == "frame" {
            (Some(bytes.to_vec()), frame_of(bytes).len())
        } else {
            let data = data_of(bytes);
            let length = data.as_ref().map_or(0, Vec::len);
            (data, length)
        };
        let Some(data) = data else {
            return self.no_frame(bytes);
        };
        let buffer = buffer_of(*capacity, buffer);
        match data.len() {
            0 => self.classes.see(format!("{name}, no data, {buffer}")),
            245.. => self.classes.see(format!("{name}, too many data, {buffer}")),
            length => {
                self.classes.see(format!("{name}, {buffer}"));
                self.classes.see(format!("{name}, {length} data"));
                let high = call.words.iter().any(|&word| word > 0xff);
                self.classes.see_if(high, format!("{name}, high bytes"));
                self.see_data(name, &data);
            }
        }
        if *name == "data" && [245, 246].contains(&data.len()) {
            self.classes.see(format!("{name}, {} data", data.len()));
        }
    }

    fn see_data(&mut self, name: &str, data: &[u8]) {
        let check = check_of(data);
        self.classes
            .see_if(check == DLE, format!("{name}, check DLE"));
        self.classes.see_if(check == 0, format!("{name}, sum 0"));
        if data.iter().all(|&byte| byte == DLE) {
            self.classes.see(format!("{name}, {} DLEs", data.len()));
        }
        for (control, text) in [(STX, "STX"), (ETX, "ETX"), (DLE, "DLE")] {
            let among = data.contains(&control);
            self.classes
                .see_if(among, format!("{name}, {text} among the data"));
        }
        let like_an_end = data.windows(2).any(|bytes| bytes == [DLE, ETX]);
        self.classes
            .see_if(like_an_end, format!("{name}, DLE ETX among the data"));
    }

    /// An input that is no frame of any number of data bytes.
    fn no_frame(&mut self, input: &[u8]) {
        for place in 1..input.len() {
            let (before, after) = input.split_at(place);
            let (first, second) = (is_frame(before), is_frame(after));
            self.classes.see_if(first, "bytes after a frame");
            self.classes.see_if(second, "bytes before a frame");
            self.classes.see_if(first && second, "two frames");
            let doubled = first && before.last() == Some(&DLE) && after == [DLE];
            self.classes.see_if(doubled, "check DLE doubled");
            let beside = input.len() < 40 && (0..place).any(|start| is_frame(&input[start..place]));
            self.classes
                .see_if(beside && !first, "bytes before and after a frame");
        }
        if let [DLE, STX, body @ .., DLE, ETX, check] = input {
            match after_lone_dle(body) {
                Some(place) if place == body.len() => self.classes.see("lone DLE at the end"),
                Some(place) => self.classes.see(format!("DLE then {:02x}", body[place])),
                None if *check == check_of(body) => self.classes.see("DLE counted twice"),
                None => self.classes.see("another check"),
            }
        } else {
            let start = input.starts_with(&[DLE, STX]);
            let end = matches!(input, [.., DLE, ETX, _]);
            self.classes.see_if(start, "no end");
            self.classes.see_if(end, "no start");
            self.classes.see_if(!start && !end, "any bytes");
        }
    }

    /// Whether the list reads every beginning of a frame.
    fn cuts(&mut self, frame: &[u8], inputs: &BTreeSet<Vec<u8>>) {
        if (0..frame.len()).all(|length| inputs.contains(&frame[..length])) {
            self.classes.see("every cut of a frame");
            self.classes
                .see_if(frame.len() == 6, "every cut of the shortest");
            self.classes
                .see_if(frame.len() > 100, "every cut of a long frame");
        }
    }

    /// Whether the list reads a frame with every byte changed.
    fn changes(&mut self, frame: &[u8], inputs: &BTreeSet<Vec<u8>>) {
        let mut changes = vec![0; frame.len()];
        for input in inputs.iter().filter(|input| input.len() == frame.len()) {
            if let Some(place) = only_difference(frame, input) {
                changes[place] += 1;
            }
        }
        if changes.iter().all(|&count| count == 255) {
            self.classes.see("every change of a frame");
            let with_dle = data_of(frame).is_some_and(|data| data.contains(&DLE));
            self.classes
                .see_if(with_dle, "every change of a frame with a DLE");
        }
        let everywhere = changes.iter().all(|&count| count > 0);
        self.classes.see_if(
            everywhere && frame.len() > 100,
            "a change at every place of a long frame",
        );
    }

    fn tail(&mut self, tail: &[u8]) {
        match tail {
            [] => self.classes.see("whole list"),
            [_] => self.classes.see("broken off in an opcode"),
            [9, 0, ..] => self.classes.see("broken off in a frame call"),
            [10, 0, ..] => self.classes.see("broken off in a data call"),
            _ => self.classes.see("broken off in another call"),
        }
        self.classes
            .see_if(tail.len() % 2 == 1, "broken off in a word");
        let among_bytes = tail.len() > 6;
        self.classes
            .see_if(among_bytes, "broken off among the bytes");
    }
}

/// Every class with the least number of times that it must be seen.
fn required() -> Vec<(String, usize)> {
    let mut classes: Vec<(String, usize)> = SINGLE
        .iter()
        .map(|&(class, least)| (class.to_string(), least))
        .collect();
    let mut add = |class: String, least| classes.push((class, least));
    for length in 0..=246 {
        add(format!("frame of {length} bytes"), 5);
    }
    for length in 1..=246 {
        add(format!("data, {length} data"), 5);
    }
    for other in (0..=255).filter(|&other| other != DLE) {
        add(format!("DLE then {other:02x}"), 5);
    }
    for name in ["frame", "data"] {
        for buffer in BUFFERS {
            add(format!("{name}, {buffer}"), 500);
            add(format!("{name}, too many data, {buffer}"), 5);
        }
        for number in [493, 494, 651, 652, 1303, 65535] {
            add(format!("{name} of {number} bytes"), 5);
        }
        for capacity in [600, 65535] {
            add(format!("{name} into {capacity}"), 20);
        }
        for class in OF_DATA {
            add(format!("{name}, {class}"), 100);
        }
        for length in [1, 2, 3, 4, 5, 244] {
            add(format!("{name}, {length} DLEs"), 5);
        }
        add(format!("{name}, no data, no buffer"), 5);
    }
    for buffer in ["exact buffer", "buffer one short", "buffer longer"] {
        add(format!("frame, no data, {buffer}"), 5);
    }
    add("data, no data, buffer longer".to_string(), 5);
    classes
}

const BUFFERS: [&str; 5] = [
    "exact buffer",
    "buffer one short",
    "buffer shorter",
    "buffer longer",
    "no buffer",
];

const OF_DATA: [&str; 7] = [
    "high bytes",
    "check DLE",
    "sum 0",
    "STX among the data",
    "ETX among the data",
    "DLE among the data",
    "DLE ETX among the data",
];

const SINGLE: [(&str, usize); 28] = [
    ("frame call", 20_000),
    ("frame call before any power-up", 1000),
    ("frame call after a power-up", 1000),
    ("power-up", 50),
    ("nudge", 50),
    ("bytes before a frame", 100),
    ("bytes after a frame", 100),
    ("bytes before and after a frame", 50),
    ("two frames", 50),
    ("check DLE doubled", 50),
    ("lone DLE at the end", 50),
    ("DLE counted twice", 100),
    ("another check", 100),
    ("no start", 500),
    ("no end", 500),
    ("any bytes", 500),
    ("every cut of a frame", 400),
    ("every cut of the shortest", 20),
    ("every cut of a long frame", 5),
    ("every change of a frame", 4),
    ("every change of a frame with a DLE", 1),
    ("a change at every place of a long frame", 5),
    ("whole list", 300),
    ("broken off in an opcode", 1),
    ("broken off in a frame call", 5),
    ("broken off in a data call", 5),
    ("broken off in a word", 5),
    ("broken off among the bytes", 5),
];

#[test]
fn lists_of_frames_reach_every_class() {
    let seen = Seen::of(1..=500);
    seen.classes.print();
    assert_eq!(seen.classes.missing(required()), Vec::<String>::new());
    let different_lengths = |name: &str| {
        (1..=244)
            .filter(|length| seen.classes.count(&format!("{name}, {length} DLEs")) > 0)
            .count()
    };
    assert!(different_lengths("frame") > 50 && different_lengths("data") > 50);
    let (calls, frame_calls) = (seen.classes.count("call"), seen.classes.count("frame call"));
    assert!(frame_calls < calls && 100 * frame_calls > 95 * calls);
    assert_eq!(seen.classes.count("another call"), 0);
}

/// Nothing is seen by itself: without lists every class is missing, and a few
/// lists do not have them all.
#[test]
fn classes_can_be_missing() {
    assert_eq!(
        Seen::of([]).classes.missing(required()).len(),
        required().len()
    );
    let missing = Seen::of(1..=4).classes.missing(required());
    assert!(missing.len() > 100 && missing.len() < required().len());
}

/// A class that its call is no longer in is missed.
#[test]
fn classes_follow_from_the_bytes() {
    let frame = frame_of(&[5, DLE, 7]);
    let words: Vec<u16> = frame.iter().map(|&byte| byte.into()).collect();
    let class_of = |capacity: u16, words: &[u16]| {
        let mut list = CallList::default();
        list.read_frame(capacity, words);
        let mut seen = Seen::default();
        seen.list(&list);
        seen.classes
    };
    assert!(class_of(3, &words).has("data, exact buffer"));
    assert!(class_of(2, &words).has("data, buffer one short"));
    let mut changed = words.clone();
    changed[4] = 0x20;
    assert!(class_of(3, &changed).has("DLE then 20"));
    assert!(!class_of(3, &changed).has("data, exact buffer"));
    changed[4] = u16::from(DLE);
    changed[8] = 0xd4;
    assert!(class_of(3, &changed).has("DLE counted twice"));
    assert!(class_of(3, &words[..8]).has("no end"));
}
