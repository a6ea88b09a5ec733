//! What the lists of bytes reach, seen call by call.

use crate::generate::classes::Classes;
use crate::generate::{byte_list, CallList};
use crate::module::Module;
use crate::replay::{make_call, read_call, Call};
use crate::words::Words;

/// The shown bits of word 0.
const SHOWN: [u16; 14] = [0, 1, 2, 3, 4, 5, 7, 8, 9, 10, 12, 13, 14, 15];

/// How often each event was seen.
#[derive(Default)]
struct Seen {
    classes: Classes,
    /// The last step was answered 11.
    in_fault: bool,
}

/// What calls switch on and off.
#[derive(Clone, Copy, Default)]
struct Flags {
    request: bool,
    mask: bool,
    line: bool,
    ignored: bool,
}

impl Flags {
    fn of(module: &Option<Module>) -> Flags {
        module.as_ref().map_or(Flags::default(), |module| Flags {
            request: module.interrupt.request,
            mask: module.interrupt.mask,
            line: module.line(),
            ignored: module.message_ignored(),
        })
    }
}

impl Seen {
    fn of(seeds: impl IntoIterator<Item = u64>) -> Seen {
        let mut seen = Seen::default();
        for seed in seeds {
            seen.list(&byte_list(seed));
        }
        seen
    }

    fn list(&mut self, list: &CallList) {
        let bytes = list.bytes();
        let mut words = Words::new(&bytes[..]);
        let mut module = None;
        self.in_fault = false;
        while let Some(call) = read_call(&mut words) {
            let access = match call {
                Call::ReadByte(offset) => Some((offset, None)),
                Call::WriteByte(offset, word) => Some((offset, Some(word))),
                _ => None,
            };
            let before = Flags::of(&module);
            let mut line = Vec::new();
            make_call(call, &mut module, &mut line).expect("writing to memory");
            let line = String::from_utf8(line).expect("text");
            let fields: Vec<&str> = line.split_whitespace().collect();
            self.answer(&fields);
            if let Some((offset, written)) = access {
                self.access(offset, written, &fields);
            }
            self.changes(&fields, before, Flags::of(&module));
        }
        self.classes.see_if(list.tail().is_empty(), "whole list");
        self.classes
            .see_if(!list.tail().is_empty(), "list broken off");
    }

    fn answer(&mut self, fields: &[&str]) {
        self.classes.see("call");
        self.classes.see(fields[..fields.len().min(2)].join(" "));
        match fields[0] {
            "step" => self.in_fault = fields[1] == "11",
            "power" if fields[1] == "0" => self.in_fault = false,
            _ => {}
        }
    }

    fn access(&mut self, offset: u16, written: Option<u16>, fields: &[&str]) {
        self.classes.see("byte access");
        match (written, fields) {
            (None, ["read", "0", value]) => {
                let value = u8::from_str_radix(value, 16).expect("hexadecimal");
                self.value_read(offset, value);
            }
            (Some(word), ["write", "0", _]) => {
                let parts = [word & 1, u16::from(word & 0xfe != 0), u16::from(word > 255)];
                let [bit, others, over] = parts;
                self.classes.see(format!(
                    "{offset} written: bit {bit} others {others} over {over}"
                ));
            }
            (_, ["none"]) => self.classes.see("byte access without a module"),
            (_, [call, _, _]) => match offset {
                0..=273 | 0xffff => self.classes.see(format!("{call} {offset} refused")),
                _ => self.classes.see(format!("{call} far over refused")),
            },
            _ => panic!("{fields:?}"),
        }
    }

    fn value_read(&mut self, offset: u16, value: u8) {
        let sort = if value == 0 { "0" } else { "not 0" };
        self.classes.see(format!("byte {offset} {sort}"));
        self.classes
            .see_if(self.in_fault, format!("byte {offset} {sort} after 11"));
        if offset > 1 {
            return;
        }
        for place in 0..8 {
            let bit = value >> place & 1;
            self.classes
                .see(format!("bit {} is {bit}", 8 * offset + place));
        }
    }

    /// What the call switched on or off.
    fn changes(&mut self, fields: &[&str], before: Flags, after: Flags) {
        let cause = match fields {
            ["step", "11", ..] => "11",
            ["step" | "write" | "read" | "power", ..] => fields[0],
            _ => "cycle",
        };
        for (name, before, after) in [
            ("request", before.request, after.request),
            ("mask", before.mask, after.mask),
            ("line", before.line, after.line),
            ("MsgIgn", before.ignored, after.ignored),
        ] {
            let direction = if after { "up" } else { "down" };
            self.classes
                .see_if(before != after, format!("{name} {direction} by {cause}"));
        }
        self.classes.see_if(
            before.mask != after.mask && before.request && after.request,
            format!("mask to {} while a request stands", u8::from(after.mask)),
        );
    }
}

/// Events beside those of single offsets, bits and values, and how often they
/// must come.
const SINGLE: [(&str, usize); 39] = [
    ("byte access", 250_000),
    ("byte access without a module", 100),
    ("read 0", 100_000),
    ("read 13", 1000),
    ("write 0", 10_000),
    ("write 13", 500),
    ("write 14", 1000),
    ("read far over refused", 500),
    ("write far over refused", 100),
    ("power 0", 400),
    ("power 3", 100),
    ("setup 0", 400),
    ("setup 5", 20),
    ("setup 6", 20),
    ("setup idle", 400),
    ("group 0", 100),
    ("group 5", 20),
    ("group 7", 20),
    ("limit 0", 400),
    ("limit 5", 20),
    ("limit 8", 20),
    ("nudge 0", 400),
    ("nudge 5", 20),
    ("step 0", 1000),
    ("step 11", 1000),
    ("request up by step", 1000),
    ("request up by 11", 20),
    ("request down by write", 1000),
    ("request down by power", 20),
    ("line up by step", 500),
    ("line up by 11", 10),
    ("line up by write", 500),
    ("line down by write", 500),
    ("mask to 0 while a request stands", 500),
    ("mask to 1 while a request stands", 500),
    ("MsgIgn up by cycle", 100),
    ("MsgIgn down by cycle", 100),
    ("whole list", 300),
    ("list broken off", 20),
];

fn required() -> Vec<(String, usize)> {
    let single = SINGLE.map(|(event, least)| (event.to_string(), least));
    let every = |names: Vec<String>, least| names.into_iter().map(move |name| (name, least));
    let read = (0..=17).map(|offset| format!("byte {offset} 0")).collect();
    let not_0 = (0..=11)
        .chain([16, 17])
        .flat_map(|offset| ["", " after 11"].map(|when| format!("byte {offset} not 0{when}")))
        // The tachometer is 0 then.
        .filter(|name| !name.starts_with("byte 4 not 0 a") && !name.starts_with("byte 5 not 0 a"))
        .collect();
    let not_written = (0..=15).map(|offset| format!("write {offset} refused"));
    let over = [18, 255, 256, 272, 273, 65535]
        .iter()
        .flat_map(|offset| ["read", "write"].map(|call| format!("{call} {offset} refused")));
    let bits = SHOWN
        .iter()
        .flat_map(|place| [0, 1].map(|bit| format!("bit {place} is {bit}")))
        .collect();
    let values = [16, 17]
        .iter()
        .flat_map(|offset| (0..8).map(move |parts| written(*offset, parts)))
        .collect();
    single
        .into_iter()
        .chain(every(read, 1000))
        .chain(every(not_0, 20))
        .chain(every(not_written.chain(over).collect(), 5))
        .chain(every(bits, 50))
        .chain(every(values, 20))
        .collect()
}

/// A write of a value with bit 0, with other bits, over 255 or not.
fn written(offset: u16, parts: u16) -> String {
    let [bit, others, over] = [parts & 1, parts >> 1 & 1, parts >> 2];
    format!("{offset} written: bit {bit} others {others} over {over}")
}

#[test]
fn lists_of_bytes_reach_every_event() {
    let seen = Seen::of(1..=400);
    seen.classes.print();
    assert_eq!(seen.classes.missing(required()), Vec::<String>::new());
    assert!(2 * seen.classes.count("byte access") > seen.classes.count("call"));
    // Parts that are left out.
    for offset in 12..=15 {
        assert_eq!(seen.classes.count(&format!("byte {offset} not 0")), 0);
    }
    assert_eq!(
        (
            seen.classes.count("bit 6 is 1"),
            seen.classes.count("bit 11 is 1")
        ),
        (0, 0)
    );
}

/// Nothing is seen by itself: without lists every event is missing, and a
/// few lists do not have them all.
#[test]
fn events_can_be_missing() {
    assert_eq!(
        Seen::of([]).classes.missing(required()).len(),
        required().len()
    );
    let missing = Seen::of(1..=3).classes.missing(required());
    assert!(missing.len() > 20 && missing.len() < required().len());
}
