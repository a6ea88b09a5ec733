//! The structs of include/chimneyrye.h, declared again as C lays them out.

macro_rules! plain_structs {
    ($(struct $name:ident { $($field:ident: $type:ty,)* })*) => {
        $(
            #[repr(C)]
            #[derive(Clone, Copy, Debug, Default, PartialEq, Eq)]
            pub struct $name {
                $(pub $field: $type,)*
            }

            impl $name {
                /// Its size, then each field's name and offset.
                pub fn places() -> String {
                    let mut line = format!("{}", std::mem::size_of::<$name>());
                    $(line.push_str(&format!(" {} {}", stringify!($field), std::mem::offset_of!($name, $field)));)*
                    line
                }
            }
        )*
    };
}

plain_structs! {
    struct Detector { low: u16, high: u16, }
    struct Scalars { multiplier: u16, divider: u16, code: u16, }
    struct Setup {
        top: u16, preset: u16, offset: u16,
        reversed: bool, fast: bool, interrupt: bool, independent: bool,
        md1: Detector, md2: Detector, scalars: Scalars, states: u16,
    }
    struct Pair { on: u16, off: u16, }
    struct Group {
        used: bool, isvirtual: bool, firstvirtual: bool,
        mode: u16, quantity: u16, dwell: Pair, offset: u16,
    }
    struct Switch { kind: u16, quantity: u16, count: u16, duration: u16, }
    struct Advance { negative: bool, tenths: u16, }
    struct Limit {
        action: Switch, enable: bool, detector: u16,
        onadvance: Advance, offadvance: Advance, setpoints: [u16; 16],
    }
    struct Programming { setup: Setup, groups: [Group; 6], owners: [u16; 32], limits: [Limit; 32], }
    struct Errors { setup: bool, group: bool, limit: bool, number: bool, setpoint: bool, }
    struct Acknowledges { setup: bool, group: bool, limit: bool, nudge: bool, }
    struct Configuration {
        model: u16, programming: Programming, errors: Errors, acknowledges: Acknowledges,
        ignored: bool, fault: bool, raw: u16,
    }
    struct Last { stepped: bool, at: u16, }
    struct Window { steps: u16, sum: u32, }
    struct Speed { last: Last, shortwindow: Window, longwindow: Window, c: u32, tenths: u32, }
    struct GroupState {
        level: bool, first: bool, held: bool, shift: u16,
        taken: bool, begun: bool, qualified: bool, opened: bool,
    }
    struct TimedState { held: bool, left: u32, }
    struct SinceStart {
        speed: Speed, groups: [GroupState; 6], positions: [u16; 6], timed: [TimedState; 32],
    }
    struct Shown {
        position: u16, tach: u16, real: u16, virtuals: u16, inputs: u16,
        overflow: bool, md1: bool, md2: bool,
    }
    struct Bus { request: bool, mask: bool, }
    struct Kept { shown: Shown, bus: Bus, }
    struct State { since: SinceStart, kept: Kept, }
    struct Module { configuration: Configuration, state: State, }
    struct Sample {
        raw: u16, currents: u16, virtuals: u16, inputson: u16, inputsoff: u16,
        realon: u16, realoff: u16, virtualon: u16, virtualoff: u16,
    }
    struct Answer {
        refused: bool, position: u16, tenths: u32, tach: u16, overflow: bool,
        md1: bool, md2: bool, real: u16, virtuals: u16, changed: u16, tests: u16,
    }
    struct Byte { number: u16, value: u8, }
}
