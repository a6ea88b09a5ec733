//! One module kept where it sits: lists of samples stepped in place, with
//! programming between them, give peer's answers and touch nothing beside it.

use card_loop::layout::{
    Acknowledges, Advance, Answer, Bus, Byte, Detector, Errors, Group, Last, Limit, Module, Pair,
    Scalars, Setup, Shown, Switch,
};
use card_loop::replay;
use card_loop::FileCycle;
use peer::generate::{byte_list, cycle_list, frame_list, pair_test_list, step_list, CallList};

const GUARD: [u8; 64] = [0xa5; 64];

/// A module with bytes around it that no call may touch.
#[repr(C)]
struct Place {
    before: [u8; 64],
    module: Module,
    after: [u8; 64],
}

fn place() -> Box<Place> {
    Box::new(Place {
        before: GUARD,
        module: Module::default(),
        after: GUARD,
    })
}

/// The archive's lines for a list on the module of a place.
fn lines(place: &mut Place, list: &CallList) -> String {
    let mut output = Vec::new();
    replay::run_on(&mut place.module, &list.bytes()[..], &mut output).expect("written");
    assert_eq!(
        (place.before, place.after),
        (GUARD, GUARD),
        "bytes beside the module"
    );
    String::from_utf8(output).expect("text")
}

fn peer_lines(list: &CallList) -> String {
    let mut output = Vec::new();
    peer::replay::run(&list.bytes()[..], &mut output).expect("written");
    String::from_utf8(output).expect("text")
}

fn compare(lists: impl Iterator<Item = (u64, CallList)>) {
    let mut place = place();
    for (seed, list) in lists {
        let (ours, theirs) = (lines(&mut place, &list), peer_lines(&list));
        let differing = ours.lines().zip(theirs.lines()).find(|(a, b)| a != b);
        assert_eq!(differing, None, "seed {seed}");
        assert_eq!(ours, theirs, "seed {seed}");
        assert_eq!(ours.lines().count(), list.lines(), "seed {seed}");
    }
}

#[test]
fn steps_in_place_answer_as_peer_does() {
    compare((1..=20).map(|seed| (seed, step_list(seed, 2600))));
}

#[test]
fn tests_in_place_are_counted_as_peer_does() {
    compare((1..=10).map(|seed| (seed, pair_test_list(seed))));
}

#[test]
fn cycles_on_a_lent_module_answer_as_peer_does() {
    compare((1..=200).map(|seed| (seed, cycle_list(seed))));
}

#[test]
fn bytes_of_a_lent_module_answer_as_peer_does() {
    compare((1..=100).map(|seed| (seed, byte_list(seed))));
}

/// The frames are peer's; the calls between them are the archive's.
#[test]
fn frames_between_calls_answer_as_peer_does() {
    compare((1..=40).map(|seed| (seed, frame_list(seed))));
}

/// A module of numbers that no call writes is stepped and programmed, and
/// nothing beside it is touched.
#[test]
fn any_numbers_in_the_module_are_harmless() {
    let mut place = place();
    let g = &mut place.module.configuration;
    g.model = 7;
    g.programming.setup.top = 65535;
    g.programming.setup.scalars.code = 99;
    for group in &mut g.programming.groups {
        group.used = true;
        group.mode = 700;
        group.quantity = 65535;
    }
    for (n, limit) in g.programming.limits.iter_mut().enumerate() {
        limit.action.kind = n as u16;
        limit.action.quantity = 65535;
        limit.action.count = 65535;
        limit.action.duration = 65535;
        limit.detector = 65535;
        limit.setpoints = [65535; 16];
    }
    g.programming.owners = [65535; 32];
    for raw in 0..1100 {
        place
            .module
            .step(replay::sample_of([raw, raw, raw, 0, 0, 0, 0, 0, 0]));
    }
    for kind in [FileCycle::Setup, FileCycle::Group, FileCycle::Limit] {
        place.module.cycle(kind, &mut [65535; 650]);
        place.module.cycle(kind, &mut [65535; 120]);
        place.module.cycle(kind, &mut []);
    }
    for offset in 0..20 {
        place.module.read_byte(offset);
        place.module.write_byte(offset, 255);
    }
    assert_eq!((place.before, place.after), (GUARD, GUARD));
}

/// A card whose output 1 is on at raw position 10: group 1 in Mode 0, one real
/// output, a normal switch at 0/1000.
fn lit_card() -> Module {
    let mut card = Module::default();
    let mut m0 = [0; 120];
    let mut m1 = [0; 650];
    m0[..10].copy_from_slice(&[0x8001, 1024, 0, 0, 0, 0, 0, 0, 1, 1]);
    m0[20] = 0x8000;
    m0[22] = 0x8001;
    m1[0] = 0x8000;
    m1[6] = 1000;
    assert_eq!(card.power_up(8513), 0);
    assert_eq!(card.cycle(FileCycle::Setup, &mut m0), 0);
    assert_eq!(card.cycle(FileCycle::Group, &mut m0), 0);
    assert_eq!(card.cycle(FileCycle::Limit, &mut m1), 0);
    card
}

fn step(card: &mut Module) -> Answer {
    card.step(replay::sample_of([10, 0, 0, 0, 0, 0, 0, 0, 0]))
}

fn real_outputs(card: &mut Module) -> u16 {
    step(card).real
}

/// 01: 3 "gives no module", and nothing changes.
#[test]
fn a_refused_power_up_leaves_a_running_module_as_it_was() {
    let mut card = lit_card();
    assert_eq!(real_outputs(&mut card), 1);
    let before = card;
    for number in [0, 1, 8510, 8514, 65535] {
        assert_eq!(card.power_up(number), 3);
        assert_eq!(card, before);
    }
    assert_eq!(real_outputs(&mut card), 1);
}

/// 13 and 14 change no byte of the module, and neither does a read.
#[test]
fn reads_and_refused_writes_leave_the_module_as_it_was() {
    let mut card = lit_card();
    card.state.kept.bus = Bus {
        request: true,
        mask: true,
    };
    let before = card;
    for offset in 0..=65535 {
        let Byte { number, value } = card.read_byte(offset);
        assert_eq!(number, if offset > 17 { 13 } else { 0 });
        assert!(number == 0 || value == 0);
        let refusal = if offset > 17 { 13 } else { 14 };
        if offset != 16 && offset != 17 {
            assert_eq!(card.write_byte(offset, 255), refusal);
        }
    }
    assert!(card.line());
    assert_eq!(card, before);
}

/// A number that the rules do not name lights nothing.
#[test]
fn a_number_that_no_rule_names_lights_nothing() {
    let edits: [fn(&mut Module); 6] = [
        |m| m.configuration.model = 8514,
        |m| m.configuration.programming.groups[0].mode = 6,
        |m| m.configuration.programming.limits[0].action.kind = 4,
        |m| m.configuration.programming.limits[0].detector = 3,
        |m| m.configuration.programming.owners[0] = 7,
        |m| m.configuration.programming.owners[0] = 65535,
    ];
    for edit in edits {
        let mut card = lit_card();
        edit(&mut card);
        assert_eq!(real_outputs(&mut card), 0);
    }
    assert_eq!(real_outputs(&mut lit_card()), 1);
}

/// A missing output is not tested, though a module that no call writes may
/// hold a program for it; nor is an unprogrammed one.
#[test]
fn a_missing_or_unprogrammed_output_is_not_tested() {
    assert_eq!(step(&mut lit_card()).tests, 1);
    let mut card = lit_card();
    card.configuration.model = 8511;
    assert_eq!(step(&mut card).tests, 0);
    let mut card = lit_card();
    card.configuration.programming.limits[0].action.kind = 0;
    assert_eq!(step(&mut card).tests, 0);
}

/// The programming of docs/BENCH.md, case a, read in the module field by field:
/// the archive lays the structs out as they are declared.
#[test]
fn the_programming_is_read_where_it_lies() {
    let mut card = Module::default();
    let mut m0 = [0; 120];
    let mut m1 = [0; 650];
    m0[..12].copy_from_slice(&[33057, 1000, 0, 10, 100, 20000, 1, 30000, 3, 2, 0, 0]);
    m0[20] = 32768;
    m0[22..46].copy_from_slice(&[
        32773, 0, 0, 7, 33029, 900, 100, 50, 33286, 800, 850, 0, //
        49925, 0, 0, 20, 50181, 100, 600, 30, 58630, 200, 700, 40,
    ]);
    m1[0] = 32768;
    let last = &mut m1[2 + 19 * 31..2 + 19 * 32];
    last[..5].copy_from_slice(&[8192, 65495, 65500, 961, 32]);
    assert_eq!(card.power_up(8513), 0);
    assert_eq!(card.cycle(FileCycle::Setup, &mut m0), 0);
    assert_eq!(card.cycle(FileCycle::Group, &mut m0), 0);
    assert_eq!(card.cycle(FileCycle::Limit, &mut m1), 0);

    let g = &card.configuration;
    assert_eq!(
        (g.model, g.fault, g.ignored, g.raw),
        (8513, false, false, 0)
    );
    let acknowledged = Acknowledges {
        setup: true,
        group: true,
        limit: true,
        nudge: false,
    };
    assert_eq!(
        (g.errors, g.acknowledges),
        (Errors::default(), acknowledged)
    );
    let setup = Setup {
        top: 999,
        offset: 10,
        fast: true,
        interrupt: true,
        md1: Detector {
            low: 100,
            high: 20000,
        },
        md2: Detector {
            low: 1,
            high: 30000,
        },
        scalars: Scalars {
            multiplier: 3,
            divider: 1,
            code: 0,
        },
        ..Setup::default()
    };
    assert_eq!(g.programming.setup, setup);
    let sixth = Group {
        used: true,
        isvirtual: true,
        firstvirtual: true,
        mode: 5,
        quantity: 6,
        dwell: Pair { on: 200, off: 700 },
        offset: 40,
    };
    assert_eq!(g.programming.groups[5], sixth);
    assert_eq!((g.programming.owners[0], g.programming.owners[31]), (1, 6));
    let mut limit = Limit {
        action: Switch {
            kind: 1,
            ..Switch::default()
        },
        detector: 1,
        onadvance: Advance {
            negative: true,
            tenths: 41,
        },
        offadvance: Advance {
            negative: true,
            tenths: 36,
        },
        ..Limit::default()
    };
    limit.setpoints[..2].copy_from_slice(&[961, 32]);
    assert_eq!(g.programming.limits[30], Limit::default());
    assert_eq!(g.programming.limits[31], limit);

    let answer = card.step(replay::sample_of([512, 0, 0, 0, 0, 0, 0, 0xa5a5, 0]));
    let kept = &card.state.kept;
    let x = &card.state.since;
    assert_eq!((answer.position, answer.virtuals), (510, 0xa5a5));
    let shown = Shown {
        position: 510,
        virtuals: 0xa5a5,
        inputs: 0xffff,
        ..Shown::default()
    };
    let bus = Bus {
        request: true,
        mask: false,
    };
    assert_eq!((kept.shown, kept.bus), (shown, bus));
    assert_eq!((answer.changed, card.configuration.raw), (8, 512));
    // Output 32 alone is programmed, with one pair.
    assert_eq!(answer.tests, 1);
    assert_eq!(
        x.speed.last,
        Last {
            stepped: true,
            at: 512
        }
    );
    assert_eq!(
        (
            x.speed.shortwindow.steps,
            x.speed.longwindow.sum,
            x.speed.c
        ),
        (1, 512, 61440)
    );
    // Currents and active states are 0, so the real inputs are active: groups 2 and 3, in Modes 1 and 2, take their edge and stand at their presets.
    assert_eq!(x.positions, [517, 50, 0, 530, 540, 550]);
}
