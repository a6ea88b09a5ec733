//! Readings 15 to 29 of the open points (groups), 92 and 93, and R2a to R2f
//! of the press in a stop step.

mod common;

use common::{command, one_group, real_group, sample, virtual_group, Card, ALWAYS, TRESP};
use peer::group::{GroupPosition, GroupProgram, GroupSample, GroupState, Kind, Mode};
use peer::motion::MachinePosition;
use peer::pair::Pair;
use peer::Answer;

#[test]
fn p15_dwell_of_the_taken_edges_own_step_does_not_arm() {
    let mut card = one_group(1, 500, 510, 7);
    card.step_in(400, 0);
    card.step_in(502, 1);
    assert_eq!(card.group_positions()[0], 7);
    card.step_in(503, 0);
    card.step_in(504, 1);
    assert_eq!(card.group_positions()[0], 9);
}

#[test]
fn p15_dwell_that_begins_with_the_edge_arms_it() {
    let mut card = one_group(1, 500, 510, 7);
    card.step_in(400, 1);
    assert_eq!(card.group_positions()[0], 7);
    // Not armed: 20 counts on.
    card.step_in(410, 0);
    card.step_in(420, 1);
    assert_eq!(card.group_positions()[0], 27);
    card.step_in(430, 0);
    // Group Position 500 begins the dwell, in the step of the edge.
    card.step_in(893, 1);
    assert_eq!(card.group_positions()[0], 7);
}

#[test]
fn p16_preset_into_the_dwell_is_no_beginning() {
    let mut card = one_group(2, 0, 50, 10);
    // Edge at 500: position 10. Then 11, 50, 1023 and 0.
    let lit = card.lit_over(&[(500, 1), (501, 0), (540, 0), (489, 0), (490, 0)]);
    assert_eq!(lit, [true, true, true, true, false]);
}

#[test]
fn p16_edge_input_stays_unarmed_after_a_preset_into_the_dwell() {
    let mut card = one_group(1, 0, 50, 10);
    card.step_in(500, 1);
    card.step_in(501, 0);
    card.step_in(502, 1);
    assert_eq!(card.group_positions()[0], 12);
}

#[test]
fn p17_preset_out_of_the_dwell_lets_the_next_step_begin_one() {
    let mut card = one_group(2, 0, 50, 100);
    // Position 100 after the edge; raw 940 is position 6.
    let lit = card.lit_over(&[(10, 1), (940, 1)]);
    assert_eq!(lit, [true, false]);
    assert_eq!(card.group_positions()[0], 6);
}

#[test]
fn p18_dwell_0_0_never_holds() {
    let mut card = one_group(1, 0, 0, 7);
    card.step_in(100, 1);
    card.step_in(1000, 0);
    card.step_in(0, 0);
    card.step_in(200, 1);
    // One edge only: 7 + 100.
    assert_eq!(card.group_positions()[0], 107);
    let mut card = one_group(2, 0, 0, 7);
    let lit = card.lit_over(&[(0, 0), (100, 1), (0, 0), (500, 0), (1023, 0)]);
    assert_eq!(lit, [false, true, true, true, true]);
    let mut card = one_group(4, 0, 0, 0);
    assert_eq!(card.lit_over(&[(0, 0), (0, 1), (5, 1)]), [false; 3]);
}

#[test]
fn p19_preset_is_the_groups_own_word() {
    let mut card = Card::set_up(&[(2, 5)]).and_groups(&[[virtual_group(1, 1), 0, 0, 7]]);
    card.step_in(100, 1);
    assert_eq!(card.group_positions()[0], 7);
    card.step_in(90, 1);
    // Travel is the change of Machine Position: 7 − 10 + 1024.
    assert_eq!(card.group_positions()[0], 1021);
}

#[test]
fn p20_no_offset_before_the_first_edge() {
    for mode in [1, 2] {
        let mut card = one_group(mode, 0, 0, 7);
        card.step_in(100, 0);
        assert_eq!(card.group_positions()[0], 100);
    }
    for mode in [0, 3, 4, 5] {
        let mut card = one_group(mode, 0, 0, 7);
        card.step_in(100, 1);
        assert_eq!(card.group_positions()[0], 107);
    }
}

/// A Mode 5 group with dwell 100/200, stepped as a leaf.
struct Gluer {
    state: GroupState,
}

const TURNING: u8 = 1;
const STOP: u8 = 2;
const INPUT: u8 = 4;
const FIRST: u8 = 8;

impl Gluer {
    const PROGRAM: GroupProgram = GroupProgram {
        kind: Kind::Real,
        quantity: 1,
        mode: Mode::Mode5,
        first_cycle_kind: Kind::Real,
        channel: Pair { on: 100, off: 200 },
        offset: 0,
    };

    fn new() -> Gluer {
        Gluer {
            state: GroupState::START,
        }
    }

    fn step(&mut self, position: u16, flags: u8) -> bool {
        let sample = GroupSample {
            machine: MachinePosition(position),
            input: flags & INPUT != 0,
            first_cycle: flags & FIRST != 0,
            turning: flags & TURNING != 0,
            stop: flags & STOP != 0,
        };
        let left = self.state.step(&Gluer::PROGRAM, sample, 1024);
        assert_eq!(left, GroupPosition(position));
        self.state.open
    }

    /// Turning, input active in the dwell: open and qualified.
    fn qualified() -> Gluer {
        let mut gluer = Gluer::new();
        assert!(!gluer.step(50, TURNING));
        assert!(!gluer.step(120, TURNING));
        assert!(gluer.step(130, TURNING | INPUT));
        assert!(gluer.step(140, TURNING));
        gluer
    }
}

#[test]
fn p22_stop_does_not_forget() {
    let mut gluer = Gluer::qualified();
    assert!(!gluer.step(150, STOP));
    assert!(!gluer.step(150, 0));
    assert!(gluer.step(150, TURNING | FIRST));
}

#[test]
fn p23_first_cycle_opens_after_the_dwell_has_ended() {
    let mut gluer = Gluer::qualified();
    assert!(gluer.step(300, TURNING));
    assert!(!gluer.step(310, STOP));
    assert!(gluer.step(310, FIRST));
    // The next dwell forgets.
    assert!(gluer.step(90, TURNING));
    assert!(!gluer.step(110, TURNING));
    assert!(!gluer.step(110, TURNING | FIRST));
}

#[test]
fn p24_first_cycle_opens_while_standing_until_the_next_stop() {
    let mut gluer = Gluer::qualified();
    assert!(!gluer.step(150, STOP));
    assert!(gluer.step(150, FIRST));
    assert!(gluer.step(150, FIRST));
    assert!(!gluer.step(150, FIRST | STOP));
    assert!(!gluer.step(150, FIRST));
}

#[test]
fn p25_first_cycle_edge_without_a_qualifying_step_is_lost() {
    let mut gluer = Gluer::new();
    assert!(!gluer.step(120, TURNING | FIRST));
    assert!(gluer.step(130, TURNING | FIRST | INPUT));
    assert!(!gluer.step(140, STOP | FIRST));
    assert!(!gluer.step(140, TURNING | FIRST));
}

#[test]
fn p26_order_within_a_step() {
    // A dwell's beginning forgets before the First Cycle edge.
    let mut gluer = Gluer::qualified();
    gluer.step(90, TURNING);
    assert!(!gluer.step(110, TURNING | FIRST));
    // With a qualifying step it opens.
    let mut gluer = Gluer::qualified();
    gluer.step(90, TURNING);
    assert!(gluer.step(110, TURNING | INPUT | FIRST));
    // A stop in the step of a beginning closes too.
    let mut gluer = Gluer::qualified();
    gluer.step(90, TURNING);
    assert!(!gluer.step(110, STOP | INPUT));
}

#[test]
fn r2a_press_in_a_stop_step_without_a_qualifying_step_is_lost() {
    let mut gluer = Gluer::new();
    assert!(!gluer.step(120, TURNING));
    assert!(!gluer.step(150, STOP | FIRST));
    assert!(!gluer.step(150, FIRST));
    // Not kept: the qualifying step opens, and the next stop closes.
    assert!(gluer.step(150, TURNING | INPUT | FIRST));
    assert!(!gluer.step(150, STOP | FIRST));
}

#[test]
fn r2b_press_in_a_stop_step_in_which_a_dwell_begins() {
    let mut gluer = Gluer::qualified();
    assert!(gluer.step(90, TURNING));
    assert!(!gluer.step(110, STOP | FIRST | INPUT));
    assert!(!gluer.step(110, FIRST | INPUT));
    assert!(!gluer.step(110, INPUT));
    assert!(!gluer.step(110, FIRST | INPUT));
}

#[test]
fn r2c_press_in_a_stop_step_opens_until_the_next_stop() {
    let mut gluer = Gluer::qualified();
    assert!(gluer.step(150, STOP | FIRST));
    assert!(gluer.step(150, FIRST));
    assert!(gluer.step(150, 0));
    assert!(!gluer.step(150, STOP));
    // Again in a stop step, out of the dwell; then the machine turns.
    assert!(!gluer.step(250, 0));
    assert!(gluer.step(250, STOP | FIRST));
    assert!(gluer.step(260, TURNING));
    assert!(!gluer.step(100, TURNING));
}

#[test]
fn r2d_press_held_from_before_is_no_edge_in_the_stop_step() {
    let mut gluer = Gluer::qualified();
    assert!(gluer.step(150, TURNING | FIRST));
    assert!(!gluer.step(150, STOP | FIRST));
    assert!(!gluer.step(150, FIRST));
    assert!(!gluer.step(150, 0));
    assert!(gluer.step(150, STOP | FIRST));
}

#[test]
fn r2f_beginning_then_qualifying_then_stop_then_edge() {
    // A beginning that qualifies: open, and the edge changes nothing.
    let mut gluer = Gluer::new();
    assert!(gluer.step(110, TURNING | INPUT | FIRST));
    // The stop closes what qualified before, and the edge opens it.
    assert!(!gluer.step(110, STOP | FIRST));
    assert!(!gluer.step(110, STOP));
    assert!(gluer.step(110, STOP | FIRST));
}

#[test]
fn p27_standing_in_the_dwell_stays_closed_until_it_turns() {
    let mut gluer = Gluer::new();
    assert!(!gluer.step(120, INPUT));
    assert!(!gluer.step(120, INPUT | STOP));
    assert!(!gluer.step(120, INPUT));
    // An update brings tenths while still in the dwell.
    assert!(gluer.step(121, INPUT | TURNING));
}

#[test]
fn mode_5_needs_dwell_and_input() {
    let mut gluer = Gluer::new();
    assert!(!gluer.step(50, TURNING | INPUT));
    assert!(!gluer.step(200, TURNING | INPUT));
    assert!(!gluer.step(199, TURNING));
    assert!(gluer.step(198, TURNING | INPUT));
    assert!(gluer.step(250, TURNING));
    assert!(!gluer.step(100, TURNING));
}

/// An 8513 with real group 1 in Mode 5, dwell 0/1000, output 1 always
/// holding, turning at one count a step when step 600 has qualified it, then
/// standing; step 1200, the next one, is a stop.
fn standing_gluer(first_cycle_type: u16) -> Card {
    let control = real_group(5, 1) | first_cycle_type;
    let mut card = Card::set_up(&[command(TRESP), (11, 0xffff)])
        .and_groups(&[[control, 0, 1000, 0]])
        .and_limits(&[(1, &ALWAYS)]);
    for raw in 0..600 {
        let lit = card.module.step(&sample(raw, 1, 0)).real_outputs;
        assert_eq!(lit, u16::from(raw == 599));
    }
    for _ in 0..599 {
        assert_eq!(card.module.step(&sample(599, 0, 0)).real_outputs, 1);
    }
    card
}

/// The same after the stop.
fn stopped_gluer(first_cycle_type: u16) -> Card {
    let mut card = standing_gluer(first_cycle_type);
    assert_eq!(card.module.step(&sample(599, 0, 0)).real_outputs, 0);
    card
}

#[test]
fn p21_first_cycle_follows_fcityp() {
    let first_real = sample(599, 0x80, 0);
    let first_virtual = sample(599, 0, 0x80);
    let mut card = stopped_gluer(0x2000);
    assert_eq!(card.module.step(&first_real).real_outputs, 0);
    assert_eq!(card.module.step(&first_virtual).real_outputs, 1);
    let mut card = stopped_gluer(0);
    assert_eq!(card.module.step(&first_virtual).real_outputs, 0);
    assert_eq!(card.module.step(&first_real).real_outputs, 1);
}

#[test]
fn p24_in_the_module() {
    let mut card = stopped_gluer(0x2000);
    for _ in 0..599 {
        assert_eq!(card.module.step(&sample(599, 0, 0x80)).real_outputs, 1);
    }
    // The 600th step after the stop is again a stop.
    assert_eq!(card.module.step(&sample(599, 0, 0x80)).real_outputs, 0);
}

#[test]
fn r2c_in_the_module() {
    let mut card = standing_gluer(0x2000);
    for _ in 0..600 {
        assert_eq!(card.module.step(&sample(599, 0, 0x80)).real_outputs, 1);
    }
    // Held in the next stop.
    assert_eq!(card.module.step(&sample(599, 0, 0x80)).real_outputs, 0);
    // A press of the other type in the stop step is none.
    let mut card = standing_gluer(0);
    assert_eq!(card.module.step(&sample(599, 0, 0x80)).real_outputs, 0);
    let mut card = standing_gluer(0);
    assert_eq!(card.module.step(&sample(599, 0x80, 0)).real_outputs, 1);
}

#[test]
fn p28_mode_4_edge_at_any_step_in_the_dwell() {
    let mut card = one_group(4, 0, 50, 0);
    let lit = card.lit_over(&[(10, 0), (20, 0), (30, 1), (40, 0), (60, 0)]);
    assert_eq!(lit, [false, false, true, true, true]);
    // The next dwell closes; an edge in the same step opens again.
    assert_eq!(card.lit_over(&[(1000, 0), (0, 0)]), [true, false]);
    assert_eq!(card.lit_over(&[(1000, 0), (0, 1)]), [false, true]);
    // An edge outside the dwell does nothing.
    assert_eq!(
        card.lit_over(&[(60, 0), (1000, 0), (10, 0), (60, 0), (61, 1)]),
        [true, true, false, false, false]
    );
}

#[test]
fn p29_held_input_is_an_edge_after_a_group_cycle() {
    let blocks = [
        [virtual_group(1, 1), 0, 0, 7],
        [virtual_group(1, 1), 0, 0, 8],
    ];
    let mut card = Card::grouped(&blocks);
    card.step_in(100, 3);
    card.step_in(150, 3);
    assert_eq!(card.group_positions(), [57, 58, 0, 0, 0, 0]);
    assert_eq!(card.groups(&blocks), Answer::Accepted);
    card.step_in(160, 3);
    assert_eq!(card.group_positions(), [7, 8, 0, 0, 0, 0]);
}

#[test]
fn p29_refused_group_cycle_is_no_start() {
    let mut card = Card::grouped(&[[virtual_group(1, 1), 0, 0, 7]]);
    card.step_in(100, 1);
    assert_ne!(card.groups(&[[0x9fff; 4]]), Answer::Accepted);
    card.step_in(150, 1);
    card.clear_errors();
    assert_eq!(card.group_positions()[0], 57);
}

#[test]
fn p92_switches_read_the_position_after_the_preset() {
    let mut card = Card::grouped(&[[virtual_group(1, 1), 0, 0, 300]])
        .and_limits(&[(17, &[0, 0, 0, 300, 301])]);
    assert_eq!(
        card.lit_over(&[(300, 0), (10, 1), (11, 1)]),
        [true, true, false]
    );
}

#[test]
fn p93_edge_not_taken_is_lost() {
    let mut card = one_group(2, 500, 510, 0);
    // Taken at 100: position 0. Edge at position 50 is not taken; the dwell
    // at 500 closes with the input still active.
    let lit = card.lit_over(&[(100, 1), (120, 0), (150, 1), (600, 1), (620, 1)]);
    assert_eq!(lit, [true, true, true, false, false]);
}

#[test]
fn modes_0_1_and_3() {
    let mut card = one_group(0, 0, 50, 0);
    assert_eq!(card.lit_over(&[(0, 0), (100, 1), (10, 0)]), [true; 3]);
    let mut card = one_group(1, 0, 50, 0);
    assert_eq!(card.lit_over(&[(0, 0), (100, 1), (10, 0)]), [true; 3]);
    let mut card = one_group(3, 0, 50, 0);
    assert_eq!(
        card.lit_over(&[(0, 0), (100, 1), (10, 1), (10, 0)]),
        [false, true, true, false]
    );
}

#[test]
fn mode_2_closing_comes_first() {
    let mut card = one_group(2, 500, 510, 7);
    assert!(card.lit(400, 1));
    assert!(card.lit(410, 0));
    // Position 500 begins the dwell and the edge is taken: open.
    assert!(card.lit(893, 1));
}

#[test]
fn each_group_has_its_own_input_and_outputs() {
    let blocks: Vec<[u16; 4]> = (0..6)
        .map(|group| {
            if group % 2 == 0 {
                [real_group(3, 2), 0, 0, 0]
            } else {
                [virtual_group(3, 3), 0, 0, 0]
            }
        })
        .collect();
    let always: Vec<(usize, &[u16])> = (1..=6)
        .chain(17..=25)
        .map(|output| (output, &ALWAYS[..]))
        .collect();
    let mut card = Card::set_up(&[(11, 0xffff)])
        .and_groups(&blocks)
        .and_limits(&always);
    let mut outputs = |currents, virtual_inputs| {
        let answer = card.module.step(&sample(0, currents, virtual_inputs));
        (answer.real_outputs, answer.virtual_outputs)
    };
    // Groups 1, 3, 5 are real: inputs 1, 3, 5 and outputs 1–2, 3–4, 5–6.
    assert_eq!(outputs(0x01, 0), (0x03, 0));
    assert_eq!(outputs(0x04, 0), (0x0c, 0));
    assert_eq!(outputs(0x10, 0), (0x30, 0));
    assert_eq!(outputs(0x2a, 0), (0, 0));
    // Groups 2, 4, 6 are virtual: inputs 18, 20, 22.
    assert_eq!(outputs(0, 0x02), (0, 0x0007));
    assert_eq!(outputs(0, 0x08), (0, 0x0038));
    assert_eq!(outputs(0, 0x20), (0, 0x01c0));
    assert_eq!(outputs(0, 0x15), (0, 0));
}
