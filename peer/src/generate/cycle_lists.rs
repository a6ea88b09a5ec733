//! Lists of programming calls without steps, with some byte accesses.

use crate::generate::call_list::{little_endian, CallList};
use crate::generate::file_kind::{FileKind, FILE_KINDS};
use crate::generate::ladder::Ladder;
use crate::generate::numbers::Numbers;

/// Byte accesses follow one call in so many.
const ACCESSES_EVERY: u32 = 6;

/// The list of a seed.
pub fn cycle_list(seed: u64) -> CallList {
    let mut ladder = Ladder::new(seed, ACCESSES_EVERY);
    if ladder.numbers.one_in(8) {
        calls_without_module(&mut ladder);
    }
    ladder.power_up();
    ladder.program_all();
    for _ in 0..ladder.numbers.between(2, 5) {
        episode(&mut ladder);
    }
    if ladder.numbers.one_in(20) {
        let tail = draw_tail(&mut ladder.numbers);
        ladder.list.break_off(tail);
    }
    ladder.list
}

/// An unknown opcode, or some call cut anywhere.
fn draw_tail(numbers: &mut Numbers) -> Vec<u8> {
    let mut call = CallList::default();
    let words = [0; 9].map(|_| numbers.word());
    match numbers.below(10) {
        0 => call.power_up(words[0]),
        1 => call.nudge(words[0]),
        2 => call.step(&words),
        3 => call.block(words[0], words[1], &words[2..5], &words[5..]),
        opcode @ 4..=6 => call.file(opcode as u16 - 3, &words),
        7 => call.read_byte(words[0]),
        8 => call.write_byte(words[0], words[1]),
        _ => {
            let unknown = numbers.between(11, 65535);
            return little_endian(&[numbers.pick(&[11, 12, unknown, unknown]), words[0]]);
        }
    }
    let mut bytes = call.bytes();
    bytes.truncate(1 + numbers.below(bytes.len() as u32 - 1) as usize);
    bytes
}

fn calls_without_module(ladder: &mut Ladder) {
    if ladder.numbers.one_in(2) {
        ladder.power_up_unknown();
    }
    let kind = ladder.numbers.pick(&FILE_KINDS);
    ladder.faulty_cycle(kind);
    ladder.read_block();
    ladder.nudges();
}

/// Setup, groups, limits and nudges, not always all of them.
fn episode(ladder: &mut Ladder) {
    match ladder.numbers.below(12) {
        0 => ladder.power_up(),
        1 => ladder.power_up_unknown(),
        _ => {}
    }
    for kind in FILE_KINDS {
        // In Independent Mode a group cycle is refused.
        let barred = kind == FileKind::Group && ladder.program.is_independent();
        let skipped = ladder.numbers.below(6);
        if skipped > if barred { 3 } else { 1 } {
            stage(ladder, kind);
        }
        if ladder.numbers.one_in(6) {
            ladder.read_block();
        }
    }
    if ladder.program.programmed() == 0 && !ladder.numbers.one_in(4) {
        ladder.sound_cycle(FileKind::Limit);
    }
    for _ in 0..ladder.numbers.between(1, 8) {
        ladder.nudges();
    }
}

/// Faulty tries, then mostly a sound cycle. A nudge drawn before shows
/// whether the limit programs are still there.
fn stage(ladder: &mut Ladder, kind: FileKind) {
    let nudge = ladder.draw_nudge();
    for _ in 0..ladder.numbers.pick(&[0, 0, 1, 1, 2]) {
        ladder.faulty_cycle(kind);
    }
    if ladder.numbers.one_in(20) {
        ladder.clear_errors();
    }
    if !ladder.numbers.one_in(10) {
        ladder.sound_cycle(kind);
    }
    if ladder.numbers.one_in(4) {
        ladder.clear_errors();
        ladder.nudge(nudge);
    }
}
