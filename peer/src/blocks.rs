//! Programming blocks of the M files: where they stand, and the block
//! reader.

use crate::cycles::{M0_WORDS, M1_WORDS};
use crate::group::GROUPS;
use crate::module::Refusal;
use crate::switch::OUTPUTS;

/// Words of a group programming block.
pub const GROUP_BLOCK_WORDS: usize = 4;
/// Word of M0 at which the group blocks begin.
pub const GROUP_BLOCKS_AT: usize = 22;
/// Words of a limit switch programming block.
pub const LIMIT_BLOCK_WORDS: usize = 19;
/// Word of M1 at which the limit switch blocks begin.
pub const LIMIT_BLOCKS_AT: usize = 2;

/// Word of M0 at which a group's block begins, counted from 0.
pub fn group_block_at(group: usize) -> usize {
    GROUP_BLOCKS_AT + group * GROUP_BLOCK_WORDS
}

/// Word of M1 at which an output's block begins, counted from 0.
pub fn limit_block_at(output: usize) -> usize {
    LIMIT_BLOCKS_AT + output * LIMIT_BLOCK_WORDS
}

/// The lowest failing block, numbered from 1, and its error bits.
#[derive(Clone, Copy, Debug, PartialEq, Eq)]
pub struct BlockFault {
    pub number: u16,
    pub errors: u16,
}

impl BlockFault {
    /// `index` counts from 0.
    pub fn of_block(index: usize, errors: u16) -> BlockFault {
        BlockFault {
            number: index as u16 + 1,
            errors,
        }
    }
}

/// A block by its number, from 1.
#[derive(Clone, Copy, Debug, PartialEq, Eq)]
pub enum Block {
    Group(u16),
    Limit(u16),
}

/// The words of a block as a part of its file, with refusal number 0; or an
/// empty part with refusal number 1, 2 or 4.
pub fn read_block<'a>(m0: &'a [u16], m1: &'a [u16], block: Block) -> (u8, &'a [u16]) {
    if m0.len() != M0_WORDS {
        return (Refusal::M0Length.number(), &[]);
    }
    if m1.len() != M1_WORDS {
        return (Refusal::M1Length.number(), &[]);
    }
    let part = match block {
        Block::Group(number) => part(m0, GROUP_BLOCKS_AT, GROUP_BLOCK_WORDS, GROUPS, number),
        Block::Limit(number) => part(m1, LIMIT_BLOCKS_AT, LIMIT_BLOCK_WORDS, OUTPUTS, number),
    };
    match part {
        Some(part) => (0, part),
        None => (Refusal::BlockNumber.number(), &[]),
    }
}

fn part(file: &[u16], at: usize, words: usize, count: usize, number: u16) -> Option<&[u16]> {
    let index = usize::from(number).checked_sub(1)?;
    let start = at + index * words;
    if index < count {
        file.get(start..start + words)
    } else {
        None
    }
}
