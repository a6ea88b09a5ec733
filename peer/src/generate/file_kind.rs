//! Kinds of programming that a file brings.

use std::ops::Range;

use crate::cycles::{GROUP_COMMAND, GROUP_STATUS, LIMIT_STATUS, M0_WORDS, M1_WORDS, SETUP_STATUS};
use crate::generate::program::Program;
use crate::setup::SETUP_WORDS;

#[derive(Clone, Copy, Debug, PartialEq, Eq)]
pub enum FileKind {
    Setup,
    Group,
    Limit,
}

/// In the order in which a card is programmed.
pub const FILE_KINDS: [FileKind; 3] = [FileKind::Setup, FileKind::Group, FileKind::Limit];

impl FileKind {
    pub fn opcode(self) -> u16 {
        match self {
            FileKind::Setup => 1,
            FileKind::Group => 2,
            FileKind::Limit => 3,
        }
    }

    pub fn command(self) -> usize {
        match self {
            FileKind::Setup | FileKind::Limit => 0,
            FileKind::Group => GROUP_COMMAND,
        }
    }

    /// Words that the cycle reads.
    pub fn data(self) -> Range<usize> {
        match self {
            FileKind::Setup => 0..SETUP_WORDS,
            FileKind::Group => GROUP_COMMAND..SETUP_STATUS,
            FileKind::Limit => 0..LIMIT_STATUS,
        }
    }

    pub fn status(self) -> Range<usize> {
        match self {
            FileKind::Setup => SETUP_STATUS..GROUP_STATUS,
            FileKind::Group => GROUP_STATUS..M0_WORDS,
            FileKind::Limit => LIMIT_STATUS..M1_WORDS,
        }
    }

    pub fn file(self, program: &Program) -> &[u16] {
        match self {
            FileKind::Setup | FileKind::Group => &program.m0,
            FileKind::Limit => &program.m1,
        }
    }
}
