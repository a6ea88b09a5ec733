//! The limit switch card: programming cycles, step, bytes of the rack bus,
//! block reader, frames of the serial link, traces by column and trace program.
//! Written from documents 01 and 02 and the 8500 manual, to be compared with the
//! other implementation.

mod bus;
mod cycles;
mod step;
mod windows;

pub mod bench;
pub mod blocks;
pub mod camrun;
pub mod columns;
pub mod compare;
pub mod df1;
pub mod generate;
pub mod group;
pub mod limit_block;
pub mod module;
pub mod motion;
pub mod pair;
pub mod pulse;
pub mod replay;
pub mod setup;
pub mod switch;
pub mod words;

pub use blocks::{read_block, Block};
pub use cycles::{Answer, M0_WORDS, M1_WORDS};
pub use module::{Module, Refusal};
pub use step::{StepAnswer, SAMPLE_WORDS};
