//! Call lists and traces from a seed, made to show differences: they reach
//! every answer and every state of the card. The same seed gives the same
//! bytes on every machine.

mod byte_calls;
#[cfg(test)]
mod byte_coverage;
mod byte_lists;
mod call_list;
#[cfg(test)]
mod classes;
#[cfg(test)]
mod column_coverage;
mod column_lists;
#[cfg(test)]
mod coverage;
mod cycle_lists;
mod extreme_lists;
mod file_kind;
#[cfg(test)]
mod frame_coverage;
mod frame_lists;
mod frame_parts;
mod ladder;
mod length_lists;
pub(crate) mod numbers;
mod paced_list;
mod pair_test_lists;
#[cfg(test)]
mod press_coverage;
mod press_lists;
mod program;
mod samples;
#[cfg(test)]
mod slow_coverage;
mod slow_lists;
mod slow_updates;
mod spoil;
mod step_lists;
mod stops;
mod traces;
mod train_blocks;
#[cfg(test)]
mod train_coverage;
mod train_events;
mod train_lists;
mod trains;

pub use byte_lists::byte_list;
pub use call_list::CallList;
pub use column_lists::{column_list, Conversions};
pub use cycle_lists::cycle_list;
pub use extreme_lists::{extreme_list, Extremes};
pub use frame_lists::frame_list;
pub use length_lists::{length_list, Lengths};
pub use pair_test_lists::{pair_test_list, PairTests};
pub use press_lists::press_list;
pub use slow_lists::slow_list;
pub use slow_updates::SlowUpdates;
pub use step_lists::{step_list, USUAL_STEPS};
pub use stops::StopPresses;
pub use traces::{damaged_trace, whole_trace, USUAL_SAMPLES};
pub use train_lists::train_list;
pub use trains::Trains;
