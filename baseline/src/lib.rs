//! An independent model of the GMS87C1202 bench, played tick by tick.
//!
//! It follows CHIP.md, HOSTS.md, CHARTS.md, CALLS.md and FAULTS.md and shares
//! no code with the bench. `experiment::play` turns a description into a result.

#[cfg(bench)]
pub mod bench;
pub mod bus;
pub mod chart;
pub mod chip;
pub mod counters;
pub mod cpu;
pub mod experiment;
pub mod fault;
pub mod generate;
pub mod host;
pub mod machine;
pub mod program;
pub mod rng;
pub mod sheet;
pub mod tally;

pub use chart::{Mode, PinSample, Stretch};
pub use chip::Chip;
pub use experiment::{play, Error, Experiment};
pub use fault::{Fault, Kind};
pub use host::Host;
pub use machine::Machine;

/// The first tick that is never played, 2^48.
pub const HORIZON: u64 = 1 << 48;
/// The most ticks that one run may be granted.
pub const MAX_GRANT: u64 = 1 << 32;
/// Bytes of an image, which lies from F800 to FFFF.
pub const IMAGE_SIZE: usize = 2048;
/// Bytes of RAM.
pub const RAM_SIZE: usize = 128;
