//! Script text, its stamp and the shared cue desk in plain Rust, written from docs/RULES.md alone and not
//! from the proved code. The differential test compares results with it, and the benchmark compares times.

pub mod answer;
pub mod cue;
pub mod desk;
pub mod difference;
pub mod queue;
pub mod replay;
pub mod script;
pub mod session;
pub mod stamp;
pub mod step;
