//! Inputs for the tests and the benchmark: script texts and step lists, random but the same for a seed; and what
//! the lists met.

pub mod met;
pub mod random;
pub mod steps;
pub mod texts;
