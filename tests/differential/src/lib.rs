//! What the differential test and the benchmark share: the proved library as Rust calls it.

pub mod library;
