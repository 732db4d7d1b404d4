//! The differential test: gives many script texts and many inputs of the whole program to the proved code and to the
//! reference, and fails where they differ or where a case was never met. Arguments: how many random ones of each, and
//! the seed.
//!
//!     LIZKORPE_STATICLIB=folder LIZKORPE_BIN=folder cargo run --release -p differential -- 20000 1

mod desks;
mod loan;
mod met;
mod programs;
mod tally;
mod texts;

use programs::Programs;
use std::env;
use std::process::ExitCode;
use tally::Tally;

fn main() -> ExitCode {
    let mut arguments = env::args().skip(1).map(|text| text.parse().expect("usage: differential [count [seed]]"));
    let count = arguments.next().unwrap_or(20_000);
    let seed = arguments.next().unwrap_or(1) as u64;

    let programs = Programs::from_environment();
    let mut tally = Tally::default();
    texts::run(count, seed, &programs, &mut tally);
    desks::run(count, seed, &programs, &mut tally);
    tally.finish()
}
