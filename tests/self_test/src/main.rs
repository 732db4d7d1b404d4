//! The reference's desk against the replay: gives it many random step lists, stops at random places,
//! recovers in random orders, and fails where the two differ or where an answer or a row of the table of
//! refusals was never met. Arguments: how many lists, and the seed.
//!
//!     cargo run --release -p self_test -- 20000 1

mod compare;

use generate::met::Met;
use generate::random::Random;
use generate::steps;
use std::env;
use std::process::ExitCode;

/// Only the first differences are printed.
const PRINTED: usize = 10;

fn main() -> ExitCode {
    let mut arguments = env::args().skip(1).map(|text| text.parse().expect("usage: self_test [count [seed]]"));
    let count = arguments.next().unwrap_or(20_000);
    let seed = arguments.next().unwrap_or(1);

    let mut random = Random::new(seed);
    // Chooses the stops and orders. It is not the lists' generator: a failure does not change later lists.
    let mut stops = Random::new(!seed);
    let mut met = Met::default();
    let mut fed = 0;
    let (mut passed, mut failed) = (0, 0);
    let fixed = steps::fixed(&mut random);
    let random_inputs = (0..count).map(|_| steps::any(&mut random));
    for (index, input) in fixed.into_iter().chain(random_inputs).enumerate() {
        match compare::compare(&mut stops, &input, &mut met) {
            Ok(calls) => {
                passed += 1;
                fed += calls;
            }
            Err(difference) => {
                failed += 1;
                if failed <= PRINTED {
                    println!("input {index} of seed {seed}: {difference}");
                }
            }
        }
    }
    println!("{met}\n{fed} calls fed to the replay");
    // A case that was never met counts as a failure.
    failed += met.never() + usize::from(fed == 0);
    println!("{passed} passed, {failed} failed");
    if failed == 0 { ExitCode::SUCCESS } else { ExitCode::FAILURE }
}
