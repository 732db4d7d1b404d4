//! The count of what passed and failed.

use reference::difference::{Difference, shortened};
use std::process::ExitCode;

/// Only the first differences are printed.
const PRINTED: usize = 10;

#[derive(Default)]
pub struct Tally {
    passed: usize,
    failed: usize,
}

impl Tally {
    pub fn count(&mut self, what: &str, input: &[u8], result: Result<(), Difference>) {
        match result {
            Ok(()) => self.passed += 1,
            Err(difference) => {
                self.failed += 1;
                if self.failed <= PRINTED {
                    println!("{what} of {}\n  {difference}", shortened(input));
                }
            }
        }
    }

    /// A case that was never met counts as a failure.
    pub fn never(&mut self, cases: usize) {
        if cases > 0 {
            println!("{cases} of these cases were never met");
        }
        self.failed += cases;
    }

    pub fn finish(self) -> ExitCode {
        println!("{} passed, {} failed", self.passed, self.failed);
        if self.failed == 0 { ExitCode::SUCCESS } else { ExitCode::FAILURE }
    }
}
