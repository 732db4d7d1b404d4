//! How often the texts met each case, so that a run that tries nothing does not pass.

use differential::library::TOO_SHORT;
use reference::script::{self, MALFORMED, NO_PLACE, OUT_OF_RANGE, TOO_LONG};
use std::fmt;

/// The refusals that there are, in the order of the table of rule 4.
const REFUSALS: [u8; 5] = [TOO_LONG, MALFORMED, OUT_OF_RANGE, NO_PLACE, TOO_SHORT];

#[derive(Default)]
pub struct Met {
    texts: usize,
    accepted: usize,
    refused: [usize; REFUSALS.len()],
}

impl Met {
    pub fn count(&mut self, text: &[u8]) {
        self.texts += 1;
        let written = match script::read(text) {
            Ok(cues) => {
                self.accepted += 1;
                !cues.is_empty()
            }
            Err(refused) => {
                self.count_refusal(refused.number);
                true
            }
        };
        // Where nothing is written, no buffer is too short.
        if written {
            self.count_refusal(TOO_SHORT);
        }
    }

    fn count_refusal(&mut self, number: u8) {
        let row = REFUSALS.iter().position(|&refusal| refusal == number);
        self.refused[row.expect("every refusal is in the list")] += 1;
    }

    /// How many of the cases were never met.
    pub fn never(&self) -> usize {
        self.refused.iter().chain([&self.accepted]).filter(|&&times| times == 0).count()
    }
}

impl fmt::Display for Met {
    fn fmt(&self, f: &mut fmt::Formatter) -> fmt::Result {
        write!(f, "{} texts: accepted {}", self.texts, self.accepted)?;
        for (number, times) in REFUSALS.iter().zip(self.refused) {
            write!(f, ", refused {number} {times}")?;
        }
        Ok(())
    }
}
