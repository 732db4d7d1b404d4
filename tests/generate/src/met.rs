//! How often inputs of the whole program met each case, so that a run that tries nothing does not pass.

use reference::script::{self, LONGEST_TEXT};
use std::fmt;

/// The answers of accepted steps, the rows that steps meet and those that starts meet. A line is a case if it is equal
/// to it or goes on with a comma; of two such cases the first counts (`left,0` closes an edit).
const ANSWERS: [&str; 7] = ["ok", "yes", "no", "cue", "empty", "left,0", "left"];
const STEPS: [&str; 12] = [
    "refused,1",
    "refused,2",
    "refused,3",
    "refused,4",
    "refused,5",
    "refused,6",
    "refused,7",
    "refused,8",
    "refused,9",
    "refused,10",
    "refused,11",
    "refused,12",
];
const STARTS: [&str; 4] = ["start,13", "start,1", "start,7", "start,11"];
/// The inputs that are odd as a whole.
const INPUTS: [&str; 6] = ["no line steps", "several", "no last LF", "65535 bytes", "65536 bytes", "65537 bytes"];

#[derive(Default)]
pub struct Met {
    inputs: usize,
    answers: [usize; ANSWERS.len()],
    steps: [usize; STEPS.len()],
    starts: [usize; STARTS.len()],
    odd: [usize; INPUTS.len()],
}

impl Met {
    /// Counts what the program printed for an input.
    pub fn count(&mut self, input: &[u8], output: &[u8]) {
        self.inputs += 1;
        for line in script::lines(output) {
            // The closing lists begin.
            if line.starts_with(b"script,") {
                break;
            }
            let found = [count(&ANSWERS, &mut self.answers, line), count(&STEPS, &mut self.steps, line)];
            if found == [false; 2] {
                count(&STARTS, &mut self.starts, line);
            }
        }
        let parted = script::lines(input).filter(|line| line == b"steps").count();
        let ended = input.is_empty() || input.ends_with(b"\n");
        let size = |bytes| input.len() == bytes;
        let odd = [parted == 0, parted > 1, !ended, size(LONGEST_TEXT - 1), size(LONGEST_TEXT), size(LONGEST_TEXT + 1)];
        self.odd.iter_mut().zip(odd).for_each(|(times, odd)| *times += usize::from(odd));
    }

    /// How many of the cases were never met.
    pub fn never(&self) -> usize {
        let times = self.answers.iter().chain(&self.steps).chain(&self.starts).chain(&self.odd);
        times.filter(|&&times| times == 0).count()
    }
}

/// Adds 1 to the first of the cases that the line is, if it is one.
fn count(cases: &[&str], times: &mut [usize], line: &[u8]) -> bool {
    let is = |case: &&str| line.strip_prefix(case.as_bytes()).is_some_and(|rest| matches!(rest, [] | [b',', ..]));
    let index = cases.iter().position(is);
    index.inspect(|&index| times[index] += 1).is_some()
}

impl fmt::Display for Met {
    fn fmt(&self, f: &mut fmt::Formatter) -> fmt::Result {
        let steps: usize = self.answers.iter().chain(&self.steps).sum();
        write!(f, "{} inputs, {steps} steps", self.inputs)?;
        write_counts(f, "answers", &ANSWERS, &self.answers)?;
        write_counts(f, "steps refused", &STEPS, &self.steps)?;
        write_counts(f, "starts refused", &STARTS, &self.starts)?;
        write_counts(f, "odd inputs", &INPUTS, &self.odd)
    }
}

fn write_counts(f: &mut fmt::Formatter, name: &str, cases: &[&str], times: &[usize]) -> fmt::Result {
    let counts: Vec<String> = cases.iter().zip(times).map(|(case, times)| format!("{case}: {times}")).collect();
    write!(f, "\n{name}: {}", counts.join("; "))
}
