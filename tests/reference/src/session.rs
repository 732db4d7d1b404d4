//! The whole program: a start script, the line `steps` and the step list in, the answers and the settled
//! script and queue out.

use crate::answer::write_fields;
use crate::cue::Cue;
use crate::desk::{Desk, EDITS};
use crate::script::{self, LONGEST_TEXT, Refused, TOO_LONG};
use std::collections::BTreeSet;

/// What the program prints for this input.
pub fn run(input: &[u8]) -> Vec<u8> {
    let mut output = Vec::new();
    append(input, &mut output);
    output
}

/// Appends what the program prints for this input.
pub fn append(input: &[u8], output: &mut Vec<u8>) {
    match read(input) {
        Ok((script, steps)) => {
            let mut desk = Desk::new(script);
            for line in script::lines(steps) {
                desk.step(line).write_line(output);
            }
            desk.recover(1..=EDITS);
            write_list(b"script", desk.script().len(), desk.script().iter().copied(), output);
            write_list(b"queue", desk.queue().len(), desk.queue().iter(), output);
        }
        Err(Refused { number, line }) => write_fields(b"start", &[number.into(), line as u32], output),
    }
}

/// The cues of the start script, and the step list; or why the start is refused.
pub fn read(input: &[u8]) -> Result<(BTreeSet<Cue>, &[u8]), Refused> {
    if input.len() > LONGEST_TEXT {
        return Err(Refused { number: TOO_LONG, line: 0 });
    }
    let (start, steps) = split(input);
    Ok((script::read(start)?, steps))
}

/// The texts before and behind the first line `steps`.
fn split(input: &[u8]) -> (&[u8], &[u8]) {
    let mut place = 0;
    for line in input.split_inclusive(|&byte| byte == b'\n') {
        let end = place + line.len();
        if line == b"steps\n" || line == b"steps" {
            return (&input[..place], &input[end..]);
        }
        place = end;
    }
    (input, &[])
}

/// Appends a closing list: the word with how many cues there are, and their lines.
pub(crate) fn write_list(word: &[u8], count: usize, cues: impl Iterator<Item = Cue>, output: &mut Vec<u8>) {
    write_fields(word, &[count as u32], output);
    for cue in cues {
        cue.write_line(output);
    }
}
