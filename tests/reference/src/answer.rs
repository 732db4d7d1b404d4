//! What the desk answers to a step, and the line of it.

use crate::cue::{Cue, write_number};

#[derive(Clone, Copy, Debug, PartialEq, Eq)]
pub enum Answer {
    Ok,
    Yes,
    No,
    Cue(Cue),
    Empty,
    /// So many entries are left in the log of an unwinding edit.
    Left(usize),
    Refused(Refusal),
}

/// The rows of the table "What is turned away" that a step can meet, in their order.
#[derive(Clone, Copy, Debug, PartialEq, Eq)]
pub enum Refusal {
    Malformed,
    NoSuchEdit,
    Unclosed,
    Closed,
    Unwinding,
    NotUnwinding,
    OutOfRange,
    /// The lowest-numbered edit in the way.
    Conflict(usize),
    LocksFull,
    LogFull,
    ScriptFull,
    QueueFull,
}

impl Refusal {
    /// The number of the row.
    pub fn number(self) -> u32 {
        match self {
            Refusal::Malformed => 1,
            Refusal::NoSuchEdit => 2,
            Refusal::Unclosed => 3,
            Refusal::Closed => 4,
            Refusal::Unwinding => 5,
            Refusal::NotUnwinding => 6,
            Refusal::OutOfRange => 7,
            Refusal::Conflict(_) => 8,
            Refusal::LocksFull => 9,
            Refusal::LogFull => 10,
            Refusal::ScriptFull => 11,
            Refusal::QueueFull => 12,
        }
    }
}

impl Answer {
    pub fn is_refused(self) -> bool {
        matches!(self, Answer::Refused(_))
    }

    /// Appends the answer's line with its LF.
    pub fn write_line(self, text: &mut Vec<u8>) {
        match self {
            Answer::Ok => text.extend(b"ok\n"),
            Answer::Yes => text.extend(b"yes\n"),
            Answer::No => text.extend(b"no\n"),
            Answer::Empty => text.extend(b"empty\n"),
            Answer::Cue(cue) => {
                text.extend(b"cue,");
                cue.write_line(text);
            }
            Answer::Left(count) => write_fields(b"left", &[count as u32], text),
            Answer::Refused(refusal @ Refusal::Conflict(edit)) => {
                write_fields(b"refused", &[refusal.number(), edit as u32], text);
            }
            Answer::Refused(refusal) => write_fields(b"refused", &[refusal.number()], text),
        }
    }
}

/// Appends the line of a word and numbers with its LF.
pub(crate) fn write_fields(word: &[u8], numbers: &[u32], text: &mut Vec<u8>) {
    text.extend(word);
    for &number in numbers {
        text.push(b',');
        write_number(number, text);
    }
    text.push(b'\n');
}
