//! Script text: read into a set of cues, and written in rising order.

use crate::cue::{self, Cue};
use std::collections::BTreeSet;
use std::fmt;

/// A script text has at most this many bytes.
pub const LONGEST_TEXT: usize = 65_536;
/// A script has at most this many cues.
pub const MOST_CUES: usize = 256;
/// The bytes of the longest cue line, `3599999,99,32` and LF.
pub const LONGEST_LINE: usize = 14;

// The numbers of the table "What is turned away" that a script text can meet.
pub const MALFORMED: u8 = 1;
pub const OUT_OF_RANGE: u8 = 7;
pub const NO_PLACE: u8 = 11;
pub const TOO_LONG: u8 = 13;

/// Why a text was refused, and the line that decided, counted from 1; 0 for the whole text.
#[derive(Clone, Copy, Debug, PartialEq, Eq)]
pub struct Refused {
    pub number: u8,
    pub line: usize,
}

impl fmt::Display for Refused {
    fn fmt(&self, f: &mut fmt::Formatter) -> fmt::Result {
        write!(f, "refused,{},{}", self.number, self.line)
    }
}

/// The cues of a text, or what its first refused line meets. A repeated line is kept once.
pub fn read(text: &[u8]) -> Result<BTreeSet<Cue>, Refused> {
    if text.len() > LONGEST_TEXT {
        return Err(Refused { number: TOO_LONG, line: 0 });
    }
    let mut cues = BTreeSet::new();
    for (bytes, line) in lines(text).zip(1..) {
        let refused = |number| Refused { number, line };
        let numbers = cue::numbers(bytes).ok_or(refused(MALFORMED))?;
        let cue = Cue::new(numbers).ok_or(refused(OUT_OF_RANGE))?;
        if cues.insert(cue) && cues.len() > MOST_CUES {
            return Err(refused(NO_PLACE));
        }
    }
    Ok(cues)
}

/// The lines of a text without their LF. The last LF may be missing; it adds no empty line.
pub fn lines(text: &[u8]) -> impl Iterator<Item = &[u8]> {
    text.split_inclusive(|&byte| byte == b'\n').map(|line| line.strip_suffix(b"\n").unwrap_or(line))
}

/// The cues in rising order, each line with its LF.
pub fn write(cues: &BTreeSet<Cue>) -> Vec<u8> {
    let mut text = Vec::with_capacity(cues.len() * LONGEST_LINE);
    for cue in cues {
        cue.write_line(&mut text);
    }
    text
}

/// The normal form of a text: its cues as they are written, or the line of its refusal.
pub fn format(text: &[u8]) -> Vec<u8> {
    match read(text) {
        Ok(cues) => write(&cues),
        Err(refused) => format!("{refused}\n").into_bytes(),
    }
}

#[cfg(test)]
mod tests {
    use super::*;

    fn formatted(text: &str) -> String {
        String::from_utf8(format(text.as_bytes())).expect("only ASCII is written")
    }

    /// So many different cue lines.
    fn different(count: usize) -> String {
        (0..count).map(|time| format!("{time},1,1\n")).collect()
    }

    #[test]
    fn the_empty_script_is_zero_bytes() {
        assert_eq!(formatted(""), "");
    }

    #[test]
    fn cues_are_written_in_rising_order_and_once() {
        assert_eq!(formatted("1500,4,12\n1500,2,7\n900,9,1\n1500,4,12"), "900,9,1\n1500,2,7\n1500,4,12\n");
    }

    #[test]
    fn the_last_line_feed_may_be_missing_but_not_doubled() {
        assert_eq!(formatted("0,1,1"), "0,1,1\n");
        assert_eq!(formatted("0,1,1\n"), "0,1,1\n");
        assert_eq!(formatted("0,1,1\n\n"), "refused,1,2\n");
        assert_eq!(formatted("\n"), "refused,1,1\n");
    }

    #[test]
    fn the_first_refused_line_decides() {
        assert_eq!(formatted("0,1,1\n0,1,33\n05,1,1\n"), "refused,7,2\n");
        assert_eq!(formatted("0,1,1\n05,1,33\n0,1,33\n"), "refused,1,2\n");
    }

    #[test]
    fn a_257th_different_cue_has_no_place() {
        let full = different(MOST_CUES);
        assert_eq!(formatted(&full), full);
        assert_eq!(formatted(&(full.clone() + "255,1,1\n")), full);
        assert_eq!(formatted(&different(MOST_CUES + 1)), "refused,11,257\n");
        assert_eq!(formatted(&(full + "0,1,33\n")), "refused,7,257\n");
    }

    #[test]
    fn the_byte_limit_is_tried_first() {
        assert_eq!(formatted(&"x".repeat(LONGEST_TEXT)), "refused,1,1\n");
        assert_eq!(formatted(&"x".repeat(LONGEST_TEXT + 1)), "refused,13,0\n");
    }

    #[test]
    fn the_longest_text_written_has_3584_bytes() {
        let longest = (0..MOST_CUES).map(|n| format!("{},99,32\n", 3_599_999 - n)).collect::<String>();
        assert_eq!(format(longest.as_bytes()).len(), 3_584);
    }
}
