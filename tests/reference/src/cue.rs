//! A cue: its three numbers with their ranges, its order and its line.

use std::ops::RangeInclusive;

/// Milliseconds from the start of the show.
pub const TIMES: RangeInclusive<u32> = 0..=3_599_999;
pub const MODULES: RangeInclusive<u32> = 1..=99;
pub const PINS: RangeInclusive<u32> = 1..=32;

/// A cue in range. The derived order is by time, then module, then pin.
#[derive(Clone, Copy, Debug, PartialEq, Eq, PartialOrd, Ord)]
pub struct Cue {
    time: u32,
    module: u8,
    pin: u8,
}

impl Cue {
    /// The cue of these numbers, if each is in its range.
    pub fn new([time, module, pin]: [u32; 3]) -> Option<Cue> {
        if TIMES.contains(&time) && MODULES.contains(&module) && PINS.contains(&pin) {
            let (module, pin) = (module as u8, pin as u8);
            Some(Cue { time, module, pin })
        } else {
            None
        }
    }

    pub fn numbers(self) -> [u32; 3] {
        [self.time, self.module.into(), self.pin.into()]
    }

    /// Appends the cue's line with its LF.
    pub fn write_line(self, text: &mut Vec<u8>) {
        for (number, end) in self.numbers().into_iter().zip(*b",,\n") {
            write_number(number, text);
            text.push(end);
        }
    }
}

/// Appends the digits of a number. (`write!` would do as well, in about twice the time.)
pub(crate) fn write_number(number: u32, text: &mut Vec<u8>) {
    if number >= 10 {
        write_number(number / 10, text);
    }
    text.push(b'0' + (number % 10) as u8);
}

/// The numbers of a cue line, in range or not; nothing if the line is malformed.
pub fn numbers(line: &[u8]) -> Option<[u32; 3]> {
    let mut fields = line.split(|&byte| byte == b',').map(number);
    let numbers = [fields.next()??, fields.next()??, fields.next()??];
    fields.next().is_none().then_some(numbers)
}

/// A number of 1 to 9 digits, with no leading zero except 0 itself.
pub fn number(digits: &[u8]) -> Option<u32> {
    match digits {
        [b'0'] => Some(0),
        [b'1'..=b'9', ..] if digits.len() <= 9 => digits.iter().try_fold(0, |number, digit| match digit {
            b'0'..=b'9' => Some(10 * number + u32::from(digit - b'0')),
            _ => None,
        }),
        _ => None,
    }
}

#[cfg(test)]
mod tests {
    use super::*;

    #[test]
    fn numbers_keep_to_the_digit_rule() {
        assert_eq!(number(b"0"), Some(0));
        assert_eq!(number(b"305"), Some(305));
        assert_eq!(number(b"999999999"), Some(999_999_999));
        for malformed in ["", "00", "05", "1000000000", "+1", "-1", " 1", "1 ", "1a"] {
            assert_eq!(number(malformed.as_bytes()), None, "{malformed:?}");
        }
    }

    #[test]
    fn a_cue_line_has_three_fields() {
        assert_eq!(numbers(b"1500,4,12"), Some([1500, 4, 12]));
        for malformed in ["", "0", "0,1", "0,1,", ",1,1", "0,,1", "0,1,1,", "0,1,1,1", "0,1,1\r"] {
            assert_eq!(numbers(malformed.as_bytes()), None, "{malformed:?}");
        }
    }

    #[test]
    fn ranges_end_where_the_rules_say() {
        assert!(Cue::new([0, 1, 1]).is_some());
        assert!(Cue::new([3_599_999, 99, 32]).is_some());
        for outside in [[3_600_000, 1, 1], [0, 0, 1], [0, 100, 1], [0, 1, 0], [0, 1, 33], [0, 257, 1]] {
            assert_eq!(Cue::new(outside), None, "{outside:?}");
        }
    }
}
