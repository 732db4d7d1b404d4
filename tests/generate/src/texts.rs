//! Script texts to try: short and long, valid, damaged and at every bound of the rules (docs/RULES.md).

use crate::random::Random;
use reference::cue::{Cue, MODULES, PINS, TIMES};
use reference::script::{LONGEST_LINE, LONGEST_TEXT, MOST_CUES};
use std::collections::BTreeSet;
use std::ops::RangeInclusive;

/// Short texts at the bounds of the line rules and of the ranges.
const BOUNDS: &[&str] = &[
    "",
    "\n",
    "0,1,1",
    "0,1,1\n",
    "0,1,1\n\n",
    "\n0,1,1\n",
    "0,1,1\r\n",
    "0,1,1\n05,1,1\n",
    "3599999,99,32\n",
    "3600000,1,1\n",
    "0,0,1\n",
    "0,100,1\n",
    "0,1,0\n",
    "0,1,33\n",
    "999999999,1,1\n",
    "1000000000,1,1\n",
    "4294967296,1,1\n",
    "18446744073709551616,1,1\n",
];

/// Texts that every run tries: those at each bound, and one of some MiB.
pub fn fixed(random: &mut Random) -> Vec<Vec<u8>> {
    let mut texts: Vec<Vec<u8>> = BOUNDS.iter().map(|text| text.as_bytes().to_vec()).collect();
    for count in MOST_CUES - 1..=MOST_CUES + 1 {
        texts.push(crowded(random, count));
        for size in LONGEST_TEXT - 1..=LONGEST_TEXT + 1 {
            texts.push(of_size(random, size, count));
            texts.push(without_last_byte(of_size(random, size + 1, count)));
        }
    }
    texts.push(random.bytes(LONGEST_TEXT + 1));
    texts.push(random.bytes(5 << 20));
    texts
}

/// A random text. Most are short, as damage shows there as well; few are near the byte limit.
pub fn any(random: &mut Random) -> Vec<u8> {
    let text = match random.below(100) {
        0..35 => short(random),
        35..60 => with_odd_line(random, short),
        60..75 => damaged(random, short),
        75..85 => noise(random),
        85..92 => nearly_full(random),
        92..96 => with_odd_line(random, nearly_full),
        96..99 => damaged(random, nearly_full),
        _ => near_limit(random),
    };
    if random.one_in(4) { without_last_byte(text) } else { text }
}

/// A valid text of exactly `size` bytes, in which `count` different cues, at least two, stand in random order.
/// There is room for each of them once, and for 44 bytes more.
pub fn of_size(random: &mut Random, size: usize, count: usize) -> Vec<u8> {
    // Lines of 6 and of 7 bytes: some number of each fills any rest of 30 bytes or more.
    let fillers = [[0, 1, 1], [10, 1, 1]].map(|numbers| Cue::new(numbers).expect("in range"));
    let cues = different(random, &fillers, count);
    let mut text = lines(&cues);
    while text.len() + 30 + LONGEST_LINE <= size {
        random.pick(&cues).write_line(&mut text);
    }
    while text.len() < size {
        let sevens = (size - text.len()) % 6;
        fillers[sevens.min(1)].write_line(&mut text);
    }
    text
}

/// A few lines of fewer cues, so that some are repeated.
fn short(random: &mut Random) -> Vec<u8> {
    let count = 1 + random.below(8);
    let cues = different(random, &[], count);
    let repeated: Vec<Cue> = (0..random.below(12)).map(|_| random.pick(&cues)).collect();
    lines(&repeated)
}

/// `count` different cues and some repeats, in random order.
fn crowded(random: &mut Random, count: usize) -> Vec<u8> {
    let mut cues = different(random, &[], count);
    for _ in 0..random.below(40) {
        cues.push(random.pick(&cues[..count]));
    }
    random.shuffle(&mut cues);
    lines(&cues)
}

/// A text with 254 to 258 different cues.
fn nearly_full(random: &mut Random) -> Vec<u8> {
    let count = MOST_CUES - 2 + random.below(5);
    crowded(random, count)
}

/// A text near the byte limit or over it, some with a damaged byte.
fn near_limit(random: &mut Random) -> Vec<u8> {
    let over = 2 + random.below(LONGEST_TEXT);
    let size = LONGEST_TEXT - 1 + random.pick(&[0, 1, 1, 2, over]);
    let count = random.pick(&[2, 16, MOST_CUES - 1, MOST_CUES, MOST_CUES + 1]);
    let valid = |random: &mut Random| of_size(random, size, count);
    if random.one_in(3) { damaged(random, valid) } else { valid(random) }
}

/// Bytes of every value, or of those that script text is made of and some that it refuses.
fn noise(random: &mut Random) -> Vec<u8> {
    let size = random.below(40);
    if random.one_in(3) {
        return random.bytes(size);
    }
    (0..size).map(|_| random.pick(b"0011123456789,,,,\n\n\n\r +-.x")).collect()
}

/// A text with one byte of it changed, left out or doubled.
pub(crate) fn damaged(random: &mut Random, text: impl Fn(&mut Random) -> Vec<u8>) -> Vec<u8> {
    let mut text = text(random);
    if !text.is_empty() {
        let at = random.below(text.len());
        match random.below(4) {
            0 => drop(text.remove(at)),
            1 => text.insert(at, text[at]),
            2 => text[at] = random.pick(b"0123456789,\n\r +-"),
            _ => text[at] = random.word() as u8,
        }
    }
    text
}

/// A text with one odd line put between its lines.
fn with_odd_line(random: &mut Random, text: impl Fn(&mut Random) -> Vec<u8>) -> Vec<u8> {
    let text = text(random);
    let mut lines: Vec<&[u8]> = text.split_inclusive(|&byte| byte == b'\n').collect();
    let odd = odd_line(random);
    lines.insert(random.below(lines.len() + 1), odd.as_bytes());
    lines.concat()
}

/// A cue line with something odd in one field or in how the fields are joined.
fn odd_line(random: &mut Random) -> String {
    let mut fields = cue(random).numbers().map(|number| number.to_string()).to_vec();
    let at = random.below(3);
    match random.below(10) {
        0 => fields.clear(),
        1 => drop(fields.remove(at)),
        2 => fields.insert(at, "1".into()),
        3 => fields[at].clear(),
        4 => fields[at].insert(0, '0'),
        5 => fields[at].insert(random.below(2), random.pick(&['\r', ' ', '+', '-', '.', 'x', '\0'])),
        6 => fields[at] = ["3600000", "100", "33"][at].into(),
        7 => fields[at] = random.pick(&["0", "99", "256", "257", "999999999", "1000000000", "4294967297"]).into(),
        _ => fields[at] = (0..=random.below(10)).map(|_| random.pick(&['0', '1', '3', '9'])).collect(),
    }
    fields.join(",") + "\n"
}

pub(crate) fn without_last_byte(mut text: Vec<u8>) -> Vec<u8> {
    text.pop();
    text
}

/// `count` different cues in random order, among them those given.
pub(crate) fn different(random: &mut Random, given: &[Cue], count: usize) -> Vec<Cue> {
    let mut cues: BTreeSet<Cue> = given.iter().copied().collect();
    while cues.len() < count {
        cues.insert(cue(random));
    }
    let mut cues: Vec<Cue> = cues.into_iter().collect();
    random.shuffle(&mut cues);
    cues
}

fn cue(random: &mut Random) -> Cue {
    let numbers = [TIMES, MODULES, PINS].map(|range| within(random, range));
    Cue::new(numbers).expect("in range")
}

/// A number of the range, its ends more often than chance would have them.
fn within(random: &mut Random, range: RangeInclusive<u32>) -> u32 {
    let (low, high) = range.into_inner();
    match random.below(8) {
        0 => low,
        1 => high,
        _ => low + random.below((high - low + 1) as usize) as u32,
    }
}

pub(crate) fn lines(cues: &[Cue]) -> Vec<u8> {
    let mut text = Vec::new();
    for cue in cues {
        cue.write_line(&mut text);
    }
    text
}
