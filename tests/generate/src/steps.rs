//! Inputs of the whole program to try: a start script, the line `steps` and a step list. The lists have from
//! none to thousands of lines; they differ in which cues, edits and calls are frequent, and so in what they meet.
//! Any of them can be stopped at a random place, or recovered in a random order.

use crate::random::Random;
use crate::texts;
use reference::cue::Cue;
use reference::desk::{Desk, EDITS, MOST_ENTRIES};
use reference::script::{self, LONGEST_TEXT, MOST_CUES};
use reference::session;
use std::array;

const WORDS: [&str; 10] = ["begin", "commit", "undo", "back", "add", "remove", "has", "push", "min", "take"];
const CALLS: [&str; 6] = ["add", "remove", "has", "push", "min", "take"];

/// How often each call comes in a list: calls of all kinds, of the script, of the queue.
const WEIGHTS: [[usize; CALLS.len()]; 7] = [
    [3, 3, 2, 3, 1, 2],
    [4, 4, 1, 0, 0, 0],
    [9, 1, 0, 0, 0, 0],
    [1, 1, 9, 0, 0, 0],
    [0, 0, 0, 4, 2, 3],
    [0, 0, 0, 9, 1, 1],
    [0, 0, 0, 1, 0, 0],
];
/// So many of them are mostly of the script.
const SCRIPT_WEIGHTS: usize = 3;

/// Inputs at the bounds of how the start script and the step list are parted, and the printed run.
const BOUNDS: &[&str] = &[
    "",
    "\n",
    "steps",
    "steps\n",
    "steps\n\n",
    "steps\nsteps\nbegin,1\n",
    "0,1,1",
    "0,1,1\nsteps",
    "0,1,1\nsteps\nbegin,1",
    "0,1,1\n\nsteps\nbegin,1\n",
    "0,1,1\nsteps \nbegin,1\n",
    "0,1,1\nsteps\r\nbegin,1\n",
    "0,1,1steps\nbegin,1\n",
    "0,1,33\nsteps\nbegin,1\n",
    "1500,4,12\n1500,2,7\nsteps\nbegin,1\nbegin,2\nadd,1,1500,2,9\nadd,2,1500,2,9\npush,2,900,1,1\npush,1,900,1,1\n\
     remove,2,1500,4,12\ncommit,1\nmin,2\nundo,2\nback,2\n",
];

/// What step lists are made of, and some bytes that they refuse.
const PIECES: &[&str] = &[
    "steps\n", "begin", "commit", "undo", "back", "add", "remove", "has", "push", "min", "take", "0,1,1\n", ",0,1,1\n",
    ",1\n", ",1", ",2", ",8", ",9", ",33", "0", ",", ",", "\n", "\n", "\r", " ", "-", "\0",
];

/// Inputs that every run tries: those at the bounds, and full ones of each kind. One has the most lines, all empty.
pub fn fixed(random: &mut Random) -> Vec<Vec<u8>> {
    let mut inputs: Vec<Vec<u8>> = BOUNDS.iter().map(|input| input.as_bytes().to_vec()).collect();
    for size in LONGEST_TEXT - 1..=LONGEST_TEXT + 1 {
        inputs.extend(Workload::ALL.map(|workload| full(random, workload, size)));
        inputs.push([b"steps", "\n".repeat(size - 5).as_bytes()].concat());
        inputs.push(random.bytes(size));
    }
    inputs
}

/// A random input.
pub fn any(random: &mut Random) -> Vec<u8> {
    match random.below(40) {
        0 => texts::damaged(random, with_list),
        1 => noise(random),
        2 => texts::any(random),
        3..12 => texts::without_last_byte(with_list(random)),
        _ => with_list(random),
    }
}

/// The input up to a random place: anywhere, or in the step list.
pub fn stopped(random: &mut Random, input: &[u8]) -> Vec<u8> {
    let steps = session::read(input).map_or(input.len(), |(_, steps)| steps.len());
    let rest = if random.one_in(4) { input.len() } else { steps };
    input[..input.len() - random.below(rest + 1)].to_vec()
}

/// The input and behind it the steps that recover its unclosed edits, in a random order of their numbers. There is
/// none where the start is refused or the bytes become too many.
pub fn recovered(random: &mut Random, input: &[u8]) -> Option<Vec<u8>> {
    let (start, steps) = session::read(input).ok()?;
    let mut desk = Desk::new(start);
    for line in script::lines(steps) {
        desk.step(line);
    }
    let mut recovered = input.to_vec();
    if input.last().is_some_and(|&byte| byte != b'\n') {
        recovered.push(b'\n');
    }
    recovered.extend(desk.recovery(order(random)));
    (recovered.len() <= LONGEST_TEXT).then_some(recovered)
}

/// The numbers of all edits in a random order.
pub fn order(random: &mut Random) -> [usize; EDITS] {
    let mut order = array::from_fn(|index| index + 1);
    random.shuffle(&mut order);
    order
}

/// What a full input makes the desk do most.
#[derive(Clone, Copy, Debug)]
pub enum Workload {
    /// Many different cues, so that edits are seldom in each other's way.
    ManyCues,
    /// A few cues, for which eight edits wait.
    Waiting,
    /// A start script that is nearly full.
    NearlyFull,
}

impl Workload {
    pub const ALL: [Workload; 3] = [Workload::ManyCues, Workload::Waiting, Workload::NearlyFull];
}

/// An input of exactly this size, with steps of all kinds and few odd lines.
pub fn full(random: &mut Random, workload: Workload, size: usize) -> Vec<u8> {
    let (start, others) = match workload {
        Workload::ManyCues => (0, 400),
        Workload::Waiting => (0, 4),
        Workload::NearlyFull => (MOST_CUES - 6, 60),
    };
    let cues = texts::different(random, &[], start + others);
    let mut input = texts::lines(&cues[..start]);
    let edits = (1..=EDITS).collect();
    let mut list = List { calls: 12, undone: 4, odd: 200, ..List::of(cues, edits, WEIGHTS[0]) };
    input.extend(b"steps\n");
    list.extend(random, &mut input, LONGEST_TEXT, size);
    input
}

/// Pieces of lines in any order, or bytes of every value.
fn noise(random: &mut Random) -> Vec<u8> {
    let size = random.below(60);
    if random.one_in(3) {
        return random.bytes(size);
    }
    (0..size).flat_map(|_| random.pick(PIECES).bytes()).collect()
}

/// An input with a random start script and a random step list.
fn with_list(random: &mut Random) -> Vec<u8> {
    let (start, cues) = start_and_cues(random);
    let mut input = if random.one_in(50) { texts::any(random) } else { texts::lines(&start) };
    input.extend(b"steps\n");
    let (lines, size) = match random.below(200) {
        0 => (LONGEST_TEXT, LONGEST_TEXT - 1 + random.below(3)),
        1..100 => (random.below(40), LONGEST_TEXT),
        100..180 => (random.below(300), LONGEST_TEXT),
        _ => (random.below(700), LONGEST_TEXT),
    };
    let few_places = start.len() + 8 > MOST_CUES;
    let weights = random.pick(if few_places { &WEIGHTS[..1 + SCRIPT_WEIGHTS] } else { &WEIGHTS });
    List::any(random, cues, weights).extend(random, &mut input, lines, size);
    input
}

/// A start script, and the cues of the steps: some of the script, and some that are not in it.
fn start_and_cues(random: &mut Random) -> (Vec<Cue>, Vec<Cue>) {
    let [present, absent] = [0, 1].map(|_| {
        let bound = random.pick(&[4, 40, 100]);
        random.below(bound)
    });
    let start = match random.below(6) {
        0 => MOST_CUES,
        1 => MOST_CUES - random.below(8),
        _ => present,
    };
    let cues = texts::different(random, &[], start + absent + 1);
    (cues[..start].to_vec(), cues[start - present..].to_vec())
}

/// A step list in the making.
struct List {
    cues: Vec<Cue>,
    /// The numbers of the edits in use.
    edits: Vec<usize>,
    weights: [usize; CALLS.len()],
    /// About so many calls come in an edit.
    calls: usize,
    /// One edit in so many is undone.
    undone: usize,
    /// An unwinding edit waits while others step: it comes one time in so many, or if it is drawn again.
    pause: usize,
    /// One line in so many is odd.
    odd: usize,
    /// What each edit is thought to do. No desk is asked, so it may be wrong.
    guesses: [Guess; EDITS],
}

#[derive(Clone, Copy)]
enum Guess {
    Closed,
    /// Open, after so many calls.
    Open(usize),
    /// Unwinding, with at most so many backs to come.
    Unwinding(usize),
}

impl List {
    fn of(cues: Vec<Cue>, edits: Vec<usize>, weights: [usize; CALLS.len()]) -> List {
        List { cues, edits, weights, calls: 5, undone: 2, pause: 1, odd: 20, guesses: [Guess::Closed; EDITS] }
    }

    fn any(random: &mut Random, cues: Vec<Cue>, weights: [usize; CALLS.len()]) -> List {
        let mut edits = order(random).to_vec();
        edits.truncate(1 + random.below(EDITS));
        List {
            calls: random.pick(&[2, 5, 12, 60]),
            undone: random.pick(&[1, 2, 4, 20]),
            pause: random.pick(&[1, 10]),
            odd: random.pick(&[4, 20, 100]),
            ..List::of(cues, edits, weights)
        }
    }

    /// Appends at most so many lines, and cuts what is over the size.
    fn extend(&mut self, random: &mut Random, input: &mut Vec<u8>, lines: usize, size: usize) {
        for _ in 0..lines {
            if input.len() >= size {
                break;
            }
            input.extend(self.line(random).bytes());
            input.push(b'\n');
        }
        input.truncate(size);
    }

    /// The next line without its LF.
    fn line(&mut self, random: &mut Random) -> String {
        let mut edit = random.pick(&self.edits);
        if matches!(self.guesses[edit - 1], Guess::Unwinding(_)) && !random.one_in(self.pause) {
            edit = random.pick(&self.edits);
        }
        if random.one_in(self.odd) {
            let word = random.pick(&WORDS);
            let fields = self.fields(random, word, edit);
            return odd_line(random, fields);
        }
        let guess = &mut self.guesses[edit - 1];
        let (word, next) = match *guess {
            Guess::Closed => ("begin", Guess::Open(0)),
            Guess::Open(calls) if random.one_in(self.calls + 1) => match random.one_in(self.undone) {
                true => ("undo", Guess::Unwinding(calls.clamp(1, MOST_ENTRIES))),
                false => ("commit", Guess::Closed),
            },
            Guess::Open(calls) => (CALLS[random.weighted(&self.weights)], Guess::Open(calls + 1)),
            Guess::Unwinding(1) => ("back", Guess::Closed),
            Guess::Unwinding(backs) => ("back", Guess::Unwinding(backs - 1)),
        };
        *guess = next;
        self.fields(random, word, edit).join(",")
    }

    fn fields(&self, random: &mut Random, word: &str, edit: usize) -> Vec<String> {
        let mut fields = vec![word.into(), edit.to_string()];
        if ["add", "remove", "has", "push"].contains(&word) {
            fields.extend(random.pick(&self.cues).numbers().map(|number| number.to_string()));
        }
        fields
    }
}

/// The line of a step that may not fit its edit, or with something odd in one field or in how the fields are joined.
fn odd_line(random: &mut Random, mut fields: Vec<String>) -> String {
    let at = random.below(fields.len());
    match random.below(16) {
        0 => fields.clear(),
        1 => drop(fields.remove(at)),
        2 => fields.insert(at, "1".into()),
        3 => fields[at].clear(),
        4 => fields[at].insert(0, random.pick(&['0', ' ', '+', '-', 's'])),
        5 => fields[at].push(random.pick(&['\r', ' ', '.', '0', '\0'])),
        6 => fields[at] = random.pick(&["steps", "start", "Begin", "adds", "1000000000", "4294967297"]).into(),
        7 => fields[0].make_ascii_uppercase(),
        8 | 9 => fields[1] = random.pick(&["0", "9", "10", "256", "257", "999999999"]).into(),
        10 | 11 if fields.len() == 5 => {
            let at = random.below(3);
            let above = ["3600000", "100", "33"][at];
            fields[2 + at] = random.pick(&["0", above, "257", "4000000"]).into();
        }
        12 => fields = vec!["steps".into()],
        _ => {}
    }
    fields.join(",")
}
