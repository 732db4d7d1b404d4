//! The replay (docs/RULES.md, 8): a plain desk without edits, locks or room, fed only what was committed. It shares
//! no state with the desk, so that each can be held against the other.

use crate::answer::Answer;
use crate::cue::Cue;
use crate::difference::{Difference, equal};
use crate::script;
use crate::session::{self, write_list};
use crate::step::{self, Action, Call, Step};
use std::collections::{BTreeMap, BTreeSet};

#[derive(Clone, Debug, Default, PartialEq, Eq)]
pub struct Replay {
    pub script: BTreeSet<Cue>,
    /// A collection: the order tells nothing.
    pub queue: Vec<Cue>,
    /// The answer to each fed call and the index of its line, in the order of feeding.
    pub answers: Vec<(usize, Answer)>,
}

/// Feeds the replay with the lines, of each of which is told whether the desk refused it.
pub fn replay<'a>(start: BTreeSet<Cue>, lines: impl IntoIterator<Item = (&'a [u8], bool)>) -> Replay {
    let mut replay = Replay { script: start, ..Replay::default() };
    // The accepted calls of each edit since its begin.
    let mut calls: BTreeMap<u32, Vec<(usize, Call<Cue>)>> = BTreeMap::new();
    for (index, (line, refused)) in lines.into_iter().enumerate() {
        let Ok(Step { edit, action }) = step::read(line) else { continue };
        if refused {
            continue;
        }
        match action {
            Action::Begin => drop(calls.insert(edit, Vec::new())),
            Action::Call(call) => {
                let call = call.in_range().map(|call| (index, call));
                calls.entry(edit).or_default().extend(call);
            }
            Action::Commit => {
                for (index, call) in calls.remove(&edit).unwrap_or_default() {
                    let answer = replay.answer(call);
                    replay.answers.push((index, answer));
                }
            }
            Action::Undo | Action::Back => drop(calls.remove(&edit)),
        }
    }
    replay
}

/// Holds an output of the program against the replay, which learns from it only which lines were refused: the answers
/// to the calls that it is fed and the closing lists must be the replay's. Gives how many calls those are, or what
/// differs. For a refused start there is nothing to replay.
pub fn check(input: &[u8], output: &[u8]) -> Result<usize, Difference> {
    let Ok((start, steps)) = session::read(input) else { return Ok(0) };
    let steps: Vec<&[u8]> = script::lines(steps).collect();
    let lines: Vec<&[u8]> = output.split_inclusive(|&byte| byte == b'\n').collect();
    let (answers, closing) = lines.split_at(steps.len().min(lines.len()));

    let refused = answers.iter().map(|answer| answer.starts_with(b"refused,"));
    let mut replay = replay(start, steps.into_iter().zip(refused));
    for &(index, answer) in &replay.answers {
        let mut line = Vec::new();
        answer.write_line(&mut line);
        equal(&format!("answer to step {} in the replay", index + 1), &line, answers[index])?;
    }
    replay.queue.sort();
    let mut lists = Vec::new();
    write_list(b"script", replay.script.len(), replay.script.iter().copied(), &mut lists);
    write_list(b"queue", replay.queue.len(), replay.queue.iter().copied(), &mut lists);
    equal("closing lists of the replay", &lists, &closing.concat())?;
    Ok(replay.answers.len())
}

impl Replay {
    fn answer(&mut self, call: Call<Cue>) -> Answer {
        match call {
            Call::Add(cue) if self.script.insert(cue) => Answer::Yes,
            Call::Remove(cue) if self.script.remove(&cue) => Answer::Yes,
            Call::Has(cue) if self.script.contains(&cue) => Answer::Yes,
            Call::Add(_) | Call::Remove(_) | Call::Has(_) => Answer::No,
            Call::Push(cue) => {
                self.queue.push(cue);
                Answer::Ok
            }
            Call::Min => self.least().map_or(Answer::Empty, |index| Answer::Cue(self.queue[index])),
            Call::Take => self.least().map_or(Answer::Empty, |index| Answer::Cue(self.queue.swap_remove(index))),
        }
    }

    /// Where a least cue stands in the queue.
    fn least(&self) -> Option<usize> {
        (0..self.queue.len()).min_by_key(|&index| self.queue[index])
    }
}
