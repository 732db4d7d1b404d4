//! One input through the desk and through the replay.

use generate::met::Met;
use generate::random::Random;
use generate::steps;
use reference::answer::Answer;
use reference::cue::Cue;
use reference::desk::{Desk, MOST_QUEUED};
use reference::difference::equal;
use reference::replay;
use reference::script::{self, MOST_CUES};
use reference::session;
use std::collections::BTreeSet;
use std::error::Error;
use std::fmt::Debug;

/// One step in so many shows, if it is refused, whether it left the desk as it was.
const STEPS_PER_COPY: usize = 16;

/// Gives each step to the desk, and recovers a copy of it at two random places and at the end; holds the output of the
/// whole program against the replay, also where steps recover. Gives how many calls the replay was fed.
pub fn compare(random: &mut Random, input: &[u8], met: &mut Met) -> Result<usize, Box<dyn Error>> {
    let output = session::run(input);
    met.count(input, &output);
    let (start, steps) = match session::read(input) {
        Ok(accepted) => accepted,
        Err(refused) => {
            let expected = format!("start,{},{}\n", refused.number, refused.line);
            equal("output", expected.as_bytes(), &output)?;
            return Ok(0);
        }
    };
    let mut run = Run { desk: Desk::new(start.clone()), start, lines: Vec::new(), answers: Vec::new() };
    run.steps(random, &script::lines(steps).collect::<Vec<_>>())?;
    run.settle(random)?;
    let mut answers = Vec::new();
    run.answers.iter().for_each(|answer| answer.write_line(&mut answers));
    equal("answers of the program", &answers, &output[..answers.len().min(output.len())])?;
    if let Some(recovered) = steps::recovered(random, input) {
        replay::check(&recovered, &session::run(&recovered))?;
    }
    Ok(replay::check(input, &output)?)
}

/// A desk with the lines that it was given and its answers.
struct Run<'a> {
    start: BTreeSet<Cue>,
    lines: Vec<&'a [u8]>,
    answers: Vec<Answer>,
    desk: Desk,
}

impl<'a> Run<'a> {
    fn steps(&mut self, random: &mut Random, lines: &[&'a [u8]]) -> Result<(), Box<dyn Error>> {
        let stops = [0, 1].map(|_| random.below(lines.len() + 1));
        for (index, line) in lines.iter().enumerate() {
            if stops.contains(&index) {
                self.settle(random)?;
            }
            self.step(line, random.one_in(STEPS_PER_COPY))?;
        }
        Ok(())
    }

    fn step(&mut self, line: &'a [u8], copy: bool) -> Result<(), Box<dyn Error>> {
        let before = copy.then(|| self.desk.clone());
        let answer = self.desk.step(line);
        self.lines.push(line);
        self.answers.push(answer);
        match before {
            Some(before) if answer.is_refused() => same("desk after a refused step", &before, &self.desk),
            _ => Ok(()),
        }
    }

    /// Recovers a copy of the desk in a random order of edits, and compares it and the answers with the replay.
    fn settle(&self, random: &mut Random) -> Result<(), Box<dyn Error>> {
        let mut desk = self.desk.clone();
        desk.recover(steps::order(random));

        let lines = self.lines.iter().zip(&self.answers).map(|(&line, answer)| (line, answer.is_refused()));
        let mut replay = replay::replay(self.start.clone(), lines);
        replay.queue.sort();
        for &(index, answer) in &replay.answers {
            same(&format!("answer to step {}", index + 1), &answer, &self.answers[index])?;
        }
        let place = |what| format!("{what} after {} steps", self.lines.len());
        same(&place("script"), &replay.script, desk.script())?;
        same(&place("queue"), &replay.queue, &desk.queue().iter().collect())?;
        same(&place("lock sheet"), &Vec::new(), &desk.lock_sheet())?;
        same(&place("places of the script"), &replay.script.len(), &desk.script_places())?;
        same(&place("places of the queue"), &replay.queue.len(), &desk.queue_places())?;
        same(&place("script in its room"), &true, &(replay.script.len() <= MOST_CUES))?;
        same(&place("queue in its room"), &true, &(replay.queue.len() <= MOST_QUEUED))
    }
}

/// Nothing if the two are equal.
fn same<T: Debug + PartialEq>(place: &str, expected: &T, found: &T) -> Result<(), Box<dyn Error>> {
    if expected == found {
        Ok(())
    } else {
        Err(format!("{place}\n  expected {expected:?}\n  found    {found:?}").into())
    }
}
