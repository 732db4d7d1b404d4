//! The shared cue desk: one script, one queue and eight edits, stepped one line at a time.

use crate::answer::{Answer, Refusal, write_fields};
use crate::cue::Cue;
use crate::queue::Queue;
use crate::script::MOST_CUES;
use crate::step::{self, Action, Call};
use std::collections::{BTreeMap, BTreeSet};

pub const EDITS: usize = 8;
pub const MOST_LOCKS: usize = 24;
pub const MOST_ENTRIES: usize = 16;
pub const MOST_QUEUED: usize = 64;

/// The desk between two steps.
#[derive(Clone, Debug, Default, PartialEq, Eq)]
pub struct Desk {
    script: BTreeSet<Cue>,
    /// The cues that have a place in the script by log entries alone: they are not in it.
    reserved: BTreeSet<Cue>,
    queue: Queue,
    /// The take entries in all logs: each keeps a place in the queue.
    taken: usize,
    /// The edit that holds the lock on a cue. Every second lock would conflict, so there is but one.
    holders: BTreeMap<Cue, usize>,
    /// The edits by number, less one.
    edits: [Edit; EDITS],
}

#[derive(Clone, Debug, Default, PartialEq, Eq)]
struct Edit {
    phase: Phase,
    /// How many cue locks the edit holds.
    locks: usize,
    /// Which modes of the queue the edit holds, in the order of `MODES`.
    modes: [bool; MODES.len()],
    /// The newest entry is the last.
    log: Vec<Entry>,
}

#[derive(Clone, Copy, Debug, Default, PartialEq, Eq)]
enum Phase {
    #[default]
    Closed,
    Open,
    Unwinding,
}

/// What a call changed.
#[derive(Clone, Copy, Debug, PartialEq, Eq)]
enum Entry {
    Added(Cue),
    Removed(Cue),
    Pushed(Cue),
    Taken(Cue),
}

impl Entry {
    /// The cue for which the entry keeps a place in the script.
    fn script_cue(self) -> Option<Cue> {
        match self {
            Entry::Added(cue) | Entry::Removed(cue) => Some(cue),
            Entry::Pushed(_) | Entry::Taken(_) => None,
        }
    }
}

#[derive(Clone, Copy)]
enum Lock {
    Cue(Cue),
    Queue(Mode),
}

impl Lock {
    /// The lock that a call takes, even if it changes nothing.
    fn of(call: Call<Cue>) -> Lock {
        match call {
            Call::Add(cue) | Call::Remove(cue) | Call::Has(cue) => Lock::Cue(cue),
            Call::Push(_) => Lock::Queue(Mode::Push),
            Call::Min => Lock::Queue(Mode::Look),
            Call::Take => Lock::Queue(Mode::Take),
        }
    }
}

#[derive(Clone, Copy, PartialEq, Eq)]
enum Mode {
    Push,
    Look,
    Take,
}

const MODES: [Mode; 3] = [Mode::Push, Mode::Look, Mode::Take];

impl Mode {
    /// Push goes with push and look with look; every other pair conflicts.
    fn conflicts(self, other: Mode) -> bool {
        self != other || self == Mode::Take
    }

    fn word(self) -> &'static str {
        match self {
            Mode::Push => "push",
            Mode::Look => "look",
            Mode::Take => "take",
        }
    }
}

impl Desk {
    /// A desk with this script of at most 256 cues, an empty queue and every edit closed.
    pub fn new(script: BTreeSet<Cue>) -> Desk {
        Desk { script, ..Desk::default() }
    }

    pub fn script(&self) -> &BTreeSet<Cue> {
        &self.script
    }

    pub fn queue(&self) -> &Queue {
        &self.queue
    }

    /// The places of the script that are in use: by the cues in it, and by those that only log entries keep.
    pub fn script_places(&self) -> usize {
        self.script.len() + self.reserved.len()
    }

    /// The places of the queue that are in use: by the cues in it, and by take entries.
    pub fn queue_places(&self) -> usize {
        self.queue.len() + self.taken
    }

    /// Does the step of a line, which is given without its LF. A refused step changes nothing.
    pub fn step(&mut self, line: &[u8]) -> Answer {
        self.try_step(line).unwrap_or_else(Answer::Refused)
    }

    /// Recovery: undoes and closes every unclosed edit, in this order of the numbers 1 to 8.
    pub fn recover(&mut self, order: impl IntoIterator<Item = usize>) {
        for number in order {
            while self.edits[number - 1].phase != Phase::Closed {
                self.back(number - 1);
            }
        }
    }

    /// The step lines that recover in this order: of an open edit an `undo`, then `back` until the edit closes.
    pub fn recovery(&self, order: impl IntoIterator<Item = usize>) -> Vec<u8> {
        let mut text = Vec::new();
        for number in order {
            let Edit { phase, log, .. } = &self.edits[number - 1];
            if *phase == Phase::Open {
                write_fields(b"undo", &[number as u32], &mut text);
            }
            let backs = if *phase == Phase::Closed { 0 } else { log.len().max(1) };
            for _ in 0..backs {
                write_fields(b"back", &[number as u32], &mut text);
            }
        }
        text
    }

    /// One line for each lock and each mode that is held.
    pub fn lock_sheet(&self) -> Vec<u8> {
        let mut text = Vec::new();
        for (cue, &holder) in &self.holders {
            let [time, module, pin] = cue.numbers();
            write_fields(b"lock", &[holder as u32 + 1, time, module, pin], &mut text);
        }
        for (edit, number) in self.edits.iter().zip(1..) {
            for mode in MODES.into_iter().filter(|&mode| edit.modes[mode as usize]) {
                text.extend(format!("mode,{number},{}\n", mode.word()).bytes());
            }
        }
        text
    }

    /// The checks run in the order of the table's rows: here 1 to 6.
    fn try_step(&mut self, line: &[u8]) -> Result<Answer, Refusal> {
        let step = step::read(line).map_err(|step::Malformed| Refusal::Malformed)?;
        let edit = (step.edit as usize).wrapping_sub(1);
        let phase = self.edits.get(edit).ok_or(Refusal::NoSuchEdit)?.phase;
        match (step.action, phase) {
            (Action::Begin, Phase::Closed) => self.edits[edit].phase = Phase::Open,
            (Action::Begin, _) => return Err(Refusal::Unclosed),
            (_, Phase::Closed) => return Err(Refusal::Closed),
            (Action::Back, Phase::Unwinding) => return Ok(self.back(edit)),
            (_, Phase::Unwinding) => return Err(Refusal::Unwinding),
            (Action::Back, Phase::Open) => return Err(Refusal::NotUnwinding),
            (Action::Call(call), Phase::Open) => return self.call(edit, call),
            (Action::Commit, Phase::Open) => self.close(edit),
            (Action::Undo, Phase::Open) => self.edits[edit].phase = Phase::Unwinding,
        }
        Ok(Answer::Ok)
    }

    /// A call of an open edit: rows 7 to 12, then the call itself.
    fn call(&mut self, edit: usize, call: Call<[u32; 3]>) -> Result<Answer, Refusal> {
        let call = call.in_range().ok_or(Refusal::OutOfRange)?;
        let (lock, entry) = (Lock::of(call), self.entry(call));
        self.check(edit, lock, entry)?;
        let answer = match call {
            Call::Add(_) | Call::Remove(_) => yes_or_no(entry.is_some()),
            Call::Has(cue) => yes_or_no(self.script.contains(&cue)),
            Call::Push(_) => Answer::Ok,
            Call::Min | Call::Take => self.queue.least().map_or(Answer::Empty, Answer::Cue),
        };
        self.hold(edit, lock);
        if let Some(entry) = entry {
            self.apply(entry);
            self.edits[edit].log.push(entry);
        }
        Ok(answer)
    }

    /// What the call would change, if anything.
    fn entry(&self, call: Call<Cue>) -> Option<Entry> {
        match call {
            Call::Add(cue) => (!self.script.contains(&cue)).then_some(Entry::Added(cue)),
            Call::Remove(cue) => self.script.contains(&cue).then_some(Entry::Removed(cue)),
            Call::Push(cue) => Some(Entry::Pushed(cue)),
            Call::Take => self.queue.least().map(Entry::Taken),
            Call::Has(_) | Call::Min => None,
        }
    }

    /// Rows 8 to 12: conflict and room.
    fn check(&self, edit: usize, lock: Lock, entry: Option<Entry>) -> Result<(), Refusal> {
        if let Some(other) = self.conflict(edit, lock) {
            return Err(Refusal::Conflict(other + 1));
        }
        let Edit { locks, log, .. } = &self.edits[edit];
        if *locks == MOST_LOCKS && matches!(lock, Lock::Cue(cue) if !self.holders.contains_key(&cue)) {
            return Err(Refusal::LocksFull);
        }
        if entry.is_some() && log.len() == MOST_ENTRIES {
            return Err(Refusal::LogFull);
        }
        let script_full = self.script_places() == MOST_CUES;
        let queue_full = self.queue_places() == MOST_QUEUED;
        match entry {
            Some(Entry::Added(cue)) if script_full && !self.reserved.contains(&cue) => Err(Refusal::ScriptFull),
            Some(Entry::Pushed(_)) if queue_full => Err(Refusal::QueueFull),
            _ => Ok(()),
        }
    }

    /// The lowest-numbered other edit that holds a conflicting lock.
    fn conflict(&self, edit: usize, lock: Lock) -> Option<usize> {
        match lock {
            Lock::Cue(cue) => self.holders.get(&cue).copied().filter(|&holder| holder != edit),
            Lock::Queue(wanted) => (0..EDITS).find(|&other| {
                let held = |mode: Mode| self.edits[other].modes[mode as usize];
                other != edit && MODES.into_iter().any(|mode| held(mode) && mode.conflicts(wanted))
            }),
        }
    }

    fn hold(&mut self, edit: usize, lock: Lock) {
        match lock {
            Lock::Cue(cue) if self.holders.insert(cue, edit).is_none() => self.edits[edit].locks += 1,
            Lock::Cue(_) => {}
            Lock::Queue(mode) => self.edits[edit].modes[mode as usize] = true,
        }
    }

    fn apply(&mut self, entry: Entry) {
        match entry {
            Entry::Added(cue) => {
                self.script.insert(cue);
                self.reserved.remove(&cue);
            }
            Entry::Removed(cue) => {
                self.script.remove(&cue);
                self.reserved.insert(cue);
            }
            Entry::Pushed(cue) => self.queue.push(cue),
            Entry::Taken(cue) => {
                self.queue.remove(cue);
                self.taken += 1;
            }
        }
    }

    /// Undoes the newest entry, if there is one; with none left the edit closes.
    fn back(&mut self, edit: usize) -> Answer {
        let log = &mut self.edits[edit].log;
        match log.pop() {
            Some(Entry::Added(cue)) => {
                self.script.remove(&cue);
                if log.iter().any(|entry| entry.script_cue() == Some(cue)) {
                    self.reserved.insert(cue);
                }
            }
            Some(Entry::Removed(cue)) => {
                self.script.insert(cue);
                self.reserved.remove(&cue);
            }
            Some(Entry::Pushed(cue)) => self.queue.remove(cue),
            Some(Entry::Taken(cue)) => {
                self.queue.push(cue);
                self.taken -= 1;
            }
            None => {}
        }
        let left = log.len();
        if left == 0 {
            self.close(edit);
        }
        Answer::Left(left)
    }

    /// Drops the log, frees the places that it kept and all locks.
    fn close(&mut self, edit: usize) {
        let Edit { phase, locks, modes, log } = &mut self.edits[edit];
        for entry in log.drain(..) {
            match entry {
                Entry::Added(cue) | Entry::Removed(cue) => drop(self.reserved.remove(&cue)),
                Entry::Taken(_) => self.taken -= 1,
                Entry::Pushed(_) => {}
            }
        }
        if *locks > 0 {
            self.holders.retain(|_, &mut holder| holder != edit);
        }
        (*phase, *locks, *modes) = (Phase::Closed, 0, [false; MODES.len()]);
    }
}

fn yes_or_no(yes: bool) -> Answer {
    if yes { Answer::Yes } else { Answer::No }
}
