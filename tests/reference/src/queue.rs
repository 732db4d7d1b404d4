//! The look-over queue: a collection of cues in which equal ones may stand more than once.

use crate::cue::Cue;
use std::collections::BTreeMap;
use std::iter;

#[derive(Clone, Debug, Default, PartialEq, Eq)]
pub struct Queue {
    /// How often each cue stands in the queue; those that do not are left out.
    counts: BTreeMap<Cue, usize>,
    len: usize,
}

impl Queue {
    pub fn len(&self) -> usize {
        self.len
    }

    pub fn is_empty(&self) -> bool {
        self.len == 0
    }

    pub fn least(&self) -> Option<Cue> {
        self.counts.first_key_value().map(|(&cue, _)| cue)
    }

    pub fn push(&mut self, cue: Cue) {
        *self.counts.entry(cue).or_default() += 1;
        self.len += 1;
    }

    /// Takes out one such cue, if there is one.
    pub fn remove(&mut self, cue: Cue) {
        if let Some(count) = self.counts.get_mut(&cue) {
            *count -= 1;
            if *count == 0 {
                self.counts.remove(&cue);
            }
            self.len -= 1;
        }
    }

    /// The cues in rising order, each as often as it stands in the queue.
    pub fn iter(&self) -> impl Iterator<Item = Cue> {
        self.counts.iter().flat_map(|(&cue, &count)| iter::repeat_n(cue, count))
    }
}
