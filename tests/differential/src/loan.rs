//! Buffers lent to a writer of the proved library: what it writes, what it answers, and which bytes stay.

use differential::library::{self, ANSWER_TOO_SHORT};
use generate::random::Random;
use reference::difference::{Difference, equal};

/// A function of the library that writes to the front of a lent buffer, with a room that always suffices.
#[derive(Clone, Copy)]
pub struct Writer {
    name: &'static str,
    write: fn(&[u8], &mut [u8]) -> u64,
    room: usize,
}

pub const FORMAT: Writer = Writer { name: "lizkorpe_format", write: library::format, room: library::FORMAT_ROOM };
pub const DESK: Writer = Writer { name: "lizkorpe_desk", write: library::desk, room: library::DESK_ROOM };

/// So many bytes before and behind each lent buffer must stay.
const AROUND: usize = 16;
/// A buffer with room to spare has fewer than so many bytes more than suffice.
const SPARE: usize = 100;

/// Lends parts of one memory, which is random before each loan.
pub struct Lender {
    writer: Writer,
    random: Random,
    before: Vec<u8>,
    now: Vec<u8>,
    /// How many lent buffers were too short.
    pub short: usize,
}

impl Lender {
    pub fn new(writer: Writer, seed: u64) -> Lender {
        let mut random = Random::new(seed);
        let before = random.bytes(AROUND + writer.room + SPARE + AROUND);
        Lender { writer, random, now: before.clone(), before, short: 0 }
    }

    /// Lends buffers with room to spare, of one byte more than is written and of just as many; and, if anything is
    /// written, of one byte less and of any less.
    pub fn lend_all(&mut self, input: &[u8], expected: &[u8]) -> Result<(), Difference> {
        let length = expected.len();
        // The longest comes first: it shows the whole of a wrong output.
        self.lend_spare(input, expected)?;
        let mut rooms = vec![length + 1, length];
        if length > 0 {
            rooms.extend([length - 1, self.random.below(length)]);
        }
        rooms.into_iter().try_for_each(|room| self.lend(input, expected, room))
    }

    /// Lends a buffer with room to spare.
    pub fn lend_spare(&mut self, input: &[u8], expected: &[u8]) -> Result<(), Difference> {
        let room = self.writer.room + self.random.below(SPARE);
        self.lend(input, expected, room)
    }

    /// Compares what is written, the answer, and every other byte of the buffer and around it.
    fn lend(&mut self, input: &[u8], expected: &[u8], room: usize) -> Result<(), Difference> {
        let Writer { name, write, .. } = self.writer;
        let place = |what| format!("{what} {name} with a buffer of {room} bytes");
        let end = AROUND + room + AROUND;
        let (before, now) = (&self.before[..end], &mut self.now[..end]);
        now.copy_from_slice(before);
        let answer = write(input, &mut now[AROUND..][..room]);

        let fits = expected.len() <= room;
        let (text, expected_answer) =
            if fits { (expected, expected.len() as u64) } else { (&[][..], ANSWER_TOO_SHORT) };
        let written = if fits { room.min(answer as usize) } else { 0 };
        equal(&place("output of"), text, &now[AROUND..][..written])?;
        equal(&place("answer of"), expected_answer.to_string().as_bytes(), answer.to_string().as_bytes())?;
        equal(&place("bytes before the buffer of"), &before[..AROUND], &now[..AROUND])?;
        equal(&place("bytes behind the text of"), &before[AROUND + text.len()..], &now[AROUND + text.len()..])?;
        self.short += usize::from(!fits);
        Ok(())
    }
}
