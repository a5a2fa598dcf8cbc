//! A call on a WAV file, and what is asked of it when it is counted.
use super::faults::{faults, Fault};
use cathar_host::wav::{chunks, sound, Answer, Areas, Call, FORMAT, HEADER};
use std::fmt;

/// What was done to a file before it was read.
#[derive(Clone, Copy, Debug, PartialEq, Eq)]
pub enum Change {
    /// Nothing, or it is none of these.
    Nothing,
    /// One binary digit, or one byte, is another.
    Digit,
    Byte,
    /// It is cut short at a place, or made longer at its end; and likewise with a RIFF size that says so.
    Cut,
    CutMended,
    Longer,
    LongerMended,
    /// A byte more stands at a place, or one is missing there; and likewise.
    Inserted,
    InsertedMended,
    Removed,
    RemovedMended,
    /// Several bytes or chunks are others.
    Several,
}

/// A call, what was lent to it, and what the model answers and leaves.
pub struct Made {
    pub call: Call,
    pub change: Change,
    pub before: Areas,
    pub after: Areas,
    pub answer: Answer,
    /// What is wrong with a file that is read.
    pub faults: Vec<Fault>,
}

/// How much of an area is shown.
const SHOWN: usize = 300;

impl fmt::Debug for Made {
    fn fmt(&self, to: &mut fmt::Formatter) -> fmt::Result {
        let Made { call, change, before, after, answer, faults } = self;
        let hex = |bytes: &[u8]| bytes.iter().take(SHOWN).map(|byte| format!("{byte:02x}")).collect::<String>();
        let words = |words: &[u32]| format!("{:08x?}", &words[..words.len().min(SHOWN)]);
        write!(to, "{call:?}, {change:?}: {answer:?} of file {} bytes {}, ", before.file.len(), hex(&before.file))?;
        write!(to, "{} samples {}, ", before.samples.len(), words(&before.samples))?;
        write!(to, "{} marks {} with {faults:?}, ", before.marks.len(), hex(&before.marks))?;
        write!(to, "leaving {}, {} and {}", hex(&after.file), words(&after.samples), hex(&after.marks))
    }
}

impl Made {
    /// The call on these areas, with what the model answers and leaves.
    pub fn new(call: Call, change: Change, before: &Areas, after: Areas, answer: Answer) -> Made {
        let faults = match call {
            Call::Read => faults(&before.file),
            Call::Write { .. } => Vec::new(),
        };
        Made { call, change, before: before.clone(), after, answer, faults }
    }

    /// Whether it reads, and answers this.
    pub fn reads(&self, number: u32) -> bool {
        self.call == Call::Read && self.answer.number == number
    }

    /// Whether it writes, and answers this.
    pub fn writes(&self, number: u32) -> bool {
        self.call != Call::Read && self.answer.number == number
    }

    /// Whether it reads a file to which this was done, and answers this.
    pub fn changed(&self, change: Change, number: u32) -> bool {
        self.change == change && self.reads(number)
    }

    /// Whether it reads, and is refused by 19 or 20 because of this alone.
    pub fn only(&self, fault: Fault) -> bool {
        self.call == Call::Read && self.faults == [fault]
    }

    /// Whether it reads, and has this fault among others.
    pub fn also(&self, fault: Fault) -> bool {
        self.faults.len() > 1 && self.faults.contains(&fault)
    }

    /// Whether the file has a chunk of this name and size, where it is accepted.
    pub fn has_chunk(&self, name: &[u8; 4], size: u32) -> bool {
        let head = [&name[..], &size.to_le_bytes()].concat();
        self.reads(0) && self.before.file.windows(8).any(|window| window == &head[..])
    }

    /// How often this name stands in a file that is accepted.
    pub fn names(&self, name: &[u8; 4]) -> usize {
        if self.reads(0) {
            self.before.file.windows(4).filter(|window| window == name).count()
        } else {
            0
        }
    }

    /// How many chunks the file has, where it is whole.
    pub fn pieces(&self) -> usize {
        chunks(&self.before.file).map_or(0, |chunks| chunks.len())
    }

    /// Whether the last chunk of the file has an odd size, where it is whole.
    pub fn ends_odd(&self) -> bool {
        let chunks = chunks(&self.before.file).unwrap_or_default();
        chunks.last().map_or(false, |chunk| chunk.body.len() % 2 == 1)
    }

    /// Whether a chunk of the file has an odd size, where it is whole.
    pub fn has_odd(&self) -> bool {
        chunks(&self.before.file).unwrap_or_default().iter().any(|chunk| chunk.body.len() % 2 == 1)
    }

    /// The tag, the channels and the bits of the first fmt chunk that has them, where the file is whole.
    pub fn coding(&self) -> Option<[u16; 3]> {
        let chunks = chunks(&self.before.file)?;
        let body = chunks.iter().find(|chunk| chunk.name == *b"fmt " && chunk.body.len() >= FORMAT)?.body;
        Some([0, 2, 14].map(|at| u16::from_le_bytes([body[at], body[at + 1]])))
    }

    /// How many samples a file has, where neither 19 nor 20 turns it away.
    pub fn samples(&self) -> Option<usize> {
        match self.call {
            Call::Read => sound(&self.before.file).ok().map(|sound| sound.values.len()),
            Call::Write { .. } => Some(self.before.samples.len()),
        }
    }

    /// How many samples and marks more than needed the rooms have, of a file that has samples.
    pub fn beside(&self) -> Option<[isize; 2]> {
        let n = self.samples().filter(|_| self.call == Call::Read)? as isize;
        Some([self.before.samples.len() as isize - n, self.before.marks.len() as isize - n])
    }

    /// How many bytes more than needed the room for a file has.
    pub fn bytes_beside(&self) -> isize {
        self.before.file.len() as isize - (HEADER + 2 * self.before.samples.len()) as isize
    }

    /// Whether a sample that is written has this word, and gives this value.
    pub fn gives(&self, word: u32, value: i16) -> bool {
        let mut places = (0..self.before.samples.len()).filter(|place| self.before.samples[*place] == word);
        let two = |place: usize| self.after.file.get(HEADER + 2 * place..HEADER + 2 * place + 2);
        self.writes(0) && places.any(|place| two(place) == Some(&value.to_le_bytes()))
    }

    /// Whether a sample that is refused by 7, and is the first that is not in range, has this word.
    pub fn turns_away(&self, so: impl Fn(u32) -> bool) -> bool {
        self.writes(7) && so(self.before.samples[self.answer.value])
    }
}
