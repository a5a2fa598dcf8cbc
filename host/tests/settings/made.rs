//! A call on a stored block, and what is asked of it when it is counted.
use super::faults::{faults, Fault};
use cathar_host::stored::{is_allowed, settings, word, Areas, Call, Version};
use std::fmt;

/// What was done to a block before it was read.
#[derive(Clone, Copy, Debug, PartialEq, Eq)]
pub enum Change {
    /// Nothing, or it is none of these.
    Nothing,
    /// One binary digit, or one byte, is another.
    Digit,
    Byte,
    /// It is cut short at a place, or made longer at its end.
    Cut,
    Longer,
    /// A byte more stands at a place, or one is missing there.
    Inserted,
    Removed,
    /// Two or three bytes or words are others.
    Several,
}

/// A call, what was lent to it, and what the model answers and leaves.
pub struct Made {
    pub call: Call,
    pub change: Change,
    pub before: Areas,
    pub after: Areas,
    pub number: u32,
    /// What is wrong with a block whose version the reader knows.
    faults: Vec<Fault>,
}

impl fmt::Debug for Made {
    fn fmt(&self, to: &mut fmt::Formatter) -> fmt::Result {
        let Made { call, change, before, after, number, faults } = self;
        let hex = |block: &[u8]| block.iter().map(|byte| format!("{byte:02x}")).collect::<String>();
        write!(to, "{call:?}, {change:?}: {number} of block {} bytes ", before.block.len())?;
        write!(to, "{}, settings {:08x?} ", hex(&before.block), before.settings)?;
        write!(to, "with {faults:?}, leaving {} and {:08x?}", hex(&after.block), after.settings)
    }
}

impl Made {
    /// The call on these areas, with what the model answers and leaves.
    pub fn new(call: Call, change: Change, before: &Areas, after: Areas, number: u32) -> Made {
        let known = |by: Version| by.known(word(&before.block, 0)?);
        let faults = match call {
            Call::Read(by) => known(by).map_or(Vec::new(), |version| faults(version, &before.block)),
            Call::Write(_) => Vec::new(),
        };
        Made { call, change, before: before.clone(), after, number, faults }
    }

    /// Whether it reads, and answers this.
    pub fn reads(&self, number: u32) -> bool {
        matches!(self.call, Call::Read(_)) && self.number == number
    }

    /// Whether it writes, and answers this.
    pub fn writes(&self, number: u32) -> bool {
        matches!(self.call, Call::Write(_)) && self.number == number
    }

    /// Whether it is this call, and answers this.
    pub fn is(&self, call: Call, number: u32) -> bool {
        self.call == call && self.number == number
    }

    /// The number that leads the block, if there is one.
    pub fn version(&self) -> Option<u32> {
        word(&self.before.block, 0)
    }

    /// Whether this reader accepts a block that is led by this number.
    pub fn accepts(&self, by: Version, version: u32) -> bool {
        self.is(Call::Read(by), 0) && self.version() == Some(version)
    }

    /// Whether it reads a block to which this was done, and answers this.
    pub fn changed(&self, change: Change, number: u32) -> bool {
        self.change == change && self.reads(number)
    }

    /// Whether it reads, and is refused by 18 because of this alone.
    pub fn only(&self, fault: Fault) -> bool {
        self.reads(18) && self.faults == [fault]
    }

    /// Whether it reads, and is refused by 18 though all is as it is to be but these.
    pub fn has(&self, of: &[Fault]) -> bool {
        self.reads(18) && self.faults == of
    }

    /// Whether it reads a block that has so many faults or more.
    pub fn faulty(&self, least: usize) -> bool {
        self.reads(18) && self.faults.len() >= least
    }

    /// Whether it is accepted, and the word of this setting is so.
    pub fn keeps(&self, part: usize, so: impl Fn(u32) -> bool) -> bool {
        let settings = if self.number == 0 { &self.after.settings[..] } else { &[] };
        settings.get(part - 1).map_or(false, |word| so(*word))
    }

    /// Whether it writes, and is refused by 18 because of this setting alone, whose word is so.
    pub fn turns_away(&self, part: usize, so: impl Fn(u32) -> bool) -> bool {
        let (Call::Read(of) | Call::Write(of)) = self.call;
        let mut others =
            self.before.settings.iter().take(of.settings()).enumerate().filter(|(place, _)| place + 1 != part);
        let is_alone = others.all(|(place, word)| is_allowed(place + 1, *word));
        let is_it = self.before.settings.iter().take(of.settings()).nth(part - 1).map_or(false, |word| so(*word));
        self.writes(18) && is_alone && is_it
    }

    /// How many words more than needed the area for settings has, and how many bytes more the block or its room.
    pub fn beside(&self) -> [isize; 2] {
        let (Call::Read(of) | Call::Write(of)) = self.call;
        let beside = |has: usize, needed: usize| has as isize - needed as isize;
        [beside(self.before.settings.len(), of.settings()), beside(self.before.block.len(), of.bytes())]
    }

    /// Whether the settings that are lent to a writer are allowed, as far as it needs them and they go.
    pub fn lends_allowed(&self) -> bool {
        let (Call::Read(of) | Call::Write(of)) = self.call;
        let settings = self.before.settings.iter().take(of.settings());
        settings.enumerate().all(|(place, word)| is_allowed(place + 1, *word))
    }

    /// Whether all that stands behind the version is as in a block of version 1 or 2, and the settings are allowed.
    pub fn is_right_but_version(&self) -> bool {
        let is_right = |version: Version| {
            let block = [&version.number().to_le_bytes()[..], self.before.block.get(4..).unwrap_or(&[])].concat();
            faults(version, &block).is_empty()
        };
        Version::BOTH.iter().any(|version| is_right(*version))
    }

    /// Whether it reads, and would answer this in an area that is long enough.
    pub fn would_be(&self, number: u32) -> bool {
        match self.call {
            Call::Read(by) => settings(by, &self.before.block).err().unwrap_or(0) == number,
            Call::Write(_) => false,
        }
    }

    /// How many parts have a wrong offset, and a wrong length.
    pub fn wrong_offsets(&self) -> usize {
        self.faults.iter().filter(|fault| matches!(fault, Fault::Offset(_))).count()
    }

    pub fn wrong_lengths(&self) -> usize {
        self.faults.iter().filter(|fault| matches!(fault, Fault::Length(_))).count()
    }
}
