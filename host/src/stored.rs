//! The stored block of settings as request P11 of document 02 has it, with its readers and writers. It is written from
//! the request's text, with what request P10 says of a contents table and document 01 of each setting, and to be seen
//! right rather than to be fast, so that the library can be held to it.
use crate::inpaint::{HELD_RUN, LEAST_HELD_RUN, MOST_HELD_RUN, MOST_RATE};

/// The settings' parts, "numbered from 1 in that order".
pub const THRESHOLD: usize = 1;
pub const SENSITIVITY: usize = 2;
pub const STRENGTH: usize = 3;
pub const BITS: usize = 4;
pub const LONGEST_GAP: usize = 5;
pub const RATE: usize = 6;
pub const RUN_LENGTH: usize = 7;

/// How many bytes a word has, and a row of the contents table: "part number, offset and length in bytes".
pub const WORD: usize = 4;
pub const ROW: usize = 3 * WORD;

/// What stands before the rows: the version, and how many parts there are.
pub const HEAD: usize = 2 * WORD;

/// A version of the block, or who reads or writes it: the version 1 reader, or the new one.
#[derive(Clone, Copy, Debug, PartialEq, Eq)]
pub enum Version {
    One,
    Two,
}

impl Version {
    pub const BOTH: [Version; 2] = [Version::One, Version::Two];

    /// The number that leads a block.
    pub fn number(self) -> u32 {
        match self {
            Version::One => 1,
            Version::Two => 2,
        }
    }

    /// How many settings it has: "Version 1 has those six; version 2 adds P1's run length".
    pub fn settings(self) -> usize {
        match self {
            Version::One => RATE,
            Version::Two => RUN_LENGTH,
        }
    }

    /// How many bytes stand before the bodies, and in the whole block.
    pub fn table_end(self) -> usize {
        HEAD + ROW * self.settings()
    }

    pub fn bytes(self) -> usize {
        self.table_end() + WORD * self.settings()
    }

    /// The version of a block that this reader knows by its number: the version 1 reader one, and the new one both.
    pub fn known(self, number: u32) -> Option<Version> {
        let knows = match self {
            Version::One => &Version::BOTH[..1],
            Version::Two => &Version::BOTH,
        };
        knows.iter().copied().find(|version| version.number() == number)
    }
}

/// A call: a block is read by a reader into settings, or settings are written as a block of a version.
#[derive(Clone, Copy, Debug, PartialEq, Eq)]
pub enum Call {
    Read(Version),
    Write(Version),
}

impl Call {
    /// All four.
    pub const ALL: [Call; 4] =
        [Call::Read(Version::One), Call::Read(Version::Two), Call::Write(Version::One), Call::Write(Version::Two)];
}

/// What is lent to a call: the block, or the room for it, and the settings, or the area for them.
#[derive(Clone, Debug, PartialEq, Eq)]
pub struct Areas {
    pub block: Vec<u8>,
    pub settings: Vec<u32>,
}

impl Areas {
    /// Makes the call. 0, or the number of the refusal.
    pub fn make(&mut self, call: Call) -> u32 {
        match call {
            Call::Read(by) => self.read(by),
            Call::Write(of) => self.write(of),
        }
    }

    /// Reads the block: "Where a reader's area for settings .. is too short: 6, before all else". Nothing is written
    /// then, nor where it is refused by 17 or 18; "longer ones are used as far as needed".
    fn read(&mut self, by: Version) -> u32 {
        if self.settings.len() < by.settings() {
            return 6;
        }
        match settings(by, &self.block) {
            Ok(words) => {
                self.settings[..words.len()].copy_from_slice(&words);
                0
            }
            Err(number) => number,
        }
    }

    /// Writes the settings: "Where .. a writer's settings or its room for the block is too short: 6, before all else",
    /// and then 18 for a setting that is not allowed.
    fn write(&mut self, of: Version) -> u32 {
        let (settings, bytes) = (of.settings(), of.bytes());
        if self.settings.len() < settings || self.block.len() < bytes {
            return 6;
        }
        let words = &self.settings[..settings];
        if !are_allowed(words) {
            return 18;
        }
        self.block[..bytes].copy_from_slice(&block(of, words));
        0
    }
}

/// The settings that a reader makes of a block, or the number of the refusal: "17, unknown version; 18, malformed, a
/// missing version included, or a setting not allowed .., in that order". "The new reader gives a version 1 block the run
/// length 16."
pub fn settings(by: Version, block: &[u8]) -> Result<Vec<u32>, u32> {
    let number = word(block, 0).ok_or(18u32)?;
    let version = by.known(number).ok_or(17u32)?;
    let mut words = bodies(version, block).ok_or(18u32)?;
    if !are_allowed(&words) {
        return Err(18);
    }
    if by == Version::Two && version == Version::One {
        words.push(HELD_RUN as u32);
    }
    Ok(words)
}

/// The bodies of a block of this version, in their order; nothing, where it is malformed. The contents have the number
/// of parts and for each its row. "Part numbers are 1, 2, 3 in turn", each body is "one 32-bit word", they stand "in that
/// order and touching", the first directly behind the table, "and nothing follows the last body".
fn bodies(version: Version, block: &[u8]) -> Option<Vec<u32>> {
    let parts = version.settings();
    let mut right = word(block, WORD)? as usize == parts;
    let mut end = version.table_end();
    let mut bodies = Vec::new();
    for part in 1..=parts {
        let row = HEAD + ROW * (part - 1);
        let (number, offset, length) = (word(block, row)?, word(block, row + WORD)?, word(block, row + 2 * WORD)?);
        right &= number as usize == part && offset as usize == end && length as usize == WORD;
        bodies.push(word(block, end)?);
        end += WORD;
    }
    (right && end == block.len()).then_some(bodies)
}

/// The word that begins at this place of a block, lowest byte first, if there is one.
pub fn word(block: &[u8], at: usize) -> Option<u32> {
    let bytes = block.get(at..at + WORD)?;
    Some(bytes.iter().rev().fold(0, |word, byte| word << 8 | u32::from(*byte)))
}

/// Whether all of these settings are allowed, from the first part on.
pub fn are_allowed(settings: &[u32]) -> bool {
    settings.iter().enumerate().all(|(place, word)| is_allowed(place + 1, *word))
}

/// Whether a setting is allowed for this part, as document 01 says of the repair that takes it: "Threshold finite and
/// above 0", "Sensitivity not NaN", "Strength not NaN", bits that are "held to 4..24" and so any, "finite max_gap_ms",
/// "Rate at most 16,777,216"; and here "2 to 4,096".
pub fn is_allowed(part: usize, word: u32) -> bool {
    let x = f32::from_bits(word);
    match part {
        THRESHOLD => x.is_finite() && x > 0.0,
        SENSITIVITY | STRENGTH => !x.is_nan(),
        LONGEST_GAP => x.is_finite(),
        RATE => word <= MOST_RATE,
        RUN_LENGTH => (LEAST_HELD_RUN..=MOST_HELD_RUN).contains(&word),
        _ => true,
    }
}

/// The block of this version of these settings, whether they are allowed or not.
pub fn block(version: Version, settings: &[u32]) -> Vec<u8> {
    let parts = version.settings();
    let mut words = vec![version.number(), parts as u32];
    for part in 1..=parts {
        let offset = version.table_end() + WORD * (part - 1);
        words.extend([part as u32, offset as u32, WORD as u32]);
    }
    words.extend(&settings[..parts]);
    words.into_iter().flat_map(u32::to_le_bytes).collect()
}
