//! Well-formed journals, damaged in one word or in how many are used; and counts that are not those of the marks.
use super::built::{words, Built};
use cathar_host::draw::Draw;
use cathar_host::recording::Recording;
use cathar_host::room;

/// What is damaged.
#[derive(Clone, Copy, PartialEq, Eq)]
pub enum Damage {
    Place,
    OldWord,
    OldMark,
    M,
    SetMark,
    Used,
    Counts,
}

impl Damage {
    pub const ALL: [Damage; 7] =
        [Damage::Place, Damage::OldWord, Damage::OldMark, Damage::M, Damage::SetMark, Damage::Used, Damage::Counts];

    pub fn words(self) -> &'static str {
        match self {
            Damage::Place => "damaged: a place",
            Damage::OldWord => "damaged: an old word",
            Damage::OldMark => "damaged: an old mark",
            Damage::M => "damaged: m",
            Damage::SetMark => "damaged: the set mark",
            Damage::Used => "damaged: used",
            Damage::Counts => "damaged: the counts",
        }
    }

    /// The recording with this damage in any of its entries, of which there is at least one. Half of the
    /// time the free words are no longer 0 either.
    pub fn done(self, draw: &mut Draw, built: &Built) -> Recording {
        let mut recording = built.recording.clone();
        if draw.below(2) == 0 {
            let free = recording.journal.len() - recording.used;
            recording.journal.truncate(recording.used);
            recording.journal.extend(words(draw, free));
        }
        if self == Damage::Used {
            recording.used = moved(draw, &recording);
            return recording;
        }
        if self == Damage::Counts {
            recording.counts = room::counts(draw, recording.counts.len());
            return recording;
        }
        let (start, m) = built.entry(draw.below(built.before.len() as u64) as usize);
        let sample = start + 3 * draw.below(m as u64) as usize;
        let n = recording.samples.len() as u32;
        let (at, choices) = match self {
            Damage::Place => (sample, places(draw, &recording, sample)),
            Damage::OldMark => (sample + 2, vec![0, 255, 256, 257, 511, 0x0001_0000, u32::MAX]),
            Damage::M => (start + 3 * m, ms(m as u32, n)),
            Damage::SetMark => (start + 3 * m + 1, vec![0, 1, 5, 6, 7, 8, 9, 10, 255, 256, 257, 264, u32::MAX]),
            _ => (sample + 1, vec![0, 1, u32::MAX]),
        };
        recording.journal[at] = one_of(draw, &choices);
        recording
    }
}

/// One of these, or now and then any word.
fn one_of(draw: &mut Draw, choices: &[u32]) -> u32 {
    match draw.below(8) {
        0 => draw.word() as u32,
        _ => choices[draw.below(choices.len() as u64) as usize],
    }
}

/// Places at both ends of the recording and past it, any place, and those that the journal has beside this
/// one, with their neighbours.
fn places(draw: &mut Draw, recording: &Recording, at: usize) -> Vec<u32> {
    let n = recording.samples.len() as u32;
    let mut found = vec![0, n - 1, n, n + 1, u32::MAX, draw.below(u64::from(n)) as u32];
    for beside in [at.wrapping_sub(3), at, at + 3] {
        if let Some(place) = recording.journal.get(beside) {
            found.extend([place.wrapping_sub(1), *place, place.wrapping_add(1)]);
        }
    }
    found
}

/// Numbers beside this m and the number of samples, and two whose 3m+2 is 1 and 4 past 2 ^ 32.
fn ms(m: u32, n: u32) -> Vec<u32> {
    vec![0, m - 1, m + 1, m + 2, n, n + 1, 1_431_655_765, 1_431_655_766, u32::MAX]
}

/// Used moved by one or by more, to the journal's end, or past it.
fn moved(draw: &mut Draw, recording: &Recording) -> usize {
    let (used, length) = (recording.used, recording.journal.len());
    match draw.below(8) {
        0 => used - 1,
        1 => used + 1,
        2 => used - 2,
        3 => used + 2,
        4 => draw.below(used as u64) as usize,
        5 => length,
        6 => length + 1,
        _ => draw.below(length as u64 + 1) as usize,
    }
}
