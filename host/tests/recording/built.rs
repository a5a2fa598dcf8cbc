//! Recordings with a well-formed journal, as repairs leave them.
use cathar_host::draw::Draw;
use cathar_host::recording::{entry_words, in_range, Answer, Recording, NOT_RECEIVED};

pub struct Built {
    pub recording: Recording,
    /// For each entry of the journal the recording as it was before that entry, the oldest first.
    pub before: Vec<Recording>,
}

impl Built {
    /// Where an entry starts, and how many samples it names.
    pub fn entry(&self, index: usize) -> (usize, usize) {
        let start = self.before[index].used;
        let end = self.before.get(index + 1).unwrap_or(&self.recording).used;
        (start, (end - start - 2) / 3)
    }
}

/// The mark of a repair, and the samples that it names with their new words.
type Repair = (u8, Vec<(usize, u32)>);

/// A number of samples: mostly a few, at times hundreds or thousands.
pub fn size(draw: &mut Draw) -> usize {
    let sizes = match draw.below(64) {
        0 => 5000,
        1..=4 => 300,
        5..=6 => 1000,
        _ => 12,
    };
    draw.below(sizes) as usize
}

/// Any words.
pub fn words(draw: &mut Draw, count: usize) -> Vec<u32> {
    (0..count).map(|_| draw.word() as u32).collect()
}

/// Any marks; in half of the times each is as often 6, or one next to it, as any.
pub fn marks(draw: &mut Draw, count: usize) -> Vec<u8> {
    let near = draw.below(2) == 0;
    let mut mark = || match draw.word() {
        word if near && word >> 63 == 0 => [NOT_RECEIVED, NOT_RECEIVED, 5, 7, 8][(word >> 8) as usize % 5],
        word => word as u8,
    };
    (0..count).map(|_| mark()).collect()
}

/// A recording opened over any words, in either way, and then up to six repairs.
pub fn build(draw: &mut Draw) -> Built {
    let n = size(draw);
    let count = 1 + draw.below(6);
    let repairs: Vec<Repair> = (0..count).map(|_| repair(draw, n)).collect();
    let journal = journal_length(draw, &repairs);
    let samples = words(draw, n);
    let used = draw.word() as usize;
    let mut recording = Recording::new(samples, marks(draw, n), words(draw, journal), used);
    let open = if draw.below(2) == 0 { Recording::open } else { Recording::open_received };
    assert_eq!(open(&mut recording), Answer::Accepted(0));
    let mut before = Vec::new();
    for (mark, named) in repairs {
        let kept = recording.clone();
        match recording.commit(mark, &named) {
            Answer::Accepted(m) if m > 0 => before.push(kept),
            _ => assert_eq!(recording, kept, "a repair that was refused or named nothing"),
        }
    }
    Built { recording, before }
}

/// As many words as the repairs fill, or some more, or too few for all of them.
fn journal_length(draw: &mut Draw, repairs: &[Repair]) -> usize {
    let filled: usize = repairs.iter().map(|(_, named)| entry_words(named.len())).sum();
    match draw.below(4) {
        0 => filled,
        1 => filled + 1,
        2 => filled + draw.below(20) as usize,
        _ => filled - 1,
    }
}

/// Any mark, and samples that lie close or far apart. A few times a new word is not in range.
fn repair(draw: &mut Draw, n: usize) -> Repair {
    let mark = [1, 2, 3, 4, 5, 7, 8][draw.below(7) as usize];
    let spread = [1, 2, 4, 100][draw.below(4) as usize];
    let places: Vec<usize> = (0..n).filter(|_| draw.below(spread) == 0).collect();
    let any_word = draw.below(16) == 0;
    (mark, places.into_iter().map(|place| (place, new_word(draw, any_word))).collect())
}

/// A word in range, or any.
fn new_word(draw: &mut Draw, any: bool) -> u32 {
    loop {
        let word = draw.word() as u32;
        if any || in_range(word) {
            return word;
        }
    }
}
