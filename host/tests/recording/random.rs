//! Recordings whose journal is made of any words, small ones likelier, so that each clause of refusal 11 is
//! met and an entry is well-formed by chance.
use super::built::{marks, size, words};
use cathar_host::draw::Draw;
use cathar_host::recording::{blocks, Recording};
use cathar_host::room;

/// A recording with any journal, at times with an entry's outline at its end.
pub fn recording(draw: &mut Draw) -> Recording {
    let n = if draw.below(8) == 0 { size(draw) } else { draw.below(7) as usize };
    let below_length = if draw.below(8) == 0 { 100 } else { 16 };
    let length = draw.below(below_length) as usize;
    let mut journal: Vec<u32> = (0..length).map(|_| word(draw, n as u32)).collect();
    let used = used(draw, length);
    if draw.below(2) == 0 && (5..=length).contains(&used) {
        outline(draw, &mut journal[..used], n as u32);
    }
    let (marks_n, counts_n) = (beside(draw, n), beside(draw, blocks(n)));
    let (samples, marks) = (words(draw, n), marks(draw, marks_n));
    Recording { samples, marks, counts: room::counts(draw, counts_n), journal, used }
}

/// Mostly this number, at times one more or one less.
fn beside(draw: &mut Draw, right: usize) -> usize {
    match draw.below(64) {
        0 => right + 1,
        1 => right.saturating_sub(1),
        _ => right,
    }
}

/// Mostly within the journal, at times past its end.
fn used(draw: &mut Draw, length: usize) -> usize {
    match draw.below(64) {
        0 => usize::MAX - draw.below(3) as usize,
        1 => draw.word() as usize,
        2 => length + 1 + draw.below(3) as usize,
        3..=19 => length,
        _ => draw.below(length as u64 + 1) as usize,
    }
}

/// A word, mostly one of those on which something turns.
fn word(draw: &mut Draw, n: u32) -> u32 {
    match draw.below(32) {
        0 => draw.word() as u32,
        1 => u32::MAX - draw.below(2) as u32,
        2 => 254 + draw.below(4) as u32,
        // Numbers m for which 3m+2 is a little past 2 ^ 32.
        3 => 1_431_655_764 + draw.below(4) as u32,
        4..=6 => (n + draw.below(3) as u32).saturating_sub(1),
        _ => draw.below(10) as u32,
    }
}

/// Puts an m that fits, a mark near those allowed, and places that mostly rise, at the end of these words,
/// five or more.
fn outline(draw: &mut Draw, words: &mut [u32], n: u32) {
    let end = words.len();
    let m = 1 + draw.below((end as u64 - 2) / 3) as usize;
    words[end - 2] = m as u32;
    words[end - 1] = draw.below(11) as u32;
    let mut place = draw.below(2) as u32;
    for sample in words[end - 2 - 3 * m..end - 2].chunks_mut(3) {
        sample[0] = place;
        let step = if draw.below(8) == 0 { 0 } else { 1 + draw.below(1 + u64::from(n) / 8) as u32 };
        place += step;
    }
}
