//! What a call is lent beside the samples: marks, counts, a journal, a workspace, a list for orders and the lists of
//! several gaps, all of any words, and just long enough or not.
use crate::draw::Draw;
use crate::inpaint::{Gap, Lists};
use crate::recording::{blocks, Recording, BLOCK};

/// How much is lent, by what is needed.
#[derive(Clone, Copy, Debug, PartialEq, Eq)]
pub enum Room {
    OneShort,
    Exact,
    Longer,
}

impl Room {
    /// Enough, and as often exactly so as more.
    pub fn enough(draw: &mut Draw) -> Room {
        [Room::Exact, Room::Longer][draw.below(2) as usize]
    }

    /// Mostly enough.
    pub fn any(draw: &mut Draw) -> Room {
        match draw.below(8) {
            0 => Room::OneShort,
            _ => Room::enough(draw),
        }
    }

    /// How many are lent where so many are needed. Where none is, none is too few.
    pub fn of(self, draw: &mut Draw, needed: usize) -> usize {
        match self {
            _ if needed == 0 => draw.below(3) as usize,
            Room::OneShort => needed - 1,
            Room::Exact => needed,
            Room::Longer => needed + 1 + draw.below(9) as usize,
        }
    }
}

/// A recording of these samples, with any marks, as many counts as it has blocks, and a journal of any words, of which
/// so many are free. Half of the time the counts are those worked out from the marks, and else any.
pub fn recording(draw: &mut Draw, samples: Vec<u32>, free: usize) -> Recording {
    let used = [0, 1, 5, 8][draw.below(4) as usize];
    let marks = samples.iter().map(|_| draw.word() as u8).collect();
    let journal = (0..used + free).map(|_| draw.word() as u32).collect();
    let mut recording = Recording::new(samples, marks, journal, used);
    if draw.below(2) == 0 {
        recording.counts = counts(draw, blocks(recording.samples.len()));
    }
    recording
}

/// So many counts that have nothing to do with marks: any, and one in four 0.
pub fn counts(draw: &mut Draw, count: usize) -> Vec<u16> {
    (0..count).map(|_| draw.word()).map(|word| if word >> 62 == 0 { 0 } else { word as u16 }).collect()
}

/// Hands on this recording with the right number of counts and with others, one more and one less among them; and each
/// with the right number of marks, and with one more.
pub fn each_number_of_counts(of: &Recording, put: &mut dyn FnMut(Recording)) {
    let (n, right) = (of.samples.len(), blocks(of.samples.len()));
    for counts in [0, right.saturating_sub(1), right, right + 1, n / BLOCK, n / BLOCK + 1, 2 * right + 1] {
        for marks in [n, n + 1] {
            let mut other = of.clone();
            other.counts.resize(counts, 7);
            other.marks.resize(marks, 0);
            put(other);
        }
    }
}

/// The patterns of a workspace of so many doubles: any, and one in four a NaN. Each is made from the one before
/// by a product and a sum, since there are many.
pub fn work(draw: &mut Draw, length: usize) -> Vec<u64> {
    let mut word = draw.word();
    let mut next = || {
        word = word.wrapping_mul(0x5851_f42d_4c95_7f2d).wrapping_add(0x1405_7b7e_f767_814f);
        if word >> 62 == 0 {
            word | 0x7ff0_0000_0000_0001
        } else {
            word
        }
    };
    (0..length).map(|_| next()).collect()
}

/// The words of a workspace of so many: any, and one in four a NaN.
pub fn words(draw: &mut Draw, length: usize) -> Vec<u32> {
    work(draw, length).into_iter().map(|pattern| (pattern >> 32) as u32).collect()
}

/// A list for the orders of a scan of n samples: mostly as long, and else empty, shorter, one shorter or longer.
pub fn orders(draw: &mut Draw, n: usize) -> Vec<u32> {
    let length = match draw.below(8) {
        0 => 0,
        1 => draw.below(n as u64 + 1) as usize,
        2 => n.saturating_sub(1),
        3 => n + 1 + draw.below(9) as usize,
        _ => n,
    };
    words(draw, length)
}

/// The lists of these gaps, of which those for the answers have so many places.
pub fn lists(draw: &mut Draw, gaps: &[Gap], answers: usize) -> Lists {
    Lists {
        starts: gaps.iter().map(|gap| gap.start).collect(),
        lens: gaps.iter().map(|gap| gap.len).collect(),
        numbers: words(draw, answers),
        values: work(draw, answers).into_iter().map(|word| word as usize).collect(),
        orders: words(draw, answers),
    }
}
