//! Where gaps are laid in a recording, and what is in and around them.
use cathar_host::draw::Draw;
use cathar_host::either::Turn;
use cathar_host::inpaint::Gap;
use cathar_host::recording::{counted, entry_words, Recording, BLOCK};
use cathar_host::room::{self, Room};
use cathar_host::settings;
use cathar_host::shapes::{Shape, ALPHABET, IN_RANGE};

/// The most samples of a recording here.
pub const MOST: usize = 10_000;

/// Any of these.
pub fn one_of<T: Copy>(draw: &mut Draw, of: &[T]) -> T {
    of[draw.below(of.len() as u64) as usize]
}

/// How far a gap is behind the one before it, by the larger of their two contexts.
#[derive(Clone, Copy, Debug, PartialEq, Eq)]
pub enum Distance {
    /// Any nearer.
    Near,
    /// One nearer than the smaller of the two contexts.
    NearerThanBoth,
    /// One nearer than is allowed.
    Nearer,
    /// As near as is allowed.
    Closest,
    Farther,
}

impl Distance {
    pub fn of(self, draw: &mut Draw, lens: [usize; 2]) -> usize {
        let [one, other] = lens.map(|len| Gap { start: 0, len }.context());
        let closest = one.max(other);
        match self {
            Distance::Near => draw.below(closest as u64) as usize,
            Distance::NearerThanBoth => one.min(other) - 1,
            Distance::Nearer => closest - 1,
            Distance::Closest => closest,
            Distance::Farther => {
                let most = one_of(draw, &[2, 40, 1_000]);
                closest + 1 + draw.below(most) as usize
            }
        }
    }
}

/// How many samples are beyond the outer end of a gap with this context, where there is room for so many: none, about
/// as many as its window has there, or any.
fn margin(draw: &mut Draw, context: usize, room: usize) -> usize {
    let any = match draw.below(16) {
        0..=1 => 0,
        2 => 1,
        3..=4 => draw.below(40) as usize,
        5..=6 => context - 1,
        7..=8 => context,
        9..=10 => context + 1,
        11 => draw.below(room as u64 + 1) as usize,
        12 => room,
        _ => draw.below(context as u64 + 1) as usize,
    };
    any.min(room)
}

/// So many samples before the first gap that an end of one of these gaps, which are as if there were none, is at a
/// block's edge, or beside it.
fn to_edge(draw: &mut Draw, before: usize, gaps: &[Gap]) -> usize {
    let gap = one_of(draw, gaps);
    let end = before + if draw.below(2) == 0 { gap.start } else { gap.end() };
    let beside = one_of(draw, &[0, 0, 0, 1, BLOCK - 1]);
    before + (BLOCK - end % BLOCK) % BLOCK + beside
}

/// Gaps so long, each so far behind the one before it, and the number of samples; at most the most. There is one
/// distance less than gaps, and together they are within the most.
pub fn lay(draw: &mut Draw, lens: &[usize], distances: &[usize]) -> (usize, Vec<Gap>) {
    let mut gaps = vec![Gap { start: 0, len: lens[0] }];
    for (len, distance) in lens[1..].iter().zip(distances) {
        let end = gaps[gaps.len() - 1].end();
        gaps.push(Gap { start: end + distance, len: *len });
    }
    let last = gaps[gaps.len() - 1];
    let room = MOST - last.end();
    let mut before = margin(draw, gaps[0].context(), room);
    if draw.below(3) == 0 {
        before = to_edge(draw, before, &gaps).min(room);
    }
    let behind = margin(draw, last.context(), room - before);
    let moved = gaps.iter().map(|gap| Gap { start: gap.start + before, ..*gap }).collect();
    (before + last.end() + behind, moved)
}

/// So many samples of any kind, with anything in the gaps: what was there, zeros, or words of the alphabet that are in
/// range.
pub fn samples(draw: &mut Draw, n: usize, gaps: &[Gap]) -> Vec<u32> {
    let mut samples = one_of(draw, &Shape::ALL).samples(draw, n);
    for gap in gaps {
        match draw.below(4) {
            0 => samples[gap.places()].fill(0),
            1 => samples[gap.places()].iter_mut().for_each(|word| *word = one_of(draw, &ALPHABET[..IN_RANGE])),
            _ => (),
        }
    }
    samples
}

/// A word that is not in range.
fn loud(draw: &mut Draw) -> u32 {
    one_of(draw, &ALPHABET[IN_RANGE..])
}

/// A sample of some of these gaps, or of all of them, is not in range.
pub fn spoil_gaps(draw: &mut Draw, samples: &mut [u32], gaps: &[Gap]) {
    for gap in gaps {
        if draw.below(3) > 0 {
            samples[gap.start + draw.below(gap.len as u64) as usize] = loud(draw);
        }
    }
}

/// A sample that no gap's window has is not in range, if one is found.
pub fn spoil_outside(draw: &mut Draw, samples: &mut [u32], gaps: &[Gap]) {
    let n = samples.len();
    let is_outside = |place: &usize| !gaps.iter().any(|gap| gap.near(n).contains(place));
    let beside = gaps.iter().flat_map(|gap| [gap.near(n).end, gap.near(n).start.wrapping_sub(1)]);
    let any: Vec<usize> = (0..8).map(|_| draw.below(n as u64) as usize).collect();
    let outside: Vec<usize> = beside.filter(|place| *place < n).chain(any).filter(is_outside).collect();
    for place in outside {
        if draw.below(2) == 0 {
            samples[place] = loud(draw);
        }
    }
}

/// A sample of one gap's window, and of none of the gaps, is not in range: at an end of the window, or any.
pub fn spoil_window(draw: &mut Draw, samples: &mut [u32], gaps: &[Gap]) {
    let near = one_of(draw, gaps).near(samples.len());
    let any = near.start + draw.below(near.len() as u64) as usize;
    let place = one_of(draw, &[near.start, near.end - 1, any, any]);
    if !gaps.iter().any(|gap| gap.places().contains(&place)) {
        samples[place] = loud(draw);
    }
}

/// How many journal words are free for these entries: just enough for all, more, one less, enough for the longest
/// alone, one less than the shortest takes, or any fewer.
pub fn free(draw: &mut Draw, entries: &[usize]) -> usize {
    let all: usize = entries.iter().sum();
    let [longest, shortest] = [entries.iter().max(), entries.iter().min()].map(|words| *words.expect("there are gaps"));
    match draw.below(32) {
        0 => all.saturating_sub(1),
        1 => longest,
        2 => shortest,
        3 => shortest.saturating_sub(1),
        4 => draw.below(all as u64 + 1) as usize,
        5..=17 => all,
        _ => all + 1 + draw.below(9) as usize,
    }
}

/// The words of the entry that a gap makes; none, of one that is not within n samples.
pub fn entry_of(gap: Gap, n: usize) -> usize {
    if gap.is_outside(n) {
        0
    } else {
        entry_words(gap.len)
    }
}

/// A recording of these samples with so many free journal words: any of marks, of which all or half may be 0, of counts
/// and of journal words.
pub fn recording(draw: &mut Draw, samples: Vec<u32>, free: usize) -> Recording {
    let mut recording = room::recording(draw, samples, free);
    match draw.below(3) {
        0 => recording.marks.fill(0),
        1 => recording.marks.iter_mut().filter(|mark| **mark >= 128).for_each(|mark| *mark = 0),
        _ => (),
    }
    if draw.below(2) == 0 {
        recording.counts = counted(&recording.marks);
    }
    recording
}

/// Mostly one pass, since the original takes its time for each.
pub fn passes(draw: &mut Draw) -> u32 {
    match draw.below(8) {
        0 => settings::passes(draw),
        _ => 1,
    }
}

/// A call for this gap with so much workspace.
pub fn turn(draw: &mut Draw, gap: Gap, n: usize, work: Room) -> Turn {
    let needed = if gap.is_outside(n) { draw.below(3_000) as usize } else { gap.needed(n) };
    let work = work.of(draw, needed);
    Turn { gap, passes: passes(draw), work: room::work(draw, work) }
}

/// These in any order.
pub fn shuffled<T: Clone>(draw: &mut Draw, of: &[T]) -> Vec<T> {
    let mut all = of.to_vec();
    for place in (1..all.len()).rev() {
        all.swap(place, draw.below(place as u64 + 1) as usize);
    }
    all
}
