//! Gaps of chosen lengths in samples of several shapes, at both ends and in the middle.
use super::gaps::{repair_with, Gaps};
use cathar_host::draw::Draw;
use cathar_host::inpaint::{Gap, GapAnswer};
use cathar_host::recording::Answer;
use cathar_host::room::Room;
use cathar_host::shapes::Shape;

/// Every length up to this is tried.
const EVERY: usize = 200;

/// Up to this length, every gap is tried in each of the usual shapes, and up to this with each pass count.
const EVERY_SHAPE: usize = 64;
const EVERY_PASSES: usize = 20;

/// The shapes whose gaps are all accepted.
const USUAL: [Shape; 3] = [Shape::Tone, Shape::Noise, Shape::Steps];

/// A gap of this length at the start, in the middle and at the end of recordings with so many samples more.
fn three(len: usize, more: usize) -> [Gap; 3] {
    [0, more / 2, more].map(|start| Gap { start, len })
}

/// Samples beside a gap: few, or at times so many that the window ends before them on both sides.
fn more(draw: &mut Draw, len: usize) -> usize {
    match draw.below(4) {
        0 => 2 * (4 * len).max(1024) + 2 + draw.below(40) as usize,
        _ => 2 + draw.below(2 * len as u64 + 40) as usize,
    }
}

/// Every length from 1 to 200 at each place, with enough room: all are accepted. Up to 64 each of the usual
/// shapes is tried there, and above it one. And once each with the workspace one short, and with the journal.
pub fn every(count: &mut Gaps, draw: &mut Draw) {
    for len in 1..=EVERY {
        for (turn, shape) in USUAL.into_iter().enumerate() {
            let more = more(draw, len);
            let samples = shape.samples(draw, len + more);
            for (at, gap) in three(len, more).into_iter().enumerate() {
                if len <= EVERY_SHAPE || (len + at) % USUAL.len() == turn {
                    accepted(count, draw, &samples, gap);
                }
            }
        }
        let samples = Shape::Noise.samples(draw, len + 20);
        for short in [[Room::OneShort, Room::Exact], [Room::Exact, Room::OneShort]] {
            repair_with(count, draw, &samples, Gap { start: 10, len }, 1, short);
        }
    }
}

/// A gap that is accepted, with one pass count or several.
fn accepted(count: &mut Gaps, draw: &mut Draw, samples: &[u32], gap: Gap) {
    for passes in passes(draw, gap.len) {
        let room = [Room::enough(draw), Room::enough(draw)];
        let GapAnswer { answer, .. } = repair_with(count, draw, samples, gap, passes, room);
        assert_eq!(answer, Answer::Accepted(gap.len), "{gap:?} of {} samples", samples.len());
    }
}

fn passes(draw: &mut Draw, len: usize) -> Vec<u32> {
    match len {
        _ if len <= EVERY_PASSES => vec![0, 1, 2, 3, 4, 5],
        _ if len % 20 == 0 => vec![1, 3],
        _ => vec![draw.below(2) as u32],
    }
}

/// Gaps by model that are longer than 500, most of them a little.
pub fn long(count: &mut Gaps, draw: &mut Draw, calls: usize) {
    for call in 0..calls {
        let len = 501 + draw.below(12) as usize;
        let shape = Shape::ALL[call % Shape::ALL.len()];
        let more = 2 + draw.below(600) as usize;
        let samples = shape.samples(draw, len + more);
        let gap = three(len, more)[draw.below(3) as usize];
        let room = [Room::enough(draw), Room::enough(draw)];
        repair_with(count, draw, &samples, gap, 1, room);
    }
}

/// Lengths around 1024 and 2048, the last of them by line, and 4095.
pub fn edges(count: &mut Gaps, draw: &mut Draw) {
    for (len, shape) in [
        (1023, Shape::Tone),
        (1024, Shape::Noise),
        (1025, Shape::Steps),
        (2047, Shape::Tone),
        (2048, Shape::Noise),
        (2048, Shape::Steps),
        (2049, Shape::Tone),
        (2049, Shape::Loud),
        (4095, Shape::Tone),
        (4095, Shape::Steps),
    ] {
        let more = more(draw, len).min(3000);
        let samples = shape.samples(draw, len + more);
        for gap in three(len, more) {
            for room in [[Room::enough(draw), Room::Exact], [Room::OneShort, Room::Exact]] {
                repair_with(count, draw, &samples, gap, 1, room);
            }
        }
    }
}

/// Gaps by line among samples of every shape. A sample that is not in range stands anywhere, mostly beside the
/// gap, or nowhere.
pub fn lines(count: &mut Gaps, draw: &mut Draw, calls: usize) {
    for call in 0..calls {
        let len = 2049 + draw.below(3000) as usize;
        let more = draw.below(40) as usize;
        let mut samples = Shape::ALL[call % Shape::ALL.len()].samples(draw, len + more);
        let gap = three(len, more)[draw.below(3) as usize];
        let place = match draw.below(4) {
            0 => gap.start.saturating_sub(1),
            1 => (gap.start + len).min(samples.len() - 1),
            _ => draw.below(samples.len() as u64) as usize,
        };
        if draw.below(3) != 0 {
            samples[place] = [0x4780_0001, 0xff80_0000, 0x7fc0_0000][draw.below(3) as usize];
        }
        let passes = draw.below(6) as u32;
        let room = [Room::any(draw), Room::any(draw)];
        repair_with(count, draw, &samples, gap, passes, room);
    }
}

/// Gaps whose window ends before the recording does, on both sides, with one sample that is not in range: the
/// last before the window, its first, those beside the gap, one in the gap, the window's last, and the next
/// after it. Refusal 7 tells its place where it is read.
pub fn windows(count: &mut Gaps, draw: &mut Draw) {
    for len in [1, 2, 32, 33, 128, 129, 255, 256, 257, 300] {
        let context = (4 * len).max(1024);
        let gap = Gap { start: context + 7, len };
        let end = gap.start + len;
        let samples = Shape::Noise.samples(draw, end + context + 9);
        for place in [6, 7, 8, gap.start - 1, gap.start, end - 1, end, end + context - 1, end + context] {
            let mut samples = samples.clone();
            samples[place] = [0x4780_0001, 0xff80_0000, 0x7fc0_0000][draw.below(3) as usize];
            let room = [Room::enough(draw), Room::enough(draw)];
            repair_with(count, draw, &samples, gap, 1, room);
        }
    }
}
