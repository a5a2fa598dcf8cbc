//! Any streams: long and short, with losses, repeats and late frames, from any first number.
use super::stream::{Ending, Stream};
use cathar_host::draw::Draw;

/// Distances from the expected number at which something turns.
const DISTANCES: [u16; 12] = [1, 2, 3, 999, 1000, 1001, 1002, 32_767, 32_768, 64_536, 65_534, 65_535];

/// One of these.
fn one_of(draw: &mut Draw, of: &[u16]) -> u16 {
    of[draw.below(of.len() as u64) as usize]
}

/// A first number: near the wrap, or any.
fn first(draw: &mut Draw) -> u16 {
    match draw.below(4) {
        0 => (draw.below(8) as u16).wrapping_sub(4),
        1 => (draw.below(2100) as u16).wrapping_sub(1050),
        _ => draw.word() as u16,
    }
}

/// How an input ends: mostly with a whole frame.
fn ending(draw: &mut Draw) -> Ending {
    match draw.below(24) {
        0 => Ending::OneLess,
        1 => Ending::More(1),
        2 => Ending::More(2 + draw.below(64) as usize),
        _ => Ending::Whole,
    }
}

/// A frame, one at this distance from what is then expected, and the one that is expected whether that is taken or not.
pub fn at_distance(draw: &mut Draw, distance: u16) -> Stream {
    let first = first(draw);
    let second = first.wrapping_add(1).wrapping_add(distance);
    let expected = if distance <= 1000 { second } else { first }.wrapping_add(1);
    Stream::new(&[first, second, expected], ending(draw))
}

/// A frame of this number, and one or two that are near it.
pub fn from_first(draw: &mut Draw, first: u16) -> Stream {
    let near = |draw: &mut Draw| first.wrapping_add(4).wrapping_sub(draw.below(8) as u16);
    let mut numbers = vec![first, near(draw)];
    if draw.below(2) == 0 {
        numbers.push(near(draw));
    }
    Stream { numbers, ending: ending(draw) }
}

/// How many frames: mostly a few, at times many.
fn length(draw: &mut Draw) -> u64 {
    match draw.below(128) {
        0 => draw.below(700),
        1..=15 => draw.below(60),
        _ => draw.below(8),
    }
}

/// Any stream. Where it is long, great losses are rare in it, since each makes many samples.
pub fn stream(draw: &mut Draw) -> Stream {
    let length = length(draw);
    let rarely = 4 + length / 4;
    let mut expected = first(draw);
    let mut numbers = Vec::new();
    for _ in 0..length {
        let distance = match draw.below(rarely) {
            0 => one_of(draw, &DISTANCES),
            1 if draw.below(4) == 0 => draw.word() as u16,
            _ => next_distance(draw),
        };
        let number = expected.wrapping_add(distance);
        // Not always what the reader then expects: so a late frame may come after another one.
        if distance <= 1000 || draw.below(8) == 0 {
            expected = number.wrapping_add(1);
        }
        numbers.push(number);
    }
    Stream { numbers, ending: ending(draw) }
}

/// Mostly the next frame, at times a small loss, a repeat, or one that is a little late.
fn next_distance(draw: &mut Draw) -> u16 {
    match draw.below(16) {
        0 => 1 + draw.below(4) as u16,
        1 => 65_535,
        2 => 65_535 - draw.below(6) as u16,
        _ => 0,
    }
}
