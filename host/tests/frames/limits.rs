//! Streams at and past what refusals 2 and 12 allow, so that several apply at once.
use super::stream::{Ending, Stream};
use cathar_host::frames::MOST_MISSING;
use cathar_host::recording::MOST_SAMPLES;

/// How many frames make the most samples.
const MOST_FRAMES: usize = MOST_SAMPLES / 16;

/// Hands on streams of few frames with each ending, and how much longer than needed each room is.
pub fn small(put: &mut dyn FnMut(Stream, [isize; 2])) {
    let more = (1..66).map(Ending::More);
    let endings: Vec<Ending> = [Ending::Whole, Ending::OneLess].into_iter().chain(more).collect();
    for numbers in [&[][..], &[7], &[7, 8], &[7, 10], &[7, 8, 7], &[65_535, 2, 1]] {
        for ending in &endings {
            for beside in 0..16 {
                let [samples, marks] = [beside / 4 - 2, beside % 4 - 2];
                put(Stream::new(numbers, *ending), [samples, marks]);
            }
        }
    }
}

/// So many frames from this number on, none missing.
fn without_loss(first: u16, frames: usize) -> Vec<u16> {
    (0..frames).map(|place| first.wrapping_add(place as u16)).collect()
}

/// Frames that make so many with those that are missing: as many as can be are.
fn with_losses(first: u16, frames: usize) -> Vec<u16> {
    let places = (0..frames).step_by(MOST_MISSING + 1).chain(frames.checked_sub(1));
    let mut numbers: Vec<u16> = places.map(|place| first.wrapping_add(place as u16)).collect();
    numbers.dedup();
    numbers
}

/// The same with repeats and late frames at the end, which are dropped.
fn with_dropped(mut numbers: Vec<u16>) -> Vec<u16> {
    let last = numbers[numbers.len() - 1];
    numbers.extend([last, last.wrapping_sub(1), last.wrapping_add(1002)]);
    numbers
}

/// So many frames more than make the most samples, from this number on.
fn by_frames((more, first): (isize, u16)) -> (usize, u16) {
    ((MOST_FRAMES as isize + more) as usize, first)
}

/// Hands on streams beside the most samples, with the lengths of the rooms; and others of very many frames or samples.
pub fn large(put: &mut dyn FnMut(Stream, [usize; 2])) {
    let (most, ends) = (MOST_SAMPLES, [Ending::Whole, Ending::OneLess, Ending::More(1)]);
    let beside = [[most - 1, most], [most, most - 1], [most + 1, most + 17], [most + 16, most + 16], [0, 0]];
    for (frames, first) in [(-1, 3), (0, 0), (0, 40_000), (1, 65_535), (1, 1), (1001, 7)].map(by_frames) {
        for numbers in [without_loss(first, frames), with_losses(first, frames)] {
            for ending in ends {
                put(Stream::new(&numbers, ending), [most, most]);
            }
            put(Stream::new(&with_dropped(numbers), Ending::Whole), [most, most]);
        }
        let numbers = with_losses(first, frames);
        for rooms in beside {
            put(Stream::new(&numbers, Ending::Whole), rooms);
            put(Stream::new(&numbers, Ending::More(65)), rooms);
        }
    }
    put(Stream::new(&[5, 6], Ending::Whole), [most + 1, most + 2]);
    put(Stream::new(&[vec![9; 70_000], vec![10, 8]].concat(), Ending::Whole), [40, 32]);
    // The samples of these are 16 past 2^32.
    put(Stream::new(&with_losses(77, (1 << 28) + 1), Ending::Whole), [40, 32]);
}
