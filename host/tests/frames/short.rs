//! All streams of up to four frames over a few numbers, on which something turns: beside the first one's, at the ends of
//! what is filled, and halfway round.

/// How far a frame's number is from the first one's.
const OFFSETS: [u16; 13] = [0, 1, 2, 3, 1000, 1001, 1002, 1003, 2002, 32_768, 64_535, 65_534, 65_535];

/// First numbers: at both ends, and such that one of the offsets crosses from 65535 to 0.
const FIRSTS: [u16; 8] = [0, 1, 1000, 32_767, 64_534, 64_535, 65_534, 65_535];

/// Hands on the numbers of each.
pub fn each(put: &mut dyn FnMut(&[u16])) {
    put(&[]);
    for first in FIRSTS {
        put(&[first]);
        for length in 1..=3 {
            all(first, length, put);
        }
    }
}

/// Hands on each stream of this number and then so many at the offsets.
fn all(first: u16, length: u32, put: &mut dyn FnMut(&[u16])) {
    let base = OFFSETS.len();
    for index in 0..base.pow(length) {
        let digit = |place: u32| first.wrapping_add(OFFSETS[index / base.pow(place) % base]);
        let numbers: Vec<u16> = std::iter::once(first).chain((0..length).map(digit)).collect();
        put(&numbers);
    }
}
