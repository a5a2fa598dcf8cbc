//! Short recordings over a few words: all of them up to nine samples, and random ones of up to 60.
use cathar_host::draw::Draw;

/// The words: 0, 1, -0.5, 0.125, 65,536 and -0; and those that are not in range: the next one above 65,536 and a
/// NaN.
const WORDS: [u32; 8] =
    [0x0000_0000, 0x3f80_0000, 0xbf00_0000, 0x3e00_0000, 0x4780_0000, 0x8000_0000, 0x4780_0001, 0x7fc0_0000];

/// How many of them, from the first on, are in range.
const IN_RANGE: usize = 6;

/// Up to which number of samples all recordings over so many of the words, from the first on, are tried, and from
/// which.
pub const ALL_WORDS: (usize, u32, u32) = (8, 0, 5);
pub const FIVE_WORDS: (usize, u32, u32) = (5, 6, 6);
pub const THREE_WORDS: (usize, u32, u32) = (3, 7, 9);

/// Hands on each recording of these numbers of samples over the first words.
pub fn each((base, from, to): (usize, u32, u32), put: &mut dyn FnMut(&[u32])) {
    for n in from..=to {
        for number in 0..base.pow(n) {
            let samples: Vec<u32> = (0..n).map(|place| WORDS[number / base.pow(place) % base]).collect();
            put(&samples);
        }
    }
}

/// A recording of 7 to 60 samples over the words: three in four times all in range, and else with one or several
/// that are not, the first or the last sample at times among them.
pub fn random(draw: &mut Draw) -> Vec<u32> {
    let n = 7 + draw.below(54) as usize;
    let mut samples: Vec<u32> = (0..n).map(|_| WORDS[draw.below(IN_RANGE as u64) as usize]).collect();
    if draw.below(4) == 0 {
        for _ in 0..1 + draw.below(3) {
            let place = [0, n - 1, draw.below(n as u64) as usize][draw.below(3) as usize];
            samples[place] = WORDS[IN_RANGE + draw.below((WORDS.len() - IN_RANGE) as u64) as usize];
        }
    }
    samples
}
