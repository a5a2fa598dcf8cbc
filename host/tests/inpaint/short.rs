//! Short recordings over the alphabet: all of them up to five samples, and random ones of up to 60.
use cathar_host::draw::Draw;
use cathar_host::shapes::{words, ALPHABET, IN_RANGE};

/// The longest recordings of which all are tried.
pub const LONGEST: u32 = 5;

/// Hands on each recording of up to five samples over the alphabet.
pub fn each(put: &mut dyn FnMut(&[u32])) {
    let base = ALPHABET.len();
    for n in 0..=LONGEST {
        for number in 0..base.pow(n) {
            let samples: Vec<u32> = (0..n).map(|place| ALPHABET[number / base.pow(place) % base]).collect();
            put(&samples);
        }
    }
}

/// A recording of 6 to 60 samples over the alphabet: two in three times all in range, and else with one word
/// or several that are not.
pub fn random(draw: &mut Draw) -> Vec<u32> {
    let n = 6 + draw.below(55) as usize;
    let mut samples = words(draw, n, IN_RANGE);
    if draw.below(3) == 0 {
        for _ in 0..1 + draw.below(3) {
            let place = draw.below(n as u64) as usize;
            samples[place] = ALPHABET[IN_RANGE + draw.below((ALPHABET.len() - IN_RANGE) as u64) as usize];
        }
    }
    samples
}
