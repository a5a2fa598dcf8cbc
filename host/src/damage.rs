//! What goes wrong with the samples of a recording: dropouts, held words, clicks, clipping, and samples that are not in
//! range.
//! There is at least one sample.
use crate::draw::Draw;
use crate::inpaint::HELD_RUN;
use crate::shapes::{ALPHABET, IN_RANGE};

/// The words that drop out: zeros of both signs, and two NaN.
pub const DROPOUTS: [u32; 4] = [ALPHABET[0], ALPHABET[1], ALPHABET[7], 0xff80_0001];

/// How many of them, from the first on, are in range.
pub const ZEROS: usize = 2;

/// A place among these samples.
fn place(draw: &mut Draw, samples: &[u32]) -> usize {
    draw.below(samples.len() as u64) as usize
}

/// Up to eight dropouts of at most so many samples, each of one of these words or of all of them.
pub fn drop_out(draw: &mut Draw, samples: &mut [u32], longest: usize, words: &[u32]) {
    for _ in 0..1 + draw.below(8) {
        let start = place(draw, samples);
        let end = (start + 1 + draw.below(longest as u64) as usize).min(samples.len());
        let (first, others) = (place(draw, words), draw.below(2) == 0);
        for word in &mut samples[start..end] {
            *word = words[if others { place(draw, words) } else { first }];
        }
    }
}

/// Up to three words that are held, for some 16 samples to about twice as many.
pub fn hold(draw: &mut Draw, samples: &mut [u32]) {
    for _ in 0..1 + draw.below(3) {
        let start = place(draw, samples);
        let end = (start + HELD_RUN - 2 + draw.below(20) as usize).min(samples.len());
        let word = samples[start];
        samples[start..end].fill(word);
    }
}

/// Clicks of any magnitude, from below the least floor of decrackle to the loudest.
pub fn click(draw: &mut Draw, samples: &mut [u32]) {
    for _ in 0..1 + draw.below(1 + samples.len() as u64 / 8) {
        let place = place(draw, samples);
        let click = f32::from_bits((127 - 24 + draw.below(40) as u32) << 23 | (draw.below(2) as u32) << 31);
        let x = f32::from_bits(samples[place]) + click;
        if x.abs() <= 65536.0 {
            samples[place] = x.to_bits();
        }
    }
}

/// Samples that are louder than one of them, any that is no zero, are held to its magnitude.
pub fn clip(draw: &mut Draw, samples: &mut [u32]) {
    let most = samples[place(draw, samples)] & 0x7fff_ffff;
    for word in samples {
        if most > 0 && f32::from_bits(*word).abs() > f32::from_bits(most) {
            *word = *word & 0x8000_0000 | most;
        }
    }
}

/// One sample is not in range.
pub fn overload(draw: &mut Draw, samples: &mut [u32]) {
    let place = place(draw, samples);
    samples[place] = ALPHABET[IN_RANGE + draw.below((ALPHABET.len() - IN_RANGE) as u64) as usize];
}
