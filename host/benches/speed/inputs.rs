//! The recordings and the numbers on which the times are taken.
use cathar_host::draw::Draw;
use cathar_host::float::F64;
use cathar_host::inpaint::Gap;

/// A dropout has so many samples, and there is one in each stretch of so many.
pub const DROPOUT: usize = 32;
pub const DROPOUT_STRETCH: usize = 2048;

/// In each stretch of so many samples there is a click of this height, and a clipped run of so many.
const WORN_STRETCH: usize = 256;
const CLICK: f32 = 0.5;
const CLIPPED: usize = 8;

/// A clipped sample, and the number of bits that worn samples have.
pub const CLIP: f32 = 1.0;
pub const BITS: u32 = 8;

/// A number from -1 to 1.
fn number(draw: &mut Draw) -> f64 {
    draw.digits(24) as f64 / 8_388_607.5 - 1.0
}

/// A tone with some noise, which no sample of is a zero.
pub fn tone(draw: &mut Draw, n: usize) -> Vec<f32> {
    let (mut last, mut before) = (0.3, 0.25);
    let mut found = Vec::with_capacity(n);
    while found.len() < n {
        let next = 1.9 * last - before;
        before = last;
        last = next;
        let x = (next + 0.01 * number(draw)) as f32;
        found.push(if x == 0.0 { 0.5 } else { x });
    }
    found
}

/// The tone with dropouts, each in the middle of its stretch.
pub fn with_dropouts(draw: &mut Draw, n: usize) -> Vec<f32> {
    let mut samples = tone(draw, n);
    for stretch in samples.chunks_exact_mut(DROPOUT_STRETCH) {
        stretch[DROPOUT_STRETCH / 2..][..DROPOUT].fill(0.0);
    }
    samples
}

/// The tone with what the repairs over the whole recording are for: steps, clicks and clipped runs.
pub fn worn(draw: &mut Draw, n: usize) -> Vec<f32> {
    let levels = (1 << (BITS - 1)) as f32;
    let mut samples: Vec<f32> = tone(draw, n).iter().map(|x| (x * levels).round() / levels).collect();
    for stretch in samples.chunks_exact_mut(WORN_STRETCH) {
        stretch[WORN_STRETCH / 4] += CLICK;
        stretch[WORN_STRETCH / 2..][..CLIPPED].fill(CLIP);
    }
    samples
}

/// Doubles above zero, of every exponent alike.
pub fn doubles(draw: &mut Draw, n: usize) -> Vec<f64> {
    (0..n).map(|_| f64::from_bits(F64.pattern(1 + draw.below(2046), draw.digits(52)))).collect()
}

/// Subnormal doubles above zero, of every number of digits alike.
pub fn subnormals(draw: &mut Draw, n: usize) -> Vec<f64> {
    let mut of_size = |size: u32| (1 << size) | (draw.word() & ((1 << size) - 1));
    (0..n).map(|i| f64::from_bits(of_size(i as u32 % 52))).collect()
}

/// The pivots of a gap of this length in the middle of a tone of so many samples, over and over.
pub fn pivots(draw: &mut Draw, samples: usize, len: usize, n: usize) -> Vec<f64> {
    let words: Vec<u32> = tone(draw, samples).iter().map(|x| x.to_bits()).collect();
    let window = Gap { start: (samples - len) / 2, len }.widened(&words);
    window.pivots(&window.model()).into_iter().cycle().take(n).collect()
}
