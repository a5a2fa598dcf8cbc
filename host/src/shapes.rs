//! Samples of several kinds. Nothing but sums, products and quotients make them, so that they are the same on
//! every machine.
use crate::draw::Draw;
use crate::settings::{self, SENSITIVITIES};
use crate::whole::{flags, floats, Start, MEAN_OVER};

/// Words on which something turns: zeros of both signs, 2^-30, -0.75, 65,536; and those that are not in
/// range: the next one above it, infinity, a NaN.
pub const ALPHABET: [u32; 8] =
    [0x0000_0000, 0x8000_0000, 0x3080_0000, 0xbf40_0000, 0x4780_0000, 0x4780_0001, 0x7f80_0000, 0x7fc0_0000];

/// How many of them, from the first on, are in range.
pub const IN_RANGE: usize = 5;

#[derive(Clone, Copy, Debug, PartialEq, Eq)]
pub enum Shape {
    /// Two tones.
    Tone,
    /// Any numbers from -1 to 1.
    Noise,
    /// Two tones, in steps of 1/8.
    Steps,
    /// Two tones, made fainter by 2^-10 to 2^-30: the model's recursion stops early, or at once.
    Quiet,
    /// Zeros of both signs.
    Silence,
    /// Each number 1/8 larger than the one before, or smaller, up to 65,536.
    Growth,
    /// Any numbers from -65,536 to 65,536.
    Loud,
    /// 65,536 and -65,536, in any order. Now and then a gap in it gets a result that is not in range.
    Signs,
    /// Words of the alphabet that are in range.
    Words,
}

impl Shape {
    pub const ALL: [Shape; 9] = [
        Shape::Tone,
        Shape::Noise,
        Shape::Steps,
        Shape::Quiet,
        Shape::Silence,
        Shape::Growth,
        Shape::Loud,
        Shape::Signs,
        Shape::Words,
    ];

    /// So many samples of this kind.
    pub fn samples(self, draw: &mut Draw, n: usize) -> Vec<u32> {
        match self {
            Shape::Tone => tones(draw, n).map(|x| (x as f32).to_bits()).collect(),
            Shape::Steps => tones(draw, n).map(|x| ((x * 8.0).round() as f32 / 8.0).to_bits()).collect(),
            Shape::Noise => noise(draw, n, 1.0),
            Shape::Quiet => quiet(draw, n),
            Shape::Loud => noise(draw, n, 65536.0),
            Shape::Growth => growth(draw, n),
            Shape::Silence => (0..n).map(|_| ALPHABET[draw.below(2) as usize]).collect(),
            Shape::Signs => (0..n).map(|_| 0x4780_0000 | (draw.below(2) as u32) << 31).collect(),
            Shape::Words => words(draw, n, IN_RANGE),
        }
    }
}

/// So many of the alphabet's first words.
pub fn words(draw: &mut Draw, n: usize, first: usize) -> Vec<u32> {
    (0..n).map(|_| ALPHABET[draw.below(first as u64) as usize]).collect()
}

/// A number from 0 to 1.
pub(crate) fn part(draw: &mut Draw) -> f64 {
    draw.digits(24) as f64 / 16_777_215.0
}

/// A tone: each number from the two before it, x[i+1] = c*x[i] - x[i-1].
pub(crate) fn tone(draw: &mut Draw) -> impl FnMut() -> f64 {
    let c = 3.8 * part(draw) - 1.9;
    let mut last = 0.25 * part(draw);
    let mut before = 0.25 * part(draw);
    move || {
        let next = c * last - before;
        before = last;
        last = next;
        next
    }
}

fn tones(draw: &mut Draw, n: usize) -> impl Iterator<Item = f64> {
    let (mut one, mut other) = (tone(draw), tone(draw));
    (0..n).map(move |_| one() + other())
}

fn quiet(draw: &mut Draw, n: usize) -> Vec<u32> {
    let factor = (1u64 << (10 + draw.below(21))) as f64;
    tones(draw, n).map(|x| ((x / factor) as f32).to_bits()).collect()
}

fn noise(draw: &mut Draw, n: usize, most: f32) -> Vec<u32> {
    (0..n).map(|_| ((2.0 * part(draw) - 1.0) as f32 * most).to_bits()).collect()
}

fn growth(draw: &mut Draw, n: usize) -> Vec<u32> {
    let factor = if draw.below(2) == 0 { 1.125 } else { -1.125 };
    let mut x = 65536.0f32;
    let mut found: Vec<u32> = Vec::new();
    for _ in 0..n {
        found.push(x.to_bits());
        x /= factor;
    }
    if draw.below(2) == 0 {
        found.reverse();
    }
    found
}

/// So many samples, at least two, that bend at the chosen places, the digits of a number, and nowhere else: elsewhere
/// decrackle's detector is 0. Sums and products of these few powers of 2 are exact.
pub fn bent(draw: &mut Draw, n: usize, chosen: usize) -> Vec<u32> {
    let unit = f32::from_bits((127 - 8 + draw.below(17) as u32) << 23);
    let mut any = || unit * (draw.below(5) as f32 - 2.0);
    let mut samples = vec![any(), any()];
    for place in 1..n - 1 {
        let sign = if draw.below(2) == 0 { 1.0 } else { -1.0 };
        let detector = if chosen >> place & 1 == 1 { unit * sign } else { 0.0 };
        samples.push(2.0 * samples[place] - samples[place - 1] - 2.0 * detector);
    }
    samples.iter().map(|x| x.to_bits()).collect()
}

/// The limit by decrackle's least floor: above it a detector value's sample is flagged.
pub fn least_limit(sensitivity: f32) -> f32 {
    (12.0 - sensitivity.clamp(1.0, 10.0)) * 1e-6
}

/// Hands on silence with one click in it, at which the detector's magnitude is just the limit by the least floor, or
/// one step below it or above, and the sensitivity. The floor has to have fallen below 1e-6 by then, so that there are
/// some samples before.
pub fn at_limit(put: &mut dyn FnMut(&[u32], f32)) {
    for sensitivity in SENSITIVITIES {
        let limit = least_limit(sensitivity).to_bits();
        for word in limit - 1..limit + 2 {
            for place in 1..40 {
                let mut samples = vec![0; 41];
                samples[place] = word;
                put(&samples, sensitivity);
            }
        }
    }
}

/// How many samples a recording has that is beside the limit, by what the mean is of: fewer, as many and some more.
fn size_beside_limit(draw: &mut Draw) -> usize {
    match draw.below(4) {
        0 => 8 + draw.below(24) as usize,
        1 => 32 + draw.below(800) as usize,
        _ => MEAN_OVER - 3 + draw.below(8) as usize,
    }
}

/// Hands on any sound with a click at one place, as high as it can be without being flagged, and one step higher,
/// where it is; and the sensitivity. Nothing, where no click is so. Where its place is one of those that the mean is
/// of, the mean has a say in it.
pub fn beside_limit(draw: &mut Draw, start: Start, put: &mut dyn FnMut(&mut Draw, &[u32], f32)) {
    let n = size_beside_limit(draw);
    let shape = [Shape::Noise, Shape::Tone, Shape::Quiet, Shape::Steps][draw.below(4) as usize];
    let (mut samples, place) = (shape.samples(draw, n), 1 + draw.below(n as u64 - 2) as usize);
    let place = if draw.below(2) == 0 { place } else { n - 2 - draw.below(5) as usize };
    let (sensitivity, sign) = (settings::sensitivity(draw).max(1.0), (draw.below(2) as u32) << 31);
    let mut is_flagged = |word: u32| {
        samples[place] = word | sign;
        flags(&floats(&samples), sensitivity, start)[place]
    };
    let (mut low, mut high) = (0, 0x4780_0000);
    if is_flagged(low) || !is_flagged(high) {
        return;
    }
    while high - low > 1 {
        let middle = low + (high - low) / 2;
        *(if is_flagged(middle) { &mut high } else { &mut low }) = middle;
    }
    for word in [low, high] {
        samples[place] = word | sign;
        put(draw, &samples, sensitivity);
    }
}
