//! Recordings around a gap in which the model stops at once, early, or not at all. Nothing but sums, products,
//! quotients and square roots make them, so that they are the same on every machine.
use crate::draw::Draw;
use crate::prediction::{BOUND, SHARE};
use crate::shapes::{part, tone};

/// What is around a gap, before it is made as loud as it is to be.
#[derive(Clone, Copy, Debug, PartialEq, Eq)]
pub enum Sound {
    Tone,
    TwoTones,
    Constant,
    /// One number and its negative in turns.
    Turns,
    /// One sample that is not zero: every k is one.
    Impulse,
    /// A few samples that are not zero, each a few places behind the one before.
    Clicks,
    /// A tone for some samples, and zeros around it.
    ToneInZeros,
    Noise,
    /// Each number a little smaller than the one before.
    Decay,
}

impl Sound {
    pub const ALL: [Sound; 9] = [
        Sound::Tone,
        Sound::TwoTones,
        Sound::Constant,
        Sound::Turns,
        Sound::Impulse,
        Sound::Clicks,
        Sound::ToneInZeros,
        Sound::Noise,
        Sound::Decay,
    ];

    pub fn name(self) -> &'static str {
        match self {
            Sound::Tone => "a tone",
            Sound::TwoTones => "two tones",
            Sound::Constant => "a constant",
            Sound::Turns => "a constant and its negative in turns",
            Sound::Impulse => "an impulse",
            Sound::Clicks => "a few clicks",
            Sound::ToneInZeros => "a tone in zeros",
            Sound::Noise => "noise",
            Sound::Decay => "a decay",
        }
    }

    /// So many numbers, at least one, of this kind.
    fn numbers(self, draw: &mut Draw, n: usize) -> Vec<f64> {
        match self {
            Sound::Tone => each(n, tone(draw)),
            Sound::TwoTones => {
                let (mut one, mut other) = (tone(draw), tone(draw));
                each(n, || one() + other())
            }
            Sound::Constant => vec![1.0; n],
            Sound::Turns => (0..n).map(|place| if place % 2 == 0 { 1.0 } else { -1.0 }).collect(),
            Sound::Impulse => clicks(draw, n, n),
            Sound::Clicks => clicks(draw, n, 9),
            Sound::ToneInZeros => {
                let [one, other] = [draw.below(n as u64) as usize, draw.below(n as u64) as usize];
                let stretch = one.min(other)..=one.max(other);
                let numbers = each(n, tone(draw)).into_iter().enumerate();
                numbers.map(|(place, x)| if stretch.contains(&place) { x } else { 0.0 }).collect()
            }
            Sound::Noise => each(n, || 2.0 * part(draw) - 1.0),
            Sound::Decay => {
                let (factor, mut x) = (0.5 + 0.5 * part(draw), 1.0);
                each(n, || {
                    x *= factor;
                    x
                })
            }
        }
    }

    /// So many samples of this kind, whose sum of squares over these places is about this.
    pub fn samples(self, draw: &mut Draw, n: usize, places: impl Iterator<Item = usize>, energy: f64) -> Vec<u32> {
        let numbers = self.numbers(draw, n);
        let squares: f64 = places.map(|place| numbers[place] * numbers[place]).sum();
        let factor = if squares > 0.0 { (energy / squares).sqrt() } else { 0.0 };
        numbers.into_iter().map(|x| ((x * factor) as f32).to_bits()).collect()
    }
}

fn each(n: usize, mut next: impl FnMut() -> f64) -> Vec<f64> {
    (0..n).map(|_| next()).collect()
}

/// Numbers of which each is 0 but some, up to so many places behind the one before.
fn clicks(draw: &mut Draw, n: usize, apart: usize) -> Vec<f64> {
    let mut numbers = vec![0.0; n];
    let mut place = draw.below(n.min(apart) as u64) as usize;
    while place < n {
        numbers[place] = if apart < n { 2.0 * part(draw) - 1.0 } else { 1.0 };
        place += if apart < n { 1 + draw.below(apart as u64) as usize } else { n };
    }
    numbers
}

/// 2 to this power.
fn power(exponent: i64) -> f64 {
    f64::from_bits(((1023 + exponent) as u64) << 52)
}

/// The doubles around the one that is raised to just 1e-12, that one in the middle.
pub fn beside_bound() -> [f64; 5] {
    let near = (BOUND / (1.0 + SHARE)).to_bits();
    let just = (near - 2..=near + 2).find(|bits| f64::from_bits(*bits) * (1.0 + SHARE) == BOUND);
    let just = just.expect("a double is raised to the bound");
    [just - 2, just - 1, just, just + 1, just + 2].map(f64::from_bits)
}

/// A few samples whose squares, added from the first on, give just this sum; nothing, where they do not.
pub fn summing_to(draw: &mut Draw, energy: f64) -> Option<Vec<u32>> {
    let mut sum = 0.0;
    let mut samples: Vec<u32> = Vec::new();
    while sum < energy && samples.len() < 8 {
        let share = if samples.is_empty() { 0.2 + 0.8 * part(draw) } else { 1.0 };
        let root = ((energy - sum) * share).sqrt();
        let near = root as f32;
        let x = if f64::from(near) > root { f32::from_bits(near.to_bits() - 1) } else { near };
        sum += f64::from(x) * f64::from(x);
        samples.push(x.to_bits() | (draw.below(2) as u32) << 31);
    }
    (sum == energy).then_some(samples)
}

/// A sum of squares: none, below the bound of 1e-12, beside it, not much above it, up to 1e-6, and above that, where no
/// model stops early.
pub fn energy(draw: &mut Draw) -> f64 {
    let (part, any) = (part(draw), draw.word() as i64);
    match draw.below(16) {
        0 => 0.0,
        1..=2 => (1.0 + part) * power(-41 - any.rem_euclid(260)),
        3 => BOUND * (1.0 + (part - 0.75) * 4.0 * SHARE),
        4..=5 => BOUND * (1.0 + 0.4 * part),
        6 => BOUND * (1.0 + 3.0 * part),
        7..=12 => (1.0 + part) * power(-20 - any.rem_euclid(20)),
        _ => (1.0 + part) * power(any.rem_euclid(50) - 20),
    }
}
