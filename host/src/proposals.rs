//! Proposals for the samples of a recording: what the original's `project_gamma` makes of candidates of several kinds,
//! and what goes wrong with a proposal.
use crate::draw::Draw;
use crate::original;
use crate::recording::in_range;
use crate::whole::floats;

/// NaN of several patterns, quiet and signalling, of both signs.
pub const NAN: [u32; 6] = [0x7fc0_0000, 0xffc0_0000, 0x7f80_0001, 0xff80_0001, 0x7fff_ffff, 0xffff_ffff];

/// Words of finite floats that are not in range: the next ones beyond 65,536, 2^17, and the largest.
pub const LOUD: [u32; 6] = [0x4780_0001, 0xc780_0001, 0x4800_0000, 0xc800_0000, 0x7f7f_ffff, 0xff7f_ffff];

/// Both infinities.
pub const INFINITE: [u32; 2] = [0x7f80_0000, 0xff80_0000];

/// The sign of a word.
const SIGN: u32 = 0x8000_0000;

/// The word of 65,536.
const LOUDEST: u32 = 0x4780_0000;

/// What there is among the candidates.
#[derive(Clone, Copy, Debug, PartialEq, Eq)]
pub enum Among {
    /// All are in range.
    InRange,
    /// Some are NaN.
    OrNan,
    /// Some are NaN, infinite, or too loud.
    OrAny,
}

/// One of these words.
fn one_of(draw: &mut Draw, words: &[u32]) -> u32 {
    words[draw.below(words.len() as u64) as usize]
}

/// A candidate for a sample: the sample itself, a louder one, the threshold and the words beside it with the sample's
/// sign, the loudest, a zero, any word in range, or now and then one that is not.
fn candidate(draw: &mut Draw, sample: u32, threshold: f32, among: Among) -> u32 {
    let sign = sample & SIGN;
    let word = match draw.below(10) {
        0 => sample,
        1 | 2 => (f32::from_bits(sample) * (1.0 + draw.below(17) as f32 / 16.0)).to_bits(),
        3 => sign | (threshold.to_bits() & !SIGN).saturating_add(draw.below(3) as u32).saturating_sub(1),
        4 => LOUDEST | (draw.below(2) as u32) << 31,
        5 => (draw.below(2) as u32) << 31,
        6 if among != Among::InRange => one_of(draw, &NAN),
        7 if among == Among::OrAny => one_of(draw, &LOUD),
        8 if among == Among::OrAny => one_of(draw, &INFINITE),
        _ => draw.below(u64::from(LOUDEST)) as u32 | (draw.below(2) as u32) << 31,
    };
    if among == Among::InRange && !in_range(word) || among == Among::OrNan && !is_in_range_or_nan(word) {
        sample
    } else {
        word
    }
}

/// Whether a word is in range or a NaN.
fn is_in_range_or_nan(word: u32) -> bool {
    in_range(word) || f32::from_bits(word).is_nan()
}

/// Candidates for these samples, one for each. Where there are words that are not in range among them, they are rare at
/// times.
pub fn candidates(draw: &mut Draw, samples: &[u32], threshold: f32, among: Among) -> Vec<u32> {
    let spread = 1 + draw.below(2) * draw.below(40);
    let mut of = |sample: u32| {
        let rare = if draw.below(spread) == 0 { among } else { Among::InRange };
        candidate(draw, sample, threshold, rare)
    };
    samples.iter().map(|sample| of(*sample)).collect()
}

/// What the original makes of candidates for these samples.
pub fn projected(candidates: &[u32], samples: &[u32], threshold: f32) -> Vec<u32> {
    let projected = original::project_gamma(&floats(candidates), &floats(samples), threshold);
    projected.into_iter().map(f32::to_bits).collect()
}

/// A proposal for samples in range, at a threshold that is allowed: it keeps to the rule.
pub fn proposal(draw: &mut Draw, samples: &[u32], threshold: f32) -> Vec<u32> {
    let candidates = candidates(draw, samples, threshold, Among::OrNan);
    projected(&candidates, samples, threshold)
}

/// What is wrong with a proposal.
#[derive(Clone, Copy, Debug, PartialEq, Eq)]
pub enum Damage {
    /// One bit of a sample under the threshold.
    Bit,
    /// The sign of a zero.
    Zero,
    /// A word of the right sign that is under the threshold.
    Under,
    /// A word beyond the threshold on the other side.
    OtherSide,
    Loud,
    Nan,
    Infinite,
    /// A word too few, one too many, and none.
    Short,
    Long,
    Empty,
}

impl Damage {
    /// Those of one word.
    pub const OF_WORDS: [Damage; 7] =
        [Damage::Bit, Damage::Zero, Damage::Under, Damage::OtherSide, Damage::Loud, Damage::Nan, Damage::Infinite];

    /// Those of the length.
    pub const OF_LENGTH: [Damage; 3] = [Damage::Short, Damage::Long, Damage::Empty];

    /// Whether it can be done at this sample.
    fn is_for(self, sample: u32, threshold: f32) -> bool {
        let x = f32::from_bits(sample);
        match self {
            Damage::Bit => x.abs() < threshold,
            Damage::Zero => x == 0.0 && x.abs() < threshold,
            _ => x.abs() >= threshold,
        }
    }

    /// The word that breaks the rule in this way, for a sample for which it can.
    fn word(self, draw: &mut Draw, sample: u32, threshold: f32) -> u32 {
        let (sign, least) = (sample & SIGN, threshold.to_bits());
        match self {
            Damage::Bit => sample ^ 1 << draw.below(32),
            Damage::Zero => sample ^ SIGN,
            Damage::Under if draw.below(2) == 0 => sign | (least - 1),
            Damage::Under => sign | draw.below(u64::from(least)) as u32,
            Damage::OtherSide if draw.below(2) == 0 => sample ^ SIGN,
            Damage::OtherSide => (sign ^ SIGN) | least,
            Damage::Loud => sign | one_of(draw, &LOUD),
            Damage::Nan => one_of(draw, &NAN),
            _ => one_of(draw, &INFINITE),
        }
    }

    /// Does it to a proposal that is as long as the recording. The lowest place that refusal 15 may then tell, or
    /// nothing, where it cannot be done.
    pub fn done(self, draw: &mut Draw, samples: &[u32], threshold: f32, proposal: &mut Vec<u32>) -> Option<usize> {
        match self {
            Damage::Short => proposal.pop().map(|_| 0),
            Damage::Long => {
                proposal.push(draw.word() as u32);
                Some(0)
            }
            Damage::Empty if proposal.is_empty() => None,
            Damage::Empty => {
                proposal.clear();
                Some(0)
            }
            _ => {
                let places: Vec<usize> =
                    (0..samples.len()).filter(|place| self.is_for(samples[*place], threshold)).collect();
                let place = *places.get(draw.below(places.len().max(1) as u64) as usize)?;
                proposal[place] = self.word(draw, samples[place], threshold);
                Some(place)
            }
        }
    }
}

/// Does up to so many of these damages to the words of a proposal, and the lowest place that they are at.
pub fn damaged(draw: &mut Draw, samples: &[u32], threshold: f32, proposal: &mut Vec<u32>, times: u64) -> Option<usize> {
    let mut lowest = None;
    for _ in 0..1 + draw.below(times) {
        let damage = Damage::OF_WORDS[draw.below(Damage::OF_WORDS.len() as u64) as usize];
        let place = damage.done(draw, samples, threshold, proposal);
        lowest = lowest.into_iter().chain(place).min();
    }
    lowest
}
