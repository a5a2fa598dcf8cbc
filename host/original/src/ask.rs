//! What the original, or Rust itself, is asked by another process: a call with its settings and its samples, or many
//! values of one float operation. All of it goes through a pipe as 64-bit numbers, lowest byte first.
use crate::declip::{declip_with_method, projected, DeclipMethod};
use crate::decrackle::decrackle;
use crate::dequant::{dequantize, dequantize_cosparse};
use crate::inpaint::{inpaint_auto, inpaint_gap};
use std::io::{Read, Result, Write};

/// The original takes a rate, and none of the repairs over the whole recording looks at it.
pub const RATE: u32 = 48_000;

/// Which function is asked for.
#[derive(Clone, Copy, Debug, PartialEq, Eq)]
pub enum Kind {
    /// Start, length and passes.
    Gap,
    /// Rate, and the pattern of max_gap_ms.
    Auto,
    /// The pattern of the threshold.
    Declip,
    /// The pattern of the threshold. Of the patterns the first half are candidates, and the others the samples.
    Gamma,
    /// The pattern of the sensitivity.
    Decrackle,
    /// Bits, and the pattern of the strength.
    Dequantize,
    /// Bits, the pattern of the strength, and iterations.
    Cosparse,
    /// No settings: `f64::sqrt`, `as f32`, `f32::round`.
    Root,
    Narrow,
    Round,
}

const KINDS: [Kind; 10] = [
    Kind::Gap,
    Kind::Auto,
    Kind::Declip,
    Kind::Gamma,
    Kind::Decrackle,
    Kind::Dequantize,
    Kind::Cosparse,
    Kind::Root,
    Kind::Narrow,
    Kind::Round,
];

/// A function, its settings (those that it has not are 0), and the patterns of the samples or values.
#[derive(Clone, Debug, PartialEq, Eq)]
pub struct Ask {
    pub kind: Kind,
    pub settings: [u64; 3],
    pub patterns: Vec<u64>,
}

impl Ask {
    /// The patterns of what the function gives: all samples as the original leaves them, or each value's result.
    pub fn answer(&self) -> Vec<u64> {
        let [a, b, c] = self.settings;
        let real = |pattern: u64| f32::from_bits(pattern as u32);
        match self.kind {
            Kind::Gap => self.repaired(|s| inpaint_gap(s, a as usize, b as usize, c as u32)),
            Kind::Auto => self.repaired(|s| inpaint_auto(s, a as u32, real(b))),
            Kind::Declip => self.repaired(|s| declip_with_method(s, real(a), DeclipMethod::Cubic)),
            Kind::Gamma => self.repaired(|s| {
                let (candidates, observed) = s.split_at(s.len() / 2);
                each_projected(candidates, observed, real(a))
            }),
            Kind::Decrackle => self.repaired(|s| decrackle(s, RATE, real(a))),
            Kind::Dequantize => self.repaired(|s| dequantize(s, RATE, a as u32, real(b))),
            Kind::Cosparse => self.repaired(|s| dequantize_cosparse(s, RATE, a as u32, real(b), c as u32)),
            Kind::Root => self.each(|pattern| f64::from_bits(pattern).sqrt().to_bits()),
            Kind::Narrow => self.each(|pattern| u64::from((f64::from_bits(pattern) as f32).to_bits())),
            Kind::Round => self.each(|pattern| u64::from(real(pattern).round().to_bits())),
        }
    }

    fn repaired(&self, repair: impl Fn(&[f32]) -> Vec<f32>) -> Vec<u64> {
        let samples: Vec<f32> = self.patterns.iter().map(|pattern| f32::from_bits(*pattern as u32)).collect();
        patterns(&repair(&samples))
    }

    fn each(&self, of: impl Fn(u64) -> u64) -> Vec<u64> {
        self.patterns.iter().map(|pattern| of(*pattern)).collect()
    }

    /// How many answers are asked for: one for a call, and one for each value of a float operation.
    pub fn answers(&self) -> u64 {
        match self.kind {
            Kind::Root | Kind::Narrow | Kind::Round => self.patterns.len() as u64,
            _ => 1,
        }
    }

    /// Writes it.
    pub fn write(&self, to: &mut impl Write) -> Result<()> {
        let [a, b, c] = self.settings;
        for number in [self.kind as u64, a, b, c] {
            to.write_all(&number.to_le_bytes())?;
        }
        write_list(to, &self.patterns)
    }

    /// Reads one that was written; nothing, at the end of the input.
    pub fn read(from: &mut impl Read) -> Result<Option<Ask>> {
        let mut first = [0; 8];
        if from.read(&mut first[..1])? == 0 {
            return Ok(None);
        }
        from.read_exact(&mut first[1..])?;
        let kind = KINDS[u64::from_le_bytes(first) as usize];
        let settings = [read_number(from)?, read_number(from)?, read_number(from)?];
        Ok(Some(Ask { kind, settings, patterns: read_list(from)? }))
    }
}

/// What `project_gamma` makes of each candidate for its sample.
pub fn each_projected(candidates: &[f32], observed: &[f32], threshold: f32) -> Vec<f32> {
    candidates.iter().zip(observed).map(|(candidate, observed)| projected(*candidate, *observed, threshold)).collect()
}

/// The samples' patterns.
pub fn patterns(samples: &[f32]) -> Vec<u64> {
    samples.iter().map(|x| u64::from(x.to_bits())).collect()
}

fn read_number(from: &mut impl Read) -> Result<u64> {
    let mut bytes = [0; 8];
    from.read_exact(&mut bytes)?;
    Ok(u64::from_le_bytes(bytes))
}

/// Writes how many numbers there are, and then each, in one go.
pub fn write_list(to: &mut impl Write, list: &[u64]) -> Result<()> {
    let mut bytes = (list.len() as u64).to_le_bytes().to_vec();
    bytes.extend(list.iter().flat_map(|number| number.to_le_bytes()));
    to.write_all(&bytes)?;
    to.flush()
}

/// Reads the numbers that `write_list` wrote.
pub fn read_list(from: &mut impl Read) -> Result<Vec<u64>> {
    let length = read_number(from)? as usize;
    let mut bytes = vec![0; 8 * length];
    from.read_exact(&mut bytes)?;
    let number = |eight: &[u8]| u64::from_le_bytes(eight.try_into().expect("eight bytes"));
    Ok(bytes.chunks(8).map(number).collect())
}
