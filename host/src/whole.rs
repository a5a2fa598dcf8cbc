//! The four repairs over the whole recording as document 01 has them, over the model of the recording, decrackle also
//! with the start of request P7 of document 02. What they turn away, which samples they name and what they leave is
//! written from the documents' text. The new samples are those that the original Rust computes, from its own files; of
//! decrackle with the new start, which the original does not know, they are those of the curve that the original draws.
use crate::original;
use crate::recording::{in_range, Answer, Recording};
use std::ops::Range;

/// Where the floor of decrackle's detector starts.
#[derive(Clone, Copy, Debug, PartialEq, Eq)]
pub enum Start {
    /// By request P7 of document 02, "the default": at the mean of the first magnitudes.
    Mean,
    /// By document 01, and as the original has it: at 1e-6. A caller asks for it "by name".
    Old,
}

impl Start {
    pub const BOTH: [Start; 2] = [Start::Mean, Start::Old];
}

/// Of so many magnitudes the mean is taken: "the first 1,024 detector magnitudes (all of them if fewer)".
pub const MEAN_OVER: usize = 1_024;

/// Which of the four, and its settings.
#[derive(Clone, Copy, Debug, PartialEq)]
pub enum Repair {
    Declip { threshold: f32 },
    Decrackle { sensitivity: f32, start: Start },
    Dequantize { bits: u32, strength: f32 },
    Cosparse { bits: u32, strength: f32, iterations: u32 },
}

impl Repair {
    /// "3 cubic declip, 4 decrackle, 5 dequantize (either form)"; and of the new start "this sets mark 7", while the
    /// old one "keeps mark 4".
    pub fn mark(self) -> u8 {
        match self {
            Repair::Declip { .. } => 3,
            Repair::Decrackle { start: Start::Old, .. } => 4,
            Repair::Decrackle { start: Start::Mean, .. } => 7,
            Repair::Dequantize { .. } | Repair::Cosparse { .. } => 5,
        }
    }

    /// Refusal 4 is given where this does not hold: "threshold finite and above 0", "sensitivity not NaN",
    /// "strength not NaN".
    pub fn is_allowed(self) -> bool {
        match self {
            Repair::Declip { threshold } => threshold.is_finite() && threshold > 0.0,
            Repair::Decrackle { sensitivity, .. } => !sensitivity.is_nan(),
            Repair::Dequantize { strength, .. } | Repair::Cosparse { strength, .. } => !strength.is_nan(),
        }
    }

    /// The places that it names, ascending.
    pub fn named(self, samples: &[f32]) -> Vec<usize> {
        let n = samples.len();
        match self {
            Repair::Declip { threshold } => union(&fills(samples, threshold)),
            Repair::Decrackle { sensitivity, start } => union(&flagged(samples, sensitivity, start)),
            // "Names places 1..n−2 (n at least 3, strength above 0)."
            Repair::Dequantize { strength, .. } if n >= 3 && strength > 0.0 => (1..n - 1).collect(),
            // "Names 2..n−3 (n at least 5, strength above 0, iterations above 0)."
            Repair::Cosparse { strength, iterations, .. } if n >= 5 && strength > 0.0 && iterations > 0 => {
                (2..n - 2).collect()
            }
            Repair::Dequantize { .. } | Repair::Cosparse { .. } => Vec::new(),
        }
    }

    /// Whether the original knows it.
    pub fn is_of_original(self) -> bool {
        !matches!(self, Repair::Decrackle { start: Start::Mean, .. })
    }

    /// All samples as it leaves them, where all are in range and the settings are allowed: as the original leaves them,
    /// where it knows the repair.
    pub fn after(self, samples: &[f32]) -> Vec<f32> {
        match self {
            Repair::Declip { threshold } => original::declip(samples, threshold),
            Repair::Decrackle { sensitivity, start: Start::Old } => original::decrackle(samples, sensitivity),
            Repair::Decrackle { sensitivity, start } => redrawn(samples, &flags(samples, sensitivity, start)),
            Repair::Dequantize { bits, strength } => original::dequantize(samples, bits, strength),
            Repair::Cosparse { bits, strength, iterations } => {
                original::dequantize_cosparse(samples, bits, strength, iterations)
            }
        }
    }

    /// The same samples got in another way, where there is one: of decrackle from the old start by the curve, and from
    /// the new one by the original, where the mean is raised to 1e-6, so that the floor starts as the original's does.
    fn after_otherwise(self, samples: &[f32]) -> Option<Vec<f32>> {
        match self {
            Repair::Decrackle { sensitivity, start: Start::Old } => {
                Some(redrawn(samples, &flags(samples, sensitivity, Start::Old)))
            }
            Repair::Decrackle { sensitivity, start } if opening_floor(start, &magnitudes(samples)) == 1e-6 => {
                Some(original::decrackle(samples, sensitivity))
            }
            _ => None,
        }
    }

    /// The named places with the words that the original writes there, where it knows the repair. It writes nowhere
    /// else, so that none of the samples that change is missing among those named.
    fn rewritten(self, words: &[u32]) -> Vec<(usize, u32)> {
        let samples = floats(words);
        let after = self.after(&samples);
        assert_eq!(after.len(), words.len(), "the original hands back as many samples");
        if let Some(other) = self.after_otherwise(&samples) {
            let same = after.iter().map(|x| x.to_bits()).eq(other.iter().map(|x| x.to_bits()));
            assert!(same, "{self:?} of {samples:?}: the original and the curve leave {after:?} and {other:?}");
        }
        let named: Vec<(usize, u32)> =
            self.named(&samples).into_iter().map(|place| (place, after[place].to_bits())).collect();
        let mut only_named = words.to_vec();
        for (place, word) in &named {
            only_named[*place] = *word;
        }
        let same = after.iter().map(|x| x.to_bits()).eq(only_named);
        assert!(same, "{self:?} of {samples:?}: the original leaves {after:?}, and named are {named:?}");
        named
    }
}

/// The samples of these words.
pub fn floats(words: &[u32]) -> Vec<f32> {
    words.iter().map(|word| f32::from_bits(*word)).collect()
}

/// How many words of the workspace a repair of n samples needs: each "reads every sample, whatever the settings",
/// and needs "a workspace of their own of 2n 32-bit words".
pub fn needed(n: usize) -> usize {
    2 * n
}

/// A repair over the whole recording. "The needed part of the workspace is all +0 after an acceptance or after 8
/// or 9; after any other refusal it keeps its contents."
pub fn repair(recording: &mut Recording, repair: Repair, work: &mut [u32]) -> Answer {
    if let Some(number) = recording.refused_by_any_call() {
        return Answer::Refused(number);
    }
    if !repair.is_allowed() {
        return Answer::Refused(4);
    }
    let needed = needed(recording.samples.len());
    if work.len() < needed {
        return Answer::Refused(6);
    }
    if let Some(place) = recording.samples.iter().position(|word| !in_range(*word)) {
        return Answer::RefusedAt(7, place);
    }
    let named = repair.rewritten(&recording.samples);
    work[..needed].fill(0);
    recording.commit(repair.mark(), &named)
}

/// The places that declip rewrites, for each run that it fills, in their order. Two may overlap. With s and e "a
/// run is a longest stretch of samples, as they stood when the call began, with magnitude at or above threshold,
/// from s to before e. a=max(0,s−4), z=min(min(e,n−1)+4, n−1). If z>a+4, places a+1..z−1".
pub fn fills(samples: &[f32], threshold: f32) -> Vec<Range<usize>> {
    let clipped: Vec<bool> = samples.iter().map(|x| x.abs() >= threshold).collect();
    let between = |run: Range<usize>| {
        let last = samples.len() - 1;
        let a = run.start.saturating_sub(4);
        let z = (run.end.min(last) + 4).min(last);
        (z > a + 4).then(|| a + 1..z)
    };
    stretches(&clipped).into_iter().filter_map(between).collect()
}

/// The detector's magnitudes at all places. "Detector 0 at both ends, elsewhere s[i]−0.5*(s[i−1]+s[i+1])."
pub fn magnitudes(samples: &[f32]) -> Vec<f32> {
    let mut found = vec![0.0; samples.len()];
    for (before, three) in samples.windows(3).enumerate() {
        found[before + 1] = f32::abs(three[1] - 0.5 * (three[0] + three[2]));
    }
    found
}

/// The floor before the first place, by these magnitudes, of which there are as many as the mean is of, or else all.
/// Old: "floor starts at 1e-6." New: "start from the f32 mean of the first 1,024 detector magnitudes (all of them if
/// fewer), summed in order and divided once, raised to 1e-6 if below."
pub fn opening_floor(start: Start, magnitudes: &[f32]) -> f32 {
    match start {
        Start::Old => 1e-6,
        Start::Mean => {
            let first = &magnitudes[..magnitudes.len().min(MEAN_OVER)];
            let sum = first.iter().fold(0.0, |sum: f32, a| sum + a);
            (sum / first.len() as f32).max(1e-6)
        }
    }
}

/// Which samples decrackle flags. "Sensitivity not NaN, held to 1..10; factor 12−sensitivity. Under 8 samples:
/// nothing named. [..] floor=floor*(1−0.001)+a*0.001, then flag if a>factor*max(floor,1e-6)."
pub fn flags(samples: &[f32], sensitivity: f32, start: Start) -> Vec<bool> {
    let mut flags = vec![false; samples.len()];
    if samples.len() < 8 {
        return flags;
    }
    let factor = 12.0 - sensitivity.clamp(1.0, 10.0);
    let magnitudes = magnitudes(samples);
    let mut floor = opening_floor(start, &magnitudes);
    for (flag, a) in flags.iter_mut().zip(magnitudes) {
        floor = floor * (1.0 - 0.001) + a * 0.001;
        *flag = a > factor * floor.max(1e-6);
    }
    flags
}

/// The runs of places that decrackle flags, in their order.
pub fn flagged(samples: &[f32], sensitivity: f32, start: Start) -> Vec<Range<usize>> {
    stretches(&flags(samples, sensitivity, start))
}

/// The samples of a recording of which these are flagged, once they are redrawn: "each flagged run is rewritten as
/// `repair_hermite` does, left to right on the changing output".
pub fn redrawn(samples: &[f32], flags: &[bool]) -> Vec<f32> {
    let mut output = samples.to_vec();
    for run in stretches(flags) {
        let new = curve(&output, &run);
        output[run].copy_from_slice(&new);
    }
    output
}

/// The new samples of a flagged run, as `repair_hermite` has them: the cubic from the sample before it to the one
/// behind it, with the slopes that those have on their other side, 0 where there is none. Behind a run to the end the
/// sample before it is taken once more.
pub fn curve(samples: &[f32], run: &Range<usize>) -> Vec<f32> {
    let left = samples[run.start - 1];
    let right = *samples.get(run.end).unwrap_or(&left);
    let steps = (run.len() + 1) as f32;
    let slope_left = if run.start > 1 { left - samples[run.start - 2] } else { 0.0 };
    let slope_right = samples.get(run.end + 1).map_or(0.0, |next| next - right);
    let new = |step: usize| {
        let t = step as f32 / steps;
        let t2 = t * t;
        let t3 = t2 * t;
        let by_left = (2.0 * t3 - 3.0 * t2 + 1.0) * left + (t3 - 2.0 * t2 + t) * (slope_left * steps);
        by_left + (3.0 * t2 - 2.0 * t3) * right + (t3 - t2) * (slope_right * steps)
    };
    (1..=run.len()).map(new).collect()
}

/// The longest stretches of places at which it is so, in their order.
pub fn stretches(so: &[bool]) -> Vec<Range<usize>> {
    let mut found: Vec<Range<usize>> = Vec::new();
    for place in (0..so.len()).filter(|place| so[*place]) {
        match found.last_mut() {
            Some(last) if last.end == place => last.end += 1,
            _ => found.push(place..place + 1),
        }
    }
    found
}

/// All places of these stretches, each once, ascending.
fn union(stretches: &[Range<usize>]) -> Vec<usize> {
    let mut places: Vec<usize> = stretches.iter().cloned().flatten().collect();
    places.sort_unstable();
    places.dedup();
    places
}
