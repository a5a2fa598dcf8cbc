//! Declip by a proposal, of request P9 of document 02, over the model of the recording: "The five transform methods
//! stay in Rust, and their output is not trusted. The host lends a proposal as long as the recording, with a threshold
//! under document 01's rule." It is written from the request's text alone.
use crate::recording::{in_range, Answer, Recording};

/// The mark that it sets: "mark 8".
pub const PROPOSED: u8 = 8;

/// Refusal 4 is given where this does not hold, by document 01: "threshold finite and above 0".
pub fn is_allowed(threshold: f32) -> bool {
    threshold.is_finite() && threshold > 0.0
}

/// The places that are named, ascending: "all samples at or beyond threshold".
pub fn named(samples: &[u32], threshold: f32) -> Vec<usize> {
    (0..samples.len()).filter(|place| f32::from_bits(samples[*place]).abs() >= threshold).collect()
}

/// How a word breaks the rule.
#[derive(Clone, Copy, Debug, PartialEq, Eq)]
pub enum Breach {
    /// Its sample is under the threshold in magnitude, and has other bits.
    Bits,
    /// Its sample is at or beyond the threshold, and the word is not in range.
    Range,
    /// It is in range, and not at or beyond the threshold, or not on its sample's side.
    Side,
}

/// How a word that is proposed for a sample in range breaks the rule, if it does: "every sample under the threshold in
/// magnitude keeps its bits, each sample at or above it is answered by an in-range one at or above it, and likewise
/// below the negative threshold".
pub fn breach(sample: u32, word: u32, threshold: f32) -> Option<Breach> {
    let (was, proposed) = (f32::from_bits(sample), f32::from_bits(word));
    if was.abs() < threshold {
        return (word != sample).then(|| Breach::Bits);
    }
    let is_on_side = if was > 0.0 { proposed >= threshold } else { proposed <= -threshold };
    match (in_range(word), is_on_side) {
        (false, _) => Some(Breach::Range),
        (true, false) => Some(Breach::Side),
        (true, true) => None,
    }
}

/// The places that break the rule, each with how it does, ascending, of a proposal as long as the recording.
pub fn breaches<'a>(
    samples: &'a [u32],
    proposal: &'a [u32],
    threshold: f32,
) -> impl Iterator<Item = (usize, Breach)> + 'a {
    let words = samples.iter().zip(proposal).enumerate();
    words.filter_map(move |(place, (sample, word))| Some((place, breach(*sample, *word, threshold)?)))
}

/// The call. "Refusals: 7 for the recording as before; 8 isn't given; 15, proposal of another length, with place 0, or
/// breaking the rule, with the lowest place, before 9". "No workspace."
pub fn declip_proposed(recording: &mut Recording, threshold: f32, proposal: &[u32]) -> Answer {
    if let Some(number) = recording.refused_by_any_call() {
        return Answer::Refused(number);
    }
    if !is_allowed(threshold) {
        return Answer::Refused(4);
    }
    let samples = &recording.samples;
    if let Some(place) = samples.iter().position(|word| !in_range(*word)) {
        return Answer::RefusedAt(7, place);
    }
    if proposal.len() != samples.len() {
        return Answer::RefusedAt(15, 0);
    }
    if let Some((place, _)) = breaches(samples, proposal, threshold).next() {
        return Answer::RefusedAt(15, place);
    }
    let named: Vec<(usize, u32)> =
        named(samples, threshold).into_iter().map(|place| (place, proposal[place])).collect();
    recording.commit(PROPOSED, &named)
}
