//! Calls to which several refusals apply, recordings beside the ends of blocks, and those of the most samples and of
//! one more.
use cathar_host::draw::Draw;
use cathar_host::proposals::{self, Damage, INFINITE, LOUD, NAN};
use cathar_host::proposed;
use cathar_host::recording::{blocks, entry_words, Answer, Recording, BLOCK, MOST_SAMPLES};
use cathar_host::room;
use cathar_host::settings::NO_THRESHOLDS;

/// A call: the recording, the threshold and the proposal.
pub type Made = (Recording, f32, Vec<u32>);

/// The threshold of the calls here that is allowed.
pub const THRESHOLD: f32 = 6.0;

/// How many samples a recording has that has not too many.
const FEW: u64 = 40;

/// So many samples, up to 18 and down to -18.5 again and again: of 37 some 25 are beyond the threshold, of either sign.
pub fn saw(n: usize) -> Vec<u32> {
    (0..n).map(|place| ((place % 37) as f32 - 18.5).to_bits()).collect()
}

/// What is wrong with a call, each or not: the marks, the counts, the number of samples, used, the threshold, a sample,
/// the proposal and the journal's room.
pub struct Faults {
    number: u32,
}

impl Faults {
    /// The refusals that they lead to, in their order.
    const REFUSALS: [u32; 8] = [1, 14, 2, 3, 4, 7, 15, 9];

    pub fn each() -> impl Iterator<Item = Faults> {
        (0..1 << Faults::REFUSALS.len()).map(|number| Faults { number })
    }

    pub fn has(&self, refusal: u32) -> bool {
        let fault = Faults::REFUSALS.iter().position(|of| *of == refusal).expect("a refusal that a fault leads to");
        self.number >> fault & 1 == 1
    }

    /// The call with these faults, and what has to be answered: the first that applies, 7 and 15 with the place of the
    /// fault.
    pub fn made(&self, draw: &mut Draw) -> (Made, Answer) {
        let n = if self.has(2) { MOST_SAMPLES + 1 } else { 2 + draw.below(FEW) as usize };
        let mut samples = saw(n);
        let m = proposed::named(&samples, THRESHOLD).len();
        // Of many samples the proposal is just these, since there are many such calls.
        let mut proposal = if self.has(2) { samples.clone() } else { proposals::proposal(draw, &samples, THRESHOLD) };
        let broken = if self.has(15) { broken(draw, &samples, &mut proposal) } else { 0 };
        let unreadable = if self.has(7) { unreadable(draw, &mut samples) } else { 0 };
        let mut recording = room::recording(draw, samples, entry_words(m) - usize::from(self.has(9)));
        if self.has(1) {
            recording.marks.resize([n - 1, n + 1][draw.below(2) as usize], 0);
        }
        if self.has(14) {
            recording.counts.resize([blocks(n) - 1, blocks(n) + 1][draw.below(2) as usize], 0);
        }
        if self.has(3) {
            recording.used = [recording.journal.len() + 1, usize::MAX][draw.below(2) as usize];
        }
        let wrong = NO_THRESHOLDS[draw.below(NO_THRESHOLDS.len() as u64) as usize];
        let threshold = if self.has(4) { wrong } else { THRESHOLD };
        let answer = match Faults::REFUSALS.into_iter().find(|refusal| self.has(*refusal)) {
            None => Answer::Accepted(m),
            Some(7) => Answer::RefusedAt(7, unreadable),
            Some(15) => Answer::RefusedAt(15, broken),
            Some(number) => Answer::Refused(number),
        };
        ((recording, threshold, proposal), answer)
    }
}

/// Breaks the rule, in the words or in the length. The place that 15 has to tell.
fn broken(draw: &mut Draw, samples: &[u32], proposal: &mut Vec<u32>) -> usize {
    let place = proposals::damaged(draw, samples, THRESHOLD, proposal, 4);
    match place {
        Some(place) if draw.below(2) == 0 => place,
        _ => {
            let damage = Damage::OF_LENGTH[draw.below(3) as usize];
            damage.done(draw, samples, THRESHOLD, proposal).expect("a proposal of some words can be longer or shorter")
        }
    }
}

/// Up to three samples are not in range. The lowest place of them.
fn unreadable(draw: &mut Draw, samples: &mut [u32]) -> usize {
    let words = [&NAN[..], &LOUD, &INFINITE].concat();
    let mut lowest = samples.len();
    for _ in 0..1 + draw.below(3) {
        let place = draw.below(samples.len() as u64) as usize;
        samples[place] = words[draw.below(words.len() as u64) as usize];
        lowest = lowest.min(place);
    }
    lowest
}

/// Hands on calls on recordings of no samples, of few, and of some beside the end of a block, with each number of
/// counts.
pub fn counts(draw: &mut Draw, put: &mut dyn FnMut(Made)) {
    for n in [0, 1, 14, 255, 256, 257, 512, 513] {
        let proposal = proposals::proposal(draw, &saw(n), THRESHOLD);
        let recording = room::recording(draw, saw(n), entry_words(n));
        room::each_number_of_counts(&recording, &mut |recording| put((recording, THRESHOLD, proposal.clone())));
    }
}

/// Takes samples and a proposal.
type Put<'a> = &'a mut dyn FnMut(&mut Draw, &[u32], &[u32]);

/// Hands on recordings of several blocks, of which one sample or two, beside the ends of blocks, are clipped.
pub fn beside_blocks(draw: &mut Draw, put: Put) {
    for n in [255, 256, 257, 511, 512, 513, 767, 768, 769, 1_023] {
        let ends = (0..n).filter(|place| [0, 1, BLOCK - 1].contains(&(place % BLOCK)) || place + 1 == n);
        let ends: Vec<usize> = ends.collect();
        for one in &ends {
            for other in &ends {
                let mut samples = vec![0x3f80_0000; n];
                samples[*one] = 0x40e0_0000;
                samples[*other] = 0xc0e0_0000;
                let proposal = proposals::proposal(draw, &samples, THRESHOLD);
                put(draw, &samples, &proposal);
            }
        }
    }
}

/// Hands on calls on recordings of the most samples, with journal for just what is named and with one word less: with a
/// proposal for some of them and for every one; with the first word broken or the last, with a word too few or too
/// many, with a threshold that is not allowed, and with a NaN as the last sample.
pub fn most(draw: &mut Draw, put: &mut dyn FnMut(Made)) {
    let samples = saw(MOST_SAMPLES);
    for threshold in [THRESHOLD, 0.5] {
        let m = proposed::named(&samples, threshold).len();
        let whole = room::recording(draw, samples.clone(), entry_words(m));
        let proposal = proposals::proposal(draw, &samples, threshold);
        put((whole.clone(), threshold, proposal.clone()));
        for place in [0, BLOCK, MOST_SAMPLES - 1] {
            let mut broken = proposal.clone();
            broken[place] = 0x7fc0_0000;
            put((whole.clone(), threshold, broken));
        }
        put((whole.clone(), threshold, proposal[1..].to_vec()));
        put((whole.clone(), threshold, [&proposal[..], &[0]].concat()));
        put((whole.clone(), -threshold, proposal.clone()));
        let mut short = whole.clone();
        short.journal.pop();
        put((short, threshold, proposal.clone()));
        let mut unreadable = whole;
        unreadable.samples[MOST_SAMPLES - 1] = 0x7fc0_0000;
        put((unreadable, threshold, proposal));
    }
}
