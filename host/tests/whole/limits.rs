//! Calls to which several refusals apply, and recordings of the most samples and of one more.
use super::calls::names;
use super::clipped;
use cathar_host::draw::Draw;
use cathar_host::recording::{blocks, entry_words, Recording, MOST_SAMPLES};
use cathar_host::room;
use cathar_host::whole::{needed, Repair, Start};

/// A call that is accepted and names a sample, and what is wrong in others like it.
pub struct Case {
    pub repair: Repair,
    pub samples: Vec<u32>,
    /// Settings that are not allowed.
    pub wrong: Repair,
    /// Samples in range of which a result is not, where there are such.
    pub loud: Option<Vec<u32>>,
}

fn words_of(samples: &[f32]) -> Vec<u32> {
    samples.iter().map(|x| x.to_bits()).collect()
}

/// A run to the end of the recording: the cubic is rounded above its last sample, which is the loudest that there
/// can be, or else may not be.
pub fn declip(draw: &mut Draw) -> Case {
    let loud = clipped::loud(draw, clipped::FEWEST_LOUD);
    let mut samples = loud.clone();
    samples[clipped::FEWEST_LOUD - 1] = 0x3f80_0000;
    let (repair, wrong) = (Repair::Declip { threshold: 1.0 }, Repair::Declip { threshold: 0.0 });
    Case { repair, samples, wrong, loud: Some(loud) }
}

/// A slope that the curve goes on with for a while, since all samples behind it are flagged but the last. From the mean
/// they are so where a silence before them keeps it low.
pub fn decrackle(start: Start) -> Case {
    let mut loud = vec![0.0; if start == Start::Mean { 200 } else { 0 }];
    loud.extend([0.0, 20_000.0, 40_000.0]);
    loud.extend([60_000.0, -60_000.0].repeat(5));
    loud.extend([60_000.0; 3]);
    let samples: Vec<f32> = loud.iter().map(|x| x / 16.0).collect();
    Case {
        repair: Repair::Decrackle { sensitivity: 7.5, start },
        samples: words_of(&samples),
        wrong: Repair::Decrackle { sensitivity: f32::NAN, start },
        loud: Some(words_of(&loud)),
    }
}

/// No result is louder than the loudest sample, so that all are in range.
pub fn dequantize() -> Case {
    Case {
        repair: Repair::Dequantize { bits: 4, strength: 1.0 },
        samples: words_of(&[0.0, 0.0, 0.125, 0.0, 0.0]),
        wrong: Repair::Dequantize { bits: 4, strength: f32::NAN },
        loud: None,
    }
}

/// The loudest samples beside the loudest of the other sign: they are predicted to be louder still, and go half a
/// step that way.
pub fn cosparse() -> Case {
    let loud = [-65536.0, 65536.0, 65536.0, 65536.0, -65536.0, 0.0];
    Case {
        repair: Repair::Cosparse { bits: 4, strength: 1.0, iterations: 1 },
        samples: words_of(&loud.map(|x| x / 16.0)),
        wrong: Repair::Cosparse { bits: 4, strength: f32::NAN, iterations: 1 },
        loud: Some(words_of(&loud)),
    }
}

/// What is wrong with a call, each or not: the marks, the counts, used, the settings, the workspace, a sample, the
/// results and the journal's room.
pub struct Faults {
    number: u32,
}

impl Faults {
    /// The refusals that they lead to, in their order.
    const REFUSALS: [u32; 8] = [1, 14, 3, 4, 6, 7, 8, 9];

    pub fn each() -> impl Iterator<Item = Faults> {
        (0..1 << Faults::REFUSALS.len()).map(|number| Faults { number })
    }

    pub fn has(&self, refusal: u32) -> bool {
        let fault = Faults::REFUSALS.iter().position(|of| *of == refusal).expect("a refusal that a fault leads to");
        self.number >> fault & 1 == 1
    }

    /// The first that applies is the answer. 0 where none does.
    pub fn answer(&self) -> u32 {
        Faults::REFUSALS.into_iter().find(|refusal| self.has(*refusal)).unwrap_or(0)
    }

    /// The call with these faults: a recording, settings and a workspace. Nothing, where no result can be wrong.
    pub fn made(&self, draw: &mut Draw, case: &Case) -> Option<(Recording, Repair, Vec<u32>)> {
        let mut samples = if self.has(8) { case.loud.clone()? } else { case.samples.clone() };
        let free = entry_words(names(case.repair, &samples)) - usize::from(self.has(9));
        let n = samples.len();
        if self.has(7) {
            samples[draw.below(n as u64) as usize] = [0x4780_0001, 0xff80_0000, 0x7fc0_0000][draw.below(3) as usize];
        }
        let work = room::words(draw, needed(n) - usize::from(self.has(6)));
        let mut recording = room::recording(draw, samples, free);
        if self.has(1) {
            recording.marks.push(0);
        }
        if self.has(14) {
            let beside = [blocks(n) - 1, blocks(n) + 1][draw.below(2) as usize];
            recording.counts.resize(beside, 0);
        }
        if self.has(3) {
            recording.used = [recording.journal.len() + 1, usize::MAX][draw.below(2) as usize];
        }
        Some((recording, if self.has(4) { case.wrong } else { case.repair }, work))
    }
}

/// So many samples, up to 18 and down to -18.5 again and again.
fn saw(n: usize) -> Vec<u32> {
    (0..n).map(|place| ((place % 37) as f32 - 18.5).to_bits()).collect()
}

/// Hands on calls on recordings of no samples, of few, and of some beside the end of a block, with each number of counts.
pub fn counts(draw: &mut Draw, case: &Case, put: &mut dyn FnMut(Recording, Repair, Vec<u32>)) {
    for n in [0, 1, 14, 255, 256, 257, 512, 513] {
        let work = room::words(draw, needed(n));
        let recording = room::recording(draw, saw(n), entry_words(n));
        room::each_number_of_counts(&recording, &mut |recording| put(recording, case.repair, work.clone()));
    }
}

/// Hands on calls on recordings of the most samples and of one more, with workspace and journal for all that is
/// named: with one mark or one count more or less; with the most samples and with one word less of either, and with settings that
/// are not allowed; and with one sample more and with nothing that would do.
pub fn large(draw: &mut Draw, case: &Case, put: &mut dyn FnMut(Recording, Repair, Vec<u32>)) {
    for n in [MOST_SAMPLES, MOST_SAMPLES + 1] {
        let samples = saw(n);
        let free = entry_words(names(case.repair, &samples));
        let work = room::words(draw, needed(n));
        let mut whole = room::recording(draw, samples, free);
        let right = blocks(n);
        for (marks, counts) in
            [(n - 1, right), (n, right), (n + 1, right), (n, right - 1), (n, right + 1), (n + 1, right + 1)]
        {
            let mut recording = whole.clone();
            recording.marks.resize(marks, 9);
            recording.counts.resize(counts, 9);
            put(recording, case.repair, work.clone());
        }
        if n == MOST_SAMPLES {
            put(whole.clone(), case.wrong, work.clone());
            put(whole.clone(), case.repair, work[1..].to_vec());
            whole.journal.pop();
            put(whole, case.repair, work);
        } else {
            whole.samples[0] = 0x7fc0_0000;
            whole.used = usize::MAX;
            put(whole, case.wrong, Vec::new());
        }
    }
}
