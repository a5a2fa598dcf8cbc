//! Calls to which several refusals apply, gaps that are not within the recording, and recordings of the most
//! samples and of one more.
use cathar_host::draw::Draw;
use cathar_host::inpaint::Gap;
use cathar_host::recording::{blocks, entry_words, Recording, MOST_SAMPLES};
use cathar_host::room;

/// Samples whose gap `LOUD_GAP` gets a result that is not in range, at place 7.
pub const LOUD: [u32; 14] = [
    0xc780_0000,
    0xc780_0000,
    0xc780_0000,
    0xc780_0000,
    0xc780_0000,
    0xc780_0000,
    0,
    0,
    0x4780_0000,
    0xc780_0000,
    0xc780_0000,
    0x4780_0000,
    0xc780_0000,
    0x4780_0000,
];
pub const LOUD_GAP: Gap = Gap { start: 6, len: 2 };

/// Samples whose gap `LOUDER_GAP` gets two results that are not in range.
pub fn louder() -> Vec<u32> {
    let sample = |sign| if sign == '-' { 0xc780_0000 } else { 0x4780_0000 };
    "+-++-++-++..-+-+-+-+".chars().map(sample).collect()
}
pub const LOUDER_GAP: Gap = Gap { start: 10, len: 2 };

/// What is wrong with a call, each or not: the marks, used, the gap or the settings, the workspace, a sample,
/// the results, the journal's room and the counts.
pub struct Faults {
    number: u32,
}

impl Faults {
    const COUNT: u32 = 8;

    pub fn each() -> impl Iterator<Item = Faults> {
        (0..1 << Faults::COUNT).map(|number| Faults { number })
    }

    fn has(&self, fault: u32) -> bool {
        self.number >> fault & 1 == 1
    }

    pub fn of_gap(&self) -> bool {
        self.has(2)
    }

    /// A recording with these faults, whose one dropout run is `LOUD_GAP`, and a workspace.
    pub fn made(&self, draw: &mut Draw) -> (Recording, Vec<u64>) {
        let mut samples = LOUD.to_vec();
        if !self.has(5) {
            // With these two the results are in range.
            samples[0] = 0x3f80_0000;
            samples[1] = 0x3f80_0000;
        }
        if self.has(4) {
            samples[3] = 0x7f80_0000;
        }
        let needed = LOUD_GAP.needed(samples.len());
        let work = room::work(draw, needed - usize::from(self.has(3)));
        let free = entry_words(LOUD_GAP.len) - usize::from(self.has(6));
        let mut recording = room::recording(draw, samples, free);
        if self.has(0) {
            recording.marks.push(0);
        }
        if self.has(1) {
            recording.used = recording.journal.len() + 1;
        }
        if self.has(7) {
            recording.counts.resize([0, 2][draw.below(2) as usize], 0);
        }
        (recording, work)
    }
}

/// Hands on gaps whose start and length are at the ends of a recording of n samples and at those of a number.
pub fn gaps(n: usize, put: &mut dyn FnMut(Gap)) {
    let ends = [0, 1, n - 1, n, n + 1, usize::MAX / 2 + 1, usize::MAX - n, usize::MAX - 1, usize::MAX];
    for start in ends {
        for len in ends {
            put(Gap { start, len });
        }
    }
}

/// Hands on recordings of the most samples and of one more, with one mark or one count more or less, with two dropouts
/// of three samples: one in the middle, and one before the last sample.
pub fn large(draw: &mut Draw, put: &mut dyn FnMut(Recording)) {
    for n in [MOST_SAMPLES, MOST_SAMPLES + 1] {
        let samples = with_dropouts(n);
        let right = blocks(n);
        for (marks, counts) in
            [(n - 1, right), (n, right), (n + 1, right), (n, right - 1), (n, right + 1), (n + 1, right + 1)]
        {
            let mut recording = room::recording(draw, samples.clone(), 2 * entry_words(3));
            recording.marks.resize(marks, 9);
            recording.counts.resize(counts, 9);
            put(recording);
        }
    }
}

/// So many samples, 8 or more, with the two dropouts.
fn with_dropouts(n: usize) -> Vec<u32> {
    let mut samples: Vec<u32> = (0..n).map(|place| ((place % 37) as f32 - 18.5).to_bits()).collect();
    for start in [n / 2, n - 4] {
        samples[start..start + 3].fill(0);
    }
    samples
}

/// Hands on recordings of few samples, and of some beside the end of a block, with each number of counts.
pub fn counts(draw: &mut Draw, put: &mut dyn FnMut(Recording)) {
    for n in [0, 1, 14, 255, 256, 257, 512, 513] {
        let samples = if n < 8 { LOUD[..n].to_vec() } else { with_dropouts(n) };
        let mut recording = room::recording(draw, samples, 2 * entry_words(3));
        room::each_number_of_counts(&recording, put);
        recording.used = recording.journal.len() + 1;
        room::each_number_of_counts(&recording, put);
    }
}
