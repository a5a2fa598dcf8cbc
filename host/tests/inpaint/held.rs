//! Scans of recordings in which words are held: how these are drawn, and what is counted of their scans.
use super::scans::{any_room, scanned};
use cathar_host::both::Both;
use cathar_host::count::{Class, Count};
use cathar_host::draw::Draw;
use cathar_host::inpaint::{held, is_lost, limit, qualified, Gap, Scan, HELD_RUN, LOST_RUN, SCAN_PASSES};
use cathar_host::original;
use cathar_host::recording::{entry_words, in_range};
use cathar_host::room;
use cathar_host::settings::{self, OfScan, UNLIMITED, USUAL};
use cathar_host::shapes::Shape;

/// How many scans of recordings that are drawn, with a fill that is to equal the word behind it, and with one by line.
const RANDOM: u64 = 60_000;
const EQUAL: u64 = 400;
const LINES: u64 = 30;

/// A scan, and what the model answers and leaves.
#[derive(Debug)]
pub struct Call {
    pub settings: OfScan,
    pub scan: Scan,
    pub before: Vec<u32>,
    pub after: Vec<u32>,
}

impl Call {
    fn limit(&self) -> usize {
        limit(self.settings)
    }

    /// The gaps that were repaired, of held words or of zeros and NaN.
    fn repaired(&self, are_held: bool) -> impl Iterator<Item = Gap> + '_ {
        let accepted = self.scan.runs().iter().filter(|(_, answer)| answer.number() == 0).map(|(gap, _)| *gap);
        accepted.filter(move |gap| gap.is_held(&self.before) == are_held)
    }

    /// Whether there are so many equal words that can be held, and no more.
    fn has(&self, words: usize) -> bool {
        held(&self.before, words).iter().any(|gap| gap.len + 1 == words)
    }

    /// Whether a held gap is so many samples longer than the limit.
    fn has_past_limit(&self, more: usize) -> bool {
        held(&self.before, HELD_RUN).iter().any(|gap| self.limit().checked_add(more) == Some(gap.len))
    }

    /// Whether 16 equal words are so and not held.
    fn has_sixteen(&self, so: fn(u32) -> bool) -> bool {
        self.before.windows(HELD_RUN).any(|words| so(words[0]) && words.iter().all(|word| *word == words[0]))
    }

    /// Whether there are repaired runs side by side: the first of held words or not, and likewise the second.
    fn has_pair(&self, first: bool, second: bool) -> bool {
        let begins = |gap: Gap| gap.start - usize::from(second);
        self.repaired(first).any(|gap| self.repaired(second).any(|other| begins(other) == gap.end()))
    }

    /// Whether the last word of a fill continues the run directly behind it, of held words or not, which qualifies.
    fn is_continued(&self, are_held: bool) -> bool {
        let ends: Vec<usize> = [true, false].iter().flat_map(|kind| self.repaired(*kind)).map(Gap::end).collect();
        let runs = self.scan.runs().iter().map(|(gap, _)| *gap).filter(|gap| gap.is_held(&self.before) == are_held);
        runs.map(|gap| gap.start - usize::from(are_held)).any(|begin| {
            let last = || self.after[begin - 1];
            ends.contains(&begin) && if are_held { last() == self.before[begin] } else { is_lost(last()) }
        })
    }
}

type Scans = Count<Call>;

/// What the scans have to be, all of them together.
pub const CLASSES: &[Class<Call>] = &[
    Class { name: "scans", least: 100_000, holds: |_| true },
    Class { name: "no word is held", least: 10_000, holds: |c| held(&c.before, HELD_RUN).is_empty() },
    Class {
        name: "all repaired, none held, as the original's scan",
        least: 1_000,
        holds: |c| c.scan.qualified() > 0 && c.scan.number() == 0 && c.repaired(true).count() == 0,
    },
    Class {
        name: "all repaired, the original's gap by gap",
        least: 10_000,
        holds: |c| c.scan.number() == 0 && c.repaired(true).count() > 0,
    },
    Class { name: "several held runs repaired", least: 5_000, holds: |c| c.repaired(true).count() > 1 },
    Class {
        name: "runs of both kinds repaired",
        least: 5_000,
        holds: |c| c.repaired(true).count() > 0 && c.repaired(false).count() > 0,
    },
    Class { name: "15 equal words", least: 5_000, holds: |c| c.has(HELD_RUN - 1) },
    Class { name: "16 equal words", least: 5_000, holds: |c| c.has(HELD_RUN) },
    Class { name: "17 equal words", least: 5_000, holds: |c| c.has(HELD_RUN + 1) },
    Class { name: "a held gap of just the limit", least: 2_000, holds: |c| c.has_past_limit(0) },
    Class { name: "a held gap one longer than the limit", least: 2_000, holds: |c| c.has_past_limit(1) },
    Class {
        name: "held from place 0 on, repaired",
        least: 2_000,
        holds: |c| c.repaired(true).any(|gap| gap.start == 1),
    },
    Class {
        name: "held up to the last sample",
        least: 2_000,
        holds: |c| held(&c.before, HELD_RUN).iter().any(|gap| gap.end() == c.before.len()),
    },
    Class {
        name: "held directly before zeros or NaN, both repaired",
        least: 1_000,
        holds: |c| c.has_pair(true, false),
    },
    Class { name: "held directly behind them, both repaired", least: 1_000, holds: |c| c.has_pair(false, true) },
    Class { name: "two held runs side by side, both repaired", least: 1_000, holds: |c| c.has_pair(true, true) },
    Class {
        name: "16 equal words out of range",
        least: 1_000,
        holds: |c| c.has_sixteen(|w| !in_range(w) && !is_lost(w)),
    },
    Class { name: "16 equal zeros", least: 1_000, holds: |c| c.has_sixteen(|w| w << 1 == 0) },
    Class { name: "16 equal NaN", least: 100, holds: |c| c.has_sixteen(|w| f32::from_bits(w).is_nan()) },
    Class { name: "a held run by line", least: 5, holds: |c| c.repaired(true).any(Gap::is_line) },
    Class { name: "a fill continued by zeros or NaN", least: 100, holds: |c| c.is_continued(false) },
    Class { name: "a fill continued by held words", least: 100, holds: |c| c.is_continued(true) },
    Class { name: "first refused by 6", least: 1_000, holds: |c| c.scan.number() == 6 },
    Class { name: "first refused by 7", least: 1_000, holds: |c| c.scan.number() == 7 },
    Class { name: "first refused by 8", least: 10, holds: |c| c.scan.number() == 8 },
    Class { name: "first refused by 9", least: 1_000, holds: |c| c.scan.number() == 9 },
];

/// Both sides scan these samples in any room, and the original too.
fn scan(count: &mut Scans, draw: &mut Draw, before: Vec<u32>, settings: OfScan) {
    let (model, work) = any_room(draw, &before, settings);
    let (mut both, orders) = (Both::new(model), room::orders(&mut draw.aside(), before.len()));
    let (scan, wrong) = scanned(&mut both, settings, work, orders);
    let words: usize = scan.runs().iter().map(|(gap, _)| entry_words(gap.len)).sum();
    assert!(18 * words <= 55 * before.len(), "the densest runs take 55 words of the journal for 18 samples");
    count.take(&Call { settings, scan, before, after: both.model.samples }, &wrong);
}

/// Two words in turns, so many in all.
type Piece = ([u32; 2], usize);

fn words((words, len): Piece) -> impl Iterator<Item = u32> {
    (0..len).map(move |place| words[place % 2])
}

/// 1/4, -3/4 and 1/2; zeros of both signs; two NaN; the next one above 65,536.
const QUARTER: [u32; 2] = [0x3e80_0000; 2];
const OTHER: [u32; 2] = [0xbf40_0000; 2];
const SOUND: [u32; 2] = [0x3f00_0000; 2];
const ZEROS: [u32; 2] = [0, 0x8000_0000];
const NAN: [u32; 2] = [0x7fc0_0000, 0xff80_0001];
const TOO_LOUD: [u32; 2] = [0x4780_0001; 2];

/// The pieces of which all recordings of up to four are scanned.
const PIECES: [Piece; 10] = [
    (SOUND, 1),
    (QUARTER, 15),
    (QUARTER, 16),
    (QUARTER, 17),
    (OTHER, 16),
    (ZEROS, 1),
    (ZEROS, 2),
    ([0; 2], 16),
    (NAN, 2),
    (TOO_LOUD, 16),
];
const MOST_PIECES: u32 = 4;

/// All recordings of up to four pieces, each with the usual limit and with 14, 15 and 16.
pub fn all(count: &mut Scans, draw: &mut Draw) {
    let base = PIECES.len();
    for pieces in 0..=MOST_PIECES {
        for number in 0..base.pow(pieces) {
            let chosen = (0..pieces).map(|place| PIECES[number / base.pow(place) % base]);
            let samples: Vec<u32> = chosen.flat_map(words).collect();
            for settings in [USUAL, OfScan::new(1_000, 14.0), OfScan::new(1_000, 15.0), OfScan::new(1_000, 16.0)] {
                scan(count, draw, samples.clone(), settings);
            }
        }
    }
}

/// The words that are held: of a sound, or on an edge of what is in range and not zero.
const EDGES: [u32; 8] = [1, 0x8000_0001, 0x007f_ffff, 0x0080_0000, 0x3080_0000, 0x4780_0000, 0xc780_0000, 0x3f80_0000];

/// A piece of any kind, with lengths beside 2, 16 and the limit: sound; a word that is held, or that is but for the last
/// digit or the sign of one; zeros; and rarely a word that is not in range.
fn any_piece(draw: &mut Draw, shape: Shape, most: usize) -> Vec<u32> {
    let beside = |draw: &mut Draw, length: usize| (length + draw.below(5) as usize).saturating_sub(2).max(1);
    let run = if draw.below(3) == 0 { most.min(60) + 1 } else { HELD_RUN };
    let few = 1 + draw.below(12) as usize;
    let sound = shape.samples(draw, few);
    match draw.below(24) {
        0..=7 => sound,
        8..=16 => {
            let word = if draw.below(3) == 0 { EDGES[draw.below(EDGES.len() as u64) as usize] } else { sound[0] };
            vec![word; beside(draw, run)]
        }
        17..=18 => {
            let mut words = vec![sound[0]; HELD_RUN];
            words[HELD_RUN / 2] ^= [1, 0x8000_0000][draw.below(2) as usize];
            words
        }
        19..=21 => words((ZEROS, beside(draw, LOST_RUN))).collect(),
        22 => words((ZEROS, beside(draw, run))).collect(),
        _ => {
            let word = [NAN[0], NAN[1], TOO_LOUD[0], 0x7f80_0000][draw.below(4) as usize];
            let run = [LOST_RUN, HELD_RUN][draw.below(2) as usize];
            vec![word; beside(draw, run)]
        }
    }
}

/// Recordings of two to nine pieces of one shape.
pub fn random(count: &mut Scans, draw: &mut Draw) {
    for _ in 0..RANDOM {
        let shape = Shape::ALL[draw.below(Shape::ALL.len() as u64) as usize];
        let settings = match draw.below(8) {
            0..=3 => USUAL,
            4..=5 => settings::near(draw, HELD_RUN - 1),
            6 => settings::near(draw, 20),
            _ => UNLIMITED,
        };
        let most = limit(settings);
        let pieces = 2 + draw.below(8);
        let samples: Vec<u32> = (0..pieces).flat_map(|_| any_piece(draw, shape, most)).collect();
        scan(count, draw, samples, settings);
    }
}

/// A recording with a gap and, directly behind it, 16 words that are held. They are set to what the gap's fill ends with,
/// again and again, until the two are the same; nothing, where that does not come to an end.
fn equal(draw: &mut Draw) -> Option<Vec<u32>> {
    let shape = [Shape::Tone, Shape::Noise, Shape::Loud][draw.below(3) as usize];
    let (before, len) = (4 + draw.below(30) as usize, 2 + draw.below(6) as usize);
    let mut samples = shape.samples(draw, before + len + HELD_RUN + 4);
    let end = before + len;
    samples[before..end].fill(ZEROS[0]);
    for _ in 0..100 {
        let floats: Vec<f32> = samples.iter().map(|word| f32::from_bits(*word)).collect();
        let last = original::inpaint_gap(&floats, before, len, SCAN_PASSES)[end - 1].to_bits();
        if samples[end] == last && samples[end + HELD_RUN - 1] == last {
            return Some(samples);
        }
        samples[end..end + HELD_RUN].fill(last);
    }
    None
}

/// Recordings in which a fill is continued by the run directly behind it: by the words that are held there; and by zeros
/// or NaN, where all is so quiet that the fill of a held word is zero.
pub fn continued(count: &mut Scans, draw: &mut Draw) {
    for _ in 0..EQUAL {
        if let Some(samples) = equal(draw) {
            scan(count, draw, samples, USUAL);
        }
        // 2^-30 to 2^-38, and its negative.
        let soft = (97 - draw.below(8) as u32) << 23 | draw.digits(23) as u32;
        let mut few = |least: usize| least + draw.below(4) as usize;
        let pieces = [([soft; 2], few(HELD_RUN)), (ZEROS, few(LOST_RUN)), ([soft | 0x8000_0000; 2], few(1))];
        scan(count, draw, pieces.into_iter().flat_map(words).collect(), USUAL);
    }
}

/// Recordings with a gap by line between two equal words, which is filled with them, and directly behind it 16 words
/// that are held; and with a held run by line.
pub fn lines(count: &mut Scans, draw: &mut Draw) {
    for _ in 0..LINES {
        let word = [SOUND, QUARTER, OTHER][draw.below(3) as usize];
        let long = 2050 + draw.below(20) as usize;
        let pieces = [(word, 1), (ZEROS, long), (word, HELD_RUN), (ZEROS, 1), (OTHER, long), (SOUND, 2)];
        scan(count, draw, pieces.into_iter().flat_map(words).collect(), UNLIMITED);
    }
}

/// The smallest recordings whose held words the original leaves as they are: 16 equal words and one more.
pub fn smallest(count: &mut Scans) {
    for n in 0..=HELD_RUN + 1 {
        let mut samples = vec![SOUND[0]; n];
        if n > HELD_RUN {
            samples[HELD_RUN] = ZEROS[0];
        }
        let floats: Vec<f32> = samples.iter().map(|word| f32::from_bits(*word)).collect();
        assert_eq!(
            original::inpaint_auto(&floats, USUAL.rate, USUAL.max_gap_ms),
            floats,
            "the original knows no held words"
        );
        let gaps = qualified(&samples, USUAL).expect("the settings are allowed");
        let expected = if n > HELD_RUN { vec![Gap { start: 1, len: HELD_RUN - 1 }] } else { vec![] };
        assert_eq!(gaps, expected);
        scan(count, &mut Draw::new(1), samples, USUAL);
    }
}
