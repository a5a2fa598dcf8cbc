//! Scans at each number from which on equal words are held: how their recordings are drawn, with runs of just so many
//! words and of one more and one less, and what is counted of them.
use super::limits::{self, Faults};
use super::scans::{any_room, scanned};
use cathar_host::both::Both;
use cathar_host::count::{Class, Count};
use cathar_host::draw::Draw;
use cathar_host::inpaint::{held, limit, qualified, Gap, Scan, HELD_RUN, LOST_RUN, MOST_HELD_RUN};
use cathar_host::recording::entry_words;
use cathar_host::room;
use cathar_host::settings::{self, OfScan, UNLIMITED, USUAL};
use cathar_host::shapes::Shape;

/// How many scans of recordings that are drawn, and how often each held run is tried with the runs beside it.
const RANDOM: u64 = 20_000;
const TURNS: u64 = 20;

/// The held runs on which something turns, and some others; and those that are not allowed: past the ends, and such that
/// some of their last binary digits are allowed.
const RUNS: [u32; 12] = [2, 3, 4, 5, 8, 15, 16, 17, 31, 100, 4_095, 4_096];
const NO_RUNS: [u32; 12] =
    [0, 1, 4_097, 4_098, 8_192, 65_536, 65_538, 65_552, 0x0100_0010, 0x8000_0010, u32::MAX - 1, u32::MAX];

/// A scan, and what the model answers.
#[derive(Debug)]
pub struct Call {
    settings: OfScan,
    scan: Scan,
    before: Vec<u32>,
}

impl Call {
    fn is(&self, held_run: u32) -> bool {
        self.settings.held_run == held_run
    }

    /// Whether the gap of a run of so many held words was repaired, at this held run.
    fn repairs(&self, held_run: u32, words: usize) -> bool {
        let mut gaps = self.scan.runs().iter().filter(|(_, answer)| answer.number() == 0);
        self.is(held_run) && gaps.any(|(gap, _)| gap.is_held(&self.before) && gap.len + 1 == words)
    }

    /// Whether there is a run of one word less than are held at this held run, which does not qualify, though limit and
    /// ends allow it.
    fn leaves(&self, held_run: u32) -> bool {
        let words = held_run as usize - 1;
        let is_short = |gap: &Gap| gap.len + 1 == words && gap.is_allowed(self.before.len(), limit(self.settings));
        self.is(held_run) && held(&self.before, words).iter().any(is_short)
    }

    /// Whether there is a run of just so many words as are held at this held run, whose gap is longer than the limit.
    fn is_past_limit(&self, held_run: u32) -> bool {
        let words = held_run as usize;
        let is_past = |gap: &Gap| gap.len + 1 == words && gap.len > limit(self.settings);
        self.is(held_run) && held(&self.before, words).iter().any(is_past)
    }

    /// Whether it is refused by 4 for its held run, which is so.
    fn refuses(&self, so: fn(u32) -> bool) -> bool {
        self.scan == Scan::Refused(4) && so(self.settings.held_run)
    }

    /// Whether it is refused by this number, where its held run is not allowed either.
    fn is_before(&self, number: u32) -> bool {
        self.scan == Scan::Refused(number) && NO_RUNS.contains(&self.settings.held_run)
    }

    /// Whether a run of zeros or NaN that is shorter than the held run was repaired.
    fn repairs_few_zeros(&self) -> bool {
        let mut gaps = self.scan.runs().iter().filter(|(_, answer)| answer.number() == 0);
        gaps.any(|(gap, _)| !gap.is_held(&self.before) && gap.len < self.settings.held_run as usize)
    }

    /// The gaps that would qualify if 16 equal words were held.
    fn at_16(&self) -> Vec<Gap> {
        qualified(&self.before, self.settings.holding(HELD_RUN as u32)).unwrap_or_default()
    }

    /// How many held runs were repaired.
    fn held(&self) -> usize {
        let accepted = self.scan.runs().iter().filter(|(_, answer)| answer.number() == 0);
        accepted.filter(|(gap, _)| gap.is_held(&self.before)).count()
    }
}

type Scans = Count<Call>;

/// What the scans have to be, all of them together.
pub const CLASSES: &[Class<Call>] = &[
    Class { name: "scans", least: 27_000, holds: |_| true },
    Class { name: "at 2, a gap of one sample repaired", least: 1_300, holds: |c| c.repairs(2, 2) },
    Class { name: "at 2, three words repaired", least: 660, holds: |c| c.repairs(2, 3) },
    Class { name: "at 3, two words stay", least: 2_700, holds: |c| c.leaves(3) },
    Class { name: "at 3, three words repaired", least: 450, holds: |c| c.repairs(3, 3) },
    Class { name: "at 3, four words repaired", least: 310, holds: |c| c.repairs(3, 4) },
    Class { name: "at 15, 14 words stay", least: 350, holds: |c| c.leaves(15) },
    Class { name: "at 15, 15 words repaired", least: 180, holds: |c| c.repairs(15, 15) },
    Class { name: "at 15, 16 words repaired", least: 150, holds: |c| c.repairs(15, 16) },
    Class { name: "at 16, 15 words stay", least: 370, holds: |c| c.leaves(16) },
    Class { name: "at 16, 16 words repaired", least: 190, holds: |c| c.repairs(16, 16) },
    Class { name: "at 16, 17 words repaired", least: 160, holds: |c| c.repairs(16, 17) },
    Class { name: "at 17, 16 words stay", least: 360, holds: |c| c.leaves(17) },
    Class { name: "at 17, 17 words repaired", least: 180, holds: |c| c.repairs(17, 17) },
    Class { name: "at 17, 18 words repaired", least: 150, holds: |c| c.repairs(17, 18) },
    Class { name: "at 4,096, 4,095 words stay", least: 40, holds: |c| c.leaves(4_096) },
    Class { name: "at 4,096, 4,096 words repaired", least: 30, holds: |c| c.repairs(4_096, 4_096) },
    Class { name: "at 4,096, 4,097 words repaired", least: 30, holds: |c| c.repairs(4_096, 4_097) },
    Class { name: "at 3, a gap of 2 past the limit", least: 360, holds: |c| c.is_past_limit(3) },
    Class { name: "at 16, a gap of 15 past the limit", least: 50, holds: |c| c.is_past_limit(16) },
    Class { name: "at 4,096, a gap of 4,095 past the limit", least: 10, holds: |c| c.is_past_limit(4_096) },
    Class {
        name: "a gap of just the limit, at 4,096",
        least: 7,
        holds: |c| c.repairs(4_096, 4_096) && limit(c.settings) == 4_095,
    },
    Class {
        name: "a gap of one sample, at the limit 1",
        least: 400,
        holds: |c| c.repairs(2, 2) && limit(c.settings) == 1,
    },
    Class { name: "fewer zeros or NaN than are held, repaired", least: 1_100, holds: Call::repairs_few_zeros },
    Class { name: "several held runs repaired", least: 1_600, holds: |c| c.held() > 1 },
    Class {
        name: "runs of both kinds repaired",
        least: 1_200,
        holds: |c| c.held() > 0 && c.scan.repaired() > c.held(),
    },
    Class {
        name: "at another held run, one repaired",
        least: 1_200,
        holds: |c| !RUNS.contains(&c.settings.held_run) && c.held() > 0,
    },
    Class {
        name: "all recordings at 2, repaired",
        least: 580,
        holds: |c| c.is(2) && c.before.len() <= 6 && c.held() > 0,
    },
    Class { name: "refused at 0", least: 4, holds: |c| c.refuses(|run| run == 0) },
    Class { name: "refused at 1", least: 4, holds: |c| c.refuses(|run| run == 1) },
    Class { name: "refused at 4,097", least: 3, holds: |c| c.refuses(|run| run == 4_097) },
    Class { name: "refused at 65,552", least: 3, holds: |c| c.refuses(|run| run == 65_552) },
    Class { name: "refused at 2^32-1", least: 4, holds: |c| c.refuses(|run| run == u32::MAX) },
    Class { name: "refused at another one", least: 120, holds: |c| c.refuses(|run| !NO_RUNS.contains(&run)) },
    Class {
        name: "refused where a run would qualify at 16",
        least: 120,
        holds: |c| c.refuses(|_| true) && !c.at_16().is_empty(),
    },
    Class { name: "refused where none would", least: 30, holds: |c| c.refuses(|_| true) && c.at_16().is_empty() },
    Class { name: "1 before 4", least: 40, holds: |c| c.is_before(1) },
    Class { name: "14 before 4", least: 20, holds: |c| c.is_before(14) },
    Class { name: "2 before 4", least: 1, holds: |c| c.is_before(2) },
    Class { name: "3 before 4", least: 9, holds: |c| c.is_before(3) },
    Class { name: "first refused by 6", least: 1_600, holds: |c| c.scan.number() == 6 },
    Class { name: "first refused by 7", least: 4_500, holds: |c| c.scan.number() == 7 },
    Class { name: "first refused by 9", least: 1_000, holds: |c| c.scan.number() == 9 },
];

/// Both sides scan, and the original too.
fn scan_in(count: &mut Scans, mut both: Both, settings: OfScan, work: Vec<u64>) {
    let before = both.model.samples.clone();
    let orders = room::words(&mut Draw::new(1), before.len());
    let (scan, wrong) = scanned(&mut both, settings, work, orders);
    let words: usize = scan.runs().iter().map(|(gap, _)| entry_words(gap.len)).sum();
    let run = settings.held_run as usize;
    assert!((run + LOST_RUN) * words <= (3 * run + 7) * before.len(), "the journal's words of the densest runs");
    count.take(&Call { settings, scan, before }, &wrong);
}

/// Both sides scan these samples in any room, and the original too.
fn scan(count: &mut Scans, draw: &mut Draw, samples: &[u32], settings: OfScan) {
    let (model, work) = any_room(draw, samples, settings);
    scan_in(count, Both::new(model), settings, work);
}

/// Settings with a limit of just so many samples, at least 1, at this held run.
fn limited(most: usize, held_run: u32) -> OfScan {
    OfScan::new(most as u32, 1_000.0).holding(held_run)
}

/// A word that can be held, and so many samples of which none is like the one before it nor like that word.
fn word(draw: &mut Draw) -> u32 {
    [0x3e80_0000, 0xbe80_0000, 0x3f40_0001, 1, 0x807f_ffff, 0x4780_0000, 0xc780_0000][draw.below(7) as usize]
}

fn sound(draw: &mut Draw, most: u64) -> Vec<u32> {
    let few = draw.below(most + 1);
    (0..few).map(|place| [0x3f00_0000, 0xbf20_0000, 0x3d80_0000][place as usize % 3]).collect()
}

/// Each held run, with runs of just as many words, one more and one less, at limits beside them: mostly between samples
/// of sound, and at times at an end.
pub fn beside(count: &mut Scans, draw: &mut Draw) {
    for run in RUNS {
        for _ in 0..TURNS {
            for words in run as usize - 1..=run as usize + 1 {
                let (before, behind) = (sound(draw, 8), sound(draw, 8));
                let samples = [before, vec![word(draw); words], behind].concat();
                for most in [words.saturating_sub(2), words - 1, words, words + 1] {
                    scan(count, draw, &samples, limited(most, run));
                }
                scan(count, draw, &samples, UNLIMITED.holding(run));
            }
        }
    }
}

/// All recordings of up to six samples over four words, at 2 and at 3, with the usual limit and with the limit 1.
pub fn all(count: &mut Scans, draw: &mut Draw) {
    let words = [0x3e80_0000, 0xbf40_0000, 0, 0x4780_0001];
    for n in 0..=6 {
        for number in 0..4usize.pow(n) {
            let samples: Vec<u32> = (0..n).map(|place| words[number / 4usize.pow(place) % 4]).collect();
            for run in [2, 3] {
                scan(count, draw, &samples, USUAL.holding(run));
                scan(count, draw, &samples, limited(1, run));
            }
        }
    }
}

/// A held run: mostly one that is short.
fn any_run(draw: &mut Draw) -> u32 {
    match draw.below(8) {
        0..=1 => 2,
        2 => 3,
        3 => [15, 16, 17][draw.below(3) as usize],
        _ => 2 + draw.below(24) as u32,
    }
}

/// Some samples: sound of a shape, a word that is held for about as long as this, zeros and NaN, or rarely a word that is
/// not in range.
fn piece(draw: &mut Draw, shape: Shape, run: usize) -> Vec<u32> {
    let beside = |draw: &mut Draw, length: usize| (length + draw.below(3) as usize).saturating_sub(1).max(1);
    match draw.below(12) {
        0..=3 => shape.samples(draw, 1 + run % 5),
        4..=8 => vec![word(draw); beside(draw, run)],
        9 => vec![[0, 0x8000_0000][draw.below(2) as usize]; beside(draw, LOST_RUN)],
        10 => vec![0; beside(draw, run)],
        _ => vec![[0x4780_0001, 0x7f80_0000, 0x7fc0_0000][draw.below(3) as usize]; 1 + draw.below(2) as usize],
    }
}

/// Recordings of two to nine pieces, at any held run.
pub fn random(count: &mut Scans, draw: &mut Draw) {
    for _ in 0..RANDOM {
        let shape = Shape::ALL[draw.below(Shape::ALL.len() as u64) as usize];
        let run = any_run(draw);
        let settings = match draw.below(4) {
            0 => settings::near(draw, run as usize - 1),
            1 => UNLIMITED,
            _ => USUAL,
        };
        let pieces = 2 + draw.below(8);
        let samples: Vec<u32> = (0..pieces).flat_map(|_| piece(draw, shape, run as usize)).collect();
        scan(count, draw, &samples, settings.holding(run));
    }
}

/// Held runs that are not allowed: on recordings that have a run at 16 and that have none, and where other refusals
/// apply.
pub fn refused(count: &mut Scans, draw: &mut Draw) {
    let above = |draw: &mut Draw| MOST_HELD_RUN + 1 + draw.below(u64::from(u32::MAX - MOST_HELD_RUN)) as u32;
    let drawn: Vec<u32> = (0..40).map(|_| above(draw)).collect();
    for run in NO_RUNS.into_iter().chain(drawn) {
        for words in [1, 2, 15, 16, 17] {
            let samples = [sound(draw, 8), vec![word(draw); words], sound(draw, 8), vec![0; words], sound(draw, 8)];
            scan(count, draw, &samples.concat(), USUAL.holding(run));
        }
    }
    for faults in Faults::each() {
        let run = if faults.of_gap() { NO_RUNS[draw.below(12) as usize] } else { any_run(draw) };
        let (model, work) = faults.made(draw);
        scan_in(count, Both::new(model), USUAL.holding(run), work);
    }
    limits::large(draw, &mut |model| {
        let run = NO_RUNS[model.marks.len() % NO_RUNS.len()];
        scan_in(count, Both::new(model), USUAL.holding(run), vec![1; 100]);
    });
}
