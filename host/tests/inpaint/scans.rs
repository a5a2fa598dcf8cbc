//! One scan by both sides, and by the original where nothing is refused, and what is counted of it.
use cathar_host::both::{Both, Wrong};
use cathar_host::count::{Class, Count};
use cathar_host::damage;
use cathar_host::draw::Draw;
use cathar_host::inpaint::{limit, qualified, scanned_by_original, Gap, Scan};
use cathar_host::recording::{entry_words, Recording, BLOCK};
use cathar_host::room::{self, Room};
use cathar_host::settings::OfScan;
use cathar_host::shapes::Shape;

/// A scan, and what the model answers.
#[derive(Debug)]
pub struct Call {
    pub samples: usize,
    pub settings: OfScan,
    /// How long the list for the orders is.
    pub list: usize,
    pub scan: Scan,
    /// Whether a count is not that of its block's marks after it.
    pub has_wrong_count: bool,
}

impl Call {
    /// All runs were repaired, so that the original was asked too.
    fn is_clean(&self) -> bool {
        self.scan.qualified() > 0 && self.scan.number() == 0
    }

    /// Whether a run was repaired after another was refused.
    fn goes_on(&self) -> bool {
        let mut after = self.scan.runs().iter().skip_while(|(_, answer)| answer.number() == 0);
        after.any(|(_, answer)| answer.number() == 0)
    }

    /// Whether a run was repaired by the model of which the list has some places and not all.
    fn is_cut(&self) -> bool {
        let mut runs = self.scan.runs().iter().filter(|(_, answer)| answer.is_by_model());
        runs.any(|(run, _)| run.start < self.list && self.list < run.end())
    }

    /// Whether runs were repaired that begin in different blocks.
    fn is_over_blocks(&self) -> bool {
        let repaired = self.scan.runs().iter().filter(|(_, answer)| answer.number() == 0);
        let mut blocks: Vec<usize> = repaired.map(|(run, _)| run.start / BLOCK).collect();
        blocks.dedup();
        blocks.len() > 1
    }

    /// Whether a run was refused by another number than the first that was.
    fn differs(&self) -> bool {
        self.scan.runs().iter().any(|(_, answer)| ![0, self.scan.number()].contains(&answer.number()))
    }
}

pub type Scans = Count<Call>;

/// What the scans have to be, all of them together.
pub const CLASSES: &[Class<Call>] = &[
    Class { name: "scans", least: 5_000, holds: |_| true },
    Class { name: "on 0 samples", least: 1, holds: |c| c.samples == 0 },
    Class { name: "on 3,000 samples or more", least: 50, holds: |c| c.samples >= 3_000 },
    Class { name: "nothing qualified", least: 500, holds: |c| c.scan.number() == 0 && c.scan.qualified() == 0 },
    Class { name: "all repaired, the same as the original", least: 2_000, holds: Call::is_clean },
    Class { name: "with several runs", least: 500, holds: |c| c.is_clean() && c.scan.qualified() > 1 },
    Class {
        name: "with a run by line",
        least: 5,
        holds: |c| c.is_clean() && c.scan.runs().iter().any(|r| r.0.is_line()),
    },
    Class { name: "without a limit", least: 5, holds: |c| limit(c.settings) == usize::MAX },
    Class { name: "repaired in several blocks", least: 100, holds: Call::is_over_blocks },
    Class {
        name: "leaving a wrong count of another block",
        least: 50,
        holds: |c| c.scan.repaired() > 0 && c.has_wrong_count,
    },
    Class { name: "with a list as long as the samples", least: 1_000, holds: |c| c.is_clean() && c.list == c.samples },
    Class { name: "with a longer one", least: 200, holds: |c| c.is_clean() && c.list > c.samples },
    Class { name: "with an empty one", least: 200, holds: |c| c.is_clean() && c.list == 0 },
    Class { name: "with one that ends within a run by model", least: 10, holds: Call::is_cut },
    Class { name: "answered 1", least: 10, holds: |c| c.scan.number() == 1 },
    Class { name: "answered 14", least: 100, holds: |c| c.scan.number() == 14 },
    Class { name: "answered 2", least: 1, holds: |c| c.scan.number() == 2 },
    Class { name: "answered 3", least: 10, holds: |c| c.scan.number() == 3 },
    Class { name: "answered 4", least: 10, holds: |c| c.scan.number() == 4 },
    Class { name: "first refused by 6", least: 100, holds: |c| c.scan.number() == 6 },
    Class { name: "first refused by 7", least: 100, holds: |c| c.scan.number() == 7 },
    Class { name: "first refused by 8", least: 10, holds: |c| c.scan.number() == 8 },
    Class { name: "first refused by 9", least: 100, holds: |c| c.scan.number() == 9 },
    Class { name: "repaired after a refused one", least: 100, holds: Call::goes_on },
    Class { name: "refused by two numbers", least: 100, holds: Call::differs },
];

/// Both sides scan in a workspace of these patterns, with a list of these words for the orders, and the original too
/// where nothing is refused. The answer is the model's.
pub fn scan(count: &mut Scans, both: &mut Both, settings: OfScan, work: Vec<u64>, orders: Vec<u32>) -> Scan {
    let (samples, list) = (both.model.samples.len(), orders.len());
    let (scan, wrong) = scanned(both, settings, work, orders);
    let has_wrong_count = both.model.has_wrong_count();
    count.take(&Call { samples, settings, list, scan: scan.clone(), has_wrong_count }, &wrong);
    scan
}

/// The same, with what is wrong and not counted yet.
pub fn scanned(both: &mut Both, settings: OfScan, work: Vec<u64>, orders: Vec<u32>) -> (Scan, Wrong) {
    let before = both.model.samples.clone();
    let (scan, mut wrong) = both.inpaint_auto(settings, work, orders);
    if scan.number() == 0 {
        let after = scanned_by_original(&before, settings, &scan.gaps());
        if !after.iter().map(|x| x.to_bits()).eq(both.model.samples.iter().copied()) {
            wrong.push("the original's samples from the model's");
        }
    }
    (scan, wrong)
}

/// Both sides scan these samples in any room, with any list.
pub fn scan_any(count: &mut Scans, draw: &mut Draw, samples: &[u32], settings: OfScan) -> Scan {
    let (model, work) = any_room(draw, samples, settings);
    scan(count, &mut Both::new(model), settings, work, room::orders(&mut draw.aside(), samples.len()))
}

/// What is lent to a scan of these samples.
pub fn any_room(draw: &mut Draw, samples: &[u32], settings: OfScan) -> (Recording, Vec<u64>) {
    let runs = qualified(samples, settings).unwrap_or_default();
    any_room_for(draw, samples, &runs)
}

/// What is lent to the repairs of these runs. The workspace is enough for all of them or one short for the longest, and
/// the journal enough for all or one short for the last, or both are enough for any one of the runs and no more.
pub fn any_room_for(draw: &mut Draw, samples: &[u32], runs: &[Gap]) -> (Recording, Vec<u64>) {
    let needed: Vec<usize> = runs.iter().map(|run| run.needed(samples.len())).collect();
    let entries: Vec<usize> = runs.iter().map(|run| entry_words(run.len)).collect();
    let mut work = needed.iter().copied().max().unwrap_or(1);
    let mut free = entries.iter().sum::<usize>().max(1);
    if !runs.is_empty() && draw.below(8) == 0 {
        work = needed[draw.below(runs.len() as u64) as usize];
    }
    if !runs.is_empty() && draw.below(8) == 0 {
        free = entries[draw.below(runs.len() as u64) as usize];
    }
    let work = Room::any(draw).of(draw, work);
    let work = room::work(draw, work);
    let free = Room::any(draw).of(draw, free);
    (room::recording(draw, samples.to_vec(), free), work)
}

/// Samples of a shape with up to eight dropouts of at most so many samples, and at times with a sample that is not
/// in range.
pub fn dropped(draw: &mut Draw, shape: Shape, n: usize, longest: usize) -> Vec<u32> {
    let mut samples = shape.samples(draw, n);
    damage::drop_out(draw, &mut samples, longest, &damage::DROPOUTS);
    if draw.below(6) == 0 {
        damage::overload(draw, &mut samples);
    }
    samples
}
