//! Scans with lists for the orders of their models: how they are drawn, and what is counted of them.
use super::limits::{self, Faults, LOUD};
use super::scans::{any_room, dropped, scanned};
use cathar_host::both::Both;
use cathar_host::count::{Class, Count};
use cathar_host::damage;
use cathar_host::draw::Draw;
use cathar_host::inpaint::{held, qualified, Gap, GapAnswer, Scan};
use cathar_host::room;
use cathar_host::settings::{self, OfScan, UNLIMITED, USUAL};
use cathar_host::shapes::Shape;
use cathar_host::sounds::{self, Sound};

/// How many scans there are of each sound, of samples whose results may not be in range, of recordings that no window
/// reaches all of, and with runs by line.
const EACH: u64 = 1_500;
const LOUDEST: u64 = 2_000;
const FAR: u64 = 200;
const LINES: u64 = 60;

/// A scan, and what the model answers.
#[derive(Debug)]
pub struct Call {
    pub samples: usize,
    /// How long the list is.
    pub list: usize,
    pub scan: Scan,
    /// The gaps of held words.
    pub held: Vec<Gap>,
}

impl Call {
    /// The runs of which a place is in the list, with their answers.
    fn listed(&self) -> impl Iterator<Item = (Gap, GapAnswer)> + '_ {
        self.scan.runs().iter().copied().filter(|(run, _)| run.start < self.list)
    }

    /// Those of them that were repaired by a model.
    fn by_model(&self) -> impl Iterator<Item = (Gap, GapAnswer)> + '_ {
        self.listed().filter(|(_, answer)| answer.is_by_model())
    }

    /// Whether there are such and also runs that are so.
    fn has_beside(&self, so: impl Fn(Gap, GapAnswer) -> bool) -> bool {
        self.by_model().count() > 0 && self.listed().any(|(run, answer)| so(run, answer))
    }

    /// Whether there are such and also a run that was refused by this number.
    fn has_refused(&self, number: u32) -> bool {
        self.has_beside(|_, answer| answer.number() == number)
    }

    /// Whether the list ends within a run that was repaired by a model, directly before one or directly behind one.
    fn ends(&self, so: fn(Gap, usize) -> bool) -> bool {
        self.scan.runs().iter().any(|(run, answer)| answer.is_by_model() && so(*run, self.list))
    }

    /// Whether there are models of several orders.
    fn has_several(&self) -> bool {
        let mut orders: Vec<u32> = self.by_model().map(|(_, answer)| answer.order()).collect();
        orders.sort_unstable();
        orders.dedup();
        orders.len() > 1
    }

    /// Whether a run was repaired by a model of an order that is so.
    fn has_order(&self, so: fn(u32) -> bool) -> bool {
        self.by_model().any(|(_, answer)| so(answer.order()))
    }

    /// Whether the whole scan was refused by this number, with a list that is not empty.
    fn is_refused(&self, number: u32) -> bool {
        self.scan == Scan::Refused(number) && self.list > 0
    }
}

pub type Lists = Count<Call>;

/// What the scans have to be, all of them together.
pub const CLASSES: &[Class<Call>] = &[
    Class { name: "scans", least: 15_000, holds: |_| true },
    Class { name: "with a run by model in the list", least: 4_000, holds: |c| c.by_model().count() > 0 },
    Class {
        name: "and a list as long as the samples",
        least: 1_500,
        holds: |c| c.has_beside(|_, _| c.list == c.samples),
    },
    Class { name: "and a longer one", least: 500, holds: |c| c.has_beside(|_, _| c.list > c.samples) },
    Class { name: "and a shorter one", least: 1_000, holds: |c| c.has_beside(|_, _| c.list < c.samples) },
    Class { name: "an empty list, and a run by model", least: 500, holds: |c| c.list == 0 && c.ends(|_, _| true) },
    Class {
        name: "a list that ends within a run by model",
        least: 300,
        holds: |c| c.ends(|run, list| run.start < list && list < run.end()),
    },
    Class { name: "directly before one", least: 400, holds: |c| c.ends(|run, list| list == run.start) },
    Class { name: "directly behind one", least: 400, holds: |c| c.ends(|run, list| list == run.end()) },
    Class { name: "several orders", least: 200, holds: Call::has_several },
    Class { name: "order 0", least: 800, holds: |c| c.has_order(|order| order == 0) },
    Class { name: "an order from 1 to 31", least: 400, holds: |c| c.has_order(|order| 0 < order && order < 32) },
    Class { name: "an order from 32 on", least: 2_000, holds: |c| c.has_order(|order| order >= 32) },
    Class { name: "of a held word", least: 200, holds: |c| c.by_model().any(|(run, _)| c.held.contains(&run)) },
    Class {
        name: "and one by line",
        least: 10,
        holds: |c| c.has_beside(|run, answer| run.is_line() && answer.number() == 0),
    },
    Class { name: "and one refused by 6", least: 300, holds: |c| c.has_refused(6) },
    Class { name: "and one refused by 7", least: 50, holds: |c| c.has_refused(7) },
    Class { name: "and one refused by 8", least: 20, holds: |c| c.has_refused(8) },
    Class { name: "and one refused by 9", least: 300, holds: |c| c.has_refused(9) },
    Class { name: "answered 1, with a list", least: 50, holds: |c| c.is_refused(1) },
    Class { name: "answered 14, with a list", least: 20, holds: |c| c.is_refused(14) },
    Class { name: "answered 2, with a list", least: 1, holds: |c| c.is_refused(2) },
    Class { name: "answered 3, with a list", least: 10, holds: |c| c.is_refused(3) },
    Class { name: "answered 4, with a list", least: 5, holds: |c| c.is_refused(4) },
];

/// Both sides scan, and the original too.
fn scan(count: &mut Lists, both: &mut Both, settings: OfScan, work: Vec<u64>, orders: Vec<u32>) {
    let (samples, list, held) =
        (both.model.samples.len(), orders.len(), held(&both.model.samples, settings.held_run as usize));
    let (scan, wrong) = scanned(both, settings, work, orders);
    count.take(&Call { samples, list, scan, held }, &wrong);
}

/// A list for a scan of these samples: as long, longer or empty, or with an end within, directly before or directly
/// behind one of the runs.
fn any_list(draw: &mut Draw, samples: &[u32], settings: OfScan) -> Vec<u32> {
    let (n, runs) = (samples.len(), qualified(samples, settings).unwrap_or_default());
    let any = draw.below(runs.len().max(1) as u64) as usize;
    let run = runs.get(any).copied().unwrap_or(Gap { start: n, len: 1 });
    let length = match draw.below(8) {
        0 => 0,
        1 => n + 1 + draw.below(9) as usize,
        2 => run.start,
        3 => run.start + draw.below(run.len as u64) as usize,
        4 => run.end(),
        _ => n,
    };
    room::words(draw, length)
}

/// Both sides scan these samples in any room.
fn scan_any(count: &mut Lists, draw: &mut Draw, samples: &[u32], settings: OfScan) {
    let (model, work) = any_room(draw, samples, settings);
    let orders = any_list(draw, samples, settings);
    scan(count, &mut Both::new(model), settings, work, orders);
}

/// So many samples of a sound, as loud or quiet as may be, with dropouts of some length.
fn with_dropouts(draw: &mut Draw, sound: Sound, n: usize) -> Vec<u32> {
    let (energy, longest) = (sounds::energy(draw), [4, 12, 44, 44][draw.below(4) as usize]);
    let mut samples = sound.samples(draw, n, 0..n, energy);
    damage::drop_out(draw, &mut samples, longest, &damage::DROPOUTS[..damage::ZEROS]);
    samples
}

/// Scans of this sound.
pub fn in_sound(count: &mut Lists, draw: &mut Draw, sound: Sound) {
    for _ in 0..EACH {
        let n = 20 + draw.below(300) as usize;
        let samples = with_dropouts(draw, sound, n);
        let settings = if draw.below(3) == 0 { settings::near(draw, 20) } else { USUAL };
        let settings = settings::any_held_run(draw, settings);
        scan_any(count, draw, &samples, settings);
    }
}

/// Scans of the loudest samples, of which some runs get a result that is not in range; and with one that does, next to
/// nothing as far as its window reaches, and behind that runs that get others.
pub fn loudest(count: &mut Lists, draw: &mut Draw) {
    for _ in 0..LOUDEST {
        let n = 20 + draw.below(100) as usize;
        let samples = dropped(draw, Shape::Signs, n, 4);
        scan_any(count, draw, &samples, USUAL);
    }
    for _ in 0..LOUDEST / 20 {
        let mut samples = LOUD.to_vec();
        samples.extend((0..1_030).map(|place| 0x0d80_0000 | (place % 2) << 31));
        samples.extend(with_dropouts(draw, Sound::Noise, 60));
        scan_any(count, draw, &samples, USUAL);
    }
}

/// Scans of recordings with a NaN that some windows hold and others do not.
pub fn far(count: &mut Lists, draw: &mut Draw) {
    for turn in 0..FAR {
        let mut samples = with_dropouts(draw, Sound::ALL[turn as usize % Sound::ALL.len()], 1_300);
        samples.extend(with_dropouts(draw, Sound::Tone, 1_300));
        let place = draw.below(samples.len() as u64) as usize;
        samples[place] = 0x7fc0_0000;
        scan_any(count, draw, &samples, USUAL);
    }
}

/// Scans without a limit, of zeros that are filled by line between sounds with dropouts.
pub fn lines(count: &mut Lists, draw: &mut Draw) {
    for turn in 0..LINES {
        let mut samples = with_dropouts(draw, Sound::ALL[turn as usize % Sound::ALL.len()], 100);
        samples.push(0x3f80_0000);
        samples.extend(vec![0; 2_049 + draw.below(20) as usize]);
        samples.push(0x3f80_0000);
        samples.extend(with_dropouts(draw, Sound::Noise, 100));
        scan_any(count, draw, &samples, UNLIMITED);
    }
}

/// Scans that are refused as a whole, and others to which several refusals apply.
pub fn refused(count: &mut Lists, draw: &mut Draw) {
    for faults in Faults::each() {
        let (model, work) = faults.made(draw);
        let settings = if faults.of_gap() { settings::no_scan(draw) } else { USUAL };
        let orders = any_list(draw, &model.samples, settings);
        scan(count, &mut Both::new(model), settings, work, orders);
    }
    let mut lists = draw.aside();
    limits::large(draw, &mut |model| {
        let orders = room::words(&mut lists, model.samples.len());
        scan(count, &mut Both::new(model), USUAL, vec![1; 5_000], orders);
    });
}
