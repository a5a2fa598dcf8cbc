//! Gaps whose model stops at once, before the first k, after one order, in the middle or nowhere: how they are drawn,
//! and what is counted of their repairs.
use super::limits::{louder, LOUD, LOUDER_GAP, LOUD_GAP};
use cathar_host::both::Both;
use cathar_host::count::{Class, Count};
use cathar_host::draw::Draw;
use cathar_host::inpaint::{Gap, GapAnswer};
use cathar_host::prediction::{Reach, Stop, BOUND, SHARE};
use cathar_host::recording::entry_words;
use cathar_host::room::{self, Room};
use cathar_host::settings;
use cathar_host::shapes::Shape;
use cathar_host::sounds::{self, Sound};

/// How many gaps there are of each sound, beside the bound, with results that may not be in range, with samples that no
/// window reaches, and by line.
const EACH: u64 = 15_000;
const BESIDE: u64 = 400;
const LOUDEST: u64 = 4_000;
const FAR: u64 = 400;
const LINES: u64 = 40;

/// How often each order of a p of 32 is met at least.
const LEAST_MET: u64 = 5;

/// A repair, and what the model answers.
#[derive(Debug)]
pub struct Call {
    pub samples: usize,
    pub gap: Gap,
    /// r[0] before it is raised: the sum of the squares of what is read.
    pub energy: f64,
    pub answer: GapAnswer,
}

impl Call {
    /// How far the model got that filled the gap.
    fn reach(&self) -> Option<Reach> {
        self.answer.reach.filter(|_| self.answer.number() == 0)
    }

    /// Whether a model filled the gap and got so far.
    fn is(&self, so: fn(Reach) -> bool) -> bool {
        self.reach().map_or(false, so)
    }

    /// Whether a model used an order, and the gap was then refused by this number.
    fn is_refused_after_model(&self, number: u32) -> bool {
        self.answer.number() == number && self.answer.reach.map_or(false, |reach| reach.order > 0)
    }

    /// Whether r[0] is this one of the doubles around that which is raised to just 1e-12.
    fn is_beside_bound(&self, which: usize) -> bool {
        self.reach().is_some() && self.energy == sounds::beside_bound()[which]
    }

    /// Whether r[0] is below the bound, and is not when it is raised.
    fn is_raised_over_bound(&self) -> bool {
        self.reach().is_some() && self.energy < BOUND && self.energy * (1.0 + SHARE) >= BOUND
    }

    /// Whether a model filled the gap whose window does not reach all samples.
    fn is_far(&self) -> bool {
        self.reach().is_some() && self.gap.read(self.samples).count() + self.gap.len < self.samples
    }
}

/// The count of the repairs, and how often each order of a p of 32 was met.
pub struct Orders {
    count: Count<Call>,
    met: [u64; 33],
}

impl Orders {
    /// Nothing counted yet.
    pub fn new() -> Orders {
        Orders {
            count: Count::new("the order of cathar_inpaint_gap against the host's own step", &[CLASSES]),
            met: [0; 33],
        }
    }

    /// The repairs from here on are counted under this name.
    pub fn begin(&mut self, source: &'static str) {
        self.count.begin(source);
    }

    fn take(&mut self, call: &Call, wrong: &[&str]) {
        if let Some(reach) = call.reach().filter(|reach| reach.p == 32) {
            self.met[reach.order as usize] += 1;
        }
        self.count.take(call, wrong);
    }

    /// Prints all counts, and panics where one does not hold or an order was met too rarely.
    pub fn close(&self, seed: u64) {
        println!("the orders from 0 to 32 of a p of 32 were met so often: {:?}", self.met);
        self.count.close(seed);
        assert!(self.met.iter().all(|count| *count >= LEAST_MET), "an order was met too rarely: {:?}", self.met);
    }
}

/// Whether the recursion stopped before the k that follows this order.
fn before_k(reach: Reach, order: u32) -> bool {
    reach.stop == Stop::BeforeK && reach.order == order
}

/// What the repairs have to be, all of them together. None stops after a k, with e at most 0, and none is known that
/// does: `e_keeps_its_share` of `tests/prediction.rs` has the reason, and sought for one.
pub const CLASSES: &[Class<Call>] = &[
    Class { name: "gaps", least: 140_000, holds: |_| true },
    Class { name: "filled by a model", least: 100_000, holds: |c| c.reach().is_some() },
    Class { name: "stopped at once, r[0] at most 0", least: 5_000, holds: |c| c.is(|r| r.stop == Stop::AtOnce) },
    Class { name: "stopped before the first k", least: 5_000, holds: |c| c.is(|r| before_k(r, 0)) },
    Class { name: "stopped before the second k", least: 5_000, holds: |c| c.is(|r| before_k(r, 1)) },
    Class {
        name: "stopped before a later k",
        least: 3_000,
        holds: |c| c.is(|r| r.stop == Stop::BeforeK && r.order > 1),
    },
    Class { name: "stopped before the last k", least: 8, holds: |c| c.is(|r| before_k(r, r.p - 1)) },
    Class { name: "stopped after a k, e at most 0", least: 0, holds: |c| c.is(|r| r.stop == Stop::AfterK) },
    Class { name: "not stopped", least: 30_000, holds: |c| c.is(|r| r.stop == Stop::Nowhere) },
    Class { name: "order 0", least: 10_000, holds: |c| c.is(|r| r.order == 0) },
    Class { name: "order 1", least: 5_000, holds: |c| c.is(|r| r.order == 1) },
    Class { name: "order between 1 and p", least: 3_000, holds: |c| c.is(|r| 1 < r.order && r.order < r.p) },
    Class { name: "and p above 32", least: 800, holds: |c| c.is(|r| 1 < r.order && r.order < r.p && r.p > 32) },
    Class { name: "order p of 32", least: 20_000, holds: |c| c.is(|r| r.order == 32 && r.p == 32) },
    Class {
        name: "order p between 32 and 128",
        least: 4_000,
        holds: |c| c.is(|r| r.order == r.p && 32 < r.p && r.p < 128),
    },
    Class { name: "order p of 128", least: 800, holds: |c| c.is(|r| r.order == 128) },
    Class { name: "a coefficient of its order or below is 0", least: 3_000, holds: |c| c.is(|r| r.nonzero < r.order) },
    Class { name: "all of these are 0", least: 2_500, holds: |c| c.is(|r| r.nonzero == 0 && r.order > 0) },
    Class { name: "r[0] below 1e-12, and raised not", least: 1_000, holds: Call::is_raised_over_bound },
    Class { name: "r[0] raised to just 1e-12", least: 150, holds: |c| c.is_beside_bound(2) },
    Class { name: "one step below", least: 150, holds: |c| c.is_beside_bound(1) },
    Class { name: "one step above", least: 150, holds: |c| c.is_beside_bound(3) },
    Class { name: "samples that the window does not reach", least: 200, holds: Call::is_far },
    Class { name: "by line", least: 15, holds: |c| c.answer.number() == 0 && c.gap.is_line() },
    Class { name: "answered 6", least: 5_000, holds: |c| c.answer.number() == 6 },
    Class { name: "answered 7", least: 800, holds: |c| c.answer.number() == 7 },
    Class { name: "answered 8 after a model of an order", least: 20, holds: |c| c.is_refused_after_model(8) },
    Class { name: "answered 9 after a model of an order", least: 4_000, holds: |c| c.is_refused_after_model(9) },
];

/// Both sides repair the gap, mostly in one pass, in any room.
fn repair(count: &mut Orders, draw: &mut Draw, samples: Vec<u32>, gap: Gap) {
    let n = samples.len();
    let known = gap.read(n).map(|place| f64::from(f32::from_bits(samples[place])));
    let energy = known.fold(0.0, |sum, x| sum + x * x);
    let passes = if draw.below(16) == 0 { settings::passes(draw) } else { 1 };
    let (work, journal) = (Room::any(draw), Room::any(draw));
    let work = work.of(draw, gap.needed(n));
    let (work, free) = (room::work(draw, work), journal.of(draw, entry_words(gap.len)));
    let mut both = Both::new(room::recording(draw, samples, free));
    let (answer, wrong) = both.inpaint_gap(gap, passes, work);
    count.take(&Call { samples: n, gap, energy, answer }, &wrong);
}

/// A gap with so many samples beside it: at the start, at the end or anywhere.
fn placed(draw: &mut Draw, len: usize, more: usize) -> Gap {
    let start = match draw.below(4) {
        0 => 0,
        1 => more,
        _ => draw.below(more as u64 + 1) as usize,
    };
    Gap { start, len }
}

/// The length of a gap: mostly one for which p is 32.
fn length(draw: &mut Draw) -> usize {
    let len = match draw.below(24) {
        0..=18 => 1 + draw.below(36),
        19..=22 => 33 + draw.below(96),
        _ => 129 + draw.below(60),
    };
    len as usize
}

/// What stands in the gap, which has no say, is at times loud or not in range, and rarely one of the others is not.
fn disturb(draw: &mut Draw, samples: &mut [u32], gap: Gap) {
    if draw.below(3) == 0 {
        samples[gap.start..gap.end()].fill([0x4780_0000, 0xff80_0000, 0x7fc0_0000][draw.below(3) as usize]);
    }
    if draw.below(32) == 0 {
        let place = draw.below(samples.len() as u64) as usize;
        samples[place] = [0x4780_0001, 0xff80_0000, 0x7fc0_0000][draw.below(3) as usize];
    }
}

/// Gaps in this sound, as loud or quiet as may be.
pub fn in_sound(count: &mut Orders, draw: &mut Draw, sound: Sound) {
    for _ in 0..EACH {
        let (len, more) = (length(draw), draw.below(100) as usize);
        let (gap, energy) = (placed(draw, len, more), sounds::energy(draw));
        let mut samples = sound.samples(draw, len + more, gap.read(len + more), energy);
        disturb(draw, &mut samples, gap);
        repair(count, draw, samples, gap);
    }
}

/// Gaps among a few samples, zeros between them, whose r[0] is raised to just 1e-12 or a step or two beside it.
pub fn beside_bound(count: &mut Orders, draw: &mut Draw) {
    for turn in 0..5 * BESIDE {
        let energy = sounds::beside_bound()[turn as usize % 5];
        if let Some(few) = sounds::summing_to(draw, energy) {
            let mut samples: Vec<u32> = Vec::new();
            for word in few {
                samples.extend(vec![0; draw.below(4) as usize]);
                samples.push(word);
            }
            let len = 1 + draw.below(40) as usize;
            let gap = placed(draw, len, samples.len());
            samples.splice(gap.start..gap.start, vec![0x7fc0_0000; len]);
            repair(count, draw, samples, gap);
        }
    }
}

/// Gaps among the loudest samples, of which some get a result that is not in range, and two that are known to.
pub fn loudest(count: &mut Orders, draw: &mut Draw) {
    for _ in 0..20 {
        repair(count, draw, LOUD.to_vec(), LOUD_GAP);
        repair(count, draw, louder(), LOUDER_GAP);
    }
    for _ in 0..LOUDEST {
        let (len, more) = (1 + draw.below(4) as usize, 8 + draw.below(24) as usize);
        let samples = Shape::Signs.samples(draw, len + more);
        let gap = placed(draw, len, more);
        repair(count, draw, samples, gap);
    }
}

/// Gaps in quiet sounds, with loud samples before the window and behind it.
pub fn far(count: &mut Orders, draw: &mut Draw) {
    for turn in 0..FAR {
        let gap = Gap { start: 1_030, len: 1 + draw.below(40) as usize };
        let n = gap.end() + 1_030;
        let energy = sounds::energy(draw);
        let mut samples = Sound::ALL[turn as usize % Sound::ALL.len()].samples(draw, n, gap.read(n), energy);
        let reached: Vec<usize> = gap.read(n).chain(gap.start..gap.end()).collect();
        (0..n).filter(|place| !reached.contains(place)).for_each(|place| samples[place] = 0x3f00_0000);
        repair(count, draw, samples, gap);
    }
}

/// Gaps by line.
pub fn lines(count: &mut Orders, draw: &mut Draw) {
    for _ in 0..LINES {
        let len = 2_049 + draw.below(20) as usize;
        let samples = Shape::Tone.samples(draw, len + 9);
        let gap = placed(draw, len, 9);
        repair(count, draw, samples, gap);
    }
}
