//! One repair of a gap by both sides, and what is counted of it.
use cathar_host::both::Both;
use cathar_host::count::{Class, Count};
use cathar_host::draw::Draw;
use cathar_host::inpaint::{Gap, GapAnswer};
use cathar_host::prediction::Stop;
use cathar_host::recording::{entry_words, BLOCK};
use cathar_host::room::{self, Room};

/// A call, and what the model answers.
#[derive(Debug)]
pub struct Call {
    pub samples: usize,
    pub gap: Gap,
    pub passes: u32,
    /// How many doubles the workspace has.
    pub work: usize,
    /// How many journal words were free.
    pub free: usize,
    pub answer: GapAnswer,
    /// Whether a count is not that of its block's marks after it.
    pub has_wrong_count: bool,
}

impl Call {
    fn is_accepted(&self) -> bool {
        self.answer.number() == 0
    }

    fn is_accepted_model(&self) -> bool {
        self.is_accepted() && !self.gap.is_line()
    }

    fn at_start(&self) -> bool {
        self.gap.start == 0
    }

    fn at_end(&self) -> bool {
        self.gap.start.wrapping_add(self.gap.len) == self.samples
    }

    fn overflows(&self) -> bool {
        self.gap.start.checked_add(self.gap.len).is_none()
    }

    fn is_over_blocks(&self) -> bool {
        self.is_accepted() && self.gap.start / BLOCK < (self.gap.start + self.gap.len - 1) / BLOCK
    }

    fn has_exact_work(&self) -> bool {
        self.is_accepted() && self.work == self.gap.needed(self.samples)
    }

    /// Whether a model filled it that stopped so, and used an order that is so.
    fn is_stopped(&self, stop: Stop, order: fn(u32) -> bool) -> bool {
        let reach = self.answer.reach.filter(|_| self.is_accepted());
        reach.map_or(false, |reach| reach.stop == stop && order(reach.order))
    }

    /// Whether it was refused although a model was worked out that used an order.
    fn is_refused_after_model(&self) -> bool {
        !self.is_accepted() && self.answer.reach.map_or(false, |reach| reach.order > 0)
    }

    fn is_one_double_short(&self) -> bool {
        self.answer.number() == 6 && self.work + 1 == self.gap.needed(self.samples)
    }

    fn is_one_word_short(&self) -> bool {
        self.answer.number() == 9 && self.free + 1 == entry_words(self.gap.len)
    }
}

pub type Gaps = Count<Call>;

/// What the calls have to be, all of them together.
pub const CLASSES: &[Class<Call>] = &[
    Class { name: "accepted", least: 20_000, holds: Call::is_accepted },
    Class { name: "by model", least: 20_000, holds: Call::is_accepted_model },
    Class { name: "by model, longer than 500", least: 500, holds: |c| c.is_accepted_model() && c.gap.len > 500 },
    Class { name: "by model, of 2047", least: 3, holds: |c| c.is_accepted_model() && c.gap.len == 2047 },
    Class { name: "by model, of 2048", least: 3, holds: |c| c.is_accepted_model() && c.gap.len == 2048 },
    Class { name: "the model stops at once", least: 500, holds: |c| c.is_stopped(Stop::AtOnce, |_| true) },
    Class { name: "before the first k", least: 500, holds: |c| c.is_stopped(Stop::BeforeK, |order| order == 0) },
    Class { name: "before a later k", least: 10, holds: |c| c.is_stopped(Stop::BeforeK, |order| order > 0) },
    Class { name: "nowhere", least: 500, holds: |c| c.is_stopped(Stop::Nowhere, |_| true) },
    Class { name: "refused, with a model of an order", least: 100, holds: Call::is_refused_after_model },
    Class { name: "by line", least: 100, holds: |c| c.is_accepted() && c.gap.is_line() },
    Class { name: "by line, of 2049", least: 3, holds: |c| c.is_accepted() && c.gap.len == 2049 },
    Class { name: "by line, of 4095", least: 3, holds: |c| c.is_accepted() && c.gap.len == 4095 },
    Class { name: "at the start", least: 500, holds: |c| c.is_accepted() && c.at_start() && !c.at_end() },
    Class { name: "in the middle", least: 500, holds: |c| c.is_accepted() && !c.at_start() && !c.at_end() },
    Class { name: "at the end", least: 500, holds: |c| c.is_accepted() && !c.at_start() && c.at_end() },
    Class { name: "the whole recording", least: 500, holds: |c| c.is_accepted() && c.at_start() && c.at_end() },
    Class { name: "0 passes", least: 500, holds: |c| c.is_accepted() && c.passes == 0 },
    Class { name: "1 pass", least: 500, holds: |c| c.is_accepted() && c.passes == 1 },
    Class { name: "2 passes", least: 500, holds: |c| c.is_accepted() && c.passes == 2 },
    Class { name: "3 passes", least: 500, holds: |c| c.is_accepted() && c.passes == 3 },
    Class { name: "4 passes", least: 500, holds: |c| c.is_accepted() && c.passes == 4 },
    Class { name: "5 passes", least: 500, holds: |c| c.is_accepted() && c.passes == 5 },
    Class { name: "2^32-1 passes", least: 1, holds: |c| c.is_accepted() && c.passes == u32::MAX },
    Class { name: "workspace exact", least: 500, holds: Call::has_exact_work },
    Class { name: "workspace longer", least: 500, holds: |c| c.is_accepted() && !c.has_exact_work() },
    Class { name: "journal exact", least: 500, holds: |c| c.is_accepted() && c.free == entry_words(c.gap.len) },
    Class { name: "over several blocks", least: 500, holds: Call::is_over_blocks },
    Class {
        name: "leaving a wrong count of another block",
        least: 200,
        holds: |c| c.is_accepted() && c.has_wrong_count,
    },
    Class { name: "answered 1", least: 10, holds: |c| c.answer.number() == 1 },
    Class { name: "answered 14", least: 100, holds: |c| c.answer.number() == 14 },
    Class { name: "answered 2", least: 3, holds: |c| c.answer.number() == 2 },
    Class { name: "answered 3", least: 10, holds: |c| c.answer.number() == 3 },
    Class { name: "answered 5", least: 100, holds: |c| c.answer.number() == 5 },
    Class { name: "start and length together past 2^64", least: 10, holds: Call::overflows },
    Class { name: "answered 6", least: 100, holds: |c| c.answer.number() == 6 },
    Class { name: "workspace one short", least: 100, holds: Call::is_one_double_short },
    Class { name: "answered 7", least: 100, holds: |c| c.answer.number() == 7 },
    Class {
        name: "answered 7 past the first 1,000",
        least: 10,
        holds: |c| c.answer.number() == 7 && c.answer.value() > 999,
    },
    Class { name: "answered 7 for a line", least: 10, holds: |c| c.answer.number() == 7 && c.gap.is_line() },
    Class { name: "answered 8", least: 10, holds: |c| c.answer.number() == 8 },
    Class { name: "answered 9", least: 100, holds: |c| c.answer.number() == 9 },
    Class { name: "journal one short", least: 100, holds: Call::is_one_word_short },
];

/// A gap within n samples, mostly short.
pub fn any_gap(draw: &mut Draw, n: usize) -> Gap {
    let start = draw.below(n as u64) as usize;
    let most = if draw.below(8) == 0 { n - start } else { (n - start).min(12) };
    Gap { start, len: 1 + draw.below(most as u64) as usize }
}

/// Both sides repair the gap in a workspace of these patterns. The answer is the model's.
pub fn repair(count: &mut Gaps, both: &mut Both, gap: Gap, passes: u32, work: Vec<u64>) -> GapAnswer {
    let (samples, lent) = (both.model.samples.len(), work.len());
    let free = both.model.journal.len().saturating_sub(both.model.used);
    let (answer, wrong) = both.inpaint_gap(gap, passes, work);
    let has_wrong_count = both.model.has_wrong_count();
    count.take(&Call { samples, gap, passes, work: lent, free, answer, has_wrong_count }, &wrong);
    answer
}

/// Both sides repair a gap that lies within these samples, with so much workspace and journal.
pub fn repair_with(
    count: &mut Gaps,
    draw: &mut Draw,
    samples: &[u32],
    gap: Gap,
    passes: u32,
    [work, journal]: [Room; 2],
) -> GapAnswer {
    let needed = gap.needed(samples.len());
    let work = work.of(draw, needed);
    let work = room::work(draw, work);
    let free = journal.of(draw, entry_words(gap.len));
    let model = room::recording(draw, samples.to_vec(), free);
    repair(count, &mut Both::new(model), gap, passes, work)
}
