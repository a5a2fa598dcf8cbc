//! One repair over the whole recording by both sides, and what is counted of it.
use cathar_host::both::Both;
use cathar_host::count::{Class, Count};
use cathar_host::draw::Draw;
use cathar_host::recording::{entry_words, in_range, Answer, BLOCK};
use cathar_host::room::{self, Room};
use cathar_host::whole::{fills, flagged, floats, needed, Repair};
use std::fmt;
use std::ops::Range;

/// How many samples are written out.
const SHOWN: usize = 16;

/// The samples as they were before the call.
pub struct Before(pub Vec<u32>);

impl fmt::Debug for Before {
    fn fmt(&self, to: &mut fmt::Formatter) -> fmt::Result {
        write!(to, "{} samples", self.0.len())?;
        self.0.iter().take(SHOWN).try_for_each(|word| write!(to, " {word:08x}"))
    }
}

/// A call, and what the model answers.
#[derive(Debug)]
pub struct Call {
    pub repair: Repair,
    pub before: Before,
    /// How many words the workspace has.
    pub work: usize,
    /// How many journal words were free.
    pub free: usize,
    /// What is rewritten in one go: declip's fills, and the runs that decrackle flags.
    pub stretches: Vec<Range<usize>>,
    /// How many samples the repair names, where it is not refused, and how many words it changed.
    pub named: usize,
    pub changed: usize,
    /// Whether the named samples are in several blocks, and whether a count is not that of its block's marks after it.
    pub over_blocks: bool,
    pub has_wrong_count: bool,
    pub answer: Answer,
}

impl Call {
    pub fn n(&self) -> usize {
        self.before.0.len()
    }

    pub fn number(&self) -> u32 {
        self.answer.number()
    }

    pub fn is_accepted(&self) -> bool {
        self.number() == 0
    }

    /// Whether it was accepted and named a sample.
    pub fn names(&self) -> bool {
        self.is_accepted() && self.named > 0
    }

    /// Whether it was accepted and changed a sample's word.
    pub fn changes(&self) -> bool {
        self.is_accepted() && self.changed > 0
    }

    /// Whether it was refused by 7, and a sample behind the place that it tells is not in range either.
    fn has_more_out_of_range(&self) -> bool {
        self.number() == 7 && self.before.0[self.answer.value() + 1..].iter().any(|word| !in_range(*word))
    }
}

pub type Calls = Count<Call>;

/// What the calls of each function have to be, all of them together.
pub const COMMON: &[Class<Call>] = &[
    Class { name: "accepted", least: 50_000, holds: Call::is_accepted },
    Class { name: "naming a sample", least: 20_000, holds: Call::names },
    Class { name: "naming none", least: 5_000, holds: |c| c.is_accepted() && c.named == 0 },
    Class { name: "changing a sample", least: 10_000, holds: Call::changes },
    Class { name: "a named sample keeps its word", least: 500, holds: |c| c.names() && c.changed < c.named },
    Class { name: "on 0 samples", least: 50, holds: |c| c.is_accepted() && c.n() == 0 },
    Class { name: "on 1 sample", least: 50, holds: |c| c.is_accepted() && c.n() == 1 },
    Class { name: "on 1,000 samples or more", least: 20, holds: |c| c.names() && c.n() >= 1_000 },
    Class { name: "on the most samples", least: 1, holds: |c| c.names() && c.n() == 1_048_576 },
    Class { name: "workspace exact", least: 5_000, holds: |c| c.names() && c.work == needed(c.n()) },
    Class { name: "workspace longer", least: 5_000, holds: |c| c.names() && c.work > needed(c.n()) },
    Class { name: "journal exact", least: 5_000, holds: |c| c.names() && c.free == entry_words(c.named) },
    Class {
        name: "naming none, and no free journal word",
        least: 500,
        holds: |c| c.is_accepted() && c.named == 0 && c.free == 0,
    },
    Class { name: "over several blocks", least: 500, holds: |c| c.names() && c.over_blocks },
    Class { name: "leaving a wrong count of another block", least: 10, holds: |c| c.names() && c.has_wrong_count },
    Class {
        name: "naming none, and leaving a wrong count",
        least: 500,
        holds: |c| c.is_accepted() && c.named == 0 && c.has_wrong_count,
    },
    Class { name: "answered 1", least: 20, holds: |c| c.number() == 1 },
    Class { name: "answered 14", least: 50, holds: |c| c.number() == 14 },
    Class { name: "answered 2", least: 2, holds: |c| c.number() == 2 },
    Class { name: "answered 3", least: 10, holds: |c| c.number() == 3 },
    Class { name: "answered 4", least: 500, holds: |c| c.number() == 4 },
    Class { name: "answered 6", least: 500, holds: |c| c.number() == 6 },
    Class { name: "workspace one short", least: 500, holds: |c| c.number() == 6 && c.work + 1 == needed(c.n()) },
    Class { name: "answered 6, naming none", least: 100, holds: |c| c.number() == 6 && c.named == 0 },
    Class { name: "answered 7", least: 5_000, holds: |c| c.number() == 7 },
    Class { name: "answered 7 at the first place", least: 100, holds: |c| c.number() == 7 && c.answer.value() == 0 },
    Class {
        name: "answered 7 at the last place",
        least: 100,
        holds: |c| c.number() == 7 && c.answer.value() + 1 == c.n(),
    },
    Class { name: "answered 7 at the lowest of several", least: 500, holds: Call::has_more_out_of_range },
    Class { name: "answered 7, naming none", least: 500, holds: |c| c.number() == 7 && c.named == 0 },
    Class { name: "answered 9", least: 500, holds: |c| c.number() == 9 },
    Class { name: "journal one short", least: 500, holds: |c| c.number() == 9 && c.free + 1 == entry_words(c.named) },
];

/// What is rewritten in one go in these samples.
fn stretches(repair: Repair, samples: &[f32]) -> Vec<Range<usize>> {
    match repair {
        Repair::Declip { threshold } => fills(samples, threshold),
        Repair::Decrackle { sensitivity, start } => flagged(samples, sensitivity, start),
        Repair::Dequantize { .. } | Repair::Cosparse { .. } => Vec::new(),
    }
}

/// How many samples the repair names in these, if nothing refuses it.
pub fn names(repair: Repair, samples: &[u32]) -> usize {
    repair.named(&floats(samples)).len()
}

/// Both sides make the repair in a workspace of these words. The answer is the model's.
pub fn repair(count: &mut Calls, both: &mut Both, repair: Repair, work: Vec<u32>) -> Answer {
    let before = both.model.samples.clone();
    let free = both.model.journal.len().saturating_sub(both.model.used);
    let lent = work.len();
    let (answer, wrong) = both.repair(repair, work);
    let changed = before.iter().zip(&both.model.samples).filter(|(old, new)| old != new).count();
    let (stretches, places) = (stretches(repair, &floats(&before)), repair.named(&floats(&before)));
    let block = |place: Option<&usize>| place.map(|place| place / BLOCK);
    let (named, over_blocks) = (places.len(), block(places.first()) != block(places.last()));
    let (before, has_wrong_count) = (Before(before), both.model.has_wrong_count());
    let call =
        Call { repair, before, work: lent, free, stretches, named, changed, over_blocks, has_wrong_count, answer };
    count.take(&call, &wrong);
    answer
}

/// Both sides repair these samples, with so much workspace and journal.
pub fn repair_with(
    count: &mut Calls,
    draw: &mut Draw,
    samples: &[u32],
    how: Repair,
    [work, journal]: [Room; 2],
) -> Answer {
    let entry = match names(how, samples) {
        0 => 0,
        m => entry_words(m),
    };
    let work = work.of(draw, needed(samples.len()));
    let work = room::words(draw, work);
    let free = journal.of(draw, entry);
    let model = room::recording(draw, samples.to_vec(), free);
    repair(count, &mut Both::new(model), how, work)
}

/// Likewise, with enough room mostly.
pub fn repair_any(count: &mut Calls, draw: &mut Draw, samples: &[u32], how: Repair) -> Answer {
    let room = [Room::any(draw), Room::any(draw)];
    repair_with(count, draw, samples, how, room)
}
