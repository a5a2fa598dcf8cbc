//! Lists of gaps that keep out of each other's windows, each in three orders, and what is counted of it.
use super::lay;
use cathar_host::count::{Class, Count};
use cathar_host::draw::Draw;
use cathar_host::either::{are_apart, broken, list_by_both, list_by_library, Listed, Told};
use cathar_host::inpaint::Gap;
use cathar_host::recording::{entry_words, in_range, Recording, BLOCK};
use cathar_host::room;
use std::fmt;

/// A list, what it was made on, and what its gaps were told in the order given.
pub struct List {
    pub before: Recording,
    pub gaps: Vec<Gap>,
    pub told: Vec<Told>,
    /// The two other orders, by the places that the gaps have in the order given.
    pub others: [Vec<usize>; 2],
}

/// Of the recording only the number of samples and of free journal words is told.
impl fmt::Debug for List {
    fn fmt(&self, formatter: &mut fmt::Formatter) -> fmt::Result {
        let (samples, free, List { gaps, told, others, .. }) = (self.before.samples.len(), self.free(), self);
        write!(formatter, "{gaps:?} in {samples} samples, {free} words free, told {told:?}, in the orders {others:?}")
    }
}

impl List {
    fn free(&self) -> usize {
        self.before.journal.len() - self.before.used
    }

    /// Whether the premises hold: the gaps are apart, and all are accepted.
    fn holds(&self) -> bool {
        are_apart(&self.gaps, self.before.samples.len()) && self.told.iter().all(|told| told.number == 0)
    }

    /// Whether they do, and there are so many gaps.
    fn has(&self, gaps: usize) -> bool {
        self.holds() && self.gaps.len() == gaps
    }

    /// The gaps from the left on.
    fn rising(&self) -> Vec<Gap> {
        let mut gaps = self.gaps.clone();
        gaps.sort_unstable_by_key(|gap| gap.start);
        gaps
    }

    /// Whether every gap is as near to the next as is allowed.
    fn is_closest(&self) -> bool {
        let is_closest = |two: &[Gap]| two[1].start - two[0].end() == two[0].context().max(two[1].context());
        self.rising().windows(2).all(is_closest)
    }

    fn lines(&self) -> usize {
        self.gaps.iter().filter(|gap| gap.is_line()).count()
    }

    /// Whether a gap that goes by the model has a context above 1024.
    fn has_long(&self) -> bool {
        self.gaps.iter().any(|gap| gap.context() > 1_024)
    }

    fn share_block(&self) -> bool {
        self.rising().windows(2).any(|two| (two[0].end() - 1) / BLOCK == two[1].start / BLOCK)
    }

    fn is_loud_in_gap(&self) -> bool {
        self.gaps.iter().any(|gap| self.before.samples[gap.places()].iter().any(|word| !in_range(*word)))
    }

    fn has_several(&self, part: fn(&Told) -> usize) -> bool {
        self.told.iter().any(|told| part(told) != part(&self.told[0]))
    }

    /// Whether a gap was refused by this number, and none by 9.
    fn has_refused(&self, number: u32) -> bool {
        let has = |number: u32| self.told.iter().any(|told| told.number == number);
        has(number) && !has(9)
    }
}

pub type Lists = Count<List>;

/// What the lists have to be, all of them together. Where nothing else is said, the premises hold.
pub const CLASSES: &[Class<List>] = &[
    Class { name: "lists, each in three orders", least: 4_000, holds: |_| true },
    Class { name: "the premises hold", least: 3_500, holds: List::holds },
    Class { name: "of two gaps", least: 200, holds: |l| l.has(2) },
    Class { name: "of three gaps", least: 200, holds: |l| l.has(3) },
    Class { name: "of four gaps", least: 200, holds: |l| l.has(4) },
    Class { name: "of five gaps", least: 200, holds: |l| l.has(5) },
    Class { name: "of six gaps", least: 200, holds: |l| l.has(6) },
    Class { name: "of seven gaps", least: 200, holds: |l| l.has(7) },
    Class { name: "of eight gaps", least: 200, holds: |l| l.has(8) },
    Class { name: "each at the closest", least: 1_000, holds: |l| l.holds() && l.is_closest() },
    Class { name: "by model, one longer than 256", least: 50, holds: |l| l.holds() && l.has_long() },
    Class { name: "lines alone", least: 100, holds: |l| l.holds() && l.lines() == l.gaps.len() },
    Class { name: "lines and models", least: 100, holds: |l| l.holds() && (1..l.gaps.len()).contains(&l.lines()) },
    Class { name: "two lines in one block", least: 100, holds: |l| l.holds() && l.share_block() },
    Class { name: "out of range in a gap", least: 500, holds: |l| l.holds() && l.is_loud_in_gap() },
    Class {
        name: "journal just enough",
        least: 500,
        holds: |l| l.holds() && l.free() == l.gaps.iter().map(|gap| entry_words(gap.len)).sum(),
    },
    Class { name: "journal with words in use", least: 500, holds: |l| l.holds() && l.before.used > 0 },
    Class { name: "of several lengths", least: 500, holds: |l| l.holds() && l.has_several(|told| told.value) },
    Class { name: "of several orders", least: 500, holds: |l| l.holds() && l.has_several(|told| told.order as usize) },
    Class { name: "from the left on, in another order", least: 20, holds: |l| l.others.iter().any(|o| rises(l, o)) },
    Class { name: "a gap answered 5, and none 9", least: 20, holds: |l| l.has_refused(5) },
    Class { name: "a gap answered 6, and none 9", least: 20, holds: |l| l.has_refused(6) },
    Class { name: "a gap answered 7, and none 9", least: 20, holds: |l| l.has_refused(7) },
    Class { name: "a gap answered 9", least: 50, holds: |l| l.told.iter().any(|told| told.number == 9) },
];

/// Whether the premises hold and the gaps come from the left on in this order, but not in the one given.
fn rises(list: &List, order: &[usize]) -> bool {
    let ordered: Vec<Gap> = order.iter().map(|place| list.gaps[*place]).collect();
    list.holds() && ordered == list.rising() && ordered != list.gaps
}

/// A list of these gaps in the order given, reversed and in any other, with so many journal words free in all and so
/// many doubles.
pub fn make(count: &mut Lists, draw: &mut Draw, before: Recording, gaps: Vec<Gap>, doubles: usize) {
    let (passes, work) = (lay::passes(draw), room::work(draw, doubles));
    let given: Vec<usize> = (0..gaps.len()).collect();
    let reversed: Vec<usize> = given.iter().rev().copied().collect();
    let others = [reversed, lay::shuffled(draw, &given)];
    let mut listed = |order: &[usize]| {
        let ordered: Vec<Gap> = order.iter().map(|place| gaps[*place]).collect();
        Listed { lists: room::lists(draw, &ordered, ordered.len()), passes, work: work.clone() }
    };
    let one = list_by_both(&before, listed(&given));
    let mut wrong = one.wrong.clone();
    for order in &others {
        let other = list_by_library(&before, listed(order));
        wrong.extend(broken(&before, &one, &other, order));
        wrong.extend(other.wrong);
    }
    count.take(&List { told: one.told, gaps, others, before }, &wrong);
}
