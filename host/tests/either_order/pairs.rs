//! Two gaps repaired in one order by both sides and in the other by the library, and what is counted of it.
use cathar_host::count::{Class, Count};
use cathar_host::either::{are_apart, broken, by_both, by_library, Told, Turn};
use cathar_host::inpaint::Gap;
use cathar_host::recording::{entry_words, in_range, Recording, BLOCK};
use std::fmt;
use std::ops::Range;

/// Two gaps, what they were repaired in, and what came of it.
pub struct Pair {
    pub before: Recording,
    /// In the one order.
    pub gaps: [Gap; 2],
    /// How many doubles each has for a workspace.
    pub work: [usize; 2],
    /// What each gap, in the one order, was told: in that order, and in the other.
    pub told: [[Told; 2]; 2],
    /// Whether the two orders leave other samples.
    pub differs: bool,
    /// Whether a count is not that of its block's marks after the one order.
    pub has_wrong_count: bool,
}

/// Of the recording only the number of samples and of free journal words is told.
impl fmt::Debug for Pair {
    fn fmt(&self, formatter: &mut fmt::Formatter) -> fmt::Result {
        let (samples, free, Pair { gaps, work, told, .. }) = (self.before.samples.len(), self.free(), self);
        write!(formatter, "{gaps:?} in {samples} samples, {work:?} doubles, {free} words free, told {told:?}")
    }
}

impl Pair {
    fn n(&self) -> usize {
        self.before.samples.len()
    }

    fn free(&self) -> usize {
        self.before.journal.len() - self.before.used
    }

    fn are_within(&self) -> bool {
        !self.gaps.iter().any(|gap| gap.is_outside(self.n()))
    }

    fn are_apart(&self) -> bool {
        self.are_within() && are_apart(&self.gaps, self.n())
    }

    /// The numbers of both gaps, in the one order or in the other.
    fn numbers(&self, which: usize) -> [u32; 2] {
        self.told[which].map(|told| told.number)
    }

    /// Whether the premises hold: the two are apart, and both were accepted in the one order.
    fn holds(&self) -> bool {
        self.are_apart() && self.numbers(0) == [0; 2]
    }

    /// The left one and the right one.
    fn sides(&self) -> [Gap; 2] {
        let [one, other] = self.gaps;
        if one.start <= other.start {
            [one, other]
        } else {
            [other, one]
        }
    }

    /// Whether the number of samples between the gaps, the left one's context and the right one's are so. Of gaps that
    /// have a sample in common they are not.
    fn lie(&self, so: fn(usize, usize, usize) -> bool) -> bool {
        let [left, right] = self.sides();
        let between = right.start.checked_sub(left.start.saturating_add(left.len));
        self.are_within() && between.map_or(false, |between| so(between, left.context(), right.context()))
    }

    fn holds_where(&self, so: fn(usize, usize, usize) -> bool) -> bool {
        self.holds() && self.lie(so)
    }

    /// Whether one gap touches the other's window so, and both were accepted in either order.
    fn touch(&self, so: fn(usize, usize, usize) -> bool) -> bool {
        self.lie(so) && !self.are_apart() && self.told.iter().flatten().all(|told| told.number == 0)
    }

    /// Whether it comes to the same that neither touches the other's window and that no fewer samples lie between them
    /// than the larger context has: what is before them or behind them has no say.
    fn is_by_distance(&self) -> bool {
        !self.are_within() || self.are_apart() == self.lie(|between, left, right| between >= left.max(right))
    }

    /// Whether so many of the gaps go by line.
    fn has_lines(&self, count: usize) -> bool {
        self.gaps.iter().filter(|gap| gap.is_line()).count() == count
    }

    /// Whether the premises hold and one gap is so.
    fn has_gap(&self, so: impl Fn(Gap) -> bool) -> bool {
        self.holds() && self.gaps.iter().any(|gap| so(*gap))
    }

    /// The blocks of a gap's samples.
    fn blocks(gap: Gap) -> Range<usize> {
        gap.start / BLOCK..(gap.end() - 1) / BLOCK + 1
    }

    fn share_block(&self) -> bool {
        let [left, right] = self.sides().map(Pair::blocks);
        left.end > right.start
    }

    /// Whether the left one's window, by what is before it, is so; told are the start and the context.
    fn begins(&self, so: fn(usize, usize) -> bool) -> bool {
        let left = self.sides()[0];
        self.holds() && so(left.start, left.context())
    }

    /// Likewise the right one's, by what is behind it.
    fn ends(&self, so: fn(usize, usize) -> bool) -> bool {
        let right = self.sides()[1];
        self.holds() && so(self.n() - right.end(), right.context())
    }

    /// How many of the gaps have a sample that is not in range.
    fn loud_gaps(&self) -> usize {
        let is_loud = |gap: &&Gap| self.before.samples[gap.places()].iter().any(|word| !in_range(*word));
        self.gaps.iter().filter(is_loud).count()
    }

    /// Whether a sample that neither window has is not in range.
    fn is_loud_outside(&self) -> bool {
        let near = self.gaps.map(|gap| gap.near(self.n()));
        let mut samples = self.before.samples.iter().enumerate();
        samples.any(|(place, word)| !in_range(*word) && !near.iter().any(|near| near.contains(&place)))
    }

    /// How many words the two entries take.
    fn entries(&self) -> usize {
        self.gaps.iter().map(|gap| entry_words(gap.len)).sum()
    }

    /// Whether each gap has just the workspace that it needs.
    fn has_exact_work(&self) -> bool {
        self.gaps.iter().zip(self.work).all(|(gap, work)| gap.needed(self.n()) == work)
    }

    /// Whether a gap was refused by this number, which was the same in either order, with its value.
    fn is_refused_twice(&self, number: u32) -> bool {
        let same = |which: usize| self.told[0][which].number == number && self.told[0][which] == self.told[1][which];
        same(0) || same(1)
    }

    /// Whether the two are apart, and in each order the second is refused by 9 and the first is not refused.
    fn is_crowded(&self) -> bool {
        self.are_apart() && self.numbers(0) == [0, 9] && self.numbers(1) == [9, 0]
    }

    fn orders(&self) -> [u32; 2] {
        self.told[0].map(|told| told.order)
    }
}

pub type Pairs = Count<Pair>;

/// What the pairs have to be, all of them together. Where nothing else is said, the premises hold.
pub const CLASSES: &[Class<Pair>] = &[
    Class { name: "pairs", least: 30_000, holds: |_| true },
    Class { name: "the premises hold", least: 20_000, holds: Pair::holds },
    Class { name: "the left one first", least: 9_000, holds: |p| p.holds() && p.gaps == p.sides() },
    Class { name: "the right one first", least: 9_000, holds: |p| p.holds() && p.gaps != p.sides() },
    Class { name: "two by model", least: 15_000, holds: |p| p.holds() && p.has_lines(0) },
    Class { name: "one longer than 256", least: 200, holds: |p| p.has_gap(|g| g.len > 256 && !g.is_line()) },
    Class { name: "one longer than 1,000", least: 4, holds: |p| p.has_gap(|g| g.len > 1_000 && !g.is_line()) },
    Class {
        name: "one by model, of 1,999, in 10,000 samples",
        least: 1,
        holds: |p| p.has_gap(|g| g.len == 1_999) && p.n() == 10_000,
    },
    Class { name: "a line, then by model", least: 300, holds: |p| p.has_lines(1) && p.holds() && p.gaps[0].is_line() },
    Class { name: "by model, then a line", least: 300, holds: |p| p.has_lines(1) && p.holds() && !p.gaps[0].is_line() },
    Class { name: "two lines", least: 1_000, holds: |p| p.holds() && p.has_lines(2) },
    Class {
        name: "two lines, one sample between",
        least: 500,
        holds: |p| p.has_lines(2) && p.holds_where(|d, _, _| d == 1),
    },
    Class { name: "two lines in one block", least: 500, holds: |p| p.holds() && p.share_block() },
    Class {
        name: "at the closest, by both windows",
        least: 12_000,
        holds: |p| p.holds_where(|d, l, r| d == l && d == r),
    },
    Class {
        name: "right one begins where left's window ends",
        least: 200,
        holds: |p| p.holds_where(|d, l, r| d == l && l > r),
    },
    Class {
        name: "left one ends where right's window begins",
        least: 200,
        holds: |p| p.holds_where(|d, l, r| d == r && r > l),
    },
    Class { name: "one farther", least: 300, holds: |p| p.holds_where(|d, l, r| d == l.max(r) + 1) },
    Class { name: "much farther", least: 500, holds: |p| p.holds_where(|d, l, r| d > l.max(r) + 40) },
    Class { name: "begins at a block's edge", least: 3_000, holds: |p| p.has_gap(|g| g.start % BLOCK == 0) },
    Class { name: "ends at a block's edge", least: 1_500, holds: |p| p.has_gap(|g| g.end() % BLOCK == 0) },
    Class { name: "begins with a block's last sample", least: 100, holds: |p| p.has_gap(|g| g.start % BLOCK == 255) },
    Class { name: "ends with a block's first sample", least: 100, holds: |p| p.has_gap(|g| g.end() % BLOCK == 1) },
    Class { name: "over several blocks", least: 500, holds: |p| p.has_gap(|g| Pair::blocks(g).len() > 1) },
    Class { name: "one at the start", least: 500, holds: |p| p.begins(|start, _| start == 0) },
    Class { name: "one at the end", least: 500, holds: |p| p.ends(|rest, _| rest == 0) },
    Class {
        name: "one at the start, the other at the end",
        least: 100,
        holds: |p| p.begins(|start, _| start == 0) && p.ends(|rest, _| rest == 0),
    },
    Class { name: "a window one past the start", least: 500, holds: |p| p.begins(|start, c| start + 1 == c) },
    Class { name: "a window from the start", least: 500, holds: |p| p.begins(|start, c| start == c) },
    Class { name: "a window one behind the start", least: 500, holds: |p| p.begins(|start, c| start == c + 1) },
    Class { name: "a window one past the end", least: 500, holds: |p| p.ends(|rest, c| rest + 1 == c) },
    Class { name: "a window up to the end", least: 500, holds: |p| p.ends(|rest, c| rest == c) },
    Class { name: "a window one before the end", least: 500, holds: |p| p.ends(|rest, c| rest == c + 1) },
    Class { name: "of fewer than 1,100 samples", least: 100, holds: |p| p.holds() && p.n() < 1_100 },
    Class { name: "of more than 9,000 samples", least: 1_000, holds: |p| p.holds() && p.n() > 9_000 },
    Class { name: "of 10,000 samples", least: 1_000, holds: |p| p.holds() && p.n() == 10_000 },
    Class { name: "out of range in one gap", least: 500, holds: |p| p.holds() && p.loud_gaps() == 1 },
    Class { name: "out of range in both gaps", least: 500, holds: |p| p.holds() && p.loud_gaps() == 2 },
    Class { name: "out of range outside both windows", least: 500, holds: |p| p.holds() && p.is_loud_outside() },
    Class {
        name: "out of range in a gap and outside",
        least: 300,
        holds: |p| p.holds() && p.loud_gaps() > 0 && p.is_loud_outside(),
    },
    Class { name: "journal just enough", least: 5_000, holds: |p| p.holds() && p.free() == p.entries() },
    Class { name: "journal longer", least: 5_000, holds: |p| p.holds() && p.free() > p.entries() },
    Class { name: "journal with words in use", least: 3_000, holds: |p| p.holds() && p.before.used > 0 },
    Class { name: "workspaces exact", least: 1_000, holds: |p| p.holds() && p.has_exact_work() },
    Class { name: "leaving a wrong count of a block", least: 4_000, holds: |p| p.holds() && p.has_wrong_count },
    Class { name: "of two lengths", least: 10_000, holds: |p| p.holds() && p.gaps[0].len != p.gaps[1].len },
    Class { name: "of two orders", least: 2_000, holds: |p| p.holds() && p.orders()[0] != p.orders()[1] },
    Class { name: "order 0, by model", least: 1_000, holds: |p| p.has_lines(0) && p.holds() && p.orders() == [0; 2] },
    Class { name: "apart, answered 5 in either order", least: 300, holds: |p| p.is_refused_twice(5) },
    Class { name: "apart, answered 6 in either order", least: 300, holds: |p| p.are_apart() && p.is_refused_twice(6) },
    Class { name: "apart, answered 7 in either order", least: 300, holds: |p| p.are_apart() && p.is_refused_twice(7) },
    Class { name: "apart, answered 8 in either order", least: 100, holds: |p| p.are_apart() && p.is_refused_twice(8) },
    Class { name: "apart, room for one alone, first come", least: 1_000, holds: Pair::is_crowded },
    Class {
        name: "apart, one word short of both",
        least: 400,
        holds: |p| p.is_crowded() && p.free() + 1 == p.entries(),
    },
    Class { name: "apart, one first come, and other samples", least: 1_000, holds: |p| p.is_crowded() && p.differs },
    Class {
        name: "apart, one has room and the other never",
        least: 100,
        holds: |p| p.are_apart() && [[0, 9], [9, 0]].contains(&p.numbers(0)) && p.numbers(0) == p.numbers(1),
    },
    Class {
        name: "apart, no room for either",
        least: 100,
        holds: |p| p.are_apart() && p.numbers(0) == [9; 2] && p.numbers(1) == [9; 2],
    },
    Class {
        name: "one nearer than both windows",
        least: 1_500,
        holds: |p| p.touch(|d, l, r| d + 1 == l && d + 1 == r),
    },
    Class {
        name: "one nearer than both, and other samples",
        least: 1_000,
        holds: |p| p.touch(|d, l, r| d + 1 == l && d + 1 == r) && p.differs,
    },
    Class {
        name: "one nearer than left's window alone",
        least: 100,
        holds: |p| p.touch(|d, l, r| d + 1 == l && d >= r),
    },
    Class {
        name: "one nearer than left's, and other samples",
        least: 50,
        holds: |p| p.touch(|d, l, r| d + 1 == l && d >= r) && p.differs,
    },
    Class {
        name: "one nearer than right's window alone",
        least: 100,
        holds: |p| p.touch(|d, l, r| d + 1 == r && d >= l),
    },
    Class {
        name: "one nearer than right's, and other samples",
        least: 50,
        holds: |p| p.touch(|d, l, r| d + 1 == r && d >= l) && p.differs,
    },
    Class { name: "two lines side by side", least: 200, holds: |p| p.has_lines(2) && p.touch(|d, _, _| d == 0) },
    Class {
        name: "two lines side by side, and other samples",
        least: 200,
        holds: |p| p.has_lines(2) && p.touch(|d, _, _| d == 0) && p.differs,
    },
    Class {
        name: "touching, answered 7 in one order alone",
        least: 50,
        holds: |p| p.are_within() && !p.are_apart() && p.numbers(0).contains(&7) != p.numbers(1).contains(&7),
    },
];

/// The call for the same gap in the other order: with another number of passes, and where the workspace is long enough
/// with another one that is.
fn again(turn: &Turn, n: usize) -> Turn {
    let mut work = turn.work.clone();
    if !turn.gap.is_outside(n) && turn.gap.needed(n) <= work.len() {
        let longer = if turn.gap.needed(n) == work.len() { 3 } else { 0 };
        work.resize(turn.gap.needed(n) + longer, 0x7ff8_0000_0000_0001);
    }
    Turn { gap: turn.gap, passes: turn.passes ^ 1, work }
}

/// Both gaps in the one order and in the other.
pub fn make(count: &mut Pairs, before: Recording, turns: [Turn; 2]) {
    let [first, second] = &turns;
    let one = by_both(&before, &[first, second]);
    let [first_again, second_again] = [first, second].map(|turn| again(turn, before.samples.len()));
    let other = by_library(&before, &[&second_again, &first_again]);
    let mut wrong = broken(&before, &one, &other, &[1, 0]);
    wrong.extend(one.wrong.iter().chain(&other.wrong));
    let pair = Pair {
        gaps: [first.gap, second.gap],
        work: [first.work.len(), second.work.len()],
        told: [[one.told[0], one.told[1]], [other.told[1], other.told[0]]],
        differs: one.left.samples != other.left.samples,
        has_wrong_count: one.left.has_wrong_count(),
        before,
    };
    if !pair.is_by_distance() {
        wrong.push("windows and distance");
    }
    count.take(&pair, &wrong);
}
