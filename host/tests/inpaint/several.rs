//! One list of gaps by the library, by its single calls in turn and by the model, the undo of every gap that was
//! repaired, and what is counted of it.
use cathar_host::both::{Both, Wrong};
use cathar_host::count::{Class, Count};
use cathar_host::inpaint::{Gap, GapAnswer, Lists, Several, MOST_GAPS};
use cathar_host::recording::{counted, entry_words, in_range, Answer, Recording, BLOCK};
use std::fmt;

/// A list, what it was made on, and what the model answers.
pub struct Call {
    pub before: Recording,
    /// How long the lists are: those of starts, lengths, numbers, values and orders.
    pub lengths: [usize; 5],
    /// The first gap of the lists, if they have one.
    pub first: Option<Gap>,
    pub passes: u32,
    /// How many doubles the workspace has.
    pub work: usize,
    pub several: Several,
    /// Whether a count is not that of its block's marks after it.
    pub has_wrong_count: bool,
}

/// Of the recording only the number of samples is told.
impl fmt::Debug for Call {
    fn fmt(&self, formatter: &mut fmt::Formatter) -> fmt::Result {
        let (samples, Call { lengths, passes, work, several, .. }) = (self.before.samples.len(), self);
        write!(formatter, "{several:?} of lists of {lengths:?} in {samples} samples, {passes} passes, {work} doubles")
    }
}

impl Call {
    fn is_refused(&self) -> bool {
        self.several.number() == 4
    }

    /// Whether the lists are made, and have so many gaps.
    fn has(&self, gaps: usize) -> bool {
        !self.is_refused() && self.lengths[0] == gaps
    }

    /// What turns every gap away, whatever it is: 1, 14, 2 or 3.
    fn malformed(&self) -> Option<u32> {
        self.before.refused_by_any_call()
    }

    /// Whether all lists are as long.
    fn are_as_long(&self) -> bool {
        self.lengths == [self.lengths[0]; 5]
    }

    /// Whether all lists are as long, and within the most, but for this one, which has so many places more or less.
    fn differs(&self, which: usize, by: isize) -> bool {
        let mut as_long = [self.lengths[(which + 1) % 5]; 5];
        as_long[which] = as_long[which].wrapping_add(by as usize);
        self.lengths == as_long && self.lengths.iter().all(|length| *length <= MOST_GAPS) && self.is_refused()
    }

    /// Whether the lists are refused though neither 14 nor 1 to 7 would turn the first gap away.
    fn is_refused_with_gap(&self) -> bool {
        let n = self.before.samples.len();
        let is_right = |gap: Gap| !gap.is_outside(n) && gap.needed(n) <= self.work && !self.reads_out_of_range(gap);
        self.is_refused() && self.malformed().is_none() && self.first.map_or(false, is_right)
    }

    /// Whether a sample that the repair of this gap reads was not in range when the call began.
    fn reads_out_of_range(&self, gap: Gap) -> bool {
        gap.read(self.before.samples.len()).any(|place| !in_range(self.before.samples[place]))
    }

    fn gaps(&self) -> &[(Gap, GapAnswer)] {
        self.several.gaps()
    }

    fn repaired(&self) -> Vec<Gap> {
        self.several.repaired().collect()
    }

    /// Whether a gap was answered with this number.
    fn has_answer(&self, number: u32) -> bool {
        self.gaps().iter().any(|(_, answer)| answer.number() == number)
    }

    /// Whether all of several gaps were refused by this number.
    fn has_but(&self, number: u32) -> bool {
        self.gaps().len() > 1 && self.gaps().iter().all(|(_, answer)| answer.number() == number)
    }

    /// Whether a gap was refused by this number between two that were repaired.
    fn has_between(&self, number: u32) -> bool {
        let is_repaired = |(_, answer): &(Gap, GapAnswer)| answer.number() == 0;
        let ends = self.gaps().iter().position(is_repaired).zip(self.gaps().iter().rposition(is_repaired));
        ends.map_or(false, |(first, last)| self.gaps()[first..last].iter().any(|(_, answer)| answer.number() == number))
    }

    /// Whether two gaps were repaired, the one some time before the other, that are so.
    fn has_two(&self, so: fn(Gap, Gap) -> bool) -> bool {
        let repaired = self.repaired();
        (1..repaired.len()).any(|later| repaired[..later].iter().any(|earlier| so(*earlier, repaired[later])))
    }

    /// Whether a gap that is so has an answer that is so.
    fn has_gap(&self, so: impl Fn(Gap, GapAnswer) -> bool) -> bool {
        self.gaps().iter().any(|(gap, answer)| so(*gap, *answer))
    }

    /// Whether a gap was repaired that would have been refused by 7 when the call began.
    fn has_mended(&self) -> bool {
        self.has_gap(|gap, answer| answer.number() == 0 && self.reads_out_of_range(gap))
    }

    /// Whether a gap was refused by 9 that had room when the call began.
    fn has_crowded(&self) -> bool {
        let free = self.before.journal.len().saturating_sub(self.before.used);
        self.has_gap(|gap, answer| answer.number() == 9 && entry_words(gap.len) <= free)
    }

    /// Whether the entries of the gaps that were repaired, several of them, take all free words.
    fn fills_journal(&self) -> bool {
        let entries: Vec<usize> = self.several.repaired().map(|gap| entry_words(gap.len)).collect();
        entries.len() > 1 && entries.iter().sum::<usize>() == self.before.journal.len() - self.before.used
    }

    /// How many doubles each gap cleared that cleared some.
    fn cleared(&self) -> Vec<usize> {
        let n = self.before.samples.len();
        let clear = self.gaps().iter().filter(|(_, answer)| matches!(answer.number(), 0 | 8 | 9));
        clear.map(|(gap, _)| gap.needed(n)).collect()
    }

    /// Whether the last gap that clears the workspace clears less than one before it.
    fn clears_less(&self) -> bool {
        let cleared = self.cleared();
        cleared.last() < cleared.iter().max()
    }

    /// Whether models of several orders filled the gaps.
    fn has_several_orders(&self) -> bool {
        let mut orders: Vec<u32> =
            self.gaps().iter().filter(|(_, answer)| answer.is_by_model()).map(|(_, answer)| answer.order()).collect();
        orders.sort_unstable();
        orders.dedup();
        orders.len() > 1
    }

    /// Whether directly behind a gap whose model has an order stands one that is so.
    fn has_behind_order(&self, so: fn(Gap, GapAnswer) -> bool) -> bool {
        self.gaps().windows(2).any(|two| two[0].1.order() > 0 && so(two[1].0, two[1].1))
    }

    /// Whether gaps were repaired that begin in different blocks.
    fn is_over_blocks(&self) -> bool {
        self.has_two(|one, other| one.start / BLOCK != other.start / BLOCK)
    }
}

/// What the lists have to be, all of them together.
pub const CLASSES: &[Class<Call>] = &[
    Class { name: "lists", least: 60_000, holds: |_| true },
    Class { name: "of no gap", least: 200, holds: |c| c.has(0) },
    Class {
        name: "of no gap, where 1, 14, 2 or 3 applies",
        least: 100,
        holds: |c| c.has(0) && c.malformed().is_some(),
    },
    Class { name: "of one gap", least: 200, holds: |c| c.has(1) },
    Class { name: "of two gaps", least: 20_000, holds: |c| c.has(2) },
    Class { name: "of 3 to 62 gaps", least: 5_000, holds: |c| (3..63).any(|gaps| c.has(gaps)) },
    Class { name: "of 63 gaps", least: 100, holds: |c| c.has(63) },
    Class { name: "of 64 gaps", least: 100, holds: |c| c.has(64) },
    Class { name: "of 65 gaps, and all lists as long", least: 100, holds: |c| c.are_as_long() && c.lengths[0] == 65 },
    Class { name: "of more, and all lists as long", least: 20, holds: |c| c.are_as_long() && c.lengths[0] > 65 },
    Class { name: "0 passes, repaired", least: 500, holds: |c| c.passes == 0 && c.has_answer(0) },
    Class { name: "1 pass, repaired", least: 500, holds: |c| c.passes == 1 && c.has_answer(0) },
    Class { name: "3 passes, repaired", least: 500, holds: |c| c.passes == 3 && c.has_answer(0) },
    Class { name: "2^32-1 passes, repaired", least: 100, holds: |c| c.passes == u32::MAX && c.has_answer(0) },
    Class { name: "several repaired", least: 5_000, holds: |c| c.repaired().len() > 1 },
    Class {
        name: "one over another, not the same",
        least: 2_000,
        holds: |c| c.has_two(|a, b| a != b && overlap(a, b)),
    },
    Class { name: "one within another", least: 1_000, holds: |c| c.has_two(|a, b| a != b && is_within(b, a)) },
    Class { name: "one around another", least: 1_000, holds: |c| c.has_two(|a, b| a != b && is_within(a, b)) },
    Class { name: "the same again", least: 2_000, holds: |c| c.has_two(|a, b| a == b) },
    Class { name: "one that begins where another ends", least: 1_000, holds: |c| c.has_two(|a, b| a.end() == b.start) },
    Class { name: "one that ends where another begins", least: 1_000, holds: |c| c.has_two(|a, b| b.end() == a.start) },
    Class { name: "one before another", least: 1_000, holds: |c| c.has_two(|a, b| b.end() < a.start) },
    Class { name: "in several blocks", least: 200, holds: Call::is_over_blocks },
    Class { name: "leaving a wrong count of a block", least: 50, holds: |c| c.has_answer(0) && c.has_wrong_count },
    Class { name: "a straight line", least: 50, holds: |c| c.has_gap(|gap, told| gap.is_line() && told.number() == 0) },
    Class {
        name: "a straight line, and one by model",
        least: 50,
        holds: |c| c.has_two(|a, b| a.is_line() != b.is_line()),
    },
    Class { name: "several orders", least: 300, holds: Call::has_several_orders },
    Class {
        name: "refused behind a model of an order",
        least: 300,
        holds: |c| c.has_behind_order(|_, told| told.number() > 0),
    },
    Class {
        name: "a straight line behind a model of an order",
        least: 10,
        holds: |c| c.has_behind_order(|gap, told| gap.is_line() && told.number() == 0),
    },
    Class { name: "the last clears less of the workspace", least: 500, holds: Call::clears_less },
    Class { name: "filling the journal", least: 500, holds: Call::fills_journal },
    Class { name: "repaired, and would be answered 7 at first", least: 200, holds: Call::has_mended },
    Class { name: "answered 9, and had room at first", least: 200, holds: Call::has_crowded },
    Class { name: "a gap answered 5", least: 1_000, holds: |c| c.has_answer(5) },
    Class { name: "a gap answered 6", least: 1_000, holds: |c| c.has_answer(6) },
    Class { name: "a gap answered 7", least: 1_000, holds: |c| c.has_answer(7) },
    Class { name: "a gap answered 8", least: 100, holds: |c| c.has_answer(8) },
    Class { name: "a gap answered 9", least: 1_000, holds: |c| c.has_answer(9) },
    Class { name: "one answered 5 between repaired ones", least: 500, holds: |c| c.has_between(5) },
    Class { name: "one answered 6 between repaired ones", least: 200, holds: |c| c.has_between(6) },
    Class { name: "one answered 7 between repaired ones", least: 100, holds: |c| c.has_between(7) },
    Class { name: "one answered 8 between repaired ones", least: 100, holds: |c| c.has_between(8) },
    Class { name: "one answered 9 between repaired ones", least: 200, holds: |c| c.has_between(9) },
    Class { name: "each of several gaps answered 1", least: 50, holds: |c| c.has_but(1) },
    Class { name: "each of several gaps answered 14", least: 50, holds: |c| c.has_but(14) },
    Class { name: "each of several gaps answered 2", least: 1, holds: |c| c.has_but(2) },
    Class { name: "each of several gaps answered 3", least: 20, holds: |c| c.has_but(3) },
    Class { name: "answered 4", least: 5_000, holds: Call::is_refused },
    Class { name: "answered 4, and its first gap is right", least: 200, holds: Call::is_refused_with_gap },
    Class { name: "answered 4, starts one short", least: 100, holds: |c| c.differs(0, -1) },
    Class { name: "answered 4, starts one long", least: 100, holds: |c| c.differs(0, 1) },
    Class { name: "answered 4, lengths one short", least: 100, holds: |c| c.differs(1, -1) },
    Class { name: "answered 4, lengths one long", least: 100, holds: |c| c.differs(1, 1) },
    Class { name: "answered 4, numbers one short", least: 100, holds: |c| c.differs(2, -1) },
    Class { name: "answered 4, numbers one long", least: 100, holds: |c| c.differs(2, 1) },
    Class { name: "answered 4, values one short", least: 100, holds: |c| c.differs(3, -1) },
    Class { name: "answered 4, values one long", least: 100, holds: |c| c.differs(3, 1) },
    Class { name: "answered 4, orders one short", least: 100, holds: |c| c.differs(4, -1) },
    Class { name: "answered 4, orders one long", least: 100, holds: |c| c.differs(4, 1) },
    Class { name: "answered 4 where 1 applies", least: 100, holds: |c| c.is_refused() && c.malformed() == Some(1) },
    Class { name: "answered 4 where 14 applies", least: 100, holds: |c| c.is_refused() && c.malformed() == Some(14) },
    Class { name: "answered 4 where 2 applies", least: 1, holds: |c| c.is_refused() && c.malformed() == Some(2) },
    Class { name: "answered 4 where 3 applies", least: 100, holds: |c| c.is_refused() && c.malformed() == Some(3) },
];

/// Whether two gaps have a sample in common.
fn overlap(one: Gap, other: Gap) -> bool {
    one.start < other.end() && other.start < one.end()
}

/// Whether the one gap has no sample that the other has not.
fn is_within(one: Gap, other: Gap) -> bool {
    other.start <= one.start && one.end() <= other.end()
}

/// The count of the lists, of the answers of their gaps, and of the gaps that were taken back.
pub struct Splices {
    count: Count<Call>,
    /// How many gaps had each number, from 0 to 14, for an answer.
    answers: [u64; 15],
    undone: u64,
}

impl Splices {
    /// Nothing counted yet.
    pub fn new() -> Splices {
        let count = Count::new("cathar_inpaint_gaps against single calls, model and original", &[CLASSES]);
        Splices { count, answers: [0; 15], undone: 0 }
    }

    /// The lists from here on are counted under this name.
    pub fn begin(&mut self, source: &'static str) {
        self.count.begin(source);
    }

    /// Prints all counts, and panics where one does not hold or not every gap that was repaired was taken back.
    pub fn close(&self, seed: u64) {
        let answers = self.answers.iter().enumerate().filter(|(_, count)| **count > 0);
        let answers: Vec<String> = answers.map(|(number, count)| format!("{number}: {count}")).collect();
        println!("gaps of lists: {}, by their answers {}", self.answers.iter().sum::<u64>(), answers.join(", "));
        println!("gaps of lists taken back, one by one: {}", self.undone);
        self.count.close(seed);
        assert_eq!(self.undone, self.answers[0], "not every gap that was repaired was taken back");
    }

    /// A list is made three ways, in a workspace of these patterns, and then taken back.
    pub fn make(&mut self, mut both: Both, lists: Lists, passes: u32, work: Vec<u64>) {
        let (before, lengths, doubles) = (both.model.clone(), lists.lengths(), work.len());
        let first = lists.gaps().first().copied();
        let singly = both.singly(&lists, passes, &work);
        let (several, mut wrong) = both.inpaint_gaps(lists, passes, work);
        wrong.extend(both.not_as_singly(&singly));
        for (_, answer) in several.gaps() {
            self.answers[answer.number() as usize] += 1;
        }
        let has_wrong_count = both.model.has_wrong_count();
        if wrong.is_empty() && several.repaired().next().is_some() {
            wrong.extend(self.take_back(&mut both, &before, &several));
        }
        let call = Call { before, lengths, first, passes, work: doubles, several, has_wrong_count };
        self.count.take(&call, &wrong);
    }

    /// Both sides take back each gap that was repaired, one by one, the last first. What is then not as it was before.
    fn take_back(&mut self, both: &mut Both, before: &Recording, several: &Several) -> Wrong {
        let mut wrong = Vec::new();
        let mut expected = before.clone();
        expected.journal[before.used..both.model.used].fill(0);
        let right = counted(&before.marks);
        for gap in several.repaired().rev() {
            let (answer, differing) = both.undo();
            wrong.extend(differing);
            if answer != Answer::Accepted(gap.len) {
                wrong.push("what an undo takes back");
            }
            (gap.start / BLOCK..=(gap.end() - 1) / BLOCK).for_each(|block| expected.counts[block] = right[block]);
            self.undone += 1;
        }
        if both.model != expected {
            wrong.push("the model's recording, when all is taken back");
        }
        wrong.extend(both.wrong_recording(&expected));
        wrong
    }
}
