//! The lists of several gaps as they are lent to the library, and what single calls in turn make of them.
use super::{not_right, patterns, Lent, Part};
use crate::call::Call;
use crate::inpaint::{Gap, Lists};

/// Starts and lengths of the gaps, and the three lists for their answers.
pub(crate) struct Several {
    pub(crate) starts: Part<usize>,
    pub(crate) lens: Part<usize>,
    pub(crate) numbers: Part<u32>,
    pub(crate) values: Part<usize>,
    pub(crate) orders: Part<u32>,
}

impl Several {
    /// The same numbers as these lists have. Around starts and lengths stand those of a gap of one sample at place 0,
    /// which could be repaired, so that a call that takes it for one of the list is found out too.
    pub(crate) fn new(lists: &Lists) -> Several {
        Several {
            starts: Part::new(&lists.starts, 0),
            lens: Part::new(&lists.lens, 1),
            numbers: Part::new(&lists.numbers, 0x5a5a_5a5a),
            values: Part::new(&lists.values, 0x5a5a_5a5a_5a5a_5a5a),
            orders: Part::new(&lists.orders, 0x5a5a_a5a5),
        }
    }

    /// The lists as they are lent.
    pub(crate) fn lists(&self) -> Lists {
        Lists {
            starts: self.starts.lent().to_vec(),
            lens: self.lens.lent().to_vec(),
            numbers: self.numbers.lent().to_vec(),
            values: self.values.lent().to_vec(),
            orders: self.orders.lent().to_vec(),
        }
    }

    /// The gap of this place, which both lists have.
    pub(crate) fn gap(&self, place: usize) -> Gap {
        Gap { start: self.starts.lent()[place], len: self.lens.lent()[place] }
    }
}

impl Lent {
    /// From here on these lists are lent to a call with several gaps.
    pub fn lend_gaps(&mut self, lists: &Lists) {
        self.several = Several::new(lists);
    }

    /// The lists that are not these, or whose guards do not stand.
    pub fn wrong_lists(&self, lists: &Lists) -> Vec<&'static str> {
        not_right([
            ("starts", self.several.starts.holds(patterns(&lists.starts))),
            ("lengths", self.several.lens.holds(patterns(&lists.lens))),
            ("numbers", self.several.numbers.holds(patterns(&lists.numbers))),
            ("values", self.several.values.holds(patterns(&lists.values))),
            ("orders", self.several.orders.holds(patterns(&lists.orders))),
        ])
    }

    /// The library repairs the gaps of the lists by single calls in turn, and each answer comes to stand in its place.
    /// Where the lists are such that nothing is to be done, nothing is.
    pub fn make_singly(&mut self, passes: u32) {
        let lists = self.several.lists();
        if !lists.are_refused() {
            (0..lists.starts.len()).for_each(|place| {
                self.make_one(place, passes);
            });
        }
    }

    /// It repairs the gap of one place so. The number that is answered.
    pub(crate) fn make_one(&mut self, place: usize, passes: u32) -> u32 {
        let number = self.call(Call::Gap { gap: self.several.gap(place), passes });
        self.several.numbers.lend()[place] = number;
        self.several.values.lend()[place] = self.numbers[0].lent()[0];
        self.several.orders.lend()[place] = self.order.lent()[0];
        number
    }

    /// The parts of recording, workspace and lists that are not as single calls have left them in the other, the guards
    /// among them.
    pub fn not_as_singly(&self, other: &Lent) -> Vec<&'static str> {
        let (ours, theirs) = (&self.several, &other.several);
        not_right([
            ("samples from single calls", self.samples.is_as(&other.samples)),
            ("marks from single calls", self.marks.is_as(&other.marks)),
            ("counts from single calls", self.counts.is_as(&other.counts)),
            ("journal from single calls", self.journal.is_as(&other.journal)),
            ("used from single calls", self.used.is_as(&other.used)),
            ("workspace from single calls", self.doubles.is_as(&other.doubles)),
            ("starts from single calls", ours.starts.is_as(&theirs.starts)),
            ("lengths from single calls", ours.lens.is_as(&theirs.lens)),
            ("numbers from single calls", ours.numbers.is_as(&theirs.numbers)),
            ("values from single calls", ours.values.is_as(&theirs.values)),
            ("orders from single calls", ours.orders.is_as(&theirs.orders)),
        ])
    }
}
