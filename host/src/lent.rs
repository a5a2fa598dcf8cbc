//! A recording's memory and the workspaces as they are lent to the library. Every part is the middle of a longer
//! vector, and what stands around it has to stay.
pub mod crackle;
pub mod frames;
mod several;
pub mod stored;
pub mod wav;

use crate::call::Call;
use crate::cathar;
use crate::inpaint::{Gap, Lists};
use crate::question::{Span, Told};
use crate::recording::Recording;
use crate::settings::OfScan;
use crate::whole::{Repair, Start};
use crate::wrong;
use several::Several;

/// How many words stand before a part, and how many after it.
pub(crate) const GUARDS: usize = 3;

/// What stands in each number that a call hands back, before the call: no answer's value.
pub const VALUE_BEFORE: usize = 0x0123_4567_89ab_cdef;

/// What stands where the order of a gap's model comes, before its repair: no model's order.
pub const ORDER_BEFORE: u32 = 0x7654_3210;

/// What stands where the question's yes or no comes, before it is asked: neither.
pub const YES_BEFORE: u32 = 0x89ab_cdef;

/// What a part is made of. Two are the same if their patterns are, NaN among them.
pub trait Word: Copy {
    fn pattern(self) -> u64;
}

impl Word for u8 {
    fn pattern(self) -> u64 {
        self.into()
    }
}

impl Word for u16 {
    fn pattern(self) -> u64 {
        self.into()
    }
}

impl Word for u32 {
    fn pattern(self) -> u64 {
        self.into()
    }
}

impl Word for usize {
    fn pattern(self) -> u64 {
        self as u64
    }
}

impl Word for f64 {
    fn pattern(self) -> u64 {
        self.to_bits()
    }
}

pub(crate) struct Part<T> {
    /// What is lent, with the guards before and after it.
    pub(crate) whole: Vec<T>,
    guard: T,
}

impl<T: Word> Part<T> {
    fn new(words: &[T], guard: T) -> Part<T> {
        let guards = [guard; GUARDS];
        Part { whole: [&guards, words, &guards].concat(), guard }
    }

    fn end(&self) -> usize {
        self.whole.len() - GUARDS
    }

    pub(crate) fn lend(&mut self) -> &mut [T] {
        let end = self.end();
        &mut self.whole[GUARDS..end]
    }

    pub(crate) fn lent(&self) -> &[T] {
        &self.whole[GUARDS..self.end()]
    }

    /// Whether words of these patterns are lent, and the guards around them stand.
    fn holds(&self, words: impl ExactSizeIterator<Item = u64>) -> bool {
        let (before, from) = self.whole.split_at(GUARDS);
        let (lent, after) = from.split_at(self.end() - GUARDS);
        let same = words.len() == lent.len() && lent.iter().zip(words).all(|(word, pattern)| word.pattern() == pattern);
        same && before.iter().chain(after).all(|word| word.pattern() == self.guard.pattern())
    }

    /// Whether the other has the same words, the guards among them.
    fn is_as(&self, other: &Part<T>) -> bool {
        patterns(&self.whole).eq(patterns(&other.whole))
    }
}

fn patterns<T: Word>(words: &[T]) -> impl ExactSizeIterator<Item = u64> + '_ {
    words.iter().map(|word| word.pattern())
}

/// A number that a call hands back.
fn number() -> Part<usize> {
    Part::new(&[VALUE_BEFORE], 0xa5a5_a5a5_a5a5_a5a5)
}

/// Workspaces. Around them stands -0, which a part that is cleared does not have.
fn doubles(patterns: &[u64]) -> Part<f64> {
    let doubles: Vec<f64> = patterns.iter().map(|pattern| f64::from_bits(*pattern)).collect();
    Part::new(&doubles, -0.0)
}

fn words(words: &[u32]) -> Part<u32> {
    Part::new(words, 0x8000_0000)
}

/// A list for the orders of a scan's models. What stands around it is none of them.
fn list(words: &[u32]) -> Part<u32> {
    Part::new(words, 0x5a5a_a5a5)
}

/// A proposal. Around it stands 65,536, which could be one's word, so that a call that reads it is found out.
fn proposal(words: &[u32]) -> Part<u32> {
    Part::new(words, 0x4780_0000)
}

/// Counts. What stands around them is no block's.
pub(crate) fn counts(counts: &[u16]) -> Part<u16> {
    Part::new(counts, 0x5a5a)
}

/// A recording; two numbers that a call hands back, of which most calls have one or none; what the question hands
/// back; the two workspaces, of which a call has one or none; the order that the repair of a gap hands back, the list
/// that a scan is lent for orders, the lists of several gaps, and a proposal.
pub struct Lent {
    pub(crate) samples: Part<u32>,
    pub(crate) marks: Part<u8>,
    pub(crate) counts: Part<u16>,
    pub(crate) journal: Part<u32>,
    pub(crate) used: Part<usize>,
    pub(crate) numbers: [Part<usize>; 2],
    pub(crate) yes: Part<u32>,
    pub(crate) doubles: Part<f64>,
    pub(crate) words: Part<u32>,
    pub(crate) order: Part<u32>,
    pub(crate) orders: Part<u32>,
    pub(crate) several: Several,
    pub(crate) proposal: Part<u32>,
}

impl Lent {
    /// The same words as the recording has, no workspace, empty lists and an empty proposal. Around the journal stands 1,
    /// which could be an entry's place, m or mark, so that a call that takes it for the journal's is found out too.
    pub fn new(recording: &Recording) -> Lent {
        Lent {
            samples: Part::new(&recording.samples, 0x5a5a_5a5a),
            marks: Part::new(&recording.marks, 0x5a),
            counts: counts(&recording.counts),
            journal: Part::new(&recording.journal, 1),
            used: Part::new(&[recording.used], 0x5a5a_5a5a_5a5a_5a5a),
            numbers: [number(), number()],
            yes: Part::new(&[YES_BEFORE], 0xa5a5_a5a5),
            doubles: doubles(&[]),
            words: words(&[]),
            order: Part::new(&[ORDER_BEFORE], 0xa5a5_a5a5),
            orders: list(&[]),
            several: Several::new(&Lists::default()),
            proposal: proposal(&[]),
        }
    }

    /// From here on a workspace of the doubles of these patterns is lent.
    pub fn lend_doubles(&mut self, patterns: &[u64]) {
        self.doubles = doubles(patterns);
    }

    /// From here on a workspace of these words is lent.
    pub fn lend_words(&mut self, of: &[u32]) {
        self.words = words(of);
    }

    /// From here on a list of these words is lent to a scan for its orders.
    pub fn lend_orders(&mut self, of: &[u32]) {
        self.orders = list(of);
    }

    /// From here on this proposal is lent.
    pub fn lend_proposal(&mut self, words: &[u32]) {
        self.proposal = proposal(words);
    }

    /// Whether the proposal has these words, and the guards around it stand.
    pub fn holds_proposal(&self, words: &[u32]) -> bool {
        self.proposal.holds(patterns(words))
    }

    /// Whether this order was handed back, and the guards around it stand.
    pub fn holds_order(&self, order: u32) -> bool {
        self.order.holds(patterns(&[order]))
    }

    /// Whether the list for orders has these words, and the guards around it stand.
    pub fn holds_orders(&self, words: &[u32]) -> bool {
        self.orders.holds(patterns(words))
    }

    /// Whether the workspace of doubles has these patterns, and the guards around it stand.
    pub fn holds_doubles(&self, patterns: &[u64]) -> bool {
        self.doubles.holds(patterns.iter().copied())
    }

    /// Whether the workspace of words has these, and the guards around it stand.
    pub fn holds_words(&self, words: &[u32]) -> bool {
        self.words.holds(patterns(words))
    }

    /// The samples as the last call left them.
    pub fn samples(&self) -> &[u32] {
        self.samples.lent()
    }

    /// The recording as it is lent.
    pub(crate) fn recording(&self) -> Recording {
        Recording {
            samples: self.samples.lent().to_vec(),
            marks: self.marks.lent().to_vec(),
            counts: self.counts.lent().to_vec(),
            journal: self.journal.lent().to_vec(),
            used: self.used.lent()[0],
        }
    }

    /// The recording that is lent becomes this one, which has the same lengths.
    pub(crate) fn put(&mut self, recording: &Recording) {
        self.samples.lend().copy_from_slice(&recording.samples);
        self.marks.lend().copy_from_slice(&recording.marks);
        self.counts.lend().copy_from_slice(&recording.counts);
        self.journal.lend().copy_from_slice(&recording.journal);
        self.used.lend()[0] = recording.used;
    }

    /// The library makes the call, or what stands in for it does. The numbers that it hands back are forgotten before,
    /// so that one that it does not write is found out.
    pub fn make(&mut self, call: Call) -> u32 {
        for number in &mut self.numbers {
            number.lend()[0] = VALUE_BEFORE;
        }
        self.order.lend()[0] = ORDER_BEFORE;
        wrong::library(self, call)
    }

    /// The library makes the call.
    pub(crate) fn call(&mut self, call: Call) -> u32 {
        let (samples, marks, counts) = (self.samples.lend(), self.marks.lend(), self.counts.lend());
        let (journal, used) = (self.journal.lend(), &mut self.used.lend()[0]);
        let [first, second] = &mut self.numbers;
        let (value, other) = (&mut first.lend()[0], &mut second.lend()[0]);
        let (work, order, orders) = (self.doubles.lend(), &mut self.order.lend()[0], self.orders.lend());
        match call {
            Call::Open => cathar::open(samples, marks, counts, journal, used),
            Call::OpenReceived => cathar::open_received(samples, marks, counts, journal, used),
            Call::Undo => cathar::undo(samples, marks, counts, journal, used, value),
            Call::Gap { gap: Gap { start, len }, passes } => {
                cathar::inpaint_gap(samples, marks, counts, journal, used, start, len, passes, work, value, order)
            }
            Call::Gaps { passes } => self.inpaint_gaps(passes),
            Call::Scan(OfScan { rate, max_gap_ms: ms, held_run }) => cathar::inpaint_auto(
                samples, marks, counts, journal, used, rate, ms, held_run, work, orders, value, other,
            ),
            Call::Whole(repair) => self.repair(repair),
            Call::Proposed { threshold } => {
                let proposal = self.proposal.lent();
                cathar::declip_proposed(samples, marks, counts, journal, used, threshold, proposal, value)
            }
        }
    }

    /// The library repairs the gaps of the lists.
    fn inpaint_gaps(&mut self, passes: u32) -> u32 {
        let (samples, marks, counts) = (self.samples.lend(), self.marks.lend(), self.counts.lend());
        let (journal, used, work) = (self.journal.lend(), &mut self.used.lend()[0], self.doubles.lend());
        let Several { starts, lens, numbers, values, orders } = &mut self.several;
        let (starts, lens, numbers) = (starts.lent(), lens.lent(), numbers.lend());
        let (values, orders) = (values.lend(), orders.lend());
        cathar::inpaint_gaps(samples, marks, counts, journal, used, starts, lens, passes, work, numbers, values, orders)
    }

    /// The library makes a repair over the whole recording.
    fn repair(&mut self, repair: Repair) -> u32 {
        let (samples, marks, counts) = (self.samples.lend(), self.marks.lend(), self.counts.lend());
        let (journal, used) = (self.journal.lend(), &mut self.used.lend()[0]);
        let (work, value) = (self.words.lend(), &mut self.numbers[0].lend()[0]);
        match repair {
            Repair::Declip { threshold } => {
                cathar::declip(samples, marks, counts, journal, used, threshold, work, value)
            }
            Repair::Decrackle { sensitivity, start: Start::Mean } => {
                cathar::decrackle(samples, marks, counts, journal, used, sensitivity, work, value)
            }
            Repair::Decrackle { sensitivity, start: Start::Old } => {
                cathar::decrackle_old_start(samples, marks, counts, journal, used, sensitivity, work, value)
            }
            Repair::Dequantize { bits, strength } => {
                cathar::dequantize(samples, marks, counts, journal, used, bits, strength, work, value)
            }
            Repair::Cosparse { bits, strength, iterations } => cathar::dequantize_cosparse(
                samples, marks, counts, journal, used, bits, strength, iterations, work, value,
            ),
        }
    }

    /// The library is asked of a span, or what stands in for it is. What it handed back last is forgotten before.
    pub fn ask(&mut self, span: Span) -> u32 {
        self.yes.lend()[0] = YES_BEFORE;
        wrong::asked(self, span)
    }

    /// The library is asked of a span.
    pub(crate) fn question(&mut self, span: Span) -> u32 {
        let (marks, counts, yes) = (self.marks.lent(), self.counts.lent(), &mut self.yes.lend()[0]);
        cathar::measured(marks, counts, span.start, span.len, yes)
    }

    /// The parts that the question is lent that are not what the recording and what it is told are, or whose guards do not
    /// stand.
    pub fn wrong_after_question(&self, recording: &Recording, told: Told) -> Vec<&'static str> {
        not_right([
            ("marks", self.marks.holds(patterns(&recording.marks))),
            ("counts", self.counts.holds(patterns(&recording.counts))),
            ("yes or no", self.yes.holds(patterns(&[u32::from(told.yes)]))),
        ])
    }

    /// The parts that are not what the recording and the value are, or whose guards do not stand.
    pub fn wrong(&self, recording: &Recording, value: usize) -> Vec<&'static str> {
        self.wrong_parts(recording, [value, VALUE_BEFORE], ["value", "no number of this call"])
    }

    /// Likewise after a scan, which hands back two numbers.
    pub fn wrong_after_scan(&self, recording: &Recording, numbers: [usize; 2]) -> Vec<&'static str> {
        self.wrong_parts(recording, numbers, ["qualified", "repaired"])
    }

    fn wrong_parts(&self, recording: &Recording, numbers: [usize; 2], names: [&'static str; 2]) -> Vec<&'static str> {
        let mut wrong = self.wrong_recording(recording);
        for (number, (name, value)) in self.numbers.iter().zip(names.into_iter().zip(numbers)) {
            if !number.holds(patterns(&[value])) {
                wrong.push(name);
            }
        }
        wrong
    }

    /// Likewise, whatever numbers the last call has handed back.
    pub fn wrong_recording(&self, recording: &Recording) -> Vec<&'static str> {
        not_right([
            ("samples", self.samples.holds(patterns(&recording.samples))),
            ("marks", self.marks.holds(patterns(&recording.marks))),
            ("counts", self.counts.holds(patterns(&recording.counts))),
            ("journal", self.journal.holds(patterns(&recording.journal))),
            ("used", self.used.holds(patterns(&[recording.used]))),
        ])
    }
}

/// The names of those parts that are not right.
fn not_right<const N: usize>(parts: [(&'static str, bool); N]) -> Vec<&'static str> {
    parts.into_iter().filter(|(_, right)| !right).map(|(name, _)| name).collect()
}
