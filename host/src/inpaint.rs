//! The repair of a gap and the automatic scan as document 01 has them, with the dropouts of requests P1 and P11 of
//! document 02, and the list of gaps of its request P6, over the model of the recording. What they turn away and what
//! they leave is written from the documents' text. The new samples are those that the original Rust computes, from its
//! own files. The original answers no order, which request P8 asks for: that is worked out by a prediction step of the
//! host's own, whose fill has to be the original's.
use crate::original;
use crate::prediction::{Reach, Window};
use crate::recording::{in_range, Answer, Recording};
use crate::settings::OfScan;
use crate::wrong;
use std::cell::Cell;
use std::ops::Range;

/// The longest gap that is not filled by a straight line.
const MOST_BY_MODEL: usize = 2048;

/// The most gaps of a list: "up to 64 spans at once".
pub const MOST_GAPS: usize = 64;

/// The highest rate that a scan allows.
pub const MOST_RATE: u32 = 16_777_216;

/// The original takes its time for every pass, so that more than these are held to what these give.
const MOST_PASSES: u32 = 5;

/// How many passes a scan makes.
pub const SCAN_PASSES: u32 = 3;

/// From how many samples on a run of zeros and NaN is a dropout, and from how many on one of equal words, unless a scan
/// is told otherwise.
pub const LOST_RUN: usize = 2;
pub const HELD_RUN: usize = 16;

/// "P1's run length, 2 to 4,096."
pub const LEAST_HELD_RUN: u32 = 2;
pub const MOST_HELD_RUN: u32 = 4_096;

thread_local! {
    /// How many gaps were filled by the host's own prediction step too.
    static FILLED: Cell<u64> = Cell::new(0);
}

/// The samples from `start` on, `len` of them.
#[derive(Clone, Copy, Debug, PartialEq, Eq)]
pub struct Gap {
    pub start: usize,
    pub len: usize,
}

impl Gap {
    /// Refusal 5: "gap length 0, start at or past the end, or gap past the end".
    pub fn is_outside(self, n: usize) -> bool {
        self.len == 0 || self.start >= n || self.start.checked_add(self.len).map_or(true, |end| end > n)
    }

    /// "len above 2048: straight line."
    pub fn is_line(self) -> bool {
        self.len > MOST_BY_MODEL
    }

    /// 1 for a gap by model, 2 for a gap by straight line.
    pub fn mark(self) -> u8 {
        1 + u8::from(self.is_line())
    }

    /// The place behind its last one. For a gap that is not outside.
    pub fn end(self) -> usize {
        self.start + self.len
    }

    pub fn places(self) -> Range<usize> {
        self.start..self.end()
    }

    /// "Context c is the larger of 4*len and 1024. The window runs from max(0, start−c) to
    /// min(n, start+len+c)." For a gap that is not outside.
    fn window(self, n: usize) -> Range<usize> {
        let context = (4 * self.len).max(1024);
        self.start.saturating_sub(context)..(self.end() + context).min(n)
    }

    /// How many samples on either side its repair looks at, where there are so many: the context c, and for the line
    /// one neighbour.
    pub fn context(self) -> usize {
        if self.is_line() {
            1
        } else {
            (4 * self.len).max(1024)
        }
    }

    /// All that its repair looks at, the gap itself among it: the window, and for the line the gap and "the neighbours
    /// that exist". For a gap that is not outside.
    pub fn near(self, n: usize) -> Range<usize> {
        self.start.saturating_sub(self.context())..(self.end() + self.context()).min(n)
    }

    /// Whether a sample of it lies in the other's window. For gaps that are not outside.
    pub fn touches(self, other: Gap, n: usize) -> bool {
        let near = other.near(n);
        self.start < near.end && near.start < self.end()
    }

    /// "p is len held to 32..128."
    pub fn most_order(self) -> usize {
        self.len.clamp(32, 128)
    }

    /// How many doubles of the workspace it needs: "len doubles" for the line, and else "window + len*(p+1) +
    /// 3*len + 4*(p+1)". For a gap that is not outside.
    pub fn needed(self, n: usize) -> usize {
        if self.is_line() {
            return self.len;
        }
        let p = self.most_order();
        self.window(n).len() + self.len * (p + 1) + 3 * self.len + 4 * (p + 1)
    }

    /// The places that its repair reads, ascending: for the line "the neighbours that exist", and else
    /// everything in the window outside the gap. For a gap that is not outside.
    pub fn read(self, n: usize) -> impl Iterator<Item = usize> {
        let near = self.near(n);
        (near.start..self.start).chain(self.end()..near.end)
    }

    /// Its window of these samples, widened. For a gap that is not outside.
    pub fn widened(self, samples: &[u32]) -> Window {
        self.widened_in(samples, self.window(samples.len()))
    }

    /// Likewise with this part of the samples for a window, in which the gap lies.
    pub(crate) fn widened_in(self, samples: &[u32], part: Range<usize>) -> Window {
        let gap = self.start - part.start..self.end() - part.start;
        let doubles = samples[part].iter().map(|word| f32::from_bits(*word).into()).collect();
        Window { doubles, gap, p: self.most_order() }
    }

    /// The words that the original writes to its places, and how far its model got, if it has one.
    fn filled(self, samples: &[u32], passes: u32) -> (Vec<u32>, Option<Reach>) {
        let floats: Vec<f32> = samples.iter().map(|word| f32::from_bits(*word)).collect();
        let filled = original::inpaint_gap(&floats, self.start, self.len, passes.min(MOST_PASSES));
        let words: Vec<u32> = filled[self.places()].iter().map(|x| x.to_bits()).collect();
        let reach = (!self.is_line()).then(|| self.reach(samples, &words));
        (words, reach)
    }

    /// How far the model of a gap got that is filled by one, with these words by the original: the host's own fill has
    /// to be the same.
    fn reach(self, samples: &[u32], words: &[u32]) -> Reach {
        let window = self.widened(samples);
        let model = window.model();
        let own: Vec<u32> = window.fill(&model).iter().map(|x| x.to_bits()).collect();
        FILLED.with(|filled| filled.set(filled.get() + 1));
        if own != words {
            let told = || format!("the host's own fill of {self:?} is {own:08x?}, and the original's {words:08x?}");
            wrong::found(FILLED.with(Cell::get), told);
            panic!("{}", told());
        }
        model.reach
    }

    /// "Under the same length limit; the gap must touch neither end."
    pub fn is_allowed(self, n: usize, limit: usize) -> bool {
        self.len <= limit && self.start > 0 && self.end() < n
    }

    /// Whether it is the gap of a held word, of a scan that began with these samples.
    pub fn is_held(self, before: &[u32]) -> bool {
        !is_lost(before[self.start])
    }
}

/// What the repair of a gap answers.
#[derive(Clone, Copy, Debug, PartialEq, Eq)]
pub struct GapAnswer {
    pub answer: Answer,
    /// How far the model got, where one was worked out: also where 8 or 9 was given then.
    pub reach: Option<Reach>,
}

impl GapAnswer {
    /// The number of the refusal, or 0.
    pub fn number(self) -> u32 {
        self.answer.number()
    }

    /// m, or the place, or 0.
    pub fn value(self) -> usize {
        self.answer.value()
    }

    /// What is handed back beside m: "the highest order it used". "Straight-line fills return 0", and so does every
    /// refusal.
    pub fn order(self) -> u32 {
        match (self.answer, self.reach) {
            (Answer::Accepted(_), Some(reach)) => reach.order,
            _ => 0,
        }
    }

    /// Whether the gap was repaired by the model.
    pub fn is_by_model(self) -> bool {
        self.number() == 0 && self.reach.is_some()
    }
}

/// The repair of a gap. Its workspace is given by the patterns of its doubles.
pub fn inpaint_gap(recording: &mut Recording, gap: Gap, passes: u32, work: &mut [u64]) -> GapAnswer {
    match recording.refused_by_any_call() {
        Some(number) => GapAnswer { answer: Answer::Refused(number), reach: None },
        None => repair(recording, gap, passes, work),
    }
}

/// The repair of a gap in a recording that refusals 1 to 3 do not turn away. "The needed part of the workspace
/// is all +0 after an acceptance or after 8 or 9; after any other refusal it keeps its contents."
fn repair(recording: &mut Recording, gap: Gap, passes: u32, work: &mut [u64]) -> GapAnswer {
    let n = recording.samples.len();
    let refused = |answer: Answer| GapAnswer { answer, reach: None };
    if gap.is_outside(n) {
        return refused(Answer::Refused(5));
    }
    let needed = gap.needed(n);
    if work.len() < needed {
        return refused(Answer::Refused(6));
    }
    if let Some(place) = gap.read(n).find(|place| !in_range(recording.samples[*place])) {
        return refused(Answer::RefusedAt(7, place));
    }
    let (words, reach) = gap.filled(&recording.samples, passes);
    work[..needed].fill(0);
    let named: Vec<(usize, u32)> = gap.places().zip(words).collect();
    GapAnswer { answer: recording.commit(gap.mark(), &named), reach }
}

/// The lists of several gaps: where each starts and how long it is, and the places for its answer. What these hold
/// before the call is any.
#[derive(Clone, Debug, Default, PartialEq, Eq)]
pub struct Lists {
    pub starts: Vec<usize>,
    pub lens: Vec<usize>,
    pub numbers: Vec<u32>,
    pub values: Vec<usize>,
    pub orders: Vec<u32>,
}

impl Lists {
    /// How long each is: starts, lengths, numbers, values, orders.
    pub fn lengths(&self) -> [usize; 5] {
        [self.starts.len(), self.lens.len(), self.numbers.len(), self.values.len(), self.orders.len()]
    }

    /// Refusal 4: "for more than 64 spans or an answer list of another length". The lengths come in a list of their
    /// own, which is as long too.
    pub fn are_refused(&self) -> bool {
        let [gaps, others @ ..] = self.lengths();
        gaps > MOST_GAPS || others != [gaps; 4]
    }

    /// The gaps in the order given, as far as both lists go.
    pub fn gaps(&self) -> Vec<Gap> {
        self.starts.iter().zip(&self.lens).map(|(start, len)| Gap { start: *start, len: *len }).collect()
    }
}

/// What a list of gaps answers.
#[derive(Clone, Debug, PartialEq, Eq)]
pub enum Several {
    /// Refused as a whole, by 4.
    Refused,
    /// Each gap, in the order given, and the answer of its repair.
    Made(Vec<(Gap, GapAnswer)>),
}

impl Several {
    /// 4, or 0, whatever became of the gaps.
    pub fn number(&self) -> u32 {
        match self {
            Several::Refused => 4,
            Several::Made(_) => 0,
        }
    }

    /// The gaps with their answers; none, where the list was refused.
    pub fn gaps(&self) -> &[(Gap, GapAnswer)] {
        match self {
            Several::Refused => &[],
            Several::Made(gaps) => gaps,
        }
    }

    /// Those that were repaired.
    pub fn repaired(&self) -> impl DoubleEndedIterator<Item = Gap> + '_ {
        self.gaps().iter().filter(|(_, answer)| answer.number() == 0).map(|(gap, _)| *gap)
    }
}

/// Several gaps in one call. "They are repaired in the order given, overlaps and repeats allowed, each with its own
/// answer in its own place." "Refusals: 4 first .. with nothing done; all others are each span's own."
pub fn inpaint_gaps(recording: &mut Recording, lists: &mut Lists, passes: u32, work: &mut [u64]) -> Several {
    if lists.are_refused() {
        return Several::Refused;
    }
    let mut made = Vec::new();
    for (place, gap) in lists.gaps().into_iter().enumerate() {
        let answer = inpaint_gap(recording, gap, passes, work);
        lists.numbers[place] = answer.number();
        lists.values[place] = answer.value();
        lists.orders[place] = answer.order();
        made.push((gap, answer));
    }
    Several::Made(made)
}

/// What a scan answers.
#[derive(Clone, Debug, PartialEq, Eq)]
pub enum Scan {
    /// Refused as a whole, by the number in the document's table: 1 to 4.
    Refused(u32),
    /// Each run that qualified, in order, and the answer of its repair.
    Ran(Vec<(Gap, GapAnswer)>),
}

impl Scan {
    /// The gaps of the runs that qualified; none, where the scan was refused.
    pub fn gaps(&self) -> Vec<Gap> {
        self.runs().iter().map(|(gap, _)| *gap).collect()
    }

    /// The runs that qualified, with their answers; none, where the scan was refused.
    pub fn runs(&self) -> &[(Gap, GapAnswer)] {
        match self {
            Scan::Refused(_) => &[],
            Scan::Ran(runs) => runs,
        }
    }

    pub fn qualified(&self) -> usize {
        self.runs().len()
    }

    pub fn repaired(&self) -> usize {
        self.runs().iter().filter(|(_, answer)| answer.number() == 0).count()
    }

    /// The number of the first refusal, or 0.
    pub fn number(&self) -> u32 {
        match self {
            Scan::Refused(number) => *number,
            Scan::Ran(runs) => runs.iter().map(|(_, answer)| answer.number()).find(|number| *number != 0).unwrap_or(0),
        }
    }
}

/// The automatic scan. "Each run is one gap repair with its own answer from 6 to 9; the scan goes on after a
/// refused one." "Runs of both kinds are those of the recording as the call began." A lent list gets the orders of the
/// models, place by place.
pub fn inpaint_auto(recording: &mut Recording, settings: OfScan, work: &mut [u64], orders: &mut [u32]) -> Scan {
    if let Some(number) = recording.refused_by_any_call() {
        return Scan::Refused(number);
    }
    match qualified(&recording.samples, settings) {
        None => Scan::Refused(4),
        Some(runs) => {
            let each = |run: Gap| {
                let answer = repair(recording, run, SCAN_PASSES, work);
                note(orders, run, answer);
                (run, answer)
            };
            Scan::Ran(runs.into_iter().map(each).collect())
        }
    }
}

/// The header: "At each place of it where the scan repaired a sample by the model it receives the order of that model",
/// "Every other place of it stays", "a shorter list is written as far as it goes".
fn note(orders: &mut [u32], run: Gap, answer: GapAnswer) {
    if answer.is_by_model() {
        orders.iter_mut().take(run.end()).skip(run.start).for_each(|order| *order = answer.order());
    }
}

/// What the original leaves of these samples where a scan repairs each of these gaps: by its own scan, or, where there is
/// one of a held word, which it does not know, by its repair of each gap in turn.
pub fn scanned_by_original(before: &[u32], settings: OfScan, gaps: &[Gap]) -> Vec<f32> {
    let samples: Vec<f32> = before.iter().map(|word| f32::from_bits(*word)).collect();
    if !gaps.iter().any(|gap| gap.is_held(before)) {
        return original::inpaint_auto(&samples, settings.rate, settings.max_gap_ms);
    }
    gaps.iter().fold(samples, |left, gap| original::inpaint_gap(&left, gap.start, gap.len, SCAN_PASSES))
}

/// The gaps that a scan of these samples repairs where there is room, in their order. Nothing, where the settings
/// are not allowed: "Rate at most 16,777,216 and finite max_gap_ms, else 4"; "P1's run length, 2 to 4,096".
pub fn qualified(samples: &[u32], settings: OfScan) -> Option<Vec<Gap>> {
    let OfScan { rate, max_gap_ms, held_run } = settings;
    let is_held_run = (LEAST_HELD_RUN..=MOST_HELD_RUN).contains(&held_run);
    if rate > MOST_RATE || !max_gap_ms.is_finite() || !is_held_run {
        return None;
    }
    let limit = limit(settings);
    let mut gaps = dropouts(samples, held_run as usize);
    gaps.retain(|gap| gap.is_allowed(samples.len(), limit));
    Some(gaps)
}

/// "The limit is (max_gap_ms/1000)*rate in f32, raised to 1, cut to a whole number; a product of plus infinity
/// means no limit."
pub fn limit(settings: OfScan) -> usize {
    let product = (settings.max_gap_ms / 1000.0) * settings.rate as f32;
    if product == f32::INFINITY {
        usize::MAX
    } else if product > 1.0 {
        product as usize
    } else {
        1
    }
}

/// The gaps of the dropout runs, in their order, where so many equal words are held.
fn dropouts(samples: &[u32], held_run: usize) -> Vec<Gap> {
    let mut gaps = lost(samples);
    gaps.retain(|gap| gap.len >= LOST_RUN);
    gaps.extend(held(samples, held_run));
    gaps.sort_unstable_by_key(|gap| gap.start);
    gaps
}

/// "Equal to zero (either sign) or NaN."
pub fn is_lost(word: u32) -> bool {
    let x = f32::from_bits(word);
    x == 0.0 || x.is_nan()
}

/// "A dropout run is a longest run of samples equal to zero (either sign) or NaN": all of it is the gap.
pub fn lost(samples: &[u32]) -> Vec<Gap> {
    let mut runs: Vec<Gap> = Vec::new();
    for (place, _) in samples.iter().enumerate().filter(|(_, word)| is_lost(**word)) {
        match runs.last_mut() {
            Some(last) if last.end() == place => last.len += 1,
            _ => runs.push(Gap { start: place, len: 1 }),
        }
    }
    runs
}

/// "A longest run of 16 or more equal words, in range and not zero, is a dropout too: its first sample is measured and the
/// rest are the gap." "P1's number becomes this setting": of so many or more, at least 2.
pub fn held(samples: &[u32], least: usize) -> Vec<Gap> {
    let mut gaps = Vec::new();
    let mut start = 0;
    while let Some(word) = samples.get(start) {
        let len = samples[start..].iter().take_while(|other| *other == word).count();
        if len >= least && in_range(*word) && f32::from_bits(*word) != 0.0 {
            gaps.push(Gap { start: start + 1, len: len - 1 });
        }
        start += len;
    }
    gaps
}
