//! One question to both sides, and what is counted of it.
use cathar_host::both::{Both, Wrong};
use cathar_host::count::{Class, Count};
use cathar_host::question::{by_each_mark, Span, Told};
use cathar_host::recording::{blocks, BLOCK, NOT_RECEIVED};

/// After which call a question is asked.
#[derive(Clone, Copy, Debug, PartialEq, Eq)]
pub enum After {
    Open,
    OpenReceived,
    Repair,
    Undo,
    /// A call that was refused, or named nothing.
    Nothing,
    /// No call wrote the marks and the counts.
    NoCall,
}

/// A question, what it is told, and what stands in the way.
#[derive(Debug)]
pub struct Asked {
    pub after: After,
    pub n: usize,
    pub counts: usize,
    pub span: Span,
    pub told: Told,
    /// Whether a mark does in the first sample's block, a count in a block between, and a mark in the last's, where that
    /// is another.
    ways: [bool; 3],
    /// Whether all marks of the span that are not 0 are 6, and there is one.
    only_6: bool,
    /// Whether looking at each mark tells the same.
    same_by_marks: bool,
}

impl Asked {
    fn is_within(&self) -> bool {
        self.told.number == 0
    }

    /// Where it ends; for a span that is refused, past all.
    fn end(&self) -> usize {
        self.span.end().unwrap_or(usize::MAX)
    }

    /// How many blocks the samples of the span are in.
    fn blocks(&self) -> usize {
        match self.span.len {
            0 => 0,
            _ => (self.end() - 1) / BLOCK - self.span.start / BLOCK + 1,
        }
    }

    /// Whether it has samples in so many blocks.
    fn is_over(&self, most: usize, least: usize) -> bool {
        self.is_within() && (least..=most).contains(&self.blocks())
    }

    /// Whether it has samples and starts so many places behind a block's edge.
    fn starts_at(&self, place: usize) -> bool {
        self.is_within() && self.span.len > 0 && self.span.start % BLOCK == place
    }

    /// Likewise of its end.
    fn ends_at(&self, place: usize) -> bool {
        self.is_within() && self.span.len > 0 && self.end() % BLOCK == place
    }

    fn is_last_short_block(&self) -> bool {
        self.is_within() && self.end() == self.n && self.starts_at(0) && (1..BLOCK).contains(&self.span.len)
    }

    /// Whether the answer is no for just one of the three ways.
    fn no_by(&self, way: usize) -> bool {
        self.ways[way] && self.ways.iter().filter(|way| **way).count() == 1
    }

    /// Whether it is answered so, over so many blocks at least.
    fn says(&self, yes: bool, least: usize) -> bool {
        self.is_over(usize::MAX, least) && self.told.yes == yes
    }
}

pub type Questions = Count<Asked>;

/// What the questions on reached states have to be, all of them together.
pub const ON_REACHED: &[Class<Asked>] = &[
    Class { name: "on reached states", least: 300_000, holds: |a| a.after != After::NoCall },
    Class { name: "after an opening", least: 20_000, holds: |a| a.after == After::Open },
    Class { name: "after an opening as received", least: 20_000, holds: |a| a.after == After::OpenReceived },
    Class { name: "after a repair", least: 80_000, holds: |a| a.after == After::Repair },
    Class { name: "after an undo", least: 40_000, holds: |a| a.after == After::Undo },
    Class { name: "after a call that did nothing", least: 5_000, holds: |a| a.after == After::Nothing },
    Class { name: "no, only for samples not received", least: 5_000, holds: |a| a.says(false, 1) && a.only_6 },
];

/// What all questions have to be.
pub const COMMON: &[Class<Asked>] = &[
    Class { name: "of 0 samples", least: 1_000, holds: |a| a.n == 0 },
    Class { name: "length 0", least: 5_000, holds: |a| a.is_within() && a.span.len == 0 },
    Class { name: "length 0 at the end", least: 2_000, holds: |a| a.is_within() && a.span.start == a.n },
    Class { name: "length 1", least: 10_000, holds: |a| a.is_within() && a.span.len == 1 },
    Class { name: "within a block", least: 10_000, holds: |a| a.is_over(1, 1) && a.span.len > 1 },
    Class { name: "a whole block", least: 200, holds: |a| a.is_over(1, 1) && a.span.len == BLOCK },
    Class { name: "over two blocks", least: 5_000, holds: |a| a.is_over(2, 2) },
    Class { name: "over three blocks or more", least: 10_000, holds: |a| a.is_over(usize::MAX, 3) },
    Class { name: "from a block's edge", least: 10_000, holds: |a| a.starts_at(0) },
    Class { name: "from one before it", least: 2_000, holds: |a| a.starts_at(BLOCK - 1) },
    Class { name: "from one behind it", least: 2_000, holds: |a| a.starts_at(1) },
    Class { name: "to a block's edge", least: 5_000, holds: |a| a.ends_at(0) },
    Class { name: "to one before it", least: 2_000, holds: |a| a.ends_at(BLOCK - 1) },
    Class { name: "to one behind it", least: 2_000, holds: |a| a.ends_at(1) },
    Class { name: "the whole recording", least: 2_000, holds: |a| a.is_within() && a.n > 0 && a.span.len == a.n },
    Class { name: "the last short block", least: 1_000, holds: Asked::is_last_short_block },
    Class { name: "past the end by one", least: 5_000, holds: |a| a.end() == a.n + 1 },
    Class { name: "past the end by more", least: 5_000, holds: |a| a.span.end().map_or(false, |end| end > a.n + 1) },
    Class { name: "starting past the end", least: 5_000, holds: |a| a.span.start > a.n && a.span.end().is_some() },
    Class { name: "length 0, past the end", least: 2_000, holds: |a| a.span.start > a.n && a.span.len == 0 },
    Class { name: "start and length together past 2^64", least: 5_000, holds: |a| a.span.end().is_none() },
    Class { name: "answered 5", least: 20_000, holds: |a| a.told.number == 5 },
    Class { name: "yes", least: 20_000, holds: |a| a.says(true, 1) },
    Class { name: "yes, over two blocks", least: 1_000, holds: |a| a.says(true, 2) && a.blocks() == 2 },
    Class { name: "yes, over three blocks or more", least: 3_000, holds: |a| a.says(true, 3) },
    Class { name: "no", least: 20_000, holds: |a| a.says(false, 1) },
    Class { name: "no, for the first sample's block alone", least: 2_000, holds: |a| a.no_by(0) },
    Class { name: "no, for a count alone", least: 2_000, holds: |a| a.no_by(1) },
    Class { name: "no, for the last sample's block alone", least: 2_000, holds: |a| a.no_by(2) },
];

/// What those have to be whose marks and counts no call wrote.
pub const ON_ANY: &[Class<Asked>] = &[
    Class { name: "over marks and counts that no call wrote", least: 100_000, holds: |a| a.after == After::NoCall },
    Class { name: "told by counts against the marks", least: 3_000, holds: |a| !a.same_by_marks },
    Class { name: "yes, against the marks", least: 500, holds: |a| !a.same_by_marks && a.told.yes },
    Class { name: "no, against the marks", least: 1_000, holds: |a| !a.same_by_marks && !a.told.yes },
];

/// What those have to be whose number of counts is any.
pub const WITH_NUMBERS: &[Class<Asked>] = &[
    Class { name: "answered 14", least: 3_000, holds: |a| a.told.number == 14 },
    Class { name: "one count too many", least: 500, holds: |a| a.counts == blocks(a.n) + 1 },
    Class { name: "one count too few", least: 500, holds: |a| a.counts + 1 == blocks(a.n) },
    Class { name: "no counts, where there are samples", least: 500, holds: |a| a.counts == 0 && a.n > 0 },
    Class { name: "a count, where there are no samples", least: 50, holds: |a| a.counts > 0 && a.n == 0 },
    Class { name: "14 and past the end", least: 500, holds: |a| a.told.number == 14 && a.span.is_past(a.n) },
    Class { name: "14 at length 0", least: 200, holds: |a| a.told.number == 14 && a.span.len == 0 },
    Class { name: "answered 0, of the most samples", least: 20, holds: |a| a.is_within() && a.n == 1_048_576 },
    Class { name: "answered 0, of more than these", least: 20, holds: |a| a.is_within() && a.n > 1_048_576 },
    Class { name: "answered 5, of more than these", least: 10, holds: |a| a.told.number == 5 && a.n > 1_048_576 },
];

/// What stands in the way of yes, for a span within the marks and as many counts as blocks.
fn ways(marks: &[u8], counts: &[u16], Span { start, len }: Span) -> [bool; 3] {
    let end = start + len;
    let is_way = |from: usize, to: usize| marks[from..to].iter().any(|mark| *mark != 0);
    match (start / BLOCK, end.saturating_sub(1) / BLOCK) {
        _ if len == 0 => [false; 3],
        (first, last) if first == last => [is_way(start, end), false, false],
        (first, last) => {
            let between = counts[first + 1..last].iter().any(|count| *count != 0);
            [is_way(start, (first + 1) * BLOCK), between, is_way(last * BLOCK, end)]
        }
    }
}

/// Both sides are asked of a span. On a reached state the answer has to be that of looking at each mark.
pub fn ask(count: &mut Questions, both: &mut Both, after: After, span: Span) -> Told {
    let (told, mut wrong): (Told, Wrong) = both.ask(span);
    let (marks, counts) = (&both.model.marks, &both.model.counts);
    let is_within = !span.is_past(marks.len()) && counts.len() == blocks(marks.len());
    let (ways, by_marks) =
        if is_within { (ways(marks, counts, span), by_each_mark(marks, span)) } else { ([false; 3], false) };
    let same_by_marks = told.yes == by_marks;
    if after != After::NoCall && !(same_by_marks && is_within == (told.number == 0)) {
        wrong.push("looking at each mark");
    }
    let of = if is_within { &marks[span.start..span.start + span.len] } else { &[] };
    let only_6 = of.contains(&NOT_RECEIVED) && of.iter().all(|mark| [0, NOT_RECEIVED].contains(mark));
    let (n, counts) = (marks.len(), counts.len());
    count.take(&Asked { after, n, counts, span, told, ways, only_6, same_by_marks }, &wrong);
    told
}
