//! The question of request P5 in document 02: was this span measured? It is written from the request's text alone, and
//! to be seen right rather than to be fast, so that the library can be held to it.
use crate::recording::{blocks, first_of, BLOCK};

/// The samples from `start` on, `len` of them.
#[derive(Clone, Copy, Debug, PartialEq, Eq)]
pub struct Span {
    pub start: usize,
    pub len: usize,
}

impl Span {
    /// Where it ends; nothing, where that is no number.
    pub fn end(self) -> Option<usize> {
        self.start.checked_add(self.len)
    }

    /// "A span whose start plus length passes the end gives 5."
    pub fn is_past(self, n: usize) -> bool {
        self.end().map_or(true, |end| end > n)
    }
}

/// What the question is told: 0 or the number of the refusal, and yes or no.
#[derive(Clone, Copy, Debug, PartialEq, Eq)]
pub struct Told {
    pub number: u32,
    pub yes: bool,
}

/// What turns the question away: "14, wrong number of counts", and 5. Of these marks there are as many as samples.
pub fn refused(marks: &[u8], counts: &[u16], span: Span) -> Option<u32> {
    first_of([(14, counts.len() != blocks(marks.len())), (5, span.is_past(marks.len()))])
}

/// Where the question is not turned away, it is told what this says.
pub fn told(marks: &[u8], counts: &[u16], span: Span, says: fn(&[u8], &[u16], Span) -> bool) -> Told {
    match refused(marks, counts, span) {
        Some(number) => Told { number, yes: false },
        None => Told { number: 0, yes: says(marks, counts, span) },
    }
}

/// The question. Each block says for itself whether it stands in the way.
pub fn measured(marks: &[u8], counts: &[u16], span: Span) -> Told {
    told(marks, counts, span, |marks, counts, span| (0..counts.len()).all(|block| agrees(marks, counts, span, block)))
}

/// "A span question then looks at marks only in the blocks its ends fall in", and in those between at the count. A
/// block that has no sample of the span has no say: "a span of length 0 gets yes".
fn agrees(marks: &[u8], counts: &[u16], Span { start, len }: Span, block: usize) -> bool {
    let end = start + len;
    let (from, to) = (start.max(block * BLOCK), end.min((block + 1) * BLOCK));
    if from >= to {
        true
    } else if from == start || to == end {
        marks[from..to].iter().all(|mark| *mark == 0)
    } else {
        counts[block] == 0
    }
}

/// "Its answer must equal looking at each mark", where only the calls wrote marks and counts. For a span within them.
pub fn by_each_mark(marks: &[u8], span: Span) -> bool {
    marks[span.start..span.start + span.len].iter().all(|mark| *mark == 0)
}
