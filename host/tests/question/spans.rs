//! Spans of every kind.
use cathar_host::draw::Draw;
use cathar_host::question::Span;
use cathar_host::recording::BLOCK;

/// A number from 0 to the last.
fn up_to(draw: &mut Draw, last: usize) -> usize {
    draw.below(last as u64 + 1) as usize
}

/// The span from one place to before another; nothing, where the second is before the first or past n.
fn between(from: Option<usize>, to: usize, n: usize) -> Option<Span> {
    let start = from.filter(|from| *from <= to && to <= n)?;
    Some(Span { start, len: to - start })
}

/// Hands on spans of every kind over these marks, some of each.
pub fn each(draw: &mut Draw, marks: &[u8], put: &mut dyn FnMut(Span)) {
    let n = marks.len();
    let mut found = whole(n);
    found.extend(empty(draw, n));
    found.extend(past_end(draw, n));
    found.extend(overflowing(draw, n));
    found.extend(short(draw, marks));
    for _ in 0..2 {
        found.extend(at_edges(draw, n));
        found.extend(measured(draw, marks));
    }
    for _ in 0..4 {
        let (one, other) = (up_to(draw, n), up_to(draw, n));
        found.extend(between(Some(one.min(other)), one.max(other), n));
    }
    found.into_iter().for_each(put);
}

/// The whole recording, and the last block, with a sample more or less at its beginning.
fn whole(n: usize) -> Vec<Span> {
    let last = n.saturating_sub(1) / BLOCK * BLOCK;
    let starts = [Some(0), Some(last), last.checked_sub(1), Some(last + 1)];
    starts.into_iter().filter_map(|start| between(start, n, n)).collect()
}

/// Spans of length 0: at the beginning, at the end, anywhere, and at a block's edge.
fn empty(draw: &mut Draw, n: usize) -> Vec<Span> {
    let edge = up_to(draw, n / BLOCK) * BLOCK;
    [0, n, up_to(draw, n), edge].map(|start| Span { start, len: 0 }).into()
}

/// Spans that pass the end by one and by more, and such that start past it.
fn past_end(draw: &mut Draw, n: usize) -> Vec<Span> {
    let (start, more) = (up_to(draw, n), 1 + up_to(draw, 1_000_000));
    let from = |start: usize, to: usize| Span { start, len: to - start };
    let mut found = vec![from(0, n + 1), from(start, n + 1), from(start, n + more), from(n, n + 1)];
    found.extend([from(n + 1, n + 1), from(n + more, n + more), from(n + more, n + 2 * more)]);
    found.extend([Span { start: usize::MAX, len: 0 }, Span { start: 0, len: usize::MAX }]);
    found
}

/// Spans whose start plus length is past 2^64, mostly so that what is left of it is a place within the recording.
fn overflowing(draw: &mut Draw, n: usize) -> Vec<Span> {
    let (start, left) = (1 + up_to(draw, n), up_to(draw, n));
    let to_left = |start: usize| Span { start, len: left.wrapping_sub(start) };
    let high = usize::MAX - up_to(draw, n);
    let mut found = vec![to_left(high), to_left(left + start), Span { start: high, len: high }];
    found.extend([Span { start: usize::MAX, len: usize::MAX }, Span { start, len: usize::MAX }]);
    found.retain(|span| span.end().is_none());
    found
}

/// Spans of length 1, at any place and at a sample that is not measured and beside it; and spans within a block.
fn short(draw: &mut Draw, marks: &[u8]) -> Vec<Span> {
    let n = marks.len();
    if n == 0 {
        return Vec::new();
    }
    let from = up_to(draw, n - 1);
    let not_measured = (from..n).chain(0..from).find(|place| marks[*place] != 0).unwrap_or(from);
    let places =
        [Some(0), Some(n - 1), Some(from), Some(not_measured), not_measured.checked_sub(1), Some(not_measured + 1)];
    let mut found: Vec<Span> = places.into_iter().filter_map(|place| between(place, place? + 1, n)).collect();
    for _ in 0..3 {
        let place = up_to(draw, n - 1);
        let block = place / BLOCK * BLOCK;
        let to = place + 1 + up_to(draw, (block + BLOCK).min(n) - place - 1);
        found.extend(between(Some(place), to, n));
    }
    found
}

/// Spans from a block's edge to another, or one beside them.
fn at_edges(draw: &mut Draw, n: usize) -> Vec<Span> {
    let (one, other) = (up_to(draw, n / BLOCK + 1) * BLOCK, up_to(draw, n / BLOCK + 1) * BLOCK);
    let mut found = Vec::new();
    for start in [one.min(other).checked_sub(1), Some(one.min(other)), Some(one.min(other) + 1)] {
        for end in [one.max(other).saturating_sub(1), one.max(other), one.max(other) + 1] {
            found.extend(between(start, end, n));
        }
    }
    found
}

/// A longest stretch of measured samples, with a sample more or less at either end, and a part of it: the longest that
/// there is, or that from any place on.
fn measured(draw: &mut Draw, marks: &[u8]) -> Vec<Span> {
    let n = marks.len();
    let stretches = stretches(marks);
    let longest = stretches.iter().copied().max_by_key(|(from, to)| to - from);
    let any = stretches.get(up_to(draw, stretches.len())).copied();
    let (from, to) = match any.filter(|_| draw.below(2) == 0).or(longest) {
        Some(stretch) => stretch,
        None => return Vec::new(),
    };
    let part = from + up_to(draw, to - from);
    let ends = [(Some(from), to), (from.checked_sub(1), to), (Some(from), to + 1), (Some(from + 1), to)];
    let more = [(Some(from), to - 1), (from.checked_sub(1), to + 1), (Some(part), to), (Some(from), part)];
    ends.into_iter().chain(more).filter_map(|(from, to)| between(from, to, n)).collect()
}

/// The longest stretches of marks that are 0, each from a place to before another.
fn stretches(marks: &[u8]) -> Vec<(usize, usize)> {
    let mut found: Vec<(usize, usize)> = Vec::new();
    for place in (0..marks.len()).filter(|place| marks[*place] == 0) {
        match found.last_mut() {
            Some((_, to)) if *to == place => *to += 1,
            _ => found.push((place, place + 1)),
        }
    }
    found
}
