//! The pairs and the lists of gaps: how they are drawn.
use super::lay::{self, one_of, Distance, MOST};
use super::lists::{self, Lists};
use super::pairs::{self, Pairs};
use cathar_host::draw::Draw;
use cathar_host::either::Turn;
use cathar_host::inpaint::Gap;
use cathar_host::room::Room;
use cathar_host::settings;
use cathar_host::shapes::Shape;

/// A source of pairs: its name, how many there are, and what makes each, which is told the how manieth it is.
pub type OfPairs = (&'static str, u64, fn(&mut Pairs, &mut Draw, u64));

pub const PAIRS: [OfPairs; 13] = [
    ("short, as near as is allowed", 13_000, |count, draw, _| short(count, draw, Distance::Closest)),
    ("short, farther", 4_000, |count, draw, _| short(count, draw, Distance::Farther)),
    ("short, one nearer", 2_500, |count, draw, _| short(count, draw, Distance::Nearer)),
    ("short, any nearer", 400, |count, draw, _| short(count, draw, Distance::Near)),
    ("with words out of range", 6_000, loud),
    ("of 257 to 420 and another", 700, long),
    ("of 500 to 1,999 and a short one", 24, longest),
    ("a line and a short one", 1_500, line),
    ("two lines", 2_500, lines),
    ("one is not within the recording", 500, outside),
    ("one has too short a workspace", 500, short_work),
    ("one has a result that is not in range", 300, not_in_range),
    ("one over the other", 300, over),
];

/// A source of lists likewise.
pub type OfLists = (&'static str, u64, fn(&mut Lists, &mut Draw, u64));

pub const LISTS: [OfLists; 5] = [
    ("2 to 8 short gaps", 2_500, |count, draw, turn| short_list(count, draw, 2 + turn as usize % 7)),
    ("with one longer than 256", 150, long_list),
    ("with lines", 400, line_list),
    ("as near as is allowed", 700, |count, draw, turn| closest_list(count, draw, 2 + turn as usize % 7)),
    ("one is refused, or not all have room", 400, refused_list),
];

/// The length of a short gap: mostly very short, and at times up to 256, from which on its context grows.
fn short_length(draw: &mut Draw) -> usize {
    match draw.below(64) {
        0 => 256,
        1 => 129 + draw.below(128) as usize,
        2..=4 => 30 + draw.below(10) as usize,
        5..=12 => 1,
        _ => 1 + draw.below(20) as usize,
    }
}

/// The two gaps in any order, with so much workspace for each, on these samples.
fn make(count: &mut Pairs, draw: &mut Draw, samples: Vec<u32>, gaps: &[Gap], work: Room) {
    let n = samples.len();
    let entries: Vec<usize> = gaps.iter().map(|gap| lay::entry_of(*gap, n)).collect();
    let free = lay::free(draw, &entries);
    let before = lay::recording(draw, samples, free);
    let turns: Vec<Turn> = lay::shuffled(draw, gaps).into_iter().map(|gap| lay::turn(draw, gap, n, work)).collect();
    pairs::make(count, before, turns.try_into().expect("there are two gaps"));
}

/// Gaps of these lengths, so far apart, in any recording, with enough workspace.
fn make_laid(count: &mut Pairs, draw: &mut Draw, lens: [usize; 2], distance: Distance) {
    let between = distance.of(draw, lens).min(MOST - lens[0] - lens[1]);
    let (n, gaps) = lay::lay(draw, &lens, &[between]);
    let samples = lay::samples(draw, n, &gaps);
    let work = Room::enough(draw);
    make(count, draw, samples, &gaps, work);
}

fn short(count: &mut Pairs, draw: &mut Draw, distance: Distance) {
    let lens = [short_length(draw), short_length(draw)];
    make_laid(count, draw, lens, distance);
}

/// Short gaps with samples that are not in range in them, outside both windows, and rarely in a window. Some touch.
fn loud(count: &mut Pairs, draw: &mut Draw, turn: u64) {
    let lens = [short_length(draw), short_length(draw)];
    let distance = match turn % 8 {
        0 => Distance::Nearer,
        1..=2 => Distance::Farther,
        _ => Distance::Closest,
    };
    let between = distance.of(draw, lens);
    let (n, gaps) = lay::lay(draw, &lens, &[between]);
    let mut samples = lay::samples(draw, n, &gaps);
    if draw.below(3) > 0 {
        lay::spoil_gaps(draw, &mut samples, &gaps);
    }
    if draw.below(3) > 0 {
        lay::spoil_outside(draw, &mut samples, &gaps);
    }
    if draw.below(8) == 0 {
        lay::spoil_window(draw, &mut samples, &gaps);
    }
    make(count, draw, samples, &gaps, Room::Exact);
}

/// A gap whose context is four times its length, before or behind another, which is as long or short.
fn long(count: &mut Pairs, draw: &mut Draw, turn: u64) {
    let most = one_of(draw, &[3, 40, 164]);
    let len = 257 + draw.below(most) as usize;
    let other = [short_length(draw), len, 257 + draw.below(60) as usize][[0, 0, 0, 1, 2][turn as usize % 5]];
    let lens = if draw.below(2) == 0 { [len, other] } else { [other, len] };
    let distance = one_of(
        draw,
        &[Distance::Closest, Distance::Closest, Distance::Nearer, Distance::Farther, Distance::NearerThanBoth],
    );
    make_laid(count, draw, lens, distance);
}

/// Gaps so long that few others have room beside them; the longest that leaves room for another one at all.
fn longest(count: &mut Pairs, draw: &mut Draw, turn: u64) {
    let len = if turn % 8 == 0 { 1_999 } else { 500 + draw.below(1_300) as usize };
    let other = if len == 1_999 { 1 } else { short_length(draw) };
    let lens = if draw.below(2) == 0 { [len, other] } else { [other, len] };
    let distance =
        if turn % 8 == 0 { Distance::Closest } else { [Distance::Closest, Distance::Nearer][turn as usize % 2] };
    make_laid(count, draw, lens, distance);
}

/// The length of a gap by line: the least, or any up to so many.
fn line_length(draw: &mut Draw, most: usize) -> usize {
    match draw.below(4) {
        0 => 2_049,
        _ => 2_049 + draw.below((most - 2_048) as u64) as usize,
    }
}

fn line(count: &mut Pairs, draw: &mut Draw, turn: u64) {
    let (len, other) = (line_length(draw, 4_000), short_length(draw));
    let lens = if draw.below(2) == 0 { [len, other] } else { [other, len] };
    let distances = [Distance::Closest, Distance::Farther, Distance::Closest, Distance::Nearer];
    make_laid(count, draw, lens, distances[turn as usize % 4]);
}

fn lines(count: &mut Pairs, draw: &mut Draw, turn: u64) {
    let lens = [line_length(draw, 3_000), line_length(draw, 3_000)];
    let distances = [Distance::Closest, Distance::Closest, Distance::Farther, Distance::Nearer];
    make_laid(count, draw, lens, distances[turn as usize % 4]);
}

fn outside(count: &mut Pairs, draw: &mut Draw, _: u64) {
    let most = one_of(draw, &[40, 1_100, 4_000]);
    let n = 1 + draw.below(most) as usize;
    let start = draw.below(n as u64) as usize;
    let gap = Gap { start, len: short_length(draw).min(n - start) };
    let samples = lay::samples(draw, n, &[gap]);
    let gaps = [gap, settings::outside(draw, n)];
    make(count, draw, samples, &gaps, Room::Longer);
}

/// The one has one double less than it needs.
fn short_work(count: &mut Pairs, draw: &mut Draw, turn: u64) {
    let lens = [short_length(draw), short_length(draw)];
    let between = [Distance::Closest, Distance::Farther][turn as usize % 2].of(draw, lens);
    let (n, gaps) = lay::lay(draw, &lens, &[between]);
    let samples = lay::samples(draw, n, &gaps);
    let free = lay::free(draw, &lens.map(|len| lay::entry_of(Gap { start: 0, len }, n)));
    let before = lay::recording(draw, samples, free);
    let rooms = lay::shuffled(draw, &[Room::OneShort, Room::Exact]);
    let turns: Vec<Turn> =
        lay::shuffled(draw, &gaps).into_iter().zip(rooms).map(|(gap, room)| lay::turn(draw, gap, n, room)).collect();
    pairs::make(count, before, turns.try_into().expect("there are two gaps"));
}

/// The signs of 14 loudest samples whose gap, at 6 and of length 2, gets a result that is not in range.
const SIGNS: &str = "------..+--+-+";

/// The first gap is among these samples, and what else its window has is next to nothing.
fn not_in_range(count: &mut Pairs, draw: &mut Draw, turn: u64) {
    let loudest = |sign| if sign == '+' { 0x4780_0000 } else { 0xc780_0000 };
    let mut samples: Vec<u32> = SIGNS.chars().map(loudest).collect();
    samples.extend((0..1_030).map(|place| 0x0d80_0000 | (place % 2) << 31));
    let gap = Gap { start: 6, len: 2 };
    let len = short_length(draw);
    let start = gap.end() + Gap { start: 0, len }.context() + [0, 1, draw.below(900) as usize][turn as usize % 3];
    let n = (start + len + draw.below(1_500) as usize).max(samples.len());
    let more = Shape::ALL[turn as usize % 7].samples(draw, n - samples.len());
    samples.extend(more);
    make(count, draw, samples, &[gap, Gap { start, len }], Room::Exact);
}

/// Gaps that have a sample in common, or are the same.
fn over(count: &mut Pairs, draw: &mut Draw, turn: u64) {
    let n = [3, 40, 600, 3_000][turn as usize % 4] + draw.below(200) as usize;
    let start = draw.below(n as u64 - 1) as usize;
    let gap = Gap { start, len: 1 + draw.below((n - start).min(20) as u64) as usize };
    let from = start + draw.below(gap.len as u64) as usize;
    let other = Gap { start: from, len: 1 + draw.below((n - from).min(20) as u64) as usize };
    let samples = lay::samples(draw, n, &[gap, other]);
    make(count, draw, samples, &[gap, other], Room::Exact);
}

/// Where these gaps lie, as many of them as have room, each as far behind the one before as is said or somewhat
/// farther.
fn laid(draw: &mut Draw, lens: &[usize], distance: Distance) -> (usize, Vec<Gap>) {
    let mut distances: Vec<usize> = lens.windows(2).map(|two| distance.of(draw, [two[0], two[1]])).collect();
    let mut gaps = lens.len();
    while lens[..gaps].iter().chain(&distances).sum::<usize>() > MOST {
        gaps -= 1;
        distances.pop();
    }
    lay::lay(draw, &lens[..gaps], &distances)
}

/// A list of gaps of these lengths in any order, all of which have room.
fn make_list(count: &mut Lists, draw: &mut Draw, lens: &[usize], distance: Distance) {
    let (n, gaps) = laid(draw, lens, distance);
    let mut samples = lay::samples(draw, n, &gaps);
    if draw.below(3) == 0 {
        lay::spoil_gaps(draw, &mut samples, &gaps);
        lay::spoil_outside(draw, &mut samples, &gaps);
    }
    let entries: usize = gaps.iter().map(|gap| lay::entry_of(*gap, n)).sum();
    let free = Room::enough(draw).of(draw, entries);
    let most = gaps.iter().map(|gap| gap.needed(n)).max().expect("there are gaps");
    let doubles = Room::enough(draw).of(draw, most);
    let before = lay::recording(draw, samples, free);
    let gaps = lay::shuffled(draw, &gaps);
    lists::make(count, draw, before, gaps, doubles);
}

fn short_lengths(draw: &mut Draw, gaps: usize) -> Vec<usize> {
    (0..gaps).map(|_| short_length(draw)).collect()
}

fn short_list(count: &mut Lists, draw: &mut Draw, gaps: usize) {
    let lens = short_lengths(draw, gaps);
    let distance = if gaps < 7 { Distance::Farther } else { Distance::Closest };
    make_list(count, draw, &lens, distance);
}

fn closest_list(count: &mut Lists, draw: &mut Draw, gaps: usize) {
    let lens = short_lengths(draw, gaps);
    make_list(count, draw, &lens, Distance::Closest);
}

fn long_list(count: &mut Lists, draw: &mut Draw, turn: u64) {
    let mut lens = short_lengths(draw, 1 + turn as usize % 5);
    let place = draw.below(lens.len() as u64 + 1) as usize;
    lens.insert(place, 257 + draw.below(120) as usize);
    make_list(count, draw, &lens, [Distance::Closest, Distance::Farther][turn as usize % 2]);
}

fn line_list(count: &mut Lists, draw: &mut Draw, turn: u64) {
    let short = [0, 0, 1, 3][turn as usize % 4];
    let mut lens: Vec<usize> = (0..4 - short).map(|_| line_length(draw, 2_400)).collect();
    lens.extend(short_lengths(draw, short));
    let lens = lay::shuffled(draw, &lens);
    make_list(count, draw, &lens, [Distance::Closest, Distance::Farther][turn as usize / 4 % 2]);
}

/// One gap is outside, reads a sample that is not in range or has too short a workspace, or the journal lacks room.
fn refused_list(count: &mut Lists, draw: &mut Draw, turn: u64) {
    let many = 2 + draw.below(4) as usize;
    let mut lens = short_lengths(draw, many);
    if turn % 4 == 1 {
        lens[0] = 200;
    }
    let (n, mut gaps) = laid(draw, &lens, Distance::Closest);
    let mut samples = lay::samples(draw, n, &gaps);
    let entries: usize = gaps.iter().map(|gap| lay::entry_of(*gap, n)).sum();
    let most = gaps.iter().map(|gap| gap.needed(n)).max().expect("there are gaps");
    let (mut free, mut doubles) = (entries, most);
    match turn % 4 {
        0 => gaps.push(settings::outside(draw, n)),
        1 => doubles -= 1,
        2 => lay::spoil_window(draw, &mut samples, &gaps),
        _ => free = draw.below(entries as u64) as usize,
    }
    let before = lay::recording(draw, samples, free);
    let gaps = lay::shuffled(draw, &gaps);
    lists::make(count, draw, before, gaps, doubles);
}
