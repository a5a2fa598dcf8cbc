//! Lists of gaps: how they are drawn, and what is lent to them.
use super::gaps::any_gap;
use super::limits::{self, Faults, LOUD, LOUD_GAP};
use super::scans::any_room_for;
use super::several::Splices;
use super::short;
use cathar_host::both::Both;
use cathar_host::draw::Draw;
use cathar_host::inpaint::{Gap, Lists};
use cathar_host::recording::{entry_words, Recording, BLOCK};
use cathar_host::room;
use cathar_host::settings;
use cathar_host::shapes::Shape;
use cathar_host::sounds::{self, Sound};

/// How many lists there are of random short recordings over the alphabet, of each shape, of each sound, of each number
/// of gaps beside the most, over several blocks, with a NaN that some windows hold, among the loudest samples, and with
/// straight lines.
const RANDOM: u64 = 8_000;
const SHAPED: u64 = 400;
const SOUNDED: u64 = 400;
const FULL: u64 = 300;
const BLOCKS: u64 = 500;
const FAR: u64 = 1_200;
const LOUDEST: u64 = 1_500;
const LINES: u64 = 300;

/// Lengths of lists that are refused though all are as long.
const TOO_MANY: [usize; 10] = [65, 66, 100, 128, 256, 257, 320, 1_000, 65_536, 65_600];

/// The longest recordings of which all pairs of gaps are tried, and of which all lists of three.
const PAIRED: usize = 3;
const TRIPLED: usize = 2;

/// A source of lists: its name, and what makes them.
pub type Source = (&'static str, fn(&mut Splices, &mut Draw));

pub const SOURCES: [Source; 14] = [
    ("right and wrong lengths, several refusals apply", refused),
    ("too many gaps", too_many),
    ("each number of counts", counts),
    ("beside the most samples", large),
    ("all pairs in recordings of up to 3 samples", pairs),
    ("all lists of three in those of up to 2", triples),
    ("random ones of 6 to 60 samples", random),
    ("each shape, 6 to 200 samples", shaped),
    ("each sound, 20 to 169 samples", sounded),
    ("63, 64 and 65 gaps", full),
    ("of several blocks", blocks),
    ("a NaN that some windows hold", far),
    ("65,536 and its negative", loudest),
    ("with straight lines", lines),
];

/// Mostly one pass, since the original takes its time for each.
fn passes(draw: &mut Draw) -> u32 {
    match draw.below(16) {
        0 => u32::MAX,
        1..=2 => 3,
        3..=5 => 0,
        _ => 1,
    }
}

/// Lists of so many of these gaps, lengths, numbers, values and orders. There are at least as many gaps.
fn cut(draw: &mut Draw, gaps: &[Gap], [starts, lens, numbers, values, orders]: [usize; 5]) -> Lists {
    let mut lists = room::lists(draw, gaps, gaps.len());
    lists.starts.truncate(starts);
    lists.lens.truncate(lens);
    lists.numbers.truncate(numbers);
    lists.values.truncate(values);
    lists.orders.truncate(orders);
    lists
}

/// Hands on the lengths of five lists: all so long, and each by itself one longer or one shorter.
fn each_lengths(length: usize, put: &mut dyn FnMut([usize; 5])) {
    put([length; 5]);
    for which in 0..5 {
        for other in [Some(length + 1), length.checked_sub(1)].into_iter().flatten() {
            let mut lengths = [length; 5];
            lengths[which] = other;
            put(lengths);
        }
    }
}

/// What is lent to a list of these gaps: room for all that lie within the samples or for less, and at times in the
/// journal for any part of them.
fn room_for(draw: &mut Draw, samples: &[u32], gaps: &[Gap]) -> (Recording, Vec<u64>) {
    let within: Vec<Gap> = gaps.iter().copied().filter(|gap| !gap.is_outside(samples.len())).collect();
    let (mut recording, work) = any_room_for(draw, samples, &within);
    if draw.below(4) == 0 {
        let free = recording.journal.len() - recording.used;
        recording.journal.truncate(recording.used + draw.below(free as u64 + 1) as usize);
    }
    (recording, work)
}

/// The list of these gaps among these samples, in any room.
fn make(count: &mut Splices, draw: &mut Draw, samples: &[u32], gaps: &[Gap]) {
    let (model, work) = room_for(draw, samples, gaps);
    let (lists, passes) = (room::lists(draw, gaps, gaps.len()), passes(draw));
    count.make(Both::new(model), lists, passes, work);
}

/// One more gap for a list: one of its own again, one that touches such a one, one that is not within n samples, or
/// any.
fn next(draw: &mut Draw, n: usize, list: &[Gap]) -> Gap {
    let any = any_gap(draw, n);
    let other = if list.is_empty() { any } else { list[draw.below(list.len() as u64) as usize] };
    match draw.below(16) {
        0 => settings::outside(draw, n),
        1..=3 if !other.is_outside(n) => other,
        4 if !other.is_outside(n) && other.end() < n => Gap { start: other.end(), len: any.len.min(n - other.end()) },
        5 if !other.is_outside(n) && other.start > 0 => {
            let len = any.len.min(other.start);
            Gap { start: other.start - len, len }
        }
        _ => any,
    }
}

/// So many gaps of n samples.
fn some(draw: &mut Draw, n: usize, count: usize) -> Vec<Gap> {
    let mut list = Vec::new();
    for _ in 0..count {
        list.push(next(draw, n, &list));
    }
    list
}

/// A list of one to eight gaps among these samples.
fn make_some(count: &mut Splices, draw: &mut Draw, samples: &[u32]) {
    let gaps = 1 + draw.below(8) as usize;
    let gaps = some(draw, samples.len(), gaps);
    make(count, draw, samples, &gaps);
}

/// A list of some gaps that this draws, at least so many.
fn make_of(count: &mut Splices, draw: &mut Draw, samples: &[u32], least: u64, gap: impl Fn(&mut Draw) -> Gap) {
    let gaps: Vec<Gap> = (0..least + draw.below(4)).map(|_| gap(draw)).collect();
    make(count, draw, samples, &gaps);
}

/// Lists whose lengths are right or not, on recordings to which several refusals apply or none.
fn refused(count: &mut Splices, draw: &mut Draw) {
    for faults in Faults::each() {
        let gap = if faults.of_gap() { Gap { start: 13, len: 2 } } else { LOUD_GAP };
        for length in [0, 1, 3, 64, 65] {
            each_lengths(length, &mut |lengths| {
                let (model, work) = faults.made(draw);
                let lists = cut(draw, &[gap; 66], lengths);
                count.make(Both::new(model), lists, passes(draw), work);
            });
        }
    }
}

/// Lists of too many gaps, all as long, which else were right.
fn too_many(count: &mut Splices, draw: &mut Draw) {
    for length in TOO_MANY {
        for shape in [Shape::Tone, Shape::Noise, Shape::Steps] {
            let samples = shape.samples(draw, 40);
            let gaps: Vec<Gap> = (0..length).map(|_| any_gap(draw, 40)).collect();
            let model = room::recording(draw, samples, 64 * entry_words(40));
            let (lists, work) = (room::lists(draw, &gaps, length), room::work(draw, 10_000));
            count.make(Both::new(model), lists, 1, work);
        }
    }
}

/// A list of two gaps, one of none, and one that is refused.
fn three(count: &mut Splices, draw: &mut Draw, model: &Recording) {
    let n = model.samples.len();
    let gaps = [Gap { start: n / 2, len: 2 }, Gap { start: n.saturating_sub(4), len: 3 }];
    for lengths in [[2; 5], [0; 5], [2, 2, 2, 2, 1]] {
        let (lists, work) = (cut(draw, &gaps, lengths), room::work(draw, 5_000));
        count.make(Both::new(model.clone()), lists, 1, work);
    }
}

/// Lists on recordings with each number of counts.
fn counts(count: &mut Splices, draw: &mut Draw) {
    let mut lists = draw.aside();
    limits::counts(draw, &mut |model| three(count, &mut lists, &model));
}

/// Lists on recordings of the most samples and of one more.
fn large(count: &mut Splices, draw: &mut Draw) {
    let mut lists = draw.aside();
    limits::large(draw, &mut |model| three(count, &mut lists, &model));
}

/// Hands on each recording over the alphabet of up to so many samples, with its gaps and one behind its end.
fn each_short(longest: usize, put: &mut dyn FnMut(&[u32], &[Gap])) {
    short::each(&mut |samples| {
        let n = samples.len();
        if n <= longest {
            let within = (0..n).flat_map(|start| (1..=n - start).map(move |len| Gap { start, len }));
            put(samples, &within.chain([Gap { start: n, len: 1 }]).collect::<Vec<Gap>>());
        }
    });
}

/// All lists of two gaps.
fn pairs(count: &mut Splices, draw: &mut Draw) {
    each_short(PAIRED, &mut |samples, gaps| {
        for one in gaps {
            gaps.iter().for_each(|other| make(count, draw, samples, &[*one, *other]));
        }
    });
}

/// All lists of three.
fn triples(count: &mut Splices, draw: &mut Draw) {
    each_short(TRIPLED, &mut |samples, gaps| {
        for number in 0..gaps.len().pow(3) {
            let digit = |at: u32| gaps[number / gaps.len().pow(at) % gaps.len()];
            make(count, draw, samples, &[digit(0), digit(1), digit(2)]);
        }
    });
}

/// Lists on random recordings over the alphabet.
fn random(count: &mut Splices, draw: &mut Draw) {
    for _ in 0..RANDOM {
        let samples = short::random(draw);
        make_some(count, draw, &samples);
    }
}

/// Lists on recordings of each shape.
fn shaped(count: &mut Splices, draw: &mut Draw) {
    for shape in Shape::ALL {
        for _ in 0..SHAPED {
            let n = 6 + draw.below(195) as usize;
            let samples = shape.samples(draw, n);
            make_some(count, draw, &samples);
        }
    }
}

/// Lists on recordings of each sound, as loud or quiet as may be, so that the models have several orders.
fn sounded(count: &mut Splices, draw: &mut Draw) {
    for sound in Sound::ALL {
        for _ in 0..SOUNDED {
            let (n, energy) = (20 + draw.below(150) as usize, sounds::energy(draw));
            let samples = sound.samples(draw, n, 0..n, energy);
            make_some(count, draw, &samples);
        }
    }
}

/// Lists of 63, 64 and 65 gaps.
fn full(count: &mut Splices, draw: &mut Draw) {
    for turn in 0..FULL {
        for gaps in [63, 64, 65] {
            let n = 10 + draw.below(50) as usize;
            let samples = Shape::ALL[turn as usize % Shape::ALL.len()].samples(draw, n);
            let gaps = some(draw, n, gaps);
            make(count, draw, &samples, &gaps);
        }
    }
}

/// Lists on recordings of several blocks, with gaps at the blocks' edges.
fn blocks(count: &mut Splices, draw: &mut Draw) {
    for turn in 0..BLOCKS {
        let n = 300 + draw.below(800) as usize;
        let samples = [Shape::Tone, Shape::Noise, Shape::Steps][turn as usize % 3].samples(draw, n);
        make_of(count, draw, &samples, 2, |draw| {
            let edge = BLOCK * (1 + draw.below((n / BLOCK) as u64) as usize);
            let start = (edge - 20 + draw.below(40) as usize).min(n - 1);
            Gap { start, len: 1 + draw.below((n - start).min(40) as u64) as usize }
        });
    }
}

/// Lists on recordings with a NaN that some windows hold and others do not, and that a gap may be over.
fn far(count: &mut Splices, draw: &mut Draw) {
    for turn in 0..FAR {
        let mut samples = Shape::ALL[turn as usize % 4].samples(draw, 2_400);
        let place = 1_250 + draw.below(70) as usize;
        samples[place] = 0x7fc0_0000;
        make_of(count, draw, &samples, 3, |draw| {
            let start = match draw.below(6) {
                0 => place,
                1..=2 => place - 900 + draw.below(1_800) as usize,
                3..=4 => draw.below(200) as usize,
                _ => 2_350,
            };
            Gap { start, len: 1 + draw.below(20) as usize }
        });
    }
}

/// Lists among the loudest samples, of which some gaps get a result that is not in range; and with one that does, next
/// to nothing as far as its window reaches, and behind that gaps that get others.
fn loudest(count: &mut Splices, draw: &mut Draw) {
    for _ in 0..LOUDEST {
        let n = 14 + draw.below(30) as usize;
        let samples = Shape::Signs.samples(draw, n);
        make_some(count, draw, &samples);
    }
    for _ in 0..LOUDEST / 2 {
        let mut samples = LOUD.to_vec();
        samples.extend((0..1_030).map(|place| 0x0d80_0000 | (place % 2) << 31));
        samples.extend(Shape::Noise.samples(draw, 60));
        let end = samples.len();
        make_of(count, draw, &samples, 3, |draw| {
            let far = Gap { start: end - 1 - draw.below(50) as usize, len: 1 };
            [LOUD_GAP, far, far][draw.below(3) as usize]
        });
    }
}

/// Lists with straight lines, and at times with a sample that is not in range.
fn lines(count: &mut Splices, draw: &mut Draw) {
    for turn in 0..LINES {
        let n = 2_100 + draw.below(1_500) as usize;
        let mut samples = Shape::ALL[turn as usize % Shape::ALL.len()].samples(draw, n);
        if draw.below(3) == 0 {
            samples[draw.below(n as u64) as usize] = 0x7fc0_0000;
        }
        make_of(count, draw, &samples, 2, |draw| {
            let [least, most] = [[1, 40], [2_049, n]][draw.below(2) as usize];
            let len = least + draw.below((most - least + 1) as u64) as usize;
            Gap { start: draw.below((n - len + 1) as u64) as usize, len }
        });
    }
}
