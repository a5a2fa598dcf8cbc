//! Recordings for declip: every way in which few samples can be clipped.
use super::calls::Call;
use cathar_host::count::Class;
use cathar_host::draw::Draw;
use cathar_host::whole::Repair;
use std::ops::Range;

/// Of so many samples, every choice of those that are clipped is tried.
pub const EVERY: Range<usize> = 6..14;

/// Samples of which the chosen ones, the digits of a number, are clipped: 1 and above, of any sign. The others are
/// below 1, and at times one step below it.
fn clipped(draw: &mut Draw, n: usize, chosen: usize) -> Vec<u32> {
    let one = 1.0f32.to_bits();
    let word = |place: usize| {
        let magnitude = match (chosen >> place & 1 == 1, draw.below(4)) {
            (true, 0) => one + draw.below(0x0100_0000) as u32,
            (true, _) => one,
            (false, 0) => one - 1,
            (false, _) => draw.below(u64::from(one)) as u32,
        };
        magnitude | (draw.below(2) as u32) << 31
    };
    (0..n).map(word).collect()
}

/// Hands on samples for each choice of those that are clipped, and a threshold by which just these are: 1, or one
/// step above the largest other.
pub fn each(draw: &mut Draw, put: &mut dyn FnMut(&mut Draw, &[u32], Repair)) {
    for n in EVERY {
        for chosen in 0..1 << n {
            let samples = clipped(draw, n, chosen);
            let others = (0..n).filter(|place| chosen >> place & 1 == 0).map(|place| samples[place] & 0x7fff_ffff);
            let tight = 1 + others.max().unwrap_or(0);
            let threshold = [1.0, f32::from_bits(tight)][draw.below(2) as usize];
            put(draw, &samples, Repair::Declip { threshold });
        }
    }
}

/// The fewest samples in which a result is not in range: all of them are one run, and the last is 65,536 or -65,536.
/// The last place but one then has t=8194/8195, and what y1 is multiplied by is rounded to more than 1.
pub const FEWEST_LOUD: usize = 8196;

/// So many samples for a threshold of 1 that are one run, whose last is 65,536 with any sign.
pub fn loud(draw: &mut Draw, n: usize) -> Vec<u32> {
    let sign = |draw: &mut Draw| (draw.below(2) as u32) << 31;
    let mut samples: Vec<u32> = (0..n).map(|_| 0x4000_0000 | sign(draw)).collect();
    samples[n - 1] = 0x4780_0000 | sign(draw);
    samples
}

fn threshold(call: &Call) -> f32 {
    match call.repair {
        Repair::Declip { threshold } => threshold,
        _ => panic!("no declip: {call:?}"),
    }
}

/// Whether a sample's magnitude, moved by so many steps, is the threshold.
fn is_beside(call: &Call, steps: i64) -> bool {
    let threshold = i64::from(threshold(call).to_bits());
    call.names() && call.before.0.iter().any(|word| i64::from(word & 0x7fff_ffff) + steps == threshold)
}

fn is_clipped(call: &Call, place: usize) -> bool {
    f32::from_bits(call.before.0[place]).abs() >= threshold(call)
}

/// Whether there are two fills beside each other that are so.
fn any_two(call: &Call, so: fn(&Range<usize>, &Range<usize>) -> bool) -> bool {
    call.names() && call.stretches.windows(2).any(|two| so(&two[0], &two[1]))
}

/// Whether all places are within one fill or another, but for the ends.
fn is_whole(call: &Call) -> bool {
    call.names() && call.named + 2 == call.n()
}

/// What the calls have to be, beside what is common to all functions. A fill's first place is a+1, and its end is z.
pub const CLASSES: &[Class<Call>] = &[
    Class { name: "threshold a sample's magnitude", least: 1_000, holds: |c| is_beside(c, 0) },
    Class { name: "threshold one step above a magnitude", least: 1_000, holds: |c| is_beside(c, 1) },
    Class { name: "threshold one step below a magnitude", least: 1_000, holds: |c| is_beside(c, -1) },
    Class { name: "threshold below 1e-29", least: 100, holds: |c| c.names() && threshold(c) < 1e-29 },
    Class { name: "threshold above 65,536", least: 100, holds: |c| c.is_accepted() && threshold(c) > 65536.0 },
    Class { name: "clipped at the first place", least: 500, holds: |c| c.names() && is_clipped(c, 0) },
    Class { name: "clipped at the last place", least: 500, holds: |c| c.names() && is_clipped(c, c.n() - 1) },
    Class {
        name: "clipped, and no run is filled",
        least: 500,
        holds: |c| c.is_accepted() && c.named == 0 && (0..c.n()).any(|place| is_clipped(c, place)),
    },
    Class { name: "all clipped", least: 10, holds: |c| c.names() && (0..c.n()).all(|place| is_clipped(c, place)) },
    Class { name: "a fill of 4 places", least: 100, holds: |c| c.names() && c.stretches.iter().any(|f| f.len() == 4) },
    Class { name: "all named but the ends", least: 500, holds: is_whole },
    Class { name: "two fills or more", least: 5_000, holds: |c| c.names() && c.stretches.len() > 1 },
    Class { name: "fills overlap", least: 5_000, holds: |c| any_two(c, |one, two| two.start < one.end) },
    Class { name: "fills side by side", least: 100, holds: |c| any_two(c, |one, two| two.start == one.end) },
    Class { name: "one sample between fills", least: 100, holds: |c| any_two(c, |one, two| two.start == one.end + 1) },
    Class {
        name: "y0 where an earlier fill has written",
        least: 5_000,
        holds: |c| any_two(c, |one, two| one.contains(&(two.start - 1))),
    },
    Class { name: "fills with the same y0", least: 500, holds: |c| any_two(c, |one, two| one.start == two.start) },
    Class { name: "fills with the same y1", least: 500, holds: |c| any_two(c, |one, two| one.end == two.end) },
    Class { name: "answered 8", least: 30, holds: |c| c.number() == 8 },
];
