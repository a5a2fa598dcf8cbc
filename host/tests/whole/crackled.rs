//! Recordings for decrackle: every way in which few samples can be flagged, clicks that stand out of what is around
//! them, and recordings of about as many samples as the mean is of.
use super::calls::Call;
use cathar_host::count::Class;
use cathar_host::damage;
use cathar_host::draw::Draw;
use cathar_host::shapes::{bent, least_limit, Shape};
use cathar_host::whole::{flagged, floats, magnitudes, opening_floor, Repair, Start, MEAN_OVER};
use std::ops::Range;

/// Of so many samples, every choice of those that are flagged is tried.
pub const EVERY: Range<usize> = 7..15;

/// Hands on samples for each choice of those that are flagged, the ends never among them.
pub fn each(draw: &mut Draw, put: &mut dyn FnMut(&mut Draw, &[u32])) {
    for n in EVERY {
        for chosen in 0..1 << (n - 2) {
            let samples = bent(draw, n, chosen << 1);
            put(draw, &samples);
        }
    }
}

/// Numbers of samples beside the one that the mean is of.
pub const BESIDE: Range<usize> = MEAN_OVER - 2..MEAN_OVER + 4;

/// So many samples of a shape, with clicks before the place of which the mean is the last, behind it, or anywhere; at
/// times all of them are made subnormal.
pub fn beside(draw: &mut Draw, shape: Shape, n: usize) -> Vec<u32> {
    let mut samples = shape.samples(draw, n);
    let last = n.min(MEAN_OVER) - 1;
    match draw.below(4) {
        0 => damage::click(draw, &mut samples[..last]),
        1 => damage::click(draw, &mut samples[last..]),
        2 => damage::click(draw, &mut samples),
        _ => {}
    }
    if draw.below(8) == 0 {
        samples.iter_mut().for_each(|word| *word = *word & 0x8000_0000 | (*word & 0x7fff_ffff) >> 9);
    }
    samples
}

/// Some thousand samples at most of a quiet sound, with a few clicks and runs of them that stand out.
pub fn clicked(draw: &mut Draw) -> Vec<u32> {
    let most = [40, 200, 400, 2_000][draw.below(4) as usize];
    let n = 8 + draw.below(most) as usize;
    let mut samples = [Shape::Quiet, Shape::Tone, Shape::Silence][draw.below(3) as usize].samples(draw, n);
    for _ in 0..1 + draw.below(1 + n as u64 / 40) {
        let (start, longest) = (draw.below(n as u64) as usize, 1 + draw.below(14));
        let len = 1 + draw.below(longest) as usize;
        let height = f32::from_bits((127 - 4 + draw.below(20) as u32) << 23);
        for (place, word) in samples.iter_mut().enumerate().skip(start).take(len) {
            let sign = if (place + start) % 2 == 0 { 1.0 } else { -1.0 };
            *word = (f32::from_bits(*word) + sign * height).to_bits();
        }
    }
    samples
}

/// Whether a sample is not flagged whose detector's magnitude is just the limit by the least floor.
fn is_at_limit(call: &Call) -> bool {
    let limit = least_limit(sensitivity(call)).to_bits();
    let silence_but = |word: &&u32| **word != 0;
    call.is_accepted() && call.before.0.iter().filter(silence_but).eq([&limit])
}

fn settings_of(call: &Call) -> (f32, Start) {
    match call.repair {
        Repair::Decrackle { sensitivity, start } => (sensitivity, start),
        _ => panic!("no decrackle: {call:?}"),
    }
}

fn sensitivity(call: &Call) -> f32 {
    settings_of(call).0
}

/// Whether a flagged run is so.
fn any_run(call: &Call, so: impl Fn(&Range<usize>) -> bool) -> bool {
    call.names() && call.stretches.iter().any(so)
}

/// Whether there are two flagged runs beside each other with so many samples between.
fn are_apart(call: &Call, samples: usize) -> bool {
    call.names() && call.stretches.windows(2).any(|two| two[1].start - two[0].end == samples)
}

/// Whether there are samples that are not flagged at this sensitivity and would be at 10.
fn is_gentle(call: &Call) -> bool {
    call.names() && flagged(&floats(&call.before.0), 10.0, settings_of(call).1) != call.stretches
}

/// What the calls have to be, beside what is common to all functions.
pub const CLASSES: &[Class<Call>] = &[
    Class { name: "on 7 samples", least: 500, holds: |c| c.is_accepted() && c.n() == 7 },
    Class { name: "on 8 samples", least: 500, holds: |c| c.names() && c.n() == 8 },
    Class { name: "on 9 samples", least: 500, holds: |c| c.names() && c.n() == 9 },
    Class {
        name: "none flagged, on 8 samples or more",
        least: 100,
        holds: |c| c.is_accepted() && c.n() > 7 && !c.names(),
    },
    Class { name: "fewer flagged than at 10", least: 500, holds: is_gentle },
    Class { name: "sensitivity 1", least: 500, holds: |c| c.names() && sensitivity(c) == 1.0 },
    Class { name: "sensitivity 10", least: 500, holds: |c| c.names() && sensitivity(c) == 10.0 },
    Class { name: "sensitivity below 1", least: 500, holds: |c| c.names() && sensitivity(c) < 1.0 },
    Class { name: "sensitivity above 10", least: 500, holds: |c| c.names() && sensitivity(c) > 10.0 },
    Class { name: "sensitivity infinite", least: 100, holds: |c| c.names() && sensitivity(c).is_infinite() },
    Class { name: "sensitivity between", least: 500, holds: |c| c.names() && (1.1..9.9).contains(&sensitivity(c)) },
    Class { name: "a run of 1", least: 500, holds: |c| any_run(c, |run| run.len() == 1) },
    Class { name: "a run of 2", least: 500, holds: |c| any_run(c, |run| run.len() == 2) },
    Class { name: "a run of 10 or more", least: 500, holds: |c| any_run(c, |run| run.len() >= 10) },
    Class { name: "a run from place 1 on", least: 500, holds: |c| any_run(c, |run| run.start == 1) },
    Class { name: "a run from place 2 on", least: 500, holds: |c| any_run(c, |run| run.start == 2) },
    Class { name: "a run to place n-2", least: 500, holds: |c| any_run(c, |run| run.end == c.n() - 1) },
    Class { name: "a run to place n-3", least: 500, holds: |c| any_run(c, |run| run.end == c.n() - 2) },
    Class { name: "two runs, one sample between", least: 500, holds: |c| are_apart(c, 1) },
    Class { name: "two runs, two samples between", least: 500, holds: |c| are_apart(c, 2) },
    Class { name: "a click just at the limit", least: 500, holds: |c| !c.names() && is_at_limit(c) },
    Class { name: "answered 8", least: 100, holds: |c| c.number() == 8 },
    Class { name: "answered 8 past the first named", least: 10, holds: is_past_first },
];

/// The floor before the first place.
fn opening(call: &Call) -> f32 {
    opening_floor(settings_of(call).1, &magnitudes(&floats(&call.before.0)))
}

/// Whether a sample is flagged in a recording of more samples than the mean is of, at a place that is so.
fn flags_of_more(call: &Call, so: impl Fn(usize) -> bool) -> bool {
    call.n() > MEAN_OVER && any_run(call, |run| run.clone().any(&so))
}

/// Whether the other start flags other samples.
fn differs_from_old(call: &Call) -> bool {
    call.is_accepted() && flagged(&floats(&call.before.0), sensitivity(call), Start::Old) != call.stretches
}

/// Whether some samples are not 0, and all are subnormal or 0.
fn is_subnormal(call: &Call) -> bool {
    let samples = floats(&call.before.0);
    samples.iter().any(|x| *x != 0.0) && samples.iter().all(|x| !x.is_normal() && x.is_finite())
}

/// What those from the mean have to be, beside all that.
pub const FROM_MEAN: &[Class<Call>] = &[
    Class { name: "mean raised to 1e-6", least: 2_000, holds: |c| c.is_accepted() && c.n() > 7 && opening(c) == 1e-6 },
    Class { name: "mean raised, and a sample flagged", least: 500, holds: |c| c.names() && opening(c) == 1e-6 },
    Class { name: "mean above 1e-6, and a sample flagged", least: 10_000, holds: |c| c.names() && opening(c) > 1e-6 },
    Class { name: "on 1,023 samples", least: 50, holds: |c| c.names() && c.n() == MEAN_OVER - 1 },
    Class { name: "on 1,024 samples", least: 50, holds: |c| c.names() && c.n() == MEAN_OVER },
    Class { name: "on 1,025 samples", least: 50, holds: |c| c.names() && c.n() == MEAN_OVER + 1 },
    Class { name: "on 1,026 samples", least: 50, holds: |c| c.names() && c.n() == MEAN_OVER + 2 },
    Class {
        name: "flagged within the first 1,024 of more",
        least: 500,
        holds: |c| flags_of_more(c, |at| at < MEAN_OVER),
    },
    Class { name: "flagged at place 1,023 of more", least: 50, holds: |c| flags_of_more(c, |at| at + 1 == MEAN_OVER) },
    Class { name: "flagged at place 1,024", least: 50, holds: |c| flags_of_more(c, |at| at == MEAN_OVER) },
    Class { name: "flagged behind the first 1,024", least: 500, holds: |c| flags_of_more(c, |at| at >= MEAN_OVER) },
    Class { name: "other samples than from the old start", least: 5_000, holds: differs_from_old },
    Class { name: "none, and some from the old start", least: 2_000, holds: |c| !c.names() && differs_from_old(c) },
    Class { name: "all subnormal", least: 50, holds: |c| c.is_accepted() && is_subnormal(c) },
    Class {
        name: "with a sample of 65,536, and one flagged",
        least: 500,
        holds: |c| c.names() && c.before.0.iter().any(|word| word & 0x7fff_ffff == 0x4780_0000),
    },
];

/// Whether a later place than the first named was the first whose result was not in range.
fn is_past_first(call: &Call) -> bool {
    call.number() == 8 && call.answer.value() > call.stretches[0].start
}
