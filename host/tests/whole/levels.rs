//! Recordings for both forms of dequantize: samples on levels and halfway between them.
use super::calls::Call;
use cathar_host::count::Class;
use cathar_host::draw::Draw;
use cathar_host::settings::{self, ABOVE_THREE_TENTHS, BELOW_THREE_TENTHS, THREE_TENTHS};
use cathar_host::whole::{floats, Repair};

/// So many samples for these bits, held to 4..24: whole numbers of half steps, that wander slowly through -1 to 1.
pub fn samples(draw: &mut Draw, n: usize, bits: u32) -> Vec<u32> {
    let halves = 1i64 << bits.clamp(4, 24);
    let mut at = draw.below(2 * halves as u64 + 1) as i64 - halves;
    let mut next = || {
        at = (at + draw.below(7) as i64 - 3).clamp(-halves, halves);
        at as f32 / halves as f32
    };
    (0..n).map(|_| next().to_bits()).collect()
}

/// Takes samples, bits and a strength.
type Put<'a> = &'a mut dyn FnMut(&mut Draw, &[u32], u32, f32);

/// Hands on every number of bits with every strength on which something turns, and samples at their levels: few of
/// them, and some more.
pub fn each(draw: &mut Draw, put: Put) {
    for bits in settings::each_bits() {
        for strength in settings::STRENGTHS.into_iter().chain([f32::NAN]) {
            for n in [0, 1, 2, 3, 4, 5, 6, 7, 40] {
                let samples = samples(draw, n, bits);
                put(draw, &samples, bits, strength);
            }
        }
    }
}

fn bits(call: &Call) -> u32 {
    match call.repair {
        Repair::Dequantize { bits, .. } | Repair::Cosparse { bits, .. } => bits,
        _ => panic!("no dequantize: {call:?}"),
    }
}

fn strength(call: &Call) -> f32 {
    match call.repair {
        Repair::Dequantize { strength, .. } | Repair::Cosparse { strength, .. } => strength,
        _ => panic!("no dequantize: {call:?}"),
    }
}

fn iterations(call: &Call) -> u32 {
    match call.repair {
        Repair::Cosparse { iterations, .. } => iterations,
        _ => panic!("no dequantize_cosparse: {call:?}"),
    }
}

/// Whether a sample was changed, and the strength is so.
fn changes_at(call: &Call, so: fn(f32) -> bool) -> bool {
    call.changes() && so(strength(call))
}

/// Whether a sample lies halfway between two levels. A quotient by a power of 2 is exact.
fn has_halfway(call: &Call) -> bool {
    let levels = (1u64 << bits(call).clamp(4, 24)) as f32 / 2.0;
    call.changes() && floats(&call.before.0).iter().any(|x| (x * levels).fract().abs() == 0.5)
}

/// What the calls of both forms have to be, beside what is common to all functions.
pub const BOTH: &[Class<Call>] = &[
    Class { name: "bits below 4", least: 500, holds: |c| c.changes() && bits(c) < 4 },
    Class { name: "bits 4", least: 500, holds: |c| c.changes() && bits(c) == 4 },
    Class { name: "bits 5 to 23", least: 500, holds: |c| c.changes() && (5..24).contains(&bits(c)) },
    Class { name: "bits 24", least: 100, holds: |c| c.changes() && bits(c) == 24 },
    Class { name: "bits 25 to 32", least: 500, holds: |c| c.changes() && (25..33).contains(&bits(c)) },
    Class { name: "bits the largest number", least: 10, holds: |c| c.changes() && bits(c) == u32::MAX },
    Class { name: "a sample halfway between levels", least: 500, holds: has_halfway },
    Class { name: "strength 0 or -0", least: 500, holds: |c| c.is_accepted() && c.n() > 4 && strength(c) == 0.0 },
    Class { name: "strength below 0", least: 500, holds: |c| c.is_accepted() && c.n() > 4 && strength(c) < 0.0 },
    Class { name: "strength the least above 0", least: 100, holds: |c| c.names() && strength(c).to_bits() == 1 },
    Class { name: "strength one step below 0.3", least: 100, holds: |c| changes_at(c, |s| s == BELOW_THREE_TENTHS) },
    Class { name: "strength 0.3", least: 100, holds: |c| changes_at(c, |s| s == THREE_TENTHS) },
    Class { name: "strength one step above 0.3", least: 100, holds: |c| changes_at(c, |s| s == ABOVE_THREE_TENTHS) },
    Class { name: "strength 1", least: 500, holds: |c| changes_at(c, |s| s == 1.0) },
    Class { name: "strength above 1", least: 500, holds: |c| changes_at(c, |s| s > 1.0) },
    Class { name: "strength infinite", least: 100, holds: |c| changes_at(c, f32::is_infinite) },
    Class { name: "other strengths up to 0.3", least: 500, holds: |c| changes_at(c, |s| s < BELOW_THREE_TENTHS) },
    Class { name: "other strengths", least: 500, holds: |c| changes_at(c, |s| s > ABOVE_THREE_TENTHS && s < 1.0) },
];

/// Whether a second pass is made, or would be with another sample or two.
fn is_strong(call: &Call) -> bool {
    call.changes() && strength(call) > THREE_TENTHS
}

/// What the calls of the first form have to be, beside all that.
pub const CLASSES: &[Class<Call>] = &[
    Class { name: "naming none, on 2 samples", least: 20, holds: |c| c.is_accepted() && c.n() == 2 },
    Class { name: "one pass for want of strength", least: 500, holds: |c| c.changes() && c.n() > 4 && !is_strong(c) },
    Class { name: "one pass on 3 samples", least: 50, holds: |c| is_strong(c) && c.n() == 3 },
    Class { name: "one pass on 4 samples", least: 50, holds: |c| is_strong(c) && c.n() == 4 },
    Class { name: "two passes on 5 samples", least: 500, holds: |c| is_strong(c) && c.n() == 5 },
    Class { name: "two passes on more", least: 5_000, holds: |c| is_strong(c) && c.n() > 5 },
];

/// Whether a sample was changed in so many iterations.
fn changes_in(call: &Call, number: u32) -> bool {
    call.changes() && iterations(call) == number
}

/// Whether more iterations were asked for than are run, and one more would have changed a sample again.
fn would_go_on(call: &Call) -> bool {
    let once = Repair::Cosparse { bits: bits(call), strength: strength(call), iterations: 1 };
    call.changes() && iterations(call) > 16 && {
        let after = call.repair.after(&floats(&call.before.0));
        once.after(&after) != after
    }
}

/// What the calls of the second form have to be.
pub const COSPARSE: &[Class<Call>] = &[
    Class { name: "naming none, on 4 samples", least: 50, holds: |c| c.is_accepted() && c.n() == 4 },
    Class { name: "on 5 samples", least: 500, holds: |c| c.changes() && c.n() == 5 },
    Class {
        name: "0 iterations",
        least: 500,
        holds: |c| c.is_accepted() && c.n() > 4 && strength(c) > 0.0 && iterations(c) == 0,
    },
    Class { name: "1 iteration", least: 500, holds: |c| changes_in(c, 1) },
    Class { name: "2 iterations", least: 500, holds: |c| changes_in(c, 2) },
    Class { name: "15 iterations", least: 500, holds: |c| changes_in(c, 15) },
    Class { name: "16 iterations", least: 500, holds: |c| changes_in(c, 16) },
    Class { name: "17 iterations", least: 500, holds: |c| changes_in(c, 17) },
    Class { name: "2^32-1 iterations", least: 500, holds: |c| changes_in(c, u32::MAX) },
    Class { name: "a 17th would change a sample", least: 500, holds: would_go_on },
    Class { name: "answered 8", least: 100, holds: |c| c.number() == 8 },
];
