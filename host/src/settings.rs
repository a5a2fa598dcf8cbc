//! The settings of each repair: those on which something turns, and any.
use crate::draw::Draw;
use crate::inpaint::{Gap, HELD_RUN, MOST_RATE};
use crate::whole::{Repair, Start};

/// Thresholds that are not allowed.
pub const NO_THRESHOLDS: [f32; 8] = [0.0, -0.0, -1.0, -1e-45, f32::MIN, f32::INFINITY, f32::NEG_INFINITY, f32::NAN];

/// Thresholds that are next to nothing, and those that only the loudest samples reach, or none.
pub const TINY: [f32; 3] = [1e-45, f32::MIN_POSITIVE, 1e-30];
pub const HUGE: [f32; 4] = [65536.0, 65536.01, 1e30, f32::MAX];

/// Sensitivities at the ends 1 and 10, next to them, and past them.
pub const SENSITIVITIES: [f32; 16] = [
    1.0,
    10.0,
    0.99999994,
    1.0000001,
    9.999999,
    10.000001,
    0.0,
    -0.0,
    0.5,
    -5.0,
    11.0,
    12.0,
    13.0,
    1e30,
    f32::INFINITY,
    f32::NEG_INFINITY,
];

/// The strength above which there is a second pass, and the next ones below and above it.
pub const THREE_TENTHS: f32 = 0.3;
pub const BELOW_THREE_TENTHS: f32 = 0.29999998;
pub const ABOVE_THREE_TENTHS: f32 = 0.30000004;

/// Strengths at the ends 0 and 1, next to them and past them, and at 0.3.
pub const STRENGTHS: [f32; 20] = [
    0.0,
    -0.0,
    1e-45,
    -1e-45,
    f32::MIN_POSITIVE,
    -0.5,
    -2.0,
    f32::NEG_INFINITY,
    BELOW_THREE_TENTHS,
    THREE_TENTHS,
    ABOVE_THREE_TENTHS,
    0.25,
    0.5,
    0.75,
    0.99999994,
    1.0,
    1.0000001,
    2.0,
    f32::MAX,
    f32::INFINITY,
];

/// Every number of bits from 0 to 32, and the largest.
pub fn each_bits() -> impl Iterator<Item = u32> {
    (0..=32).chain([u32::MAX])
}

/// Iterations: few, and those around the most that are run.
pub const ITERATIONS: [u32; 9] = [0, 1, 2, 3, 6, 15, 16, 17, u32::MAX];
const FEW: u64 = 5;

/// How often a setting is not allowed, or is one of those on which something turns: once in so many times.
const RARELY: u64 = 32;
const OFTEN: u64 = 3;

fn one_of(draw: &mut Draw, of: &[f32]) -> f32 {
    of[draw.below(of.len() as u64) as usize]
}

/// A number above 0 and up to 1.
fn part(draw: &mut Draw) -> f32 {
    (1 + draw.digits(24)) as f32 / 16_777_216.0
}

/// The magnitude of any of these samples that is in range and no zero, and at times the largest of several; or 0.5.
fn magnitude(draw: &mut Draw, samples: &[u32]) -> f32 {
    let mut found: f32 = 0.0;
    for _ in 0..1 + draw.below(6) {
        if !samples.is_empty() {
            let x = f32::from_bits(samples[draw.below(samples.len() as u64) as usize]).abs();
            found = if x <= 65536.0 { found.max(x) } else { found };
        }
    }
    if found > 0.0 {
        found
    } else {
        0.5
    }
}

/// A threshold is mostly a sample's magnitude, or one step above or below it.
pub fn threshold(draw: &mut Draw, samples: &[u32]) -> f32 {
    match draw.below(RARELY) {
        0 => one_of(draw, &NO_THRESHOLDS),
        1 => one_of(draw, &TINY),
        2 => one_of(draw, &HUGE),
        _ => f32::from_bits(magnitude(draw, samples).to_bits() + draw.below(3) as u32 - 1),
    }
}

pub fn declip(draw: &mut Draw, samples: &[u32]) -> Repair {
    Repair::Declip { threshold: threshold(draw, samples) }
}

/// Any sensitivity, rarely one that is not allowed.
pub fn sensitivity(draw: &mut Draw) -> f32 {
    match (draw.below(RARELY), draw.below(OFTEN)) {
        (0, _) => f32::NAN,
        (_, 0) => one_of(draw, &SENSITIVITIES),
        _ => 1.0 + 9.0 * part(draw),
    }
}

pub fn decrackle(draw: &mut Draw, _samples: &[u32]) -> Repair {
    Repair::Decrackle { sensitivity: sensitivity(draw), start: Start::Mean }
}

pub fn decrackle_old_start(draw: &mut Draw, _samples: &[u32]) -> Repair {
    Repair::Decrackle { sensitivity: sensitivity(draw), start: Start::Old }
}

fn strength(draw: &mut Draw) -> f32 {
    match (draw.below(RARELY), draw.below(OFTEN)) {
        (0, _) => f32::NAN,
        (_, 0) => one_of(draw, &STRENGTHS),
        _ => part(draw),
    }
}

/// Any number of bits, low ones likelier: with many bits most samples stay.
fn bits(draw: &mut Draw) -> u32 {
    match draw.below(3) {
        0 => draw.below(33) as u32,
        _ => 2 + draw.below(10) as u32,
    }
}

pub fn dequantize(draw: &mut Draw, _samples: &[u32]) -> Repair {
    Repair::Dequantize { bits: bits(draw), strength: strength(draw) }
}

/// The iterations are mostly few where there are many samples.
pub fn cosparse(draw: &mut Draw, samples: &[u32]) -> Repair {
    let few = samples.len() > 60 && draw.below(8) != 0;
    let choices = if few { FEW } else { ITERATIONS.len() as u64 };
    let iterations = ITERATIONS[draw.below(choices) as usize];
    Repair::Cosparse { bits: bits(draw), strength: strength(draw), iterations }
}

/// Passes over a gap: mostly 0 to 5, which the original is run with; at times the most.
pub fn passes(draw: &mut Draw) -> u32 {
    match draw.below(200) {
        0 => u32::MAX,
        _ => draw.below(6) as u32,
    }
}

/// A gap that is not within n samples: of no length, past the end, or at the end of what a number can be.
pub fn outside(draw: &mut Draw, n: usize) -> Gap {
    let start = draw.below(n as u64 + 1) as usize;
    let more = 1 + draw.below(5) as usize;
    match draw.below(4) {
        0 => Gap { start, len: 0 },
        1 => Gap { start, len: n - start + more },
        2 => Gap { start: n + more - 1, len: more },
        _ => Gap { start, len: usize::MAX - draw.below(2) as usize },
    }
}

/// The settings of a scan: a rate, a longest gap in milliseconds, and from how many equal words on these are held.
#[derive(Clone, Copy, Debug, PartialEq)]
pub struct OfScan {
    pub rate: u32,
    pub max_gap_ms: f32,
    pub held_run: u32,
}

impl OfScan {
    /// At this rate, with this longest gap, and with the usual held run.
    pub const fn new(rate: u32, max_gap_ms: f32) -> OfScan {
        OfScan { rate, max_gap_ms, held_run: HELD_RUN as u32 }
    }

    /// The same with this held run.
    pub const fn holding(self, held_run: u32) -> OfScan {
        OfScan { held_run, ..self }
    }
}

/// 48 samples, and 16 equal words.
pub const USUAL: OfScan = OfScan::new(48_000, 1.0);

/// No limit.
pub const UNLIMITED: OfScan = OfScan::new(48_000, f32::MAX);

/// Settings that a scan does not allow.
pub const NO_SCANS: [OfScan; 7] = [
    OfScan::new(MOST_RATE + 1, 1.0),
    OfScan::new(48_000, f32::NAN),
    OfScan::new(48_000, f32::INFINITY),
    USUAL.holding(0),
    USUAL.holding(1),
    USUAL.holding(4_097),
    USUAL.holding(u32::MAX),
];

/// Any of them.
pub fn no_scan(draw: &mut Draw) -> OfScan {
    NO_SCANS[draw.below(NO_SCANS.len() as u64) as usize]
}

/// Settings whose limit is near so many samples, from below and from above: at the rate 1,000 the limit is the
/// number of milliseconds, cut to a whole number.
pub fn near(draw: &mut Draw, length: usize) -> OfScan {
    let beside = [-1.0, -0.5, -0.01, 0.0, 0.01, 0.5, 0.99][draw.below(7) as usize];
    OfScan::new(1_000, length as f32 + beside)
}

/// These settings, one time in four with another held run, mostly a short one. It is drawn aside.
pub fn any_held_run(draw: &Draw, settings: OfScan) -> OfScan {
    let mut draw = draw.aside();
    match draw.below(32) {
        0..=2 => settings.holding(2),
        3 => settings.holding(3),
        4 => settings.holding([15, 17][draw.below(2) as usize]),
        5 => settings.holding(2 + draw.below(40) as u32),
        6 => settings.holding(4_096),
        7 => settings.holding(2 + draw.below(4_095) as u32),
        _ => settings,
    }
}
