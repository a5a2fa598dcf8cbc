//! Words for the settings: those on which something turns, and any.
use cathar_host::draw::Draw;
use cathar_host::inpaint::MOST_RATE;
use cathar_host::stored::{are_allowed, is_allowed, Version, BITS, RATE, RUN_LENGTH};

/// Patterns of floats on which something turns: zeros, the least above and below 0, the largest subnormals, some numbers,
/// the largest, infinities, and NaN that are quiet and signalling, with either sign and some payload.
pub const FLOATS: [u32; 24] = [
    0x0000_0000,
    0x8000_0000,
    0x0000_0001,
    0x8000_0001,
    0x007f_ffff,
    0x807f_ffff,
    0x0080_0000,
    0x3e99_999a,
    0x3f80_0000,
    0xbf80_0000,
    0x4120_0000,
    0x4780_0000,
    0x7f7f_fffe,
    0x7f7f_ffff,
    0xff7f_ffff,
    0x7f80_0000,
    0xff80_0000,
    0x7f80_0001,
    0xff80_0001,
    0x7fbf_ffff,
    0x7fc0_0000,
    0xffc0_0000,
    0x7fff_ffff,
    0xffff_ffff,
];

/// Rates at the ends of what is allowed and past them, and usual ones; some of them with the bytes the other way round.
pub const RATES: [u32; 12] = [
    0,
    1,
    8_000,
    44_100,
    48_000,
    MOST_RATE - 1,
    MOST_RATE,
    MOST_RATE + 1,
    0x0100_0100,
    0x7fff_ffff,
    0x8000_0000,
    u32::MAX,
];

/// Run lengths likewise.
pub const RUNS: [u32; 16] =
    [0, 1, 2, 3, 15, 16, 17, 4_095, 4_096, 4_097, 8_192, 65_538, 0x0200_0000, 0x8000_0010, u32::MAX - 1, u32::MAX];

/// The words of a part on which something turns.
pub fn edges(part: usize) -> &'static [u32] {
    match part {
        RATE => &RATES,
        RUN_LENGTH => &RUNS,
        _ => &FLOATS,
    }
}

/// One of these.
pub fn one_of(draw: &mut Draw, of: &[u32]) -> u32 {
    of[draw.below(of.len() as u64) as usize]
}

/// A NaN of any payload and either sign.
fn any_nan(draw: &mut Draw) -> u32 {
    0x7f80_0000 | (draw.digits(1) as u32) << 31 | (1 + draw.below(0x7f_ffff) as u32)
}

/// Any word for a part: one of its edges, a NaN, any, or a float of a usual size.
pub fn any(draw: &mut Draw, part: usize) -> u32 {
    match draw.below(8) {
        0..=3 => one_of(draw, edges(part)),
        4 => any_nan(draw),
        5 => draw.word() as u32,
        _ if part == RUN_LENGTH => draw.below(5_000) as u32,
        _ if part == RATE => draw.digits(25) as u32,
        _ => (draw.digits(20) as f32 / 65_536.0).to_bits(),
    }
}

/// Any word for a part that is allowed for it.
pub fn allowed(draw: &mut Draw, part: usize) -> u32 {
    loop {
        let word = any(draw, part);
        if is_allowed(part, word) {
            return word;
        }
    }
}

/// One that is not; nothing, where all are.
pub fn not_allowed(draw: &mut Draw, part: usize) -> Option<u32> {
    let mut words = (0..100).map(|_| any(draw, part));
    (part != BITS).then(|| words.find(|word| !is_allowed(part, *word))).flatten()
}

/// Seven settings that are allowed.
pub fn settings(draw: &mut Draw) -> Vec<u32> {
    (1..=RUN_LENGTH).map(|part| allowed(draw, part)).collect()
}

/// Seven settings: mostly all are allowed, often all but one, and at times they are any.
pub fn any_settings(draw: &mut Draw) -> Vec<u32> {
    let mut words = settings(draw);
    match draw.below(8) {
        0..=3 => {}
        4..=6 => {
            let part = 1 + draw.below(RUN_LENGTH as u64) as usize;
            words[part - 1] = not_allowed(draw, part).unwrap_or(words[part - 1]);
        }
        _ => words = (1..=RUN_LENGTH).map(|part| any(draw, part)).collect(),
    }
    words
}

/// Settings that are damaged in every way: usual ones, those at the ends of what is allowed, and some that are drawn.
pub fn bases(draw: &mut Draw) -> Vec<Vec<u32>> {
    let float = f32::to_bits;
    let mut bases = vec![
        vec![float(0.98), float(6.0), float(0.5), 16, float(1.0), 48_000, 16],
        vec![1, float(f32::INFINITY), float(f32::NEG_INFINITY), u32::MAX, float(-0.0), 0, 2],
        vec![float(f32::MAX), float(-0.0), 0, 0, float(f32::MIN), MOST_RATE, 4_096],
        vec![float(1.0), float(f32::MAX), 1, 0x7f80_0001, float(-1.0), 1, 3],
    ];
    bases.extend((0..2).map(|_| settings(draw)));
    assert!(bases.iter().all(|words| are_allowed(words)), "settings that are allowed");
    bases
}

/// As many of these as a version has.
pub fn of(version: Version, words: &[u32]) -> &[u32] {
    &words[..version.settings()]
}
