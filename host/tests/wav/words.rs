//! Words for samples, and rates: those on which something turns, and any.
use cathar_host::draw::Draw;
use cathar_host::recording::in_range;

/// Words on which something turns: zeros, subnormals, the halves next to 0 and next to the two ends, with the floats on
/// either side, the ends, 1 and -1, and the loudest that are in range.
pub const LOUD: [u32; 44] = [
    0x0000_0000,
    0x8000_0000,
    0x0000_0001,
    0x8000_0001,
    0x007f_ffff,
    0x807f_ffff,
    0x0080_0000,
    0x377f_ffff,
    0x3780_0000,
    0x3780_0001,
    0xb77f_ffff,
    0xb780_0000,
    0xb780_0001,
    0x383f_ffff,
    0x3840_0000,
    0x3840_0001,
    0xb83f_ffff,
    0xb840_0000,
    0xb840_0001,
    0x3f7f_fe00,
    0x3f7f_feff,
    0x3f7f_ff00,
    0x3f7f_ff01,
    0x3f7f_ffff,
    0x3f80_0000,
    0x3f80_0001,
    0xbf7f_fe00,
    0xbf7f_feff,
    0xbf7f_ff00,
    0xbf7f_ff01,
    0xbf7f_ffff,
    0xbf80_0000,
    0xbf80_0001,
    0xbf80_0080,
    0xbf80_0100,
    0x4000_0000,
    0xc000_0000,
    0x4700_0000,
    0xc700_0000,
    0x477f_ffff,
    0xc77f_ffff,
    0x4780_0000,
    0xc780_0000,
    0x3e80_0000,
];

/// Words that are not in range: the next beyond 65,536, larger ones, infinities, and NaN that are quiet and signalling.
pub const TOO_LOUD: [u32; 16] = [
    0x4780_0001,
    0xc780_0001,
    0x4800_0000,
    0xc800_0000,
    0x7f7f_ffff,
    0xff7f_ffff,
    0x7f80_0000,
    0xff80_0000,
    0x7f80_0001,
    0xff80_0001,
    0x7fbf_ffff,
    0x7fc0_0000,
    0xffc0_0000,
    0x7fff_ffff,
    0xffff_ffff,
    0x4f00_0000,
];

/// Rates: none, usual ones, those whose double has 32 digits or more, and the highest; one with four different bytes.
pub const RATES: [u32; 14] = [
    0,
    1,
    8_000,
    11_025,
    44_100,
    48_000,
    96_000,
    192_000,
    0x0102_0304,
    0x7fff_ffff,
    0x8000_0000,
    0x8000_0001,
    u32::MAX - 1,
    u32::MAX,
];

/// One of these.
pub fn one_of(draw: &mut Draw, of: &[u32]) -> u32 {
    of[draw.below(of.len() as u64) as usize]
}

/// One of the rates, or any.
pub fn rate(draw: &mut Draw) -> u32 {
    match draw.below(3) {
        0 => draw.word() as u32,
        _ => one_of(draw, &RATES),
    }
}

/// The float that is so many halves of a step, and the two on either side of it.
pub fn beside_halves(halves: i32) -> [u32; 5] {
    let word = (halves as f32 / 65_536.0).to_bits();
    let down = |by: u32| if word & 0x7fff_ffff >= by { word - by } else { word };
    [down(2), down(1), word, word + 1, word + 2]
}

/// Any word that is in range: of a usual size, a half, an edge, or of any exponent.
pub fn any(draw: &mut Draw) -> u32 {
    let word = match draw.below(5) {
        0 => one_of(draw, &LOUD),
        1 => beside_halves(draw.below(131_080) as i32 - 65_540)[draw.below(5) as usize],
        2 => (draw.digits(32) as i32 as f32 / 2_147_483_648.0).to_bits(),
        3 => draw.word() as u32,
        _ => (draw.digits(32) as i32 as f32 / 32_768.0).to_bits(),
    };
    if in_range(word) {
        word
    } else {
        0x3e80_0000
    }
}

/// So many words that are in range.
pub fn samples(draw: &mut Draw, count: usize) -> Vec<u32> {
    (0..count).map(|_| any(draw)).collect()
}
