//! Short recordings over a few words, each with every proposal over the same words.

/// The threshold, and the next ones below and above it.
const ONE: u32 = 0x3f80_0000;
const BELOW: u32 = ONE - 1;
const ABOVE: u32 = ONE + 1;

/// The words: zeros of both signs; 1 and -1, and what is next to each; 65,536 and -65,536, and the next ones beyond; a
/// quiet and a signalling NaN; and both infinities.
pub const WORDS: [u32; 16] = [
    0x0000_0000,
    0x8000_0000,
    ONE,
    0x8000_0000 | ONE,
    BELOW,
    0x8000_0000 | BELOW,
    ABOVE,
    0x8000_0000 | ABOVE,
    0x4780_0000,
    0xc780_0000,
    0x4780_0001,
    0xc780_0001,
    0x7fc0_0000,
    0xff80_0001,
    0x7f80_0000,
    0xff80_0000,
];

/// Fewer of them: both zeros, 1 and -1, the one next below 1, 65,536, the one next beyond, and a NaN.
pub const FEWER: [u32; 8] =
    [0x0000_0000, 0x8000_0000, ONE, 0x8000_0000 | ONE, BELOW, 0x4780_0000, 0x4780_0001, 0x7fc0_0000];

/// So few that there may be proposals of every length up to three.
pub const FEWEST: [u32; 4] = [0x0000_0000, ONE, 0x8000_0000 | ONE, 0x7fc0_0000];

/// Thresholds: 1, the next ones below and above it, 65,536 and the next above it, and the least above 0.
pub const THRESHOLDS: [f32; 6] = [1.0, 0.99999994, 1.0000001, 65536.0, 65536.01, 1e-45];

/// The list of this number and length: its digits stand for words.
fn list(words: &[u32], number: usize, length: u32) -> Vec<u32> {
    (0..length).map(|place| words[number / words.len().pow(place) % words.len()]).collect()
}

/// Hands on each recording of so many samples over these words, with each proposal of so many.
pub fn each(words: &[u32], samples: u32, proposed: u32, put: &mut dyn FnMut(&[u32], &[u32])) {
    for number in 0..words.len().pow(samples) {
        let recording = list(words, number, samples);
        for number in 0..words.len().pow(proposed) {
            put(&recording, &list(words, number, proposed));
        }
    }
}
