//! Blocks that are not as they were written.
use super::made::Change;
use super::words;
use cathar_host::draw::Draw;
use cathar_host::stored::{HEAD, ROW, WORD};

/// By how many bytes a block is made longer at most.
const MOST_MORE: usize = 64;

/// Hands on a block with each binary digit changed.
pub fn digits(block: &[u8], put: &mut dyn FnMut(Change, Vec<u8>)) {
    for digit in 0..8 * block.len() {
        let mut other = block.to_vec();
        other[digit / 8] ^= 1 << (digit % 8);
        put(Change::Digit, other);
    }
}

/// Hands on a block with each byte changed to each other value.
pub fn bytes(block: &[u8], put: &mut dyn FnMut(Change, Vec<u8>)) {
    for place in 0..block.len() {
        for by in 1..=u8::MAX {
            let mut other = block.to_vec();
            other[place] ^= by;
            put(Change::Byte, other);
        }
    }
}

/// Hands on a block that is cut short at each place, without a byte at each place, and with one more byte at each place;
/// and one that is made longer by each number of bytes, which are 0, any, or its own from the first on.
pub fn lengths(draw: &mut Draw, block: &[u8], put: &mut dyn FnMut(Change, Vec<u8>)) {
    for place in 0..block.len() {
        put(Change::Cut, block[..place].to_vec());
        put(Change::Removed, [&block[..place], &block[place + 1..]].concat());
    }
    for place in 0..=block.len() {
        for byte in [0, 1, 4, 0xff, draw.word() as u8] {
            put(Change::Inserted, [&block[..place], &[byte], &block[place..]].concat());
        }
    }
    for more in 1..=MOST_MORE {
        let any: Vec<u8> = (0..more).map(|_| draw.word() as u8).collect();
        for behind in [&vec![0; more], &any, &block[..more].to_vec()] {
            put(Change::Longer, [block, behind].concat());
        }
    }
    put(Change::Longer, [block, block].concat());
}

/// A block with two or three bytes or words changed, mostly to what stands elsewhere in a block or to an edge. The change
/// may be none.
pub fn several(draw: &mut Draw, block: &[u8]) -> Vec<u8> {
    let mut other = block.to_vec();
    for _ in 0..2 + draw.below(2) {
        let place = draw.below(block.len() as u64) as usize;
        let at = place / WORD * WORD;
        let word = match draw.below(6) {
            0 => words::one_of(draw, &words::FLOATS),
            1 => words::one_of(draw, &words::RUNS),
            2 => draw.below(130) as u32,
            3 => 4,
            _ => {
                other[place] ^= 1 << draw.below(8);
                continue;
            }
        };
        other[at..at + WORD].copy_from_slice(&word.to_le_bytes());
    }
    other
}

/// A block with two places of its contents or bodies exchanged: of the same kind in two rows, or two bodies.
pub fn exchanged(draw: &mut Draw, block: &[u8], parts: usize) -> Vec<u8> {
    let [one, other] = [draw.below(parts as u64) as usize, draw.below(parts as u64) as usize];
    let kind = draw.below(5) as usize;
    let mut changed = block.to_vec();
    let mut exchange = |at: usize, with: usize| (0..WORD).for_each(|byte| changed.swap(at + byte, with + byte));
    match kind {
        0..=2 => exchange(HEAD + ROW * one + WORD * kind, HEAD + ROW * other + WORD * kind),
        3 => exchange(HEAD + ROW * parts + WORD * one, HEAD + ROW * parts + WORD * other),
        _ => (0..3).for_each(|of| exchange(HEAD + ROW * one + WORD * of, HEAD + ROW * other + WORD * of)),
    }
    changed
}

/// Any bytes, and at times any words, behind a version that is mostly known.
pub fn random(draw: &mut Draw) -> Vec<u8> {
    let length = [104, 120, draw.below(150) as usize][draw.below(3) as usize];
    let mut bytes: Vec<u8> = match draw.below(2) {
        0 => (0..length).map(|_| draw.word() as u8).collect(),
        _ => (0..length).map(|place| if place % 4 == 0 { draw.digits(7) as u8 } else { 0 }).collect(),
    };
    let version = [1, 2, 2, draw.below(4) as u32][draw.below(4) as usize].to_le_bytes();
    bytes.iter_mut().zip(version).for_each(|(byte, of)| *byte = of);
    bytes
}
