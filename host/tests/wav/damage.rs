//! Files that are not as they were written.
use super::made::Change;
use cathar_host::draw::Draw;

/// By how many bytes a file is made longer at most.
const MOST_MORE: usize = 24;

/// Hands on a file with each binary digit changed.
pub fn digits(file: &[u8], put: &mut dyn FnMut(Change, Vec<u8>)) {
    for digit in 0..8 * file.len() {
        let mut other = file.to_vec();
        other[digit / 8] ^= 1 << (digit % 8);
        put(Change::Digit, other);
    }
}

/// Hands on a file with each byte changed to each other value.
pub fn bytes(file: &[u8], put: &mut dyn FnMut(Change, Vec<u8>)) {
    for place in 0..file.len() {
        for by in 1..=u8::MAX {
            let mut other = file.to_vec();
            other[place] ^= by;
            put(Change::Byte, other);
        }
    }
}

/// The file with a RIFF size that says how long it is, if it has one.
pub fn mended(mut file: Vec<u8>) -> Vec<u8> {
    let size = (file.len() as u32).wrapping_sub(8).to_le_bytes();
    file.iter_mut().skip(4).zip(size).for_each(|(byte, of)| *byte = of);
    file
}

/// Hands on a file that is cut short at each place, without a byte at each place, and with one more byte at each place;
/// and one that is made longer by each number of bytes, which are 0, any, or its own from byte 12 on. Each is handed on
/// as it is, and with a RIFF size that says how long it is.
pub fn lengths(draw: &mut Draw, file: &[u8], put: &mut dyn FnMut(Change, Vec<u8>)) {
    let mut both = |plain: Change, with_size: Change, other: Vec<u8>| {
        put(plain, other.clone());
        put(with_size, mended(other));
    };
    for place in 0..file.len() {
        both(Change::Cut, Change::CutMended, file[..place].to_vec());
        both(Change::Removed, Change::RemovedMended, [&file[..place], &file[place + 1..]].concat());
    }
    for place in 0..=file.len() {
        for byte in [0, 1, 0xff, draw.word() as u8] {
            let other = [&file[..place], &[byte], &file[place..]].concat();
            both(Change::Inserted, Change::InsertedMended, other);
        }
    }
    for more in 1..=MOST_MORE.min(file.len() - 12) {
        let any: Vec<u8> = (0..more).map(|_| draw.word() as u8).collect();
        for behind in [&vec![0; more], &any, &file[12..12 + more].to_vec()] {
            both(Change::Longer, Change::LongerMended, [file, behind].concat());
        }
    }
    both(Change::Longer, Change::LongerMended, [file, &file[12..]].concat());
    both(Change::Longer, Change::LongerMended, [file, file].concat());
}

/// What may come to stand in the place of a word: names, and sizes beside those that are right.
fn any_word(draw: &mut Draw) -> [u8; 4] {
    let names = [b"RIFF", b"WAVE", b"fmt ", b"data", b"LIST", b"fact"];
    match draw.below(4) {
        0 => *names[draw.below(6) as usize],
        1 => (draw.below(24) as u32).to_le_bytes(),
        2 => (u32::MAX - draw.below(24) as u32).to_le_bytes(),
        _ => (draw.word() as u32).to_le_bytes(),
    }
}

/// A file with two or three bytes or words changed, mostly to a name or a size. Half of the time its RIFF size is
/// right. The change may be none.
pub fn several(draw: &mut Draw, file: &[u8]) -> Vec<u8> {
    let mut other = file.to_vec();
    for _ in 0..2 + draw.below(2) {
        let place = draw.below(file.len() as u64) as usize;
        let at = (place / 2 * 2).min(file.len() - 4);
        match draw.below(3) {
            0 => other[place] ^= 1 << draw.below(8),
            1 => other[at..at + 4].copy_from_slice(&any_word(draw)),
            _ => {
                let from = draw.below(file.len() as u64 - 3) as usize;
                let four = [file[from], file[from + 1], file[from + 2], file[from + 3]];
                other[at..at + 4].copy_from_slice(&four);
            }
        }
    }
    match draw.below(2) {
        0 => mended(other),
        _ => other,
    }
}

/// Any bytes, mostly behind `RIFF`, a size that is right and `WAVE`.
pub fn random(draw: &mut Draw) -> Vec<u8> {
    let length = draw.below(100) as usize;
    let mut bytes: Vec<u8> = (0..length).map(|_| draw.word() as u8).collect();
    if draw.below(2) == 0 {
        bytes.iter_mut().for_each(|byte| *byte &= 3);
    }
    let kind = draw.below(8);
    if kind > 0 {
        bytes.iter_mut().zip(b"RIFF....WAVE").for_each(|(byte, of)| *byte = *of);
        bytes = mended(bytes);
    }
    if kind > 3 {
        let names = b"fmt \x10\0\0\0\x01\0\x01\0\0\0\0\0\0\0\0\0\0\0\x10\0data";
        bytes.iter_mut().skip(12).zip(names).for_each(|(byte, of)| *byte = *of);
    }
    bytes
}
