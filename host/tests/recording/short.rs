//! All journals of up to five words over a few words, on recordings of up to two samples, with each used up
//! to past the end.
use cathar_host::recording::Recording;

const WORDS: [u32; 11] = [0, 1, 2, 5, 6, 7, 8, 9, 255, 256, u32::MAX];
const LONGEST: u32 = 5;
const SAMPLES: [u32; 2] = [0x3f80_0000, 0xffff_ffff];
const MARKS: [u8; 2] = [4, 255];

/// Hands on each of them.
pub fn each(put: &mut dyn FnMut(Recording)) {
    for length in 0..=LONGEST {
        for number in 0..WORDS.len().pow(length) {
            let journal = journal(number, length);
            for n in 0..=SAMPLES.len() {
                for used in 0..=LONGEST as usize + 1 {
                    let (samples, marks) = (SAMPLES[..n].to_vec(), MARKS[..n].to_vec());
                    put(Recording::new(samples, marks, journal.clone(), used));
                }
            }
        }
    }
}

/// The journal of this number: its digits stand for words.
fn journal(number: usize, length: u32) -> Vec<u32> {
    let base = WORDS.len();
    (0..length).map(|place| WORDS[number / base.pow(place) % base]).collect()
}
