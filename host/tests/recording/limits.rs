//! Recordings at and past what refusals 1, 14, 2, 3 and 10 allow, so that several numbers apply at once.
use cathar_host::recording::{blocks, entry_words, Answer, Recording, MOST_SAMPLES};

/// Hands on recordings of few samples: each number of marks and of counts, each journal and each used beside the right
/// one, also where only its last 32 binary digits are.
pub fn small(put: &mut dyn FnMut(Recording)) {
    for n in 0..4 {
        for [marks, counts] in (0..5).flat_map(|marks| (0..3).map(move |counts| [marks, counts])) {
            for journal in [&[][..], &[4], &[0, 3], &[0, 7, 9, 1, 2], &[6, 6, 0, 7, 9, 1, 2], &[0, 7, 9, 1, 2, 0, 0]] {
                let beside = 0..journal.len() + 3;
                let past_32_bits = beside.clone().map(|used| used + (1 << 32));
                for used in beside.chain(past_32_bits).chain([usize::MAX / 2, usize::MAX]) {
                    put(recording(n, [marks, counts], journal, used));
                }
            }
        }
    }
}

/// Set marks: 0 to 9, and some whose last binary digits are those of a mark that is allowed.
const SET_MARKS: [u32; 21] =
    [0, 1, 2, 3, 4, 5, 6, 7, 8, 9, 15, 23, 24, 255, 257, 263, 264, 0x0700_0000, 0x0800_0000, 0x8000_0008, u32::MAX];

/// Hands on recordings with one entry, which is well-formed but for the mark that it set; and that mark.
pub fn set_marks(put: &mut dyn FnMut(Recording, u32)) {
    for set in SET_MARKS {
        for (n, old_mark) in [(1, 0), (2, 7), (300, 6), (1_200, 255)] {
            put(recording(n, [n, blocks(n)], &[0, 0x3f80_0000, old_mark, 1, set], 5), set);
        }
    }
}

/// Hands on recordings of the most samples and of one more, with a last entry that names the last sample,
/// or one past it.
pub fn large(put: &mut dyn FnMut(Recording)) {
    for n in [MOST_SAMPLES, MOST_SAMPLES + 1] {
        let counts = blocks(n);
        for marks in [n - 1, n, n + 1] {
            for used in [0, 1, 5, 6, usize::MAX] {
                put(recording(n, [marks, counts], &[n as u32 - 1, 0x1234_5678, 4, 1, 5], used));
            }
        }
        for (marks, counts) in [(n, counts - 1), (n, counts + 1), (n + 1, counts + 1)] {
            for used in [5, usize::MAX] {
                put(recording(n, [marks, counts], &[n as u32 - 1, 0x1234_5678, 4, 1, 5], used));
            }
        }
        put(recording(n, [n, counts], &[n as u32, 0x1234_5678, 4, 1, 5], 5));
        put(recording(n, [n, counts], &[0, 0x1234_5678, 4, n as u32, 5], 5));
    }
}

/// The longest entry there can be: of the most samples, each is named.
pub fn longest() -> Recording {
    let mut whole =
        recording(MOST_SAMPLES, [MOST_SAMPLES, blocks(MOST_SAMPLES)], &vec![9; entry_words(MOST_SAMPLES) + 1], 7);
    assert_eq!(whole.open(), Answer::Accepted(0));
    let named: Vec<(usize, u32)> = (0..MOST_SAMPLES).map(|place| (place, 0x4000_0000 + place as u32)).collect();
    assert_eq!(whole.commit(3, &named), Answer::Accepted(MOST_SAMPLES));
    whole
}

/// A recording of so many samples, marks and counts.
pub fn recording(n: usize, [marks, counts]: [usize; 2], journal: &[u32], used: usize) -> Recording {
    Recording {
        samples: (0..n as u32).map(|place| place.wrapping_mul(0x9e37_79b1)).collect(),
        marks: (0..marks).map(|place| place as u8).collect(),
        counts: (0..counts).map(|block| 1_000 + block as u16).collect(),
        journal: journal.to_vec(),
        used,
    }
}
